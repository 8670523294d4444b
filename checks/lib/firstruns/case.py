"""A small clone for each test, and what is asked of it again and again."""

import unittest

from .small_clone import SmallClone

BUILT_ONCE = {"low": 1, "left": 1, "right": 1, "futmax": 1}


class Case(unittest.TestCase):
    """A small clone for each test."""

    def setUp(self):
        self.clone = SmallClone()
        self.addCleanup(self.clone.folder.cleanup)

    def answers(self, wanted, **how):
        """A run answers so, and says nothing beside it."""
        self.assertEqual(self.clone.answer(**how), (0, f"{wanted} a\n", ""))

    def builds(self, wanted, *made):
        """A run builds these crates, or all, says so, and answers."""
        self.clone.write("kit/calls", "")
        status, said, beside = self.clone.answer()
        self.assertEqual((status, said), (0, f"{wanted} a\n"), beside)
        made = {it: 1 for it in made} or BUILT_ONCE
        self.assertEqual(self.clone.made(), made)
        self.assertIn(f"{len(made)} of {len(made)} crates proved and built", beside)

    def prebuilt(self, word, kit=True):
        status, said, beside = self.clone.run("tools/prebuilt", word, kit=kit)
        return status, (said + beside).strip()

    def is_refused(self, why):
        """The kept program is taken silently for no answer, and the check is red for this."""
        self.assertEqual(self.prebuilt("take"), (1, ""))
        status, said = self.prebuilt("check")
        self.assertEqual(status, 1)
        self.assertIn(why, said)
