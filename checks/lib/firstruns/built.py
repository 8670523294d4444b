"""The build: one at a time, in the due order, and what stands there meanwhile and afterwards."""

import os
import signal

from .case import BUILT_ONCE, Case
from .small_clone import SmallClone

# minutes, so that low, high and futmax are a chain of seven, and short and futmax one of five
TABLE = """
| Crate | Proof | Tests |
|---|---|---|
| low | 1.0 | 9.0 |
| left | 5.0 | 0.0 |
| right | 3.0 | 0.0 |
| high | 5.0 | 0.0 |
| short | 4.0 | 0.0 |
| futmax | 1.0 | 0.0 |
"""
LONG = 200


def one_processor():
    return min(os.sched_getaffinity(0))


class Built(Case):
    """The build, where dist/ has no program of these sources."""

    def test_two_first_runs_at_once_build_once_and_a_later_run_nothing(self):
        self.clone.write("kit/pause", "all=0.3")
        begun = [self.clone.begin("futmax", "a") for _ in range(2)]
        said = [it.communicate(timeout=200)[0] for it in begun]
        self.assertEqual(said, ["one a\n"] * 2)
        self.assertEqual(self.clone.made(), BUILT_ONCE)
        self.answers("one")
        self.assertEqual(self.clone.made(), BUILT_ONCE)

    def test_a_run_behind_a_change_builds_what_changed_and_what_stands_on_it(self):
        self.builds("one")
        for name in ("src/lib.rt", "specs/Lib.antt", "proofs/Lib.antt"):
            self.clone.write(f"crates/low/{name}", "two")
            self.builds("two")
        for name in ("left", "right"):
            self.clone.write(f"crates/{name}/src/lib.rt", "two")
            self.builds("two", name, "futmax")

    def test_a_build_is_of_the_text_that_it_began_with_and_the_next_of_what_changed(self):
        self.clone.write("kit/pause", "all=0.5")
        begun = self.clone.begin("futmax", "a")
        self.clone.wait_for_calls(2)
        self.clone.write("crates/low/src/lib.rt", "two")
        self.clone.write("kit/pause", "")
        self.assertEqual(begun.communicate(timeout=200)[0], "one a\n")
        self.builds("two")

    def test_crates_over_one_base_are_built_side_by_side(self):
        self.clone.write("kit/pause", f"right={LONG} left={LONG}")
        begun = self.clone.begin("futmax", "a")
        if "1 at a time" in begun.stderr.readline():
            self.skipTest("one processor, or little memory")
        self.clone.wait_for_calls(3)
        os.killpg(begun.pid, signal.SIGTERM)
        begun.communicate(timeout=200)
        self.assertEqual(self.clone.made(), {"low": 1, "left": 1, "right": 1})

    def test_nothing_is_left_beside_what_was_made(self):
        self.builds("one")
        self.assertEqual(sorted(os.listdir(self.clone.root / "crates/futmax/out")),
                         ["build.lock", "build.log", "futmax", "incremental"])
        self.assertEqual(sorted(os.listdir(self.clone.root / "crates/low/out")),
                         ["incremental", "rlib"])

    def test_a_program_without_its_bit_is_given_it(self):
        self.builds("one")
        self.clone.program().chmod(0o644)
        self.clone.write("kit/calls", "")
        self.answers("one")
        self.assertEqual(self.clone.made(), {})

    def test_how_long_it_takes_is_said_before_anything_is_begun(self):
        self.clone.write("docs/CONTRIBUTING.md", TABLE)
        self.clone.write("kit/pause", f"all={LONG}")
        begun = self.clone.begin("futmax", "a", only=one_processor())
        self.assertIn("4 of 4 crates takes about 10 min, 1 at a time", begun.stderr.readline())
        os.killpg(begun.pid, signal.SIGTERM)
        begun.communicate(timeout=200)

    def test_the_longest_chain_comes_first_and_the_time_left_is_told(self):
        clone = SmallClone("short:\nlow:\nhigh: low\nfutmax: short high\n")
        self.addCleanup(clone.folder.cleanup)
        clone.write("docs/CONTRIBUTING.md", TABLE)
        beside = clone.answer(only=one_processor())[2].splitlines()
        self.assertEqual(clone.order(), ["low", "high", "short", "futmax"])
        self.assertEqual([it.endswith(" left") for it in beside[2:6]], [True] * 3 + [False])

    def test_a_crate_that_is_alone_gets_all_places(self):
        self.builds("one")
        words = (self.clone.root / "kit/words").read_text(encoding="utf-8").split("\n")
        jobs = {it.split()[0]: int(it.split()[3]) for it in words if it}
        self.assertEqual(jobs["low"], jobs["futmax"])
        if jobs["low"] > 1:
            self.assertLess(max(jobs["left"], jobs["right"]), jobs["low"])

    def test_without_a_kit_it_says_so(self):
        status, said, beside = self.clone.answer(kit=False)
        self.assertEqual((status, said), (70, ""))
        self.assertIn("no command rt was found", beside)


class Stays(Case):
    """A program that stands there outlives a build that fails or is stopped."""

    def setUp(self):
        super().setUp()
        self.builds("one")
        self.before = self.clone.program().read_bytes()
        self.clone.write("crates/low/src/lib.rt", "two")
        self.clone.write("kit/calls", "")

    def has_stayed(self):
        self.assertEqual(self.clone.program().read_bytes(), self.before)

    def test_it_stays_where_a_crate_or_the_program_is_not_proved(self):
        for name in ("low", "futmax"):
            self.clone.write("kit/fails", name)
            status, said, beside = self.clone.answer()
            self.assertEqual((status, said), (70, ""))
            self.assertIn(f"{name} is not proved", beside)
            self.has_stayed()
        self.clone.write("kit/fails", "")
        self.builds("two", "futmax")

    def test_the_libraries_of_an_earlier_text_stay_where_one_is_not_proved(self):
        self.clone.write("kit/fails", "low")
        self.clone.answer()
        self.clone.write("kit/fails", "")
        self.clone.write("crates/low/src/lib.rt", "one")
        self.clone.write("kit/calls", "")
        status, said, _ = self.clone.answer()
        self.assertEqual((status, said), (0, "one a\n"))
        self.assertEqual(self.clone.made(), {"futmax": 1})

    def test_it_stays_after_a_signal_and_so_does_what_was_proved(self):
        for number, pause, last in ((signal.SIGINT, f"low={LONG}", "low"),
                                    (signal.SIGINT, f"left={LONG}", "left"),
                                    (signal.SIGTERM, f"left={LONG}", "left"),
                                    (signal.SIGHUP, f"left={LONG}", "left")):
            self.clone.write("kit/calls", "")
            self.clone.write("kit/pause", pause)
            begun = self.clone.begin("futmax", "a", only=one_processor())
            self.clone.wait_for(last)
            os.killpg(begun.pid, number)
            said, beside = begun.communicate(timeout=200)
            self.assertEqual(said, "")
            self.assertNotEqual(begun.returncode, 0)
            self.assertIn("stopped", beside)
            self.has_stayed()
        self.clone.write("kit/pause", "")
        self.builds("two", "left", "right", "futmax")
