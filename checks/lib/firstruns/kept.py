"""The program that dist/ keeps: where it answers, where it is refused, and what is compared."""

import hashlib
import os

from .case import Case


class Kept(Case):
    """The program of dist/."""

    def test_the_kept_program_answers_at_once_without_a_kit(self):
        self.clone.keep()
        self.answers("one", kit=False)
        self.assertEqual(self.clone.made(), {})
        self.answers("one", kit=False)

    def test_two_first_runs_at_once_answer_alike(self):
        self.clone.keep()
        begun = [self.clone.begin("futmax", "a", kit=False) for _ in range(6)]
        said = [it.communicate(timeout=200) for it in begun]
        self.assertEqual(said, [("one a\n", "")] * 6)
        left = sorted(os.listdir(self.clone.root / "crates/futmax/out"))
        self.assertEqual(left, ["futmax", "taken"])

    def test_what_stands_there_is_replaced_in_one_step(self):
        self.clone.keep()
        self.clone.write("crates/futmax/out/futmax", "an older program\n")
        self.clone.program().chmod(0o755)
        os.utime(self.clone.program(), (0, 0))
        with open(self.clone.program(), encoding="utf-8") as older:
            self.answers("one", kit=False)
            self.assertEqual(older.read(), "an older program\n")

    def test_an_altered_byte_of_the_kept_program_is_noticed(self):
        self.clone.keep()
        kept = self.clone.root / "dist/futmax-x86_64-linux"
        kept.write_bytes(kept.read_bytes().replace(b"one", b"two"))
        self.is_damaged("it has another program than dist/MADE_OF says")
        kept.unlink()
        self.is_damaged("its program is missing")
        kept.write_text("", encoding="utf-8")
        self.clone.write("dist/MADE_OF", "kit 1\n")
        self.is_damaged("has not its three lines")

    def is_damaged(self, what):
        """It is called so, and then the program is built."""
        for word in ("take", "check"):
            status, told = self.prebuilt(word)
            self.assertEqual(status, 1)
            self.assertIn(what, told)
            self.assertTrue(told.startswith("prebuilt: dist/ is damaged: "), told)
        status, rows, beside = self.clone.answer(kit=False)
        self.assertEqual((status, rows), (70, ""))
        self.assertIn("dist/ is damaged", beside)

    def test_a_clone_that_nobody_may_write_runs_the_kept_program_in_its_place(self):
        self.clone.keep()
        # a file where the folder is due, since who runs this may write into any folder
        self.clone.write("crates/futmax/out", "")
        self.answers("one", kit=False)
        self.answers("one", kit=False)
        kept = self.clone.root / "dist/futmax-x86_64-linux"
        self.assertEqual(self.prebuilt("take"), (0, str(kept)))

    def test_words_that_the_program_does_not_know_are_answered_without_it(self):
        self.clone.write("VERSION", "1.2\n")
        self.assertEqual(self.clone.answer("--version", kit=False), (0, "futmax 1.2\n", ""))
        status, said, beside = self.clone.answer("--help", kit=False)
        self.assertEqual((status, beside), (0, ""))
        self.assertIn("usage: futmax MODE [--workers N] [--proofs] [--seed N] < INPUT", said)

    def test_an_altered_source_specification_or_proof_is_noticed(self):
        for name in ("low/src/lib.rt", "low/specs/Lib.antt", "low/proofs/Lib.antt",
                     "left/src/lib.rt", "futmax/src/lib.rt", "futmax/specs/Lib.antt"):
            with self.subTest(name):
                self.setUp()
                self.clone.keep()
                self.clone.write(f"crates/{name}", "two")
                self.is_refused("of other sources")
                self.builds("two" if name == "low/src/lib.rt" else "one")

    def test_a_new_file_a_lost_one_and_another_line_of_the_crates_are_noticed(self):
        self.clone.keep()
        lost = self.clone.root / "crates/low/proofs/Lib.antt"
        self.clone.write("crates/low/proofs/More.antt", "one")
        self.is_refused("of other sources")
        (self.clone.root / "crates/low/proofs/More.antt").unlink()
        self.assertEqual(self.prebuilt("take"), (0, str(self.clone.program())))
        lost.unlink()
        self.is_refused("of other sources")
        lost.write_text("one", encoding="utf-8")
        self.clone.write("crates.txt", "low:\nleft: low\nright: left\ntests: low\nfutmax: left right\n")
        self.is_refused("of other sources")

    def test_the_name_of_a_file_counts(self):
        self.clone.keep()
        source = self.clone.root / "crates/low/specs/Lib.antt"
        source.rename(source.with_name("Laws.antt"))
        self.is_refused("of other sources")

    def test_crates_of_tests_and_comments_count_for_nothing(self):
        self.clone.keep()
        self.clone.write("crates/tests/src/lib.rt", "two")
        self.clone.write("crates.txt", "# all\nlow:\nleft:  low  # beside\nright: low\ntests:\nfutmax: left right\n")
        self.answers("one", kit=False)

    def test_what_does_not_run_here_is_not_taken(self):
        self.clone.keep()
        kept = self.clone.root / "dist/futmax-x86_64-linux"
        for text in ("#!/no/such/loader\n", "#!/bin/sh\nkill -ILL $$\n", "#!/bin/sh\nexit 1\n"):
            kept.write_text(text, encoding="utf-8")
            made_of = (self.clone.root / "dist/MADE_OF").read_text(encoding="utf-8").split("\n")
            made_of[2] = f"program {hashlib.sha256(text.encode()).hexdigest()}"
            self.clone.write("dist/MADE_OF", "\n".join(made_of))
            self.assertEqual(self.prebuilt("take"), (1, ""))
        self.builds("one")

    def test_another_machine_does_not_take_it(self):
        self.clone.keep()
        begun = self.clone.begin("commands/setarch", "i686", str(self.clone.root / "tools/prebuilt"),
                                 "take")
        self.assertEqual(begun.communicate(timeout=200), ("", ""))
        self.assertEqual(begun.returncode, 1)


class Compared(Case):
    """The check after the gate, and what it must not compare."""

    def test_the_gates_program_is_compared_byte_by_byte(self):
        self.clone.keep()
        self.clone.gate()
        self.assertEqual(self.prebuilt("check")[0], 0)
        program = self.clone.program()
        program.write_bytes(program.read_bytes() + b"\n")
        status, said = self.prebuilt("check")
        self.assertEqual(status, 1)
        self.assertIn("is another one than dist/ has", said)

    def test_the_kept_program_is_never_compared_with_itself(self):
        self.clone.keep()
        self.answers("one")
        self.assertEqual(self.prebuilt("check")[0], 1)
        self.assertIn("was not built here", self.prebuilt("check")[1])
        self.assertEqual(self.prebuilt("make")[0], 1)
        self.clone.gate()
        self.assertEqual(self.prebuilt("check")[0], 0)

    def test_a_program_that_was_built_here_counts_as_that_after_a_touch(self):
        self.clone.keep()
        self.clone.gate()
        (self.clone.root / "crates/low/src/lib.rt").touch()
        self.answers("one")
        self.assertEqual(self.clone.made(), {})
        self.assertEqual(self.prebuilt("check")[0], 0)

    def test_a_build_takes_the_mark_away(self):
        self.clone.keep()
        self.answers("one")
        self.clone.write("crates/low/src/lib.rt", "two")
        self.builds("two")
        self.assertEqual(self.prebuilt("make")[0], 0)
        self.assertEqual(self.prebuilt("check")[0], 0)

    def test_under_another_kit_nothing_was_compared_and_the_check_is_red(self):
        self.clone.keep()
        self.clone.gate()
        self.clone.program().write_bytes(self.clone.program().read_bytes() + b"\n")
        self.clone.write("kit/line", "kit 2\n")
        status, said = self.prebuilt("check")
        self.assertEqual(status, 1)
        self.assertIn("nothing was compared: dist/ was built by kit 1, and here is kit 2", said)

    def test_no_program_no_lines_and_older_ones_are_refused(self):
        self.assertIn("no program", self.prebuilt("check")[1])
        self.assertIn("no program", self.prebuilt("make")[1])
        self.clone.keep()
        self.assertIn("no program stands", self.prebuilt("check")[1])
        self.clone.gate()
        self.clone.write("dist/MADE_OF", "kit kit 1\nprogram 0\n")
        self.assertIn("not its three lines", self.prebuilt("check")[1])
        self.clone.write("crates/low/src/lib.rt", "two")
        self.assertIn("is newer than the program", self.prebuilt("make")[1])
