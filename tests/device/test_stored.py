"""tools/check_device on texts, without a device: a stored capture of lavapipe, what tsj writes, and damaged texts."""

import unittest

from support import JOB, ROOT, STORED, TOOLS, InFolder, run

CHECK = TOOLS / "check_device"


class Stored(InFolder):
    def test_report_of_the_stored_capture(self):
        done = run(CHECK, "--text", STORED / "lavapipe.txt", JOB)
        self.assertEqual((done.returncode, done.stderr), (1, ""))
        self.assertEqual(done.stdout, (STORED / "report.txt").read_text())

    def test_the_table_alone_is_the_end_of_it(self):
        done = run(CHECK, "--table", "--text", STORED / "lavapipe.txt", JOB)
        self.assertTrue((STORED / "report.txt").read_text().endswith("\n\n" + done.stdout))

    def test_what_tsj_writes_is_right(self):
        done = run(CHECK, "--text", self.ours(), JOB)
        self.assertEqual(done.returncode, 0, done.stdout)
        self.assertNotIn("a gap:", done.stdout)
        self.assertNotIn("not of the outline", done.stdout)

    def test_pictures(self):
        done = run(CHECK, "--table", "--pictures", self.folder / "sheets", "--text", STORED / "lavapipe.txt", JOB)
        sheets = sorted((self.folder / "sheets").iterdir())
        self.assertEqual([f"picture: {sheet}" for sheet in sheets], sorted(done.stdout.splitlines()[-len(sheets) :]))
        self.assertEqual(len(sheets), done.stdout.count("first of '"))
        for sheet in sheets:
            self.assertIn("</svg>", sheet.read_text())
        self.assertIn('class="marked"', (self.folder / "sheets/triangles_have_no_area.svg").read_text())

    def test_what_is_kept_can_be_checked_again(self):
        run(CHECK, "--keep", self.folder / "kept", "--text", STORED / "lavapipe.txt", JOB)
        again = run(CHECK, "--text", self.folder / "kept/capture.txt", self.folder / "kept/job.tsj")
        self.assertEqual(again.stdout, (STORED / "report.txt").read_text())

    def damaged(self, before, after):
        """What is said of tsj's text with its first such lines exchanged."""
        text = self.ours().read_text()
        self.assertIn(before, text)
        return run(CHECK, "--text", self.file("damaged.txt", text.replace(before, after, 1)), JOB)

    def test_a_drawn_patch_that_should_be_discarded(self):
        done = self.damaged("discarded\n", "drawn 1 3\n0 0 0\n0 0 0\n")
        self.assertEqual(done.returncode, 1)
        self.assertIn("drawn, and discarded by the rules", done.stdout)

    def test_a_refusal_that_is_missing(self):
        done = self.damaged("refused 8\n", "discarded\n")
        self.assertEqual(done.returncode, 1)
        self.assertIn("should be refused 8", done.stdout)

    def refused(self, done, words):
        self.assertEqual((done.returncode, done.stdout), (2, ""))
        self.assertRegex(done.stderr, rf"\Acheck_device: [^\n]*{words}[^\n]*\n\Z")

    def test_texts_that_cannot_be_read(self):
        self.refused(self.damaged("TSJ 2\ndrawn ", "TSJ 2\ndrown "), "line 2: the answer of record 0 expected")
        self.refused(self.damaged("TSJ 2\ndrawn ", "TSJ 2\ndrawn 0"), "line 2: the answer of record 0 expected")
        self.refused(self.damaged("TSJ 2\n", "TSJ 3\n"), "line 1: 'TSJ 1' or 'TSJ 2' expected")
        self.refused(run(CHECK, "--text", self.file("cut.txt", "TSJ 2\ndiscarded"), JOB), "line 2: no newline at its end")
        self.refused(run(CHECK, "--text", self.file("short.txt", "TSJ 2\ndiscarded\n"), JOB), "version 2 and 1 records, and the job has")
        self.refused(run(CHECK, "--text", self.folder / "none.txt", JOB), "No such file")
        self.refused(run(CHECK, "--text", STORED / "lavapipe.txt", ROOT / "README.md"), "not a job file")

    def test_words_that_are_no_call(self):
        for words in (["--text", "x"], ["--size", "0"], ["--sideways"], ["--top", "15"], ["--top", "0"]):
            self.assertEqual(run(CHECK, *words).returncode, 2, words)


if __name__ == "__main__":
    unittest.main()
