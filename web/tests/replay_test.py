"""The view Replay: recordings that agree, that differ, and files that are not recordings."""

import unittest

from browser import PAGE, PageTest, ROOT

SESSION = ROOT / "samples/session.tsr"
ENTRY = 34


class Replay(PageTest):
    def setUp(self):
        super().setUp()
        self.view("replay")

    def play(self, content):
        self.give_file("Recording", "session.tsr", content)
        self.wait(lambda: self.said("#replayed") != "replaying …")
        return self.said("#replayed")

    def test_one_entry(self):
        self.assertEqual(self.said("#replayed"), "no recording")
        self.press("Record the drawn patch")
        self.assertEqual((self.said("#replayed"), self.text("#replay")), ("all agree", "The one entry agrees."))
        self.press("Record it with a point too many")
        self.assertEqual(self.said("#replayed"), "differs")
        recorded, replayed = self.rows(".outcomes")
        self.assertEqual((recorded[1], int(recorded[2]), recorded[3]), (replayed[1], int(replayed[2]) + 1, replayed[3]))

    def test_session(self):
        self.assertEqual(self.play(SESSION.read_bytes()), "all agree")
        self.assertEqual(self.text("#replay"), "All 9 entries agree.")

    def test_entry_that_differs(self):
        changed = bytearray(SESSION.read_bytes())
        drawn = next(at for at in range(3, 9) if changed[5 + ENTRY * at + 29] == 0)
        changed[5 + ENTRY * drawn + 30] ^= 1  # the low byte of its points
        self.assertEqual(self.play(changed), "differs")
        self.assertEqual(self.text("#replay"), f"Entry {drawn}, counted from 0, is the first that differs.")
        recorded, replayed = self.rows(".outcomes")
        self.assertEqual(int(recorded[2]) ^ 1, int(replayed[2]))
        self.assertIn(f"{replayed[2]} points", self.find(".surface").get_attribute("aria-label"))

    def test_damaged_files(self):
        session = SESSION.read_bytes()
        for content, answer in (
            (session[:40], "cut entry"),
            (PAGE.read_bytes()[:1000], "not a recording"),
            (b"TSR\x02\x00", "unknown version"),
            (b"TSR", "not a recording"),
        ):
            self.assertEqual(self.play(content), answer)

    def test_another_top(self):
        self.view("draw")
        self.set_top(32)
        self.view("replay")
        self.press("Record the drawn patch")
        self.assertEqual(self.text("#controls .message"), "A recording holds the top 64 only.")
        self.assertEqual(self.said("#replayed"), "no recording")


if __name__ == "__main__":
    unittest.main()
