"""tools/capture and tools/check_device on lavapipe, also with features hidden by lesser_loader.c."""

import os
import subprocess
import unittest

from yoktvarim import Spacing

from device_check.job import read_job
from device_check.judge import judge
from device_check.text import read_text

from support import BUILT, JOB, ROOT, STORED, TOOLS, InFolder, run

LOADER = os.environ["CAPTURE_LOADER"]
CAPTURE = TOOLS / "capture"


def environment(variables):
    """LESSER names what the device seems to lack."""
    return {**os.environ, **({"LD_LIBRARY_PATH": str(BUILT), "REAL_LOADER": LOADER} if "LESSER" in variables else {}), **variables}


def capture(*words, job=JOB, **variables):
    return run(CAPTURE, *words, *([job] if job else []), env=environment(variables))


class Refusals(InFolder):
    def refused(self, done, words, status=1):
        self.assertEqual((done.returncode, done.stdout), (status, ""))
        self.assertRegex(done.stderr, rf"\Acapture: [^\n]*{words}[^\n]*\n\Z")

    def test_devices(self):
        self.refused(capture(VK_ICD_FILENAMES="/nowhere"), "no Vulkan driver")
        self.refused(capture("--list", job=None, VK_ICD_FILENAMES="/nowhere"), "no Vulkan driver")
        self.refused(capture("--device", "9"), "there is no device 9; the last one is 0")
        self.refused(capture(LESSER="tessellation"), "it has no tessellation")
        self.refused(capture(LESSER="version"), "it has Vulkan 1.0 only")
        self.refused(capture(LESSER="feedback geometry"), "it has neither transform feedback nor geometry shaders that store")
        self.refused(capture(LESSER="levels"), "record [0-9]+: level [0-9.]+ is above the device's greatest, 1[56]")
        self.refused(capture(LESSER="isolines"), "record [0-9]+: the device has no isolines")
        self.refused(capture(LESSER="dots"), "record [0-9]+: the device has no point mode")

    def test_no_loader(self):
        (self.folder / "libvulkan.so.1").write_bytes(b"")
        self.refused(capture(LD_LIBRARY_PATH=str(self.folder)), "no Vulkan loader")

    def test_jobs_and_words(self):
        self.refused(capture(job=ROOT / "README.md"), "not a job file")
        self.refused(capture(job=self.folder / "none"), "No such file")
        self.refused(capture(job=self.folder), "Is a directory")
        self.refused(capture(job=None), "one job file, or --list, expected", 2)
        self.refused(capture("--list"), "one job file, or --list, expected", 2)
        self.refused(capture("--sideways"), "unexpected word '--sideways'", 2)
        self.refused(capture("--device", "one"), "--device takes a number, not one", 2)

    def test_a_full_disk(self):
        with open("/dev/full", "w") as full:
            done = subprocess.run([CAPTURE, JOB], stdout=full, stderr=subprocess.PIPE, text=True)
        self.assertEqual(done.returncode, 1)
        self.assertIn("standard output cannot be written", done.stderr)

    def test_check_device_says_so_too(self):
        done = run(TOOLS / "check_device", env=environment({"LESSER": "tessellation"}))
        self.assertEqual((done.returncode, done.stdout), (2, ""))
        self.assertRegex(done.stderr, r"\Acapture: .*it has no tessellation\ncheck_device: nothing was captured, .*\n\Z")


class Captures(InFolder):
    def test_list(self):
        self.assertRegex(capture("--list", job=None).stdout, r"\A0: llvmpipe .*levels up to 64: captured by transform feedback\n\Z")
        for lesser, words in (
            ("feedback", "captured by geometry shader"),
            ("tessellation", "no capture, it has no tessellation"),
            ("isolines dots", "levels up to 64, no isolines, no point mode: captured by"),
        ):
            self.assertIn(words, capture("--list", job=None, LESSER=lesser).stdout)

    def test_both_ways_are_as_stored(self):
        texts = []
        for lesser, way in ("", "transform feedback"), ("feedback", "geometry shader"):
            done = capture(LESSER=lesser)
            self.assertEqual(done.returncode, 0, done.stderr)
            self.assertIn(f"by {way}\n", done.stderr)
            self.assertIn("the farthest coordinate was 0 of a unit from a whole number", done.stderr)
            texts.append(done.stdout)
        self.assertEqual(*texts)
        if "Mesa 22.3.6" in done.stderr:  # the stored one is this version's
            self.assertEqual(texts[0], (STORED / "lavapipe.txt").read_text())

    def test_a_device_that_has_less(self):
        """The built-in job is made without what the device lacks."""
        words = "--table", "--top", "16", "--no-isolines", "--no-points"
        done = run(TOOLS / "check_device", *words, env=environment({"LESSER": "levels isolines dots"}))
        self.assertEqual((done.returncode, done.stderr), (1, ""))
        self.assertRegex(done.stdout, r"isolines and dots as by the rules +0 ")

    def test_a_portable_device(self):
        """It is asked for its own extension; the loader refuses to make it otherwise."""
        job = self.folder / "triangle.tsj"
        job.write_bytes(b"TSJ\2\0" + bytes([0, 0, 1, 1, 0, 64]) + bytes([0, 0, 128, 63]) * 6)
        for lesser in "isolines dots", "isolines dots feedback":
            done = capture(job=job, LESSER=lesser)
            self.assertEqual((done.returncode, done.stdout[:17]), (0, "TSJ 2\ndrawn 3 3\n0"), done.stderr)

    def test_a_header_alone_on_standard_input(self):
        done = subprocess.run([CAPTURE, "-"], input=b"TSJ\1\0", stdout=subprocess.PIPE, stderr=subprocess.PIPE)
        self.assertEqual((done.returncode, done.stdout), (0, b"TSJ 1\n"))

    def test_floats(self):
        """The same mesh, in other numbers."""
        floats = capture("--floats").stdout.splitlines()
        whole = capture().stdout.splitlines()
        self.assertEqual(len(floats), len(whole))
        self.assertTrue(any("." in line for line in floats))

    def test_validation_has_nothing_to_say(self):
        """The layer writes what it finds to standard output."""
        layer = {
            "VK_INSTANCE_LAYERS": "VK_LAYER_KHRONOS_validation",
            "VK_LAYER_ENABLES": "VK_VALIDATION_FEATURE_ENABLE_SYNCHRONIZATION_VALIDATION_EXT",
        }
        for lesser in "", "feedback":
            done = capture(LESSER=lesser, **layer)
            self.assertEqual(done.returncode, 0, done.stderr)
            self.assertEqual(done.stdout, capture(LESSER=lesser).stdout)
            self.assertEqual(done.stderr.count("\n"), 2, done.stderr)
        self.assertIn("Validation Error", capture(LESSER="validity", **layer).stdout)


def levels_of(record):
    inner = getattr(record.patch, "inner", ())
    return (*record.patch.outer, *(inner if isinstance(inner, tuple) else (inner,)))


def subnormal(record):
    return any(0 < (bits & 0x7FFFFFFF) < 0x00800000 for bits in record.bits)


class ByTheRules(unittest.TestCase):
    """What a device has to do by the rules, on the whole built-in job, which tests/capture captured. The rest is not judged."""

    def test_built_in_job(self):
        table = (BUILT / "table.txt").read_text()
        self.assertRegex(table, r"\Acapture: llvmpipe .*, by transform feedback\ncapture: 1594 records; ")
        records = read_job(BUILT / "job.tsj").records
        answers = read_text((BUILT / "capture.txt").read_text())[1]
        # lavapipe takes a subnormal level for 0.
        cut = [(record, judge(record, answer)) for record, answer in zip(records, answers) if not subnormal(record)]
        drawn = [(record, finding) for record, finding in cut if finding.counts is not None]
        self.assertGreater(len(drawn), 1400)
        for record, finding in cut:
            self.assertNotIn(finding.fault, ("drawn, should be discarded", "discarded, should be drawn"), record)
        for record, finding in drawn:
            if record.settings.spacing is Spacing.EQUAL and all(level == level // 1 for level in levels_of(record)):
                self.assertIs(finding.counts, True, record)
            self.assertIsNot(finding.area, False, record)


if __name__ == "__main__":
    unittest.main()
