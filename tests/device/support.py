"""What these tests share: paths, commands, and the proved meshes as if a device had cut them. tests/capture sets the variables."""

import os
import subprocess
import tempfile
import unittest
from pathlib import Path

import yoktvarim
from yoktvarim import Isolines

from device_check.library import find_library
from device_check.text import Drawn

ROOT = Path(__file__).resolve().parent.parent.parent
STORED = Path(__file__).resolve().parent / "stored"
JOB = STORED / "job.tsj"
TOOLS = ROOT / "tools"
BUILT = Path(os.environ["CAPTURE_TESTS"])  # the folder with what tests/capture built

find_library()


def run(*words, **rest):
    return subprocess.run(list(map(str, words)), stdout=subprocess.PIPE, stderr=subprocess.PIPE, text=True, **rest)


def cut(record):
    """The proved mesh of a record, as if a device had cut it."""
    mesh = yoktvarim.mesh(record.patch, record.settings)
    size = 1 if record.settings.point_mode else 2 if record.kind is Isolines else 3
    return Drawn(mesh.points(), list(zip(*[iter(mesh.indices)] * size)))


class InFolder(unittest.TestCase):
    """A test with a folder of its own."""

    def setUp(self):
        folder = tempfile.TemporaryDirectory()
        self.addCleanup(folder.cleanup)
        self.folder = Path(folder.name)

    def file(self, name, content):
        path = self.folder / name
        path.write_text(content)
        return path

    def ours(self):
        """What tsj writes of the stored job."""
        with open(JOB, "rb") as job:
            done = subprocess.run([ROOT / "target/bin/tsj"], stdin=job, stdout=subprocess.PIPE, check=True)
        return self.file("ours.txt", done.stdout.decode())
