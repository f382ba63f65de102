"""Checks the meshes that a Vulkan device cuts, by the proved calls.

    tools/check_device [JOB]

Captures a job on the device with tools/capture. Where no job is named, a built-in one is taken, of some 1,600 patches: every kind,
spacing, vertex order, domain origin and point mode, many levels, and outer edges that many patches share. Prints a line for each
patch, then a table; docs/partners.md explains both. Status 0: every mesh is accepted as it is; 1: some are not; 2: nothing could be
checked, or the report could not be written, as standard error says.
"""

import argparse
import subprocess
import sys
import tempfile
from pathlib import Path

import yoktvarim
from yoktvarim import Isolines

from .failure import Failure
from .finding import RIGHT
from .job import read_job
from .judge import judge
from .library import find_library
from .pictures import write_pictures
from .plan import make_plan
from .report import first_faults, name, seam_lines, table
from .seams import find_seams
from .text import read_text


def options():
    parser = argparse.ArgumentParser(
        prog="check_device", description=__doc__, formatter_class=argparse.RawDescriptionHelpFormatter
    )
    parser.add_argument("job", nargs="?", type=Path, metavar="JOB", help="a job file")
    parser.add_argument("--device", default="0", metavar="N", help="the device's number in tools/capture --list (0)")
    parser.add_argument("--text", type=Path, metavar="TEXT", help="a text that tools/capture wrote of JOB: no device is used")
    parser.add_argument("--table", action="store_true", help="print the table only, no line for each patch")
    parser.add_argument("--pictures", type=Path, metavar="FOLDER", help="write a sheet of the first patches of each kind of fault there")
    parser.add_argument("--keep", type=Path, metavar="FOLDER", help="write the job and the capture there, as job.tsj and capture.txt")
    parser.add_argument("--size", type=int, default=1, metavar="N", help="of the built-in job: more patches, up to N times as many (1)")
    parser.add_argument("--top", type=int, default=64, metavar="N", help="of the built-in job: the device's greatest level, if below 64")
    parser.add_argument("--no-isolines", action="store_true", help="leave isolines out of the built-in job, for a device without them")
    parser.add_argument("--no-points", action="store_true", help="leave point mode out of the built-in job, for a device without it")
    asked = parser.parse_args()
    if asked.text and not asked.job:
        parser.error("--text needs the JOB that was captured")
    if asked.size < 1:
        parser.error("--size is 1 or more")
    return asked


def built_in_job(asked):
    records = [
        record
        for record in make_plan(asked.size, asked.top)
        if not (asked.no_isolines and record.kind is Isolines) and not (asked.no_points and record.settings.point_mode)
    ]
    made = yoktvarim.write_job(records)
    if not isinstance(made, yoktvarim.JobWritten):
        raise Failure(f"--top is an even number from 2 to 64, not {asked.top}")
    return made.job


def capture(command, job, device):
    """The text, and what standard error said of the device. The program is built before, where it has to be."""
    if subprocess.run([command, "-h"], stdout=subprocess.DEVNULL).returncode != 0:
        raise Failure("nothing was captured, so nothing is checked")
    done = subprocess.run([command, "--device", device, job], stdout=subprocess.PIPE, stderr=subprocess.PIPE)
    said = done.stderr.decode("ascii", errors="backslashreplace")
    if done.returncode != 0:
        sys.stderr.write(said)
        raise Failure("nothing was captured, so nothing is checked")
    return done.stdout.decode("ascii"), said


def answers_of(text, source, job):
    try:
        version, answers = read_text(text)
    except Failure as failure:
        raise Failure(f"{source}: {failure}") from None
    if version != job.version.value or len(answers) != len(job.records):
        found = f"version {version} and {len(answers)} records"
        raise Failure(f"{source}: {found}, and the job has version {job.version.value} and {len(job.records)} records")
    return answers


def report(asked, cut, judged, said):
    if not asked.table:
        for number, record, finding in judged:
            print(f"{name(number, record)}: {finding.words}")
        print()
    sys.stdout.write(said)
    for line in (*table(judged), *seam_lines(find_seams(cut)), *first_faults(judged)):
        print(line)


def check(asked, commands, folder):
    """Whether every mesh is accepted as it is."""
    find_library()
    path = asked.job or folder / "job.tsj"
    if not asked.job:
        path.write_bytes(built_in_job(asked))
    job = read_job(path)
    text, said = (asked.text.read_text(encoding="ascii"), "") if asked.text else capture(commands / "capture", path, asked.device)
    if asked.keep:
        (folder / "job.tsj").write_bytes(path.read_bytes())
        (folder / "capture.txt").write_text(text)
    answers = answers_of(text, asked.text or "the capture", job)
    cut = list(zip(range(len(answers)), job.records, answers))
    judged = [(number, record, judge(record, answer)) for number, record, answer in cut]
    report(asked, cut, judged, said)
    if asked.pictures:
        for sheet in write_pictures(asked.pictures, commands / "picture", path, job.version, judged, answers):
            print(f"picture: {sheet}")
    return all(finding.outcome in RIGHT for _, _, finding in judged)


def main(commands):
    """Runs the command; capture and picture are in the folder of commands."""
    asked = options()
    try:
        if asked.keep:
            asked.keep.mkdir(parents=True, exist_ok=True)
        with tempfile.TemporaryDirectory() as folder:
            right = check(asked, commands, asked.keep or Path(folder))
        sys.stdout.flush()
        return 0 if right else 1
    except (Failure, OSError, ImportError, UnicodeError) as failure:
        print(f"check_device: {failure}", file=sys.stderr)
        return 2
