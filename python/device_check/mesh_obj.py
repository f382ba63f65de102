"""Turns the text of a job, as tsj or tools/capture writes it, into an OBJ file, for viewers and for tools/mesh_text.

    tools/mesh_obj [--job JOB] TEXT > FILE.obj

Each drawn record is an object, patch_0 and on, with coordinates from 0 to 1. JOB, the job that the text answers, has the kind of each
patch; without it the kind follows from the points. Status 0: the file is written; 1: it is not, as standard error says by line; 2: the
words on the command line are wrong.
"""

import argparse
import sys
from pathlib import Path

from yoktvarim import Record

from .failure import Failure
from .job import read_job
from .library import find_library
from .obj import kind_of_points, write_obj
from .text import Drawn, read_text


def kinds_by_job(answers, path):
    find_library()
    records = read_job(path).records
    if len(records) != len(answers):
        raise Failure(f"{len(answers)} records, and the job has {len(records)}")
    return [record.kind if isinstance(record, Record) else None for record in records]


def kinds_by_points(answers):
    return [kind_of_points(answer.points) if isinstance(answer, Drawn) else None for answer in answers]


def main():
    parser = argparse.ArgumentParser(prog="mesh_obj", description=__doc__, formatter_class=argparse.RawDescriptionHelpFormatter)
    parser.add_argument("text", type=Path, metavar="TEXT")
    parser.add_argument("--job", type=Path, metavar="JOB", help="the job that the text answers")
    asked = parser.parse_args()
    try:
        version, answers = read_text(asked.text.read_text(encoding="ascii"))
        kinds = kinds_by_job(answers, asked.job) if asked.job else kinds_by_points(answers)
        for number, (answer, kind) in enumerate(zip(answers, kinds)):
            if isinstance(answer, Drawn) and kind is None:
                raise Failure(f"record {number}: its points do not show whether it is a triangle patch or another; --job JOB says so")
        sys.stdout.write(write_obj(version, answers, kinds))
        sys.stdout.flush()
        return 0
    except Failure as failure:
        print(f"mesh_obj: {asked.text}: {failure}", file=sys.stderr)
    except (OSError, ImportError, UnicodeError) as failure:
        print(f"mesh_obj: {failure}", file=sys.stderr)
    return 1
