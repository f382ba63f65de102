"""Turns the meshes in an OBJ file into the text that tools/check_mesh and tools/check_device read.

    tools/mesh_text [--job JOB] FILE.obj > TEXT

The object patch_3 is the mesh of record 3; objects of other names are taken in turn. Coordinates go from 0 to 1. They become whole
units, each rounded to the nearest one; of a triangle patch w is what u and v leave. JOB is the job that the meshes were cut for: it has
the kind of each patch, and a record without an object is discarded. Without JOB the kind follows from the points, and tools/mesh_obj's
comments name the records without a mesh. Status 0: the text is written; 1: it is not, as standard error says by line; 2: the words on
the command line are wrong.
"""

import argparse
import sys
from pathlib import Path

from yoktvarim import Record

from .failure import Failure
from .job import read_job
from .library import find_library
from .obj import Obj, weld
from .text import Discarded, Refused, write_text


def text_by_job(obj, path, shaped):
    find_library()
    job = read_job(path)
    if obj.records() > len(job.records):
        raise Failure(f"the job has no record {obj.records() - 1}")
    answers = []
    for number, record in enumerate(job.records):
        if not isinstance(record, Record):
            if obj.has_mesh(number):
                raise Failure(f"record {number} of the job is refused, and there is an object patch_{number}")
            answers.append(Refused(record.number))
        else:
            mesh = obj.mesh(number, record.kind)
            answers.append(shaped(mesh) if mesh else Discarded())
    return write_text(job.version.value, answers)


def text_by_points(obj, shaped):
    answers = []
    for number in range(obj.records()):
        mesh = obj.mesh(number, None)
        if mesh is None and number not in obj.answers:
            raise Failure(f"there is no object patch_{number}; --job JOB says what record {number} is")
        answers.append(shaped(mesh) if mesh else obj.answers[number])
    return write_text(obj.version or 2, answers)


def main():
    parser = argparse.ArgumentParser(prog="mesh_text", description=__doc__, formatter_class=argparse.RawDescriptionHelpFormatter)
    parser.add_argument("obj", type=Path, metavar="FILE.obj")
    parser.add_argument("--job", type=Path, metavar="JOB", help="the job that the meshes were cut for")
    parser.add_argument("--weld", action="store_true", help="make equal points one")
    asked = parser.parse_args()
    shaped = weld if asked.weld else lambda mesh: mesh
    try:
        obj = Obj(asked.obj.read_text(encoding="utf-8"))
        sys.stdout.write(text_by_job(obj, asked.job, shaped) if asked.job else text_by_points(obj, shaped))
        sys.stdout.flush()
        return 0
    except Failure as failure:
        print(f"mesh_text: {asked.obj}: {failure}", file=sys.stderr)
    except (OSError, ImportError, UnicodeError) as failure:
        print(f"mesh_text: {failure}", file=sys.stderr)
    return 1
