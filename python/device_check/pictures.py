"""Pictures of faulty patches: a sheet for each kind of fault, by tools/picture."""

import re
import subprocess
import sys
import tempfile
from array import array
from pathlib import Path
from typing import Iterator, List, Sequence

import yoktvarim
from yoktvarim import Isolines, Record
from yoktvarim.check import MissingPiece

from .edges import edges_of
from .failure import Failure
from .job import job_of
from .report import NAMED, Judged, faults
from .text import Answer, Drawn, write_text


def _check_words(one: Judged, answer: Answer) -> str:
    """What tools/check_mesh prints of a patch, which tools/picture reads; of isolines and dots, what is found here."""
    _, record, finding = one
    if not isinstance(record, Record) or record.kind is Isolines or record.settings.point_mode:
        return finding.words
    lists = (answer.vertices, answer.indices) if isinstance(answer, Drawn) else (array("I"), array("H"))
    verdict = yoktvarim.check_mesh(record.patch, record.settings, *lists)
    return f"{verdict}; its ends are {_ends(record, verdict.piece)}" if isinstance(verdict, MissingPiece) else str(verdict)


def _ends(record: Record, piece: int) -> str:
    """The ends of a piece of the outline. The outline's points come first, in walk order."""
    points = yoktvarim.mesh(record.patch, record.settings).points()
    outline = [point for point in points if any(edge.holds(point) for edge in edges_of(record.kind))]
    ends = outline[piece], outline[(piece + 1) % len(outline)]
    return " and ".join(" ".join(map(str, point)) for point in ends)


def _draw(picture: Path, kind: str, some: List[Judged], job: bytes, text: str, words: List[str]) -> bytes:
    heading = f"{kind}: patches {', '.join(str(number) for number, *_ in some)}"
    with tempfile.TemporaryDirectory() as folder:
        named = Path(folder) / "job.tsj", Path(folder) / "faults.txt"
        named[0].write_bytes(job)
        named[1].write_text("".join(f"record {at}: {fault}\n" for at, fault in enumerate(words)))
        command = [sys.executable, picture, "--job", named[0], "--faults", named[1], "--heading", heading]
        done = subprocess.run(command, input=text.encode(), stdout=subprocess.PIPE)
    if done.returncode != 0:
        raise Failure(f"no picture of '{kind}'")
    return done.stdout


def write_pictures(folder: Path, picture: Path, path: Path, version, judged: Sequence[Judged], answers: List[Answer]) -> Iterator[Path]:
    """A sheet of the first patches of each kind of fault in a job file, in a folder; gives the files' names."""
    folder.mkdir(parents=True, exist_ok=True)
    for kind, of_kind in faults(judged):
        some = of_kind[:NAMED]
        numbers = [number for number, *_ in some]
        text = write_text(version.value, (answers[number] for number in numbers))
        words = [_check_words(one, answers[one[0]]) for one in some]
        sheet = folder / (re.sub("[^a-z0-9]+", "_", kind) + ".svg")
        sheet.write_bytes(_draw(picture, kind, some, job_of(path, version, numbers), text, words))
        yield sheet
