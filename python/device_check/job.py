"""A job file, read with the proved calls."""

from pathlib import Path
from typing import Union

import yoktvarim
from yoktvarim import CutRecord, Record, UnknownSetting

from .failure import Failure

AnyRecord = Union[Record, UnknownSetting, CutRecord]

_HEADER_BYTES = 5
_RECORD_BYTES = {yoktvarim.Version.ONE: 29, yoktvarim.Version.TWO: 30}


def read_job(path: Path) -> yoktvarim.Job:
    job = yoktvarim.read_job(path.read_bytes())
    if isinstance(job, yoktvarim.NotAJob):
        raise Failure(f"{path}: not a job file")
    if isinstance(job, yoktvarim.UnknownVersion):
        raise Failure(f"{path}: a job file of another version than 1 and 2")
    return job


def job_of(path: Path, version: yoktvarim.Version, numbers: "list[int]") -> bytes:
    """A job of some records of a job file, byte by byte as they are there."""
    job, size = path.read_bytes(), _RECORD_BYTES[version]
    starts = (_HEADER_BYTES + number * size for number in numbers)
    return job[:_HEADER_BYTES] + b"".join(job[start : start + size] for start in starts)
