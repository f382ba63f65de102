"""Job files, written and read: a header, then records. What was written reads back bit for bit, and an accepted file written again is
the same bytes.

    >>> from yoktvarim import Settings, Triangles
    >>> record = Record.of(Triangles((1, 1, 1), 2), Settings(top=16))
    >>> written = write_job([record])
    >>> len(written.job)
    35
    >>> read_job(written.job) == Job(Version.TWO, (record,))
    True
"""

import operator
import struct
from ctypes import POINTER, c_size_t, c_uint8, c_uint32
from dataclasses import dataclass
from enum import Enum
from typing import Any, Iterable, Iterator, Sequence, Tuple, Union

from .answers import Answer
from .calls import SETTINGS, numbers, refused
from .library import Function
from .lists import U8, Words, shown
from .patch import (
    KINDS,
    DomainOrigin,
    Isolines,
    Patch,
    Quads,
    Settings,
    Spacing,
    Triangles,
    VertexOrder,
    kind_of,
    must_be,
    patch_kind,
)

_BYTES, _BITS, _COUNT = (POINTER(c_uint8), c_size_t), POINTER(c_uint32), POINTER(c_uint32)
_write_header = Function("yoktvarim_write_header", c_uint32, *_BYTES, _COUNT)
_write_record = Function("yoktvarim_write_record", c_uint32, SETTINGS, _BITS, *_BYTES, _COUNT)
_read_header = Function("yoktvarim_read_header", *_BYTES, _COUNT)
_read_record = Function("yoktvarim_read_record", *_BYTES, c_uint32, c_size_t, SETTINGS, _BITS, POINTER(c_size_t), _COUNT)

_HEADER_BYTES = 5
_RECORD_BYTES = 30  # at most
_END = 255  # what reading a record answers where no byte is left


class Version(Enum):
    """The two forms of a job file. The second has a byte for the top level in every record; in the first it is 64."""

    ONE = 1
    TWO = 2


def _six_words(bits: Sequence[int]) -> Tuple[int, ...]:
    found = tuple(operator.index(word) for word in bits)
    if len(found) != 6 or not all(0 <= word < 2**32 for word in found):
        raise ValueError(f"bits are six numbers from 0 to 2**32 - 1, not {found}")
    return found


@dataclass(frozen=True)
class Record:
    """A record: the kind of its patch, its settings, and the bits of all six levels, outer one to four, inner one and two; those that do
    not count for the kind too, and every bit of a NaN. The kind is Triangles, Quads or Isolines; of a class that is derived from one of
    these, that one is kept."""

    kind: type
    settings: Settings
    bits: Tuple[int, ...]

    def __post_init__(self) -> None:
        object.__setattr__(self, "kind", kind_of("kind", self.kind))
        must_be("settings", self.settings, Settings)
        object.__setattr__(self, "bits", _six_words(self.bits))

    @classmethod
    def of(cls, patch: Patch, settings: Settings = Settings()) -> "Record":
        """The record of a patch, with 0 for levels that do not count."""
        return cls(patch_kind(patch), settings, struct.unpack("=6I", bytes(numbers(patch, settings)[1])))

    @property
    def patch(self) -> Patch:
        levels = struct.unpack("=6f", struct.pack("=6I", *self.bits))
        if self.kind is Triangles:
            return Triangles(levels[:3], levels[4])
        return Quads(levels[:4], levels[4:]) if self.kind is Quads else Isolines(levels[:2])


@dataclass(frozen=True)
class NotAJob(Answer):
    """Under 5 bytes, or another mark than TSJ."""

    number = 5


@dataclass(frozen=True)
class UnknownVersion(Answer):
    """The version is neither 1 nor 2."""

    number = 6


@dataclass(frozen=True)
class CutRecord(Answer):
    """The file ends within the record."""

    number = 7


@dataclass(frozen=True)
class UnknownSetting(Answer):
    """The setting at this place, 0 to 4, is out of range, or the top, 5; the record is passed over."""

    number = 8
    place: int


@dataclass(frozen=True)
class Job(Answer):
    """What a job file holds, record by record."""

    number = 0
    version: Version
    records: Tuple[Union[Record, UnknownSetting, CutRecord], ...]


@dataclass(frozen=True)
class JobWritten(Answer):
    """The bytes of the file."""

    number = 0
    job: bytes


@dataclass(frozen=True)
class BadTopInRecord(Answer):
    """This record, counted from 0, has a top that the version cannot hold; version 1 holds 64 only. Nothing is written."""

    number = 11
    record: int


def write_job(records: Iterable[Record], version: Version = Version.TWO) -> Union[JobWritten, BadTopInRecord]:
    """The job file of some records."""
    must_be("version", version, Version)
    room, count = (c_uint8 * _RECORD_BYTES)(), (c_uint32 * 1)()
    number = _write_header(version.value, room, len(room), count)
    if number != JobWritten.number:
        return refused(number)
    job = bytearray(room[: count[0]])
    for at, record in enumerate(records):
        must_be(f"record {at}", record, Record)
        settings, _ = numbers(record.patch, record.settings)
        number = _write_record(version.value, settings, (c_uint32 * 6)(*record.bits), room, len(room), count)
        if number == BadTopInRecord.number:
            return BadTopInRecord(at)
        if number != JobWritten.number:
            return refused(number)
        job += bytes(room[: count[0]])
    return JobWritten(bytes(job))


def read_job(job: Any) -> Union[Job, NotAJob, UnknownVersion]:
    """What a job file holds: bytes or any other buffer of bytes, of any length and content."""
    lent, version = shown("job", job, U8), (c_uint32 * 1)()
    number = _read_header(lent.pointer, lent.count, version)
    if number != Job.number:
        return refused(number, NotAJob, UnknownVersion)
    return Job(Version(version[0]), tuple(_records(lent, version[0])))


def _records(job: Words, version: int) -> Iterator[Union[Record, UnknownSetting, CutRecord]]:
    settings, bits, place, at = (c_uint8 * 6)(), (c_uint32 * 6)(), (c_uint32 * 1)(), (c_size_t * 1)(_HEADER_BYTES)
    while True:
        number = _read_record(job.pointer, job.count, version, at[0], settings, bits, at, place)
        if number == _END:
            return
        if number == Job.number:
            kind, spacing, order, origin, dots, top = settings
            said = Settings(Spacing(spacing), VertexOrder(order), DomainOrigin(origin), bool(dots), top)
            yield Record(KINDS[kind], said, tuple(bits))
        elif number == UnknownSetting.number:
            yield UnknownSetting(place[0])
        else:
            yield refused(number, CutRecord)
