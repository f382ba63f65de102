"""Job files: read after write, write after read, and what cannot be read or written."""

import doctest
import math
import random
import struct
import unittest
from pathlib import Path

import yoktvarim
import yoktvarim.job
from yoktvarim import (
    BadTopInRecord,
    CutRecord,
    DomainOrigin,
    Isolines,
    Job,
    JobWritten,
    NotAJob,
    Quads,
    Record,
    Settings,
    Spacing,
    Triangles,
    UnknownSetting,
    UnknownVersion,
    Version,
    VertexOrder,
    read_job,
    write_job,
)

SAMPLES = Path(__file__).resolve().parents[2] / "samples"


def random_record(chance, version):
    settings = Settings(
        chance.choice(list(Spacing)),
        chance.choice(list(VertexOrder)),
        chance.choice(list(DomainOrigin)),
        chance.random() < 0.5,
        2 * chance.randint(1, 32) if version is Version.TWO else 64,
    )
    kind = chance.choice((Triangles, Quads, Isolines))
    return Record(kind, settings, tuple(chance.getrandbits(32) for _ in range(6)))


class Files(unittest.TestCase):
    def test_read_after_write(self):
        chance = random.Random(3)
        for version in Version:
            records = tuple(random_record(chance, version) for _ in range(300))
            written = write_job(records, version)
            self.assertEqual(len(written.job), 5 + 300 * (28 + version.value))
            self.assertEqual(read_job(written.job), Job(version, records))

    def test_the_bytes_of_the_page(self):
        record = Record.of(Quads((1, 2, 3, 4), (5, 6)), Settings(Spacing.FRACTIONAL_ODD, top=16))
        page = b"TSJ\x02\x00" + struct.pack("<6B6f", 1, 2, 1, 1, 0, 16, 1, 2, 3, 4, 5, 6)
        self.assertEqual(write_job([record]), JobWritten(page))
        self.assertEqual(record.patch, Quads((1, 2, 3, 4), (5, 6)))

    def test_write_after_read(self):
        for name in ("sheet.tsj", "shoulder.tsj", "tops.tsj"):
            job = (SAMPLES / name).read_bytes()
            found = read_job(job)
            good = tuple(record for record in found.records if isinstance(record, Record))
            self.assertEqual(read_job(write_job(good, found.version).job).records, good)
            if good == found.records:
                self.assertEqual(write_job(good, found.version), JobWritten(job))

    def test_a_nan_keeps_its_bits(self):
        record = Record(Isolines, Settings(), (0x7FC12345, 0xFF800001, 1, 2, 3, 4))
        self.assertEqual(read_job(write_job([record]).job).records[0].bits, record.bits)
        self.assertTrue(all(map(math.isnan, record.patch.outer)))

    def test_bad_tops(self):
        records = [Record.of(Isolines((1, 1)), Settings(top=top)) for top in (64, 16, 7)]
        self.assertEqual(write_job(records), BadTopInRecord(2))
        self.assertEqual(write_job(records, Version.ONE), BadTopInRecord(1))
        self.assertEqual(write_job([Record.of(Isolines((1, 1)), Settings(top=320))]), BadTopInRecord(0))

    def test_a_derived_class_is_written_as_its_kind(self):
        class Face(Triangles):
            pass

        class Tile(Quads):
            pass

        class Hair(Isolines):
            pass

        for derived, kind, levels in (
            (Face, Triangles, ((1, 2, 3), 4)),
            (Tile, Quads, ((1, 2, 3, 4), (5, 6))),
            (Hair, Isolines, ((1, 2),)),
        ):
            record = Record.of(kind(*levels))
            self.assertEqual(Record.of(derived(*levels)), record)
            self.assertEqual(Record(derived, record.settings, record.bits), record)
            self.assertEqual(Record(derived, record.settings, record.bits).patch, kind(*levels))
            self.assertEqual(read_job(write_job([Record.of(derived(*levels))]).job).records, (record,))

    def test_what_is_no_record(self):
        bits = (0,) * 6
        for kind in (int, object, Settings, None, 2, Isolines((1, 1))):
            with self.assertRaisesRegex(TypeError, "kind has to be the class Triangles, Quads or Isolines"):
                Record(kind, Settings(), bits)
        with self.assertRaisesRegex(TypeError, "the class Triangles, Quads or Isolines"):
            Record.of((1, 1, 1))
        self.assertRaises(TypeError, Record, Isolines, None, bits)
        for wrong in ((0,) * 5, (0,) * 7, (2**32, 0, 0, 0, 0, 0), (0, -1, 0, 0, 0, 0)):
            with self.assertRaisesRegex(ValueError, "six numbers from 0 to"):
                Record(Isolines, Settings(), wrong)
        self.assertRaises(TypeError, Record, Isolines, Settings(), (1.0,) * 6)

    def test_what_cannot_be_written(self):
        for version in (1, 2, None, Spacing.FRACTIONAL_EVEN):
            with self.assertRaisesRegex(TypeError, "version has to be of type Version"):
                write_job([], version)
        good = Record.of(Isolines((1, 1)))
        for wrong in (UnknownSetting(3), CutRecord(), Isolines((1, 1))):
            with self.assertRaisesRegex(TypeError, "record 1 has to be of type Record"):
                write_job([good, wrong])

    def test_what_cannot_be_read(self):
        for wrong in (b"", b"TSJ\x01", b"TSR\x01\x00"):
            self.assertEqual(read_job(wrong), NotAJob())
        self.assertEqual(read_job(b"TSJ\x03\x00"), UnknownVersion())
        self.assertRaises(TypeError, read_job, "TSJ")
        job = bytearray(write_job([Record.of(Isolines((1, 1)))] * 3).job)
        job[5 + 30 + 1], job[5 + 60 + 5] = 3, 65
        found = read_job(job[:-1])
        self.assertEqual(found.records[1:], (UnknownSetting(1), CutRecord()))
        self.assertEqual(read_job(job).records[1:], (UnknownSetting(1), UnknownSetting(5)))


def load_tests(_loader, tests, _pattern):
    tests.addTests(doctest.DocTestSuite(yoktvarim.job))
    return tests


if __name__ == "__main__":
    unittest.main()
