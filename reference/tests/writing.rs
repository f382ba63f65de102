//! Ask 3: what is written reads back, and what is read is written again.

use reference::damage::{damaged_job, DAMAGES};
use reference::job::{read_header, read_record, Record, Version};
use reference::random;
use reference::writer::{write_header, write_record, WriteAnswer};

const VERSIONS: [Version; 2] = [Version::One, Version::Two];

/// What lists hold before they are written to.
const UNTOUCHED: u8 = 0xa5;

/// A list one byte longer than the longest record.
fn list() -> [u8; 31] {
    [UNTOUCHED; 31]
}

/// Patterns of levels: NaNs quiet, signalling and negative, with low and with
/// full payloads, infinities, zeros, subnormals and bytes that are all different.
const LEVELS: [u32; 18] = [
    0x7fc0_0000,
    0xffc0_0000,
    0x7f80_0001,
    0xff80_0001,
    0x7fc1_2345,
    0xffd4_3210,
    0x7fa5_5aa5,
    0xffbf_ffff,
    0x7fff_ffff,
    0xffff_ffff,
    0x7f80_0000,
    0xff80_0000,
    0x0000_0000,
    0x8000_0000,
    0x0000_0001,
    0x807f_ffff,
    0x3f80_0001,
    0x0102_0304,
];

/// Records as they stand in random files, whether or not they can be read.
fn random_records(version: Version) -> Vec<Record> {
    random::job(31, 3000, version)[5..]
        .chunks(version.record_length())
        .map(|bytes| Record::from_bytes(bytes, version))
        .collect()
}

/// The same, and records with each of the patterns in every level, the other
/// levels taken from random ones.
fn records(version: Version) -> Vec<Record> {
    let mut records = random_records(version);
    let rest = records.clone();
    let mut rest = rest.iter().filter(|record| record.decode().is_ok()).cycle();
    for level in LEVELS {
        for place in 0..6 {
            let mut record = *rest.next().unwrap();
            record.levels[place] = level;
            records.push(record);
        }
        let mut record = *rest.next().unwrap();
        record.levels = [level; 6];
        records.push(record);
    }
    records
}

/// NaNs of all sorts with random payloads are among the random levels.
#[test]
fn random_records_have_all_sorts_of_nans() {
    let mut seen = [0; 4];
    for level in random_records(Version::One).iter().flat_map(|r| r.levels) {
        if f32::from_bits(level).is_nan() {
            let (negative, quiet) = (level >> 31, level >> 22 & 1);
            seen[(2 * negative + quiet) as usize] += 1;
        }
    }
    assert!(seen.iter().all(|count| *count > 100), "{seen:?}");
}

#[test]
fn what_is_written_reads_back() {
    for version in VERSIONS {
        let length = version.record_length();
        let mut written = 0;
        for record in records(version) {
            let mut out = list();
            let answer = write_record(version, &record, &mut out);
            let Ok(read) = record.decode() else {
                assert_ne!(answer.number(), 0);
                assert_eq!(out, list());
                continue;
            };
            assert_eq!(answer, WriteAnswer::Written { bytes: length });
            assert!(out[length..].iter().all(|byte| *byte == UNTOUCHED));
            assert_eq!(Record::from_bytes(&out[..length], version), record);
            let mut rest = &out[..length];
            let (patch, settings) = read_record(version, &mut rest).unwrap().unwrap();
            assert!(rest.is_empty());
            // NaN levels differ from themselves, so the words are compared.
            assert_eq!(format!("{:?}", (patch, settings)), format!("{read:?}"));
            written += 1;
        }
        assert!(written > 2000, "{written}");
    }
}

/// Whole files, damaged ones too: every header and record that is accepted.
#[test]
fn what_is_read_is_written_again() {
    let good = (0..4).flat_map(|seed| VERSIONS.map(|version| random::job(seed, 300, version)));
    let damaged = (0..20 * DAMAGES).map(|number| damaged_job(5, number));
    let (mut headers, mut records) = (0, 0);
    for file in good.chain(damaged) {
        let Ok((version, mut rest)) = read_header(&file) else {
            continue;
        };
        let mut out = list();
        let answer = write_header(version, &mut out);
        assert_eq!(answer, WriteAnswer::Written { bytes: 5 });
        assert_eq!(out[..5], file[..5]);
        assert!(out[5..].iter().all(|byte| *byte == UNTOUCHED));
        headers += 1;

        let length = version.record_length();
        while rest.len() >= length {
            let bytes = &rest[..length];
            if read_record(version, &mut rest).is_err() {
                continue;
            }
            let record = Record::from_bytes(bytes, version);
            let mut out = list();
            let answer = write_record(version, &record, &mut out);
            assert_eq!(answer, WriteAnswer::Written { bytes: length });
            assert_eq!(&out[..length], bytes);
            records += 1;
        }
    }
    assert!(headers > 200 && records > 2000, "{headers} {records}");
}

/// Every length of list, for everything that can be written.
#[test]
fn short_lists_stay_untouched() {
    for length in 0..=31 {
        let before = vec![UNTOUCHED; length];
        for version in VERSIONS {
            let header = version.header();
            let mut out = before.clone();
            let answer = write_header(version, &mut out);
            expect(length, &header, answer, &out);
            for record in records(version)
                .iter()
                .filter(|r| r.decode().is_ok())
                .take(200)
            {
                let bytes = record.to_bytes(version);
                let mut out = before.clone();
                let answer = write_record(version, record, &mut out);
                expect(length, &bytes, answer, &out);
            }
        }
    }
}

/// What a list of this length has to hold after an answer.
fn expect(length: usize, bytes: &[u8], answer: WriteAnswer, out: &[u8]) {
    let mut expected = vec![UNTOUCHED; length];
    if length < bytes.len() {
        assert_eq!(answer, WriteAnswer::NoRoom);
    } else {
        expected[..bytes.len()].copy_from_slice(bytes);
        let bytes = bytes.len();
        assert_eq!(answer, WriteAnswer::Written { bytes });
    }
    assert_eq!(out, expected);
}

/// 11 comes before 8, and 8 before 10, whatever the room.
#[test]
fn refusals_in_order() {
    let good = Record {
        levels: [0x7fc0_0000; 6],
        ..Record::BLANK
    };
    for length in 0..=31 {
        for version in VERSIONS {
            for top in 0..=255 {
                let allowed = match version {
                    Version::One => top == 64,
                    Version::Two => top > 0 && top < 65 && top % 2 == 0,
                };
                for place in 0..=5 {
                    let mut record = Record { top, ..good };
                    if place < 5 {
                        record.settings[place..].fill(3);
                    }
                    let mut out = vec![UNTOUCHED; length];
                    let answer = write_record(version, &record, &mut out);
                    match (allowed, place) {
                        (false, _) => assert_eq!(answer, WriteAnswer::BadTop),
                        (true, 5) => {
                            expect(length, &record.to_bytes(version), answer, &out);
                            continue;
                        }
                        (true, _) => assert_eq!(answer, WriteAnswer::UnknownSetting { place }),
                    }
                    assert_eq!(out, vec![UNTOUCHED; length]);
                }
            }
        }
    }
}

/// The bytes spelled out, low byte first.
#[test]
fn bytes_by_hand() {
    let record = Record {
        settings: [1, 2, 0, 1, 1],
        top: 64,
        levels: [0x3f80_0000, 0x0102_0304, 3, 4, 5, 0xffc0_0006],
    };
    let levels = [
        0, 0, 0x80, 0x3f, 4, 3, 2, 1, 3, 0, 0, 0, 4, 0, 0, 0, 5, 0, 0, 0, 6, 0, 0xc0, 0xff,
    ];
    let mut out = list();
    assert_eq!(write_record(Version::One, &record, &mut out).number(), 0);
    assert_eq!(out[..5], [1, 2, 0, 1, 1]);
    assert_eq!(out[5..29], levels);
    let mut out = list();
    assert_eq!(write_record(Version::Two, &record, &mut out).number(), 0);
    assert_eq!(out[..6], [1, 2, 0, 1, 1, 64]);
    assert_eq!(out[6..30], levels);
    let mut out = list();
    assert_eq!(write_header(Version::One, &mut out).number(), 0);
    assert_eq!(out[..6], *b"TSJ\x01\x00\xa5");
    assert_eq!(write_header(Version::Two, &mut out).number(), 0);
    assert_eq!(out[..6], *b"TSJ\x02\x00\xa5");
}

#[test]
fn numbers() {
    for (answer, number) in [
        (WriteAnswer::Written { bytes: 5 }, 0),
        (WriteAnswer::UnknownSetting { place: 0 }, 8),
        (WriteAnswer::NoRoom, 10),
        (WriteAnswer::BadTop, 11),
    ] {
        assert_eq!(answer.number(), number);
    }
}
