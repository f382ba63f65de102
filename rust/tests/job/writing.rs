//! Writing: the whole list is compared, with its bytes past the end.

use crate::records::setting_bytes;
use crate::strange::{strange_records, Bits};
use reference::job::{Record, Version};
use reference::writer::{self, WriteAnswer};
use yoktvarim::job::raw::{self, Written};
use yoktvarim::job::{BadTop, Kind, Record as OwnRecord, Writer};
use yoktvarim::{Patch, Settings};

/// Longer by one byte than the longest record.
const LONGEST: usize = 31;

const VERSIONS: [Version; 2] = [Version::One, Version::Two];

/// What is in a list before a call.
fn sentinels(length: usize) -> Vec<u8> {
    (0..length).map(|place| 0xA5 ^ place as u8).collect()
}

fn written_here(answer: WriteAnswer) -> Written {
    let count = match answer {
        WriteAnswer::Written { bytes } => bytes as u32,
        WriteAnswer::UnknownSetting { place } => place as u32,
        WriteAnswer::NoRoom | WriteAnswer::BadTop => 0,
    };
    Written {
        number: answer.number(),
        count,
    }
}

/// Writes a record into a list of this length, as the second program does; the answer and the list.
fn compare(version: Version, record: &Record, length: usize) -> (Written, Vec<u8>) {
    let (mut own, mut other) = (sentinels(length), sentinels(length));
    let number = u32::from(version.number());
    let answer = raw::write_record(number, &setting_bytes(record), &record.levels, &mut own);
    let expected = writer::write_record(version, record, &mut other);
    assert_eq!(
        answer,
        written_here(expected),
        "{version:?} {record:?} {length}"
    );
    assert_eq!(own, other, "{version:?} {record:?} {length}");
    (answer, own)
}

#[test]
fn headers_in_lists_of_every_length() {
    for version in VERSIONS {
        for length in 0..=LONGEST {
            let (mut own, mut other) = (sentinels(length), sentinels(length));
            let answer = raw::write_header(u32::from(version.number()), &mut own);
            assert_eq!(
                answer,
                written_here(writer::write_header(version, &mut other))
            );
            assert_eq!(own, other, "{version:?} {length}");
        }
    }
}

#[test]
fn unknown_versions_write_nothing() {
    let refused = Written {
        number: 6,
        count: 0,
    };
    for version in [0, 3, 4, 255, 256, 257, 513, 65_537, u32::MAX] {
        for length in [0, 4, 5, LONGEST] {
            let mut list = sentinels(length);
            assert_eq!(raw::write_header(version, &mut list), refused);
            // 6 goes before a bad top, an unknown setting and a list that is too short.
            let wrong = [9, 9, 9, 9, 9, 9];
            assert_eq!(
                raw::write_record(version, &wrong, &[0; 6], &mut list),
                refused
            );
            assert_eq!(list, sentinels(length));
        }
    }
}

#[test]
fn random_records_in_lists_of_every_length() {
    let mut told = [0; 12];
    for made in VERSIONS {
        for record in strange_records(31, 1_500, made) {
            for version in VERSIONS {
                for length in 0..=LONGEST {
                    told[compare(version, &record, length).0.number as usize] += 1;
                }
            }
        }
    }
    for (number, times) in told.into_iter().enumerate() {
        assert_eq!([0, 8, 10, 11].contains(&number), times > 100, "{told:?}");
    }
}

#[test]
fn what_was_written_is_read_back() {
    let mut read = 0;
    for version in VERSIONS {
        for record in strange_records(32, 3_000, version) {
            let (answer, list) = compare(version, &record, LONGEST);
            if answer.number != 0 {
                continue;
            }
            let back = raw::read_record(&list, u32::from(version.number()), 0);
            assert_eq!((back.number, back.place), (0, 0), "{record:?}");
            assert_eq!(back.settings, setting_bytes(&record));
            assert_eq!(back.patterns, record.levels);
            assert_eq!(back.next, answer.count as usize);
            read += 1;
        }
    }
    assert!(read > 5_000, "{read}");
}

#[test]
fn each_setting_at_each_value() {
    for place in 0..6 {
        for value in 0..=255 {
            let mut record = Record::BLANK;
            match place {
                5 => record.top = value,
                _ => record.settings[place] = value,
            }
            for version in VERSIONS {
                for length in [0, 28, 29, 30, LONGEST] {
                    let _ = compare(version, &record, length);
                }
            }
        }
    }
}

#[test]
fn a_patch_keeps_the_bits_of_its_levels() {
    let mut bits = Bits(7);
    for _ in 0..1_000 {
        let levels: [f32; 6] = std::array::from_fn(|_| f32::from_bits(bits.next() as u32));
        let [a, b, c, d, rows, columns] = levels;
        let patch = Patch::Quads {
            outer: [a, b, c, d],
            inner: [rows, columns],
        };
        let record = OwnRecord::new(&patch, &Settings::default());
        assert_eq!(record.kind, Kind::Quads);
        assert_eq!(record.patterns, levels.map(f32::to_bits));
    }
}

#[test]
fn a_bad_top_appends_nothing() {
    let patch = Patch::Isolines { outer: [1.0, 1.0] };
    let at = |top| Settings {
        top,
        ..Settings::default()
    };
    let mut bytes = vec![1, 2, 3];
    let mut job = Writer::new(yoktvarim::job::Version::One, &mut bytes);
    let refused = Err(BadTop {
        version: yoktvarim::job::Version::One,
        top: 16,
    });
    assert_eq!(job.write(&OwnRecord::new(&patch, &at(16))), refused);
    assert_eq!(job.write(&OwnRecord::new(&patch, &at(64))), Ok(()));
    assert_eq!(bytes.len(), 3 + 5 + 29);
    assert_eq!(&bytes[..8], [1, 2, 3, 0x54, 0x53, 0x4A, 1, 0]);
}
