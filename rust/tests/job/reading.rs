//! Reading: random, damaged and made-up files, from the front and from every place.

use crate::records::setting_bytes;
use crate::strange::{strange_records, Bits};
use reference::damage::{damaged_job, DAMAGES};
use reference::job::{read_header, Job, Record, Refusal, Version, HEADER_LENGTH};
use yoktvarim::job::raw::{self, RecordRead, END};
use yoktvarim::job::{self, Header, HeaderRefusal, RecordRefusal, Writer};

const VERSIONS: [Version; 2] = [Version::One, Version::Two];

fn version_here(version: Version) -> job::Version {
    match version {
        Version::One => job::Version::One,
        Version::Two => job::Version::Two,
    }
}

fn header_here(read: Result<(Version, &[u8]), Refusal>) -> Result<Header, HeaderRefusal> {
    match read {
        Ok((version, _)) => Ok(Header {
            version: version_here(version),
        }),
        Err(Refusal::NotAJob) => Err(HeaderRefusal::NotAJob),
        Err(Refusal::UnknownVersion) => Err(HeaderRefusal::UnknownVersion),
        Err(other) => panic!("{other:?}"),
    }
}

/// What is at a place, by the second program's readers.
fn record_here(bytes: &[u8], version: Version, at: usize) -> RecordRead {
    let nothing = |number, next, place| RecordRead {
        number,
        settings: [0; 6],
        patterns: [0; 6],
        next,
        place,
    };
    let mut rest = bytes.get(at..).unwrap_or(&[]);
    let next = at + version.record_length();
    match reference::job::read_record(version, &mut rest) {
        Ok(None) => nothing(END, bytes.len(), 0),
        Err(Refusal::TruncatedRecord) => nothing(7, bytes.len(), 0),
        Err(Refusal::UnknownSetting { place }) => nothing(8, next, place as u32),
        Err(other) => panic!("{other:?}"),
        Ok(Some(_)) => {
            let record = Record::from_bytes(&bytes[at..next], version);
            RecordRead {
                number: 0,
                settings: setting_bytes(&record),
                patterns: record.levels,
                next,
                place: 0,
            }
        }
    }
}

/// Reads a file to its end by numbers and by names; how many records it has, or `None` where something is refused.
fn compare(bytes: &[u8]) -> Option<usize> {
    let expected = header_here(read_header(bytes));
    assert_eq!(Header::read(bytes), expected, "{bytes:?}");
    assert_eq!(job::read(bytes).err(), expected.err());
    let (version, _) = read_header(bytes).ok()?;
    let number = u32::from(version.number());
    let mut named = job::read(bytes).expect("its header is read");
    assert_eq!(named.version(), version_here(version));
    let (mut at, mut accepted, mut refused) = (HEADER_LENGTH, 0, false);
    loop {
        let read = raw::read_record(bytes, number, at);
        assert_eq!(read, record_here(bytes, version, at), "{at} {bytes:?}");
        match (read.number, named.next()) {
            (0, Some(Ok(record))) => {
                assert_eq!(record.patterns, read.patterns);
                accepted += 1;
            }
            (7, Some(Err(RecordRefusal::CutRecord))) => refused = true,
            (8, Some(Err(RecordRefusal::UnknownSetting { place }))) => {
                assert_eq!(place, read.place);
                refused = true;
            }
            (END, None) => break,
            other => panic!("{other:?} at {at}"),
        }
        assert!(at < read.next, "every answer but the end moves on");
        at = read.next;
    }
    assert_eq!(named.next(), None);
    (!refused).then_some(accepted)
}

#[test]
fn random_files() {
    for seed in 0..20 {
        for version in VERSIONS {
            compare(&reference::random::job(seed, 60, version));
        }
    }
}

#[test]
fn damaged_files() {
    for which in 0..40 * DAMAGES {
        compare(&damaged_job(5, which));
    }
}

#[test]
fn bytes_after_any_header() {
    let mut bits = Bits(3);
    for length in 0..400 {
        let mut bytes: Vec<u8> = (0..length).map(|_| (bits.next() % 3) as u8).collect();
        compare(&bytes);
        bytes.splice(0..0, *b"TSJ");
        compare(&bytes);
        bytes.splice(3..3, [1 + (length % 2) as u8, 0]);
        compare(&bytes);
    }
}

#[test]
fn from_every_place() {
    for version in VERSIONS {
        let bytes = reference::random::job(9, 4, version);
        for at in 0..bytes.len() + 40 {
            let read = raw::read_record(&bytes, u32::from(version.number()), at);
            assert_eq!(read, record_here(&bytes, version, at), "{at}");
        }
        let far = raw::read_record(&bytes, u32::from(version.number()), usize::MAX);
        assert_eq!((far.number, far.next), (END, bytes.len()));
    }
}

#[test]
fn unknown_versions_reach_the_end() {
    let bytes = reference::random::job(10, 2, Version::Two);
    for version in [0, 3, 256, 65_537, u32::MAX] {
        for at in 0..bytes.len() + 2 {
            let read = raw::read_record(&bytes, version, at);
            let number = if at < bytes.len() { 6 } else { END };
            assert_eq!((read.number, read.next), (number, bytes.len()));
            assert_eq!((read.settings, read.patterns), ([0; 6], [0; 6]));
        }
    }
}

#[test]
fn an_accepted_file_written_again_is_the_same_bytes() {
    for version in VERSIONS {
        let records = strange_records(33, 2_000, version);
        let known = records.into_iter().filter(|record| record.decode().is_ok());
        let job = Job {
            version,
            records: known.collect(),
        };
        let bytes = job.to_bytes();
        assert_eq!(compare(&bytes), Some(job.records.len()));
        let mut again = Vec::new();
        let mut writer = Writer::new(version_here(version), &mut again);
        for record in job::read(&bytes).expect("a job file") {
            let record = record.expect("no refusal");
            writer.write(&record).expect("a top that the version holds");
        }
        assert_eq!(again, bytes);
    }
}
