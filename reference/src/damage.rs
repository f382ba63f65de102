//! Seeded pseudo random job files with something wrong in them.

use crate::job::{Job, Record, Version, HEADER_LENGTH};
use crate::random::{good_record, spoil, Random};

/// How many sorts of damage there are.
pub const DAMAGES: u64 = 21;

/// How many of them are damage to files of version 1; the others came with
/// Ask 10.
const FIRST_VERSION_DAMAGES: u64 = 11;

/// One damaged job file. The sort of damage is `which` modulo the number of
/// sorts, so that so many numbers in a row meet them all; everything else comes
/// from both numbers together.
pub fn damaged_job(seed: u64, which: u64) -> Vec<u8> {
    let mut random = Random::of_both(seed, which);
    match which % DAMAGES {
        sort if sort < FIRST_VERSION_DAMAGES => first_version(sort, &mut random),
        sort => second_version(sort, &mut random),
    }
}

/// A byte other than the one it is given.
pub(crate) fn other(random: &mut Random, byte: u8) -> u8 {
    byte ^ (1 + random.below(255)) as u8
}

/// A file of `count` records without a fault.
fn good_job(random: &mut Random, version: Version, count: u64) -> Job {
    Job {
        version,
        records: (0..count).map(|_| good_record(random, version)).collect(),
    }
}

/// A good record with one setting spoiled.
fn bad_record(random: &mut Random, version: Version, place: usize) -> Record {
    let mut record = good_record(random, version);
    spoil(random, &mut record, place);
    record
}

/// A record shortened to one byte at least, all but one at most.
fn cut(random: &mut Random, record: &Record, version: Version) -> Vec<u8> {
    let mut bytes = record.to_bytes(version);
    bytes.truncate(1 + random.below(version.record_length() as u64 - 1) as usize);
    bytes
}

/// For each place one record with an unknown setting there, each followed by a
/// good one.
fn bad_and_good(random: &mut Random, version: Version, places: usize) -> Vec<u8> {
    let mut bytes = Vec::new();
    for place in 0..places {
        bytes.extend(bad_record(random, version, place).to_bytes(version));
        bytes.extend(good_record(random, version).to_bytes(version));
    }
    bytes
}

/// One record with unknown settings in all of its places, and a good one.
fn all_bad(random: &mut Random, version: Version, places: usize) -> Vec<u8> {
    let mut bad = good_record(random, version);
    for place in 0..places {
        spoil(random, &mut bad, place);
    }
    let mut bytes = bad.to_bytes(version);
    bytes.extend(good_record(random, version).to_bytes(version));
    bytes
}

/// Files that are of version 1 apart from the damage.
fn first_version(sort: u64, random: &mut Random) -> Vec<u8> {
    let version = Version::One;
    let whole = random.below(4);
    let mut bytes = good_job(random, version, whole).to_bytes();
    match sort {
        // empty file
        0 => bytes.clear(),
        // header alone
        1 => bytes.truncate(HEADER_LENGTH),
        // header cut to 0 to 4 bytes
        2 => bytes.truncate(random.below(5) as usize),
        // one byte of the mark wrong
        3 => {
            let place = random.below(3) as usize;
            bytes[place] = other(random, bytes[place]);
        }
        // low or high byte of the version wrong
        4 => {
            let place = 3 + random.below(2) as usize;
            bytes[place] = other(random, bytes[place]);
        }
        // mark and version both wrong
        5 => {
            bytes[0] = other(random, bytes[0]);
            bytes[3] = other(random, bytes[3]);
        }
        // a few bytes that are no header at all
        6 => {
            let length = 1 + random.below(4) as usize;
            bytes = (0..length).map(|_| random.next() as u8).collect();
        }
        // last record cut
        7 => {
            let last = good_record(random, version);
            bytes.extend(cut(random, &last, version));
        }
        // the same, with an unknown setting in what is left of it
        8 => {
            let last = bad_record(random, version, 0);
            bytes.extend(cut(random, &last, version));
        }
        // an unknown setting in each of the five places, good records between
        9 => bytes.extend(bad_and_good(random, version, 5)),
        // unknown settings in all five places at once
        _ => bytes.extend(all_bad(random, version, 5)),
    }
    bytes
}

/// Ask 10: files that are of version 2 apart from the damage, and files whose
/// header and records are of different versions.
fn second_version(sort: u64, random: &mut Random) -> Vec<u8> {
    let version = Version::Two;
    let whole = random.below(4);
    let mut bytes = good_job(random, version, whole).to_bytes();
    match sort {
        // header alone
        11 => bytes.truncate(HEADER_LENGTH),
        // last record cut
        12 => {
            let last = good_record(random, version);
            bytes.extend(cut(random, &last, version));
        }
        // the same, with an unknown setting in what is left of it
        13 => {
            let last = bad_record(random, version, 0);
            bytes.extend(cut(random, &last, version));
        }
        // an unknown setting in each of the six places, good records between
        14 => bytes.extend(bad_and_good(random, version, 6)),
        // unknown settings in all six places at once
        15 => bytes.extend(all_bad(random, version, 6)),
        // bad tops only, up to three good records after each
        16 => {
            for _ in 0..6 {
                bytes.extend(bad_record(random, version, 5).to_bytes(version));
                for _ in 0..random.below(4) {
                    bytes.extend(good_record(random, version).to_bytes(version));
                }
            }
        }
        // version 3
        17 => bytes[3] = 3,
        // version 512, the two bytes of version 2 in the wrong order
        18 => bytes[3..HEADER_LENGTH].reverse(),
        // header of version 1, records of version 2
        19 => {
            let count = 1 + random.below(4);
            bytes = good_job(random, version, count).to_bytes();
            bytes[..HEADER_LENGTH].copy_from_slice(&Version::One.header());
        }
        // header of version 2, records of version 1
        _ => {
            let count = 1 + random.below(4);
            bytes = good_job(random, Version::One, count).to_bytes();
            bytes[..HEADER_LENGTH].copy_from_slice(&version.header());
        }
    }
    bytes
}
