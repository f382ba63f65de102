//! Ask 14: recorded sessions, replaying them, and seeded random ones.

use crate::damage::other;
use crate::job::{Record, Version, HEADER_LENGTH};
use crate::patch::GREATEST_TOP;
use crate::random::{good_record, spoil, Random};
use crate::tessellate::{tessellate, Answer};

/// What every recording begins with.
const MARK: [u8; 3] = *b"TSR";

/// The only version there is.
const VERSION: u16 = 1;

/// Bytes in a job record of version 1, and in an entry: the record, a byte for
/// the answer and two counts of two bytes.
const RECORD_LENGTH: usize = 29;
const ENTRY_LENGTH: usize = RECORD_LENGTH + 5;

/// How many sorts of random recordings there are.
pub const SORTS: u64 = 22;

/// How many entries a random recording has at most.
const MOST_ENTRIES: u64 = 60;

// ---- entries ------------------------------------------------------------

/// The number of an answer, and both counts, which are zero unless drawn.
#[derive(Clone, Copy, Debug, PartialEq, Eq)]
pub struct Outcome {
    pub answer: u8,
    pub points: u16,
    pub indices: u16,
}

/// Ask 14: what a record of version 1 is answered with, given full-size lists.
/// There is no top in version 1; the record's own is not looked at.
pub fn outcome(record: &Record) -> Outcome {
    let without_counts = |answer: u8| Outcome {
        answer,
        points: 0,
        indices: 0,
    };
    let record = Record {
        top: GREATEST_TOP as u8,
        ..*record
    };
    let Ok((patch, settings)) = record.decode() else {
        return without_counts(8);
    };
    match tessellate(&patch, &settings) {
        Answer::BadTop => unreachable!("64 is a top"),
        Answer::Discarded => without_counts(1),
        Answer::Drawn { points, indices } => Outcome {
            answer: 0,
            points: points.len() as u16,   // 4,225 at most
            indices: indices.len() as u16, // 24,576 at most
        },
    }
}

/// Ask 14: one call, with what it is said to have been answered with.
#[derive(Clone, Copy)]
struct Entry {
    record: Record,
    recorded: Outcome,
}

impl Entry {
    /// An entry that agrees.
    fn right(record: Record) -> Entry {
        Entry {
            record,
            recorded: outcome(&record),
        }
    }

    fn to_bytes(self) -> Vec<u8> {
        let mut bytes = self.record.to_bytes(Version::One);
        bytes.push(self.recorded.answer);
        bytes.extend(self.recorded.points.to_le_bytes());
        bytes.extend(self.recorded.indices.to_le_bytes());
        bytes
    }

    /// An entry from its 34 bytes.
    fn from_bytes(bytes: &[u8]) -> Entry {
        let (record, outcome) = bytes.split_at(RECORD_LENGTH);
        Entry {
            record: Record::from_bytes(record, Version::One),
            recorded: Outcome {
                answer: outcome[0],
                points: u16::from_le_bytes([outcome[1], outcome[2]]),
                indices: u16::from_le_bytes([outcome[3], outcome[4]]),
            },
        }
    }
}

/// Ask 14: mark and version, low byte first.
fn header() -> Vec<u8> {
    [&MARK[..], &VERSION.to_le_bytes()].concat()
}

fn to_bytes(entries: &[Entry]) -> Vec<u8> {
    let mut bytes = header();
    for entry in entries {
        bytes.extend(entry.to_bytes());
    }
    bytes
}

/// Ask 14: the recording of these records of version 1 that agrees in every
/// entry.
pub fn recording(records: &[Record]) -> Vec<u8> {
    let entries: Vec<Entry> = records.iter().map(|record| Entry::right(*record)).collect();
    to_bytes(&entries)
}

// ---- replaying ----------------------------------------------------------

/// What replaying a recording says. Entries are numbered from 0 (Ask 5).
#[derive(Clone, Copy, Debug, PartialEq, Eq)]
pub enum Replay {
    AllAgree {
        entries: u64,
    },
    Differs {
        entry: u64,
        recorded: Outcome,
        replayed: Outcome,
    },
    NotARecording,
    UnknownVersion,
    CutEntry,
}

/// Ask 14: the refusals 5 and 6 for the header; then the first whole entry that
/// differs; then 7 for bytes left over; else all agree.
pub fn replay(bytes: &[u8]) -> Replay {
    let Some((header, rest)) = bytes.split_at_checked(HEADER_LENGTH) else {
        return Replay::NotARecording;
    };
    if header[..3] != MARK {
        return Replay::NotARecording;
    }
    if u16::from_le_bytes([header[3], header[4]]) != VERSION {
        return Replay::UnknownVersion;
    }
    let mut entries = 0;
    for bytes in rest.chunks(ENTRY_LENGTH) {
        if bytes.len() < ENTRY_LENGTH {
            return Replay::CutEntry;
        }
        let Entry { record, recorded } = Entry::from_bytes(bytes);
        let replayed = outcome(&record);
        if recorded != replayed {
            return Replay::Differs {
                entry: entries,
                recorded,
                replayed,
            };
        }
        entries += 1;
    }
    Replay::AllAgree { entries }
}

/// The same as one line of text, without its end.
pub fn line(replay: &Replay) -> String {
    let numbers =
        |outcome: &Outcome| format!("{} {} {}", outcome.answer, outcome.points, outcome.indices);
    match replay {
        Replay::AllAgree { entries } => format!("all agree {entries}"),
        Replay::Differs {
            entry,
            recorded,
            replayed,
        } => format!(
            "entry {entry} recorded {} replayed {}",
            numbers(recorded),
            numbers(replayed)
        ),
        Replay::NotARecording => "refused 5".to_string(),
        Replay::UnknownVersion => "refused 6".to_string(),
        Replay::CutEntry => "refused 7".to_string(),
    }
}

// ---- random recordings --------------------------------------------------

/// A record of version 1; about one in eight has an unknown setting, now and
/// then two.
fn random_record(random: &mut Random) -> Record {
    let mut record = good_record(random, Version::One);
    if random.below(8) == 0 {
        for _ in 0..1 + random.below(2) {
            let place = random.below(5) as usize;
            spoil(random, &mut record, place);
        }
    }
    record
}

/// Entries that all agree, at least as many as `fewest`.
fn right_entries(random: &mut Random, fewest: u64) -> Vec<Entry> {
    let count = fewest + random.below(MOST_ENTRIES - fewest + 1);
    (0..count)
        .map(|_| Entry::right(random_record(random)))
        .collect()
}

/// An entry that agrees and is as asked.
fn right_entry(random: &mut Random, is_asked: impl Fn(&Outcome) -> bool) -> Entry {
    loop {
        let entry = Entry::right(random_record(random));
        if is_asked(&entry.recorded) {
            return entry;
        }
    }
}

/// A number other than the one it is given, next to it or any.
fn other_count(random: &mut Random, count: u16) -> u16 {
    match random.below(4) {
        0 => count.wrapping_add(1),
        1 => count.wrapping_sub(1),
        2 => count ^ (1 << random.below(16)),
        _ => count ^ (1 + random.below(65_535)) as u16,
    }
}

/// Another answer, by its number: one that drawing or reading knows, or any.
fn other_answer(random: &mut Random, answer: u8) -> u8 {
    const KNOWN: [u8; 7] = [0, 1, 2, 3, 4, 7, 8];
    let known = KNOWN[random.below(7) as usize];
    if known != answer && random.below(4) != 0 {
        known
    } else {
        other(random, answer)
    }
}

/// An entry that differs in one of several ways, by the sort of recording.
fn differing_entry(sort: u64, random: &mut Random) -> Entry {
    let drawn = |outcome: &Outcome| outcome.answer == 0;
    let discarded = |outcome: &Outcome| outcome.answer == 1;
    let unknown_setting = |outcome: &Outcome| outcome.answer == 8;
    let mut entry = Entry::right(random_record(random));
    match sort {
        // another answer
        2 => entry.recorded.answer = other_answer(random, entry.recorded.answer),
        // another number of points
        3 => entry.recorded.points = other_count(random, entry.recorded.points),
        // another number of indices
        4 => entry.recorded.indices = other_count(random, entry.recorded.indices),
        // two of these at once
        5 => {
            let Outcome {
                answer,
                points,
                indices,
            } = entry.recorded;
            let kept = random.below(3);
            if kept != 0 {
                entry.recorded.answer = other_answer(random, answer);
            }
            if kept != 1 {
                entry.recorded.points = other_count(random, points);
            }
            if kept != 2 {
                entry.recorded.indices = other_count(random, indices);
            }
        }
        // an unknown setting with 8, and one or two counts
        6 => {
            entry = right_entry(random, unknown_setting);
            let which = random.below(3);
            if which != 0 {
                entry.recorded.points = other_count(random, 0);
            }
            if which != 1 {
                entry.recorded.indices = other_count(random, 0);
            }
        }
        // an unknown setting with another answer, and counts or none
        7 => {
            entry = right_entry(random, unknown_setting);
            let like = Entry::right(random_record(random)).recorded;
            entry.recorded = like;
            if like.answer == 8 {
                entry.recorded.answer = other_answer(random, 8);
            }
        }
        // a discarded patch with the counts of another
        8 => {
            entry = right_entry(random, discarded);
            entry.recorded = Outcome {
                answer: 1,
                ..right_entry(random, drawn).recorded
            };
        }
        // a drawn patch with its counts exchanged
        9 => {
            entry = right_entry(random, |o| drawn(o) && o.points != o.indices);
            let recorded = &mut entry.recorded;
            (recorded.points, recorded.indices) = (recorded.indices, recorded.points);
        }
        // a drawn patch with the bytes of its counts exchanged
        10 => {
            entry = right_entry(random, |o| drawn(o) && o.points != o.points.swap_bytes());
            let recorded = &mut entry.recorded;
            recorded.points = recorded.points.swap_bytes();
            recorded.indices = recorded.indices.swap_bytes();
        }
        // a drawn patch with another answer, and no counts
        _ => {
            entry = right_entry(random, drawn);
            entry.recorded = Outcome {
                answer: other_answer(random, 0),
                points: 0,
                indices: 0,
            };
        }
    }
    entry
}

/// Entries that agree, but for one of them.
fn one_differs(sort: u64, random: &mut Random) -> Vec<Entry> {
    let mut entries = right_entries(random, 1);
    let place = random.below(entries.len() as u64) as usize;
    entries[place] = differing_entry(sort, random);
    entries
}

/// Another version: one that shares a byte with the right one, or any.
fn other_version(random: &mut Random) -> u16 {
    match random.below(8) {
        0 => 0,
        1 => 2,
        2 => 256, // version 1 with its bytes exchanged
        3 => 257,
        _ => VERSION ^ (1 + random.below(65_535)) as u16,
    }
}

/// One random recording. Its sort is `number` modulo the number of sorts, so that
/// so many numbers in a row meet them all; where an entry is cut, the numbers
/// after these go through all lengths. Everything else comes from both numbers
/// together.
pub fn random_recording(seed: u64, number: u64) -> Vec<u8> {
    let mut random = Random::of_both(seed, number);
    let random = &mut random;
    let cut_length = (1 + number / SORTS % (ENTRY_LENGTH as u64 - 1)) as usize;
    match number % SORTS {
        // all agree
        0 => to_bytes(&right_entries(random, 0)),
        // header alone
        1 => header(),
        // one entry differs
        sort @ 2..=11 => to_bytes(&one_differs(sort, random)),
        // up to four entries differ
        12 => {
            let mut entries = right_entries(random, 4);
            for _ in 0..4 {
                let place = random.below(entries.len() as u64) as usize;
                let sort = 2 + random.below(10);
                entries[place] = differing_entry(sort, random);
            }
            to_bytes(&entries)
        }
        // last entry cut, all others agree
        13 => {
            let mut bytes = to_bytes(&right_entries(random, 0));
            let last = Entry::right(random_record(random)).to_bytes();
            bytes.extend(&last[..cut_length]);
            bytes
        }
        // last entry cut, one other differs
        14 => {
            let sort = 2 + random.below(10);
            let mut bytes = to_bytes(&one_differs(sort, random));
            let last = Entry::right(random_record(random)).to_bytes();
            bytes.extend(&last[..cut_length]);
            bytes
        }
        // one byte of the mark wrong
        15 => {
            let mut bytes = to_bytes(&right_entries(random, 0));
            let place = random.below(3) as usize;
            bytes[place] = other(random, bytes[place]);
            bytes
        }
        // another version
        16 => {
            let mut bytes = to_bytes(&right_entries(random, 0));
            bytes[3..HEADER_LENGTH].copy_from_slice(&other_version(random).to_le_bytes());
            bytes
        }
        // mark and version both wrong
        17 => {
            let mut bytes = to_bytes(&right_entries(random, 0));
            bytes[0] = other(random, bytes[0]);
            bytes[3] = other(random, bytes[3]);
            bytes
        }
        // header cut short
        18 => header()[..random.below(HEADER_LENGTH as u64) as usize].to_vec(),
        // empty file
        19 => Vec::new(),
        // the mark and version of a job file
        20 => {
            let mut bytes = to_bytes(&right_entries(random, 0));
            bytes[..HEADER_LENGTH].copy_from_slice(&Version::One.header());
            bytes
        }
        // one byte changed, anywhere in the entries; all may agree still
        _ => {
            let mut bytes = to_bytes(&right_entries(random, 1));
            let place = HEADER_LENGTH + random.below((bytes.len() - HEADER_LENGTH) as u64) as usize;
            bytes[place] = other(random, bytes[place]);
            bytes
        }
    }
}
