//! Ask 14: recorded sessions and what replaying them says.

use reference::job::{Job, Record, Version};
use reference::output::answers;
use reference::random;
use reference::recording::{line, outcome, random_recording, recording, replay};
use reference::recording::{Outcome, Replay, SORTS};

/// The sample of the section "Job file": triangles 1 1 1, inner 2.
const SAMPLE: Record = Record {
    settings: [0, 0, 1, 1, 0],
    top: 64,
    levels: [0x3f80_0000, 0x3f80_0000, 0x3f80_0000, 0, 0x4000_0000, 0],
};

const DISCARDED: Record = Record {
    levels: [0; 6],
    ..SAMPLE
};

const UNKNOWN_SETTING: Record = Record {
    settings: [3, 0, 1, 1, 0],
    ..SAMPLE
};

fn outcome_of(answer: u8, points: u16, indices: u16) -> Outcome {
    Outcome {
        answer,
        points,
        indices,
    }
}

fn said(bytes: &[u8]) -> String {
    line(&replay(bytes))
}

/// The records of a random job file of version 1.
fn some_records(seed: u64, count: u64) -> Vec<Record> {
    random::job(seed, count, Version::One)[5..]
        .chunks(29)
        .map(|bytes| Record::from_bytes(bytes, Version::One))
        .collect()
}

// ---- entries ------------------------------------------------------------

#[test]
fn bytes_by_hand() {
    let bytes = recording(&[SAMPLE]);
    assert_eq!(bytes.len(), 5 + 34);
    assert_eq!(bytes[..5], [0x54, 0x53, 0x52, 1, 0]);
    assert_eq!(bytes[5..10], [0, 0, 1, 1, 0]);
    assert_eq!(bytes[10..14], [0, 0, 0x80, 0x3f]);
    assert_eq!(bytes[26..30], [0, 0, 0, 0x40]);
    assert_eq!(bytes[34..], [0, 4, 0, 9, 0]);
    assert_eq!(said(&bytes), "all agree 1");
}

/// Counts that need both of their bytes, points before indices.
#[test]
fn counts_are_low_byte_first() {
    let record = Record {
        settings: [1, 0, 1, 1, 0],
        levels: [0x4280_0000; 6],
        ..SAMPLE
    };
    assert_eq!(outcome(&record), outcome_of(0, 4225, 24_576));
    let bytes = recording(&[record]);
    assert_eq!(bytes[34..], [0, 0x81, 0x10, 0x00, 0x60]);
}

#[test]
fn outcomes_by_hand() {
    assert_eq!(outcome(&SAMPLE), outcome_of(0, 4, 9));
    assert_eq!(outcome(&DISCARDED), outcome_of(1, 0, 0));
    assert_eq!(outcome(&UNKNOWN_SETTING), outcome_of(8, 0, 0));
    // A discarded patch with an unknown setting is not even read.
    let both = Record {
        levels: [0; 6],
        ..UNKNOWN_SETTING
    };
    assert_eq!(outcome(&both), outcome_of(8, 0, 0));
    // A record as in version 1 has no top.
    for top in [0, 2, 16, 65] {
        assert_eq!(outcome(&Record { top, ..SAMPLE }), outcome_of(0, 4, 9));
    }
}

/// The answers of a job file with the same records, read from its text.
#[test]
fn outcomes_are_the_answers_to_a_job() {
    let records = some_records(41, 2000);
    let job = Job {
        version: Version::One,
        records: records.clone(),
    };
    let text = answers(&job.to_bytes());
    let mut lines = text
        .lines()
        .filter(|line| line.starts_with(|first: char| first.is_ascii_lowercase()));
    let mut seen = [0; 9];
    for record in &records {
        let words: Vec<&str> = lines.next().unwrap().split(' ').collect();
        let expected = match words[..] {
            ["drawn", points, indices] => {
                outcome_of(0, points.parse().unwrap(), indices.parse().unwrap())
            }
            ["discarded"] => outcome_of(1, 0, 0),
            ["refused", "8"] => outcome_of(8, 0, 0),
            _ => panic!("{words:?}"),
        };
        assert_eq!(outcome(record), expected);
        seen[usize::from(expected.answer)] += 1;
    }
    assert_eq!(lines.next(), None);
    assert!(
        [0, 1, 8].iter().all(|answer| seen[*answer] > 50),
        "{seen:?}"
    );
    assert_eq!(said(&recording(&records)), "all agree 2000");
}

// ---- replaying ----------------------------------------------------------

#[test]
fn recordings_that_agree() {
    assert_eq!(said(&recording(&[])), "all agree 0");
    for count in 1..60 {
        let bytes = recording(&some_records(count, count));
        assert_eq!(replay(&bytes), Replay::AllAgree { entries: count });
    }
}

/// Every value of every byte of an outcome but the right one, in the first, a
/// middle and the last entry.
#[test]
fn every_change_of_an_outcome_is_found() {
    let records = [SAMPLE, DISCARDED, UNKNOWN_SETTING, SAMPLE, UNKNOWN_SETTING];
    let right = recording(&records);
    for (entry, record) in records.iter().enumerate() {
        let replayed = outcome(record);
        let start = 5 + 34 * entry + 29;
        for place in start..start + 5 {
            for change in 1..=255 {
                let mut bytes = right.clone();
                bytes[place] ^= change;
                let [a, p, high_p, i, high_i] = bytes[start..start + 5] else {
                    unreachable!();
                };
                let count = |low: u8, high: u8| u16::from(low) + 256 * u16::from(high);
                let expected = Replay::Differs {
                    entry: entry as u64,
                    recorded: outcome_of(a, count(p, high_p), count(i, high_i)),
                    replayed,
                };
                assert_eq!(replay(&bytes), expected);
            }
        }
    }
}

#[test]
fn lines_by_hand() {
    let mut bytes = recording(&[DISCARDED, SAMPLE, UNKNOWN_SETTING]);
    assert_eq!(said(&bytes), "all agree 3");
    // The third entry: 8 with one index.
    bytes[5 + 2 * 34 + 32] = 1;
    assert_eq!(said(&bytes), "entry 2 recorded 8 0 1 replayed 8 0 0");
    // The second one, before it: 256 more points and no answer of drawing's.
    bytes[5 + 34 + 29] = 200;
    bytes[5 + 34 + 31] = 1;
    assert_eq!(said(&bytes), "entry 1 recorded 200 260 9 replayed 0 4 9");
    // The first one, before both: drawn, with no counts.
    bytes[5 + 29] = 0;
    assert_eq!(said(&bytes), "entry 0 recorded 0 0 0 replayed 1 0 0");
}

/// An unknown setting in each place asks for 8 and no counts.
#[test]
fn unknown_settings() {
    for place in 0..5 {
        for value in [3, 4, 128, 255] {
            let mut record = SAMPLE;
            record.settings[place] = value;
            let mut bytes = recording(&[record]);
            assert_eq!(bytes[34..], [8, 0, 0, 0, 0]);
            assert_eq!(said(&bytes), "all agree 1");
            bytes[34..].copy_from_slice(&[0, 4, 0, 9, 0]);
            assert_eq!(said(&bytes), "entry 0 recorded 0 4 9 replayed 8 0 0");
            // The other way round: 8 where nothing is unknown.
            bytes[5 + place] = SAMPLE.settings[place];
            assert_eq!(said(&bytes), "all agree 1");
            bytes[34..].copy_from_slice(&[8, 0, 0, 0, 0]);
            assert_eq!(said(&bytes), "entry 0 recorded 8 0 0 replayed 0 4 9");
        }
    }
}

#[test]
fn headers() {
    let right = recording(&[SAMPLE]);
    for length in 0..5 {
        assert_eq!(said(&right[..length]), "refused 5");
    }
    for place in 0..3 {
        for change in 1..=255 {
            let mut bytes = right.clone();
            bytes[place] ^= change;
            assert_eq!(said(&bytes), "refused 5");
            bytes[3] = 2;
            assert_eq!(said(&bytes), "refused 5");
        }
    }
    for version in 0..=u16::MAX {
        let mut bytes = right.clone();
        bytes[3..5].copy_from_slice(&version.to_le_bytes());
        let expected = match version {
            1 => "all agree 1",
            _ => "refused 6",
        };
        assert_eq!(said(&bytes), expected);
    }
    assert_eq!(said(b"TSJ\x01\x00"), "refused 5");
    assert_eq!(said(b"TSR\x02\x00x"), "refused 6");
}

/// A cut entry is told only where the whole ones before it agree.
#[test]
fn cut_entries() {
    let last = &recording(&[DISCARDED])[5..];
    for whole in 0..4 {
        let right = recording(&some_records(whole, whole));
        for length in 1..34 {
            let mut bytes = right.clone();
            bytes.extend(&last[..length]);
            assert_eq!(replay(&bytes), Replay::CutEntry);
            for entry in 0..whole {
                let mut bytes = bytes.clone();
                bytes[5 + 34 * entry as usize + 29] ^= 0x40;
                match replay(&bytes) {
                    Replay::Differs { entry: found, .. } => assert_eq!(found, entry),
                    other => panic!("{other:?}"),
                }
            }
        }
        // All of it there: no longer cut.
        let mut bytes = right;
        bytes.extend(last);
        assert_eq!(replay(&bytes), Replay::AllAgree { entries: whole + 1 });
    }
}

// ---- random recordings --------------------------------------------------

#[test]
fn random_recordings_are_as_their_sort_says() {
    for seed in 0..3 {
        for number in 0..33 * SORTS {
            let bytes = random_recording(seed, number);
            assert_eq!(bytes, random_recording(seed, number));
            let replay = replay(&bytes);
            let as_asked = match number % SORTS {
                0 => matches!(replay, Replay::AllAgree { entries: 0..=60 }),
                1 => replay == Replay::AllAgree { entries: 0 },
                2..=12 | 14 => matches!(replay, Replay::Differs { .. }),
                13 => replay == Replay::CutEntry,
                16 => replay == Replay::UnknownVersion,
                15 | 17..=20 => replay == Replay::NotARecording,
                _ => matches!(replay, Replay::AllAgree { .. } | Replay::Differs { .. }),
            };
            assert!(as_asked, "{seed} {number}: {replay:?}");
        }
    }
}

/// Cuts of every length come up after agreeing entries and after others; all
/// counts of entries come up where all agree.
#[test]
fn random_recordings_meet_every_length() {
    let mut cuts = [[0; 34]; 2];
    let mut counts = [0; 61];
    for number in 0..1000 * SORTS {
        match number % SORTS {
            0 => {
                let bytes = random_recording(7, number);
                counts[(bytes.len() - 5) / 34] += 1;
            }
            sort @ 13..=14 => {
                let bytes = random_recording(7, number);
                cuts[sort as usize - 13][(bytes.len() - 5) % 34] += 1;
            }
            _ => {}
        }
    }
    for cuts in cuts {
        assert!(cuts[0] == 0 && cuts[1..].iter().all(|count| *count > 0));
    }
    assert!(counts.iter().all(|count| *count > 0), "{counts:?}");
}
