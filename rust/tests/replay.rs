//! What replaying says of a recording is what the second program says: of random recordings with and without planted
//! differences, damaged headers and cut ends, of every length of a short one, and of every value of each byte of an entry.

use reference::recording::{self, random_recording};
use yoktvarim::{replay, Outcome, Replay};

fn outcome_here(outcome: recording::Outcome) -> Outcome {
    Outcome {
        answer: outcome.answer,
        points: outcome.points,
        indices: outcome.indices,
    }
}

fn replay_here(replay: recording::Replay) -> Replay {
    match replay {
        recording::Replay::AllAgree { entries } => Replay::AllAgree { entries },
        recording::Replay::Differs {
            entry,
            recorded,
            replayed,
        } => Replay::Differs {
            entry,
            recorded: outcome_here(recorded),
            replayed: outcome_here(replayed),
        },
        recording::Replay::NotARecording => Replay::NotARecording,
        recording::Replay::UnknownVersion => Replay::UnknownVersion,
        recording::Replay::CutEntry => Replay::CutEntry,
    }
}

/// Both say the same, which comes back.
fn compare(bytes: &[u8], name: &str) -> Replay {
    let theirs = recording::replay(bytes);
    let ours = replay(bytes);
    assert_eq!(
        ours,
        replay_here(theirs),
        "{name}: {}",
        recording::line(&theirs)
    );
    ours
}

#[test]
fn random_recordings() {
    let (mut agree, mut differ, mut cut) = (0, 0, 0);
    for seed in 1..=60 {
        for number in 0..44 {
            match compare(&random_recording(seed, number), &format!("{seed} {number}")) {
                Replay::AllAgree { .. } => agree += 1,
                Replay::Differs { .. } => differ += 1,
                Replay::CutEntry => cut += 1,
                Replay::NotARecording | Replay::UnknownVersion => (),
            }
        }
    }
    assert!(
        agree > 100 && differ > 1000 && cut > 50,
        "{agree} {differ} {cut}"
    );
}

#[test]
fn every_short_length() {
    let whole = random_recording(7, 0);
    for length in 0..=whole.len().min(5 + 4 * 34) {
        let _ = compare(&whole[..length], &format!("the first {length} bytes"));
    }
}

#[test]
fn every_value_of_each_byte() {
    let whole = &random_recording(7, 0)[..5 + 34];
    assert_eq!(compare(whole, "one entry"), Replay::AllAgree { entries: 1 });
    for place in 0..whole.len() {
        let mut bytes = whole.to_vec();
        for value in 0..=255 {
            bytes[place] = value;
            let _ = compare(&bytes, &format!("{value} at {place}"));
        }
    }
}

/// Recordings that the second program makes agree, one after the other too.
#[test]
fn many_entries() {
    let mut bytes = random_recording(3, 0);
    let entries = bytes[5..].to_vec();
    while bytes.len() < 34 * 20_000 {
        bytes.extend(&entries);
    }
    let number = ((bytes.len() - 5) / 34) as u64;
    assert_eq!(
        compare(&bytes, "many entries"),
        Replay::AllAgree { entries: number }
    );
    bytes.extend([0; 34]);
    let Replay::Differs { entry, .. } = compare(&bytes, "many entries and a difference") else {
        panic!("the last entry differs");
    };
    assert_eq!(entry, number);
}
