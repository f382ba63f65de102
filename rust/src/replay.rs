//! Replaying a recorded session: every call is made again, and its answer compared with the recorded one.

use crate::raw;

/// What was answered to a recorded call: the answer's number, and the counts, which are 0 unless it is 0, "drawn".
#[derive(Clone, Copy, Debug, PartialEq, Eq)]
pub struct Outcome {
    pub answer: u8,
    pub points: u16,
    pub indices: u16,
}

/// What replaying a recording says.
#[must_use]
#[derive(Clone, Copy, Debug, PartialEq, Eq)]
pub enum Replay {
    /// Every entry agrees with the answer of today; a header alone has no entries.
    AllAgree { entries: u64 },
    /// The first entry, counted from 0, whose answer or counts differ, with both sides.
    Differs {
        entry: u64,
        recorded: Outcome,
        replayed: Outcome,
    },
    /// Under 5 bytes, or they do not begin with the mark `TSR`.
    NotARecording,
    /// The version is not 1.
    UnknownVersion,
    /// Every whole entry agrees, and 1 to 33 bytes are left after them.
    CutEntry,
}

/// Replays the bytes of a whole recording: the mark `TSR`, the version 1 in two bytes, then entries of 34 bytes, each a job
/// record of version 1, the number of the answer in a byte, and points and indices in two bytes each, low byte first.
///
/// ```
/// use yoktvarim::{replay, Replay};
///
/// let mut recording = b"TSR\x01\0".to_vec();
/// assert_eq!(replay(&recording), Replay::AllAgree { entries: 0 });
/// // A record whose kind is out of range, answered with 8 and no counts.
/// recording.extend([3; 29]);
/// recording.extend([8, 0, 0, 0, 0]);
/// assert_eq!(replay(&recording), Replay::AllAgree { entries: 1 });
/// recording.push(0);
/// assert_eq!(replay(&recording), Replay::CutEntry);
/// ```
///
/// Each record is drawn into lists on the stack, about 100 kB of them.
pub fn replay(bytes: &[u8]) -> Replay {
    let (number, [entry, recorded @ .., a, p, i]) = raw::replay(bytes);
    match number {
        0 => Replay::AllAgree { entries: entry },
        5 => Replay::NotARecording,
        6 => Replay::UnknownVersion,
        7 => Replay::CutEntry,
        60 => Replay::Differs {
            entry,
            recorded: side(recorded),
            replayed: side([a, p, i]),
        },
        _ => unreachable!("the answer is 0, 5, 6, 7 or 60 and not {number}"),
    }
}

/// A byte was read for the number and two bytes for each count, and no answer or count of a patch is larger.
fn side([answer, points, indices]: [u64; 3]) -> Outcome {
    Outcome {
        answer: u8::try_from(answer).expect("a number of one byte"),
        points: u16::try_from(points).expect("a count of two bytes"),
        indices: u16::try_from(indices).expect("a count of two bytes"),
    }
}
