//! Measuring: what drawing would write, without lists.

use crate::clamps::{clamps_of, Clamps};
use crate::patch::{setting_bytes, six_levels, Patch, Settings};
use crate::raw::{self, Measured};

/// What measuring answers. Where both refusals apply, the bad top is given.
#[must_use]
#[derive(Clone, Copy, Debug, PartialEq, Eq)]
pub enum Size {
    /// Drawing needs 3 words for each point and one for each index; the clamps say which levels were out of range.
    Counts {
        points: u32,
        indices: u32,
        clamps: Clamps,
    },
    /// The top is not an even number from 2 to 64.
    BadTop,
    /// An outer level is NaN or not above 0.
    Discarded,
}

/// How many points and indices drawing would write, and which levels are clamped; it asks for no room.
pub fn measure(patch: &Patch, settings: &Settings) -> Size {
    let Measured {
        number,
        counts: [points, indices],
        clamps,
    } = raw::measure(&setting_bytes(patch, settings), &six_levels(patch));
    match number {
        0 => Size::Counts {
            points,
            indices,
            clamps: clamps_of(patch, clamps),
        },
        1 => Size::Discarded,
        11 => Size::BadTop,
        _ => unreachable!("every setting is known, so the answer is 0, 1 or 11 and not {number}"),
    }
}
