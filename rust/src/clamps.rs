//! What measuring says of each level: whether it had to be clamped.

use crate::patch::Patch;

/// Where a level lies against the range it is clamped to: 1 to the top for equal spacing, 2 to the top for fractional even,
/// 1 to one less than the top for fractional odd. Either end is inside.
#[derive(Clone, Copy, Debug, PartialEq, Eq)]
pub enum Clamp {
    /// The low end was taken instead, for an inner NaN too.
    Below,
    Inside,
    /// The high end was taken instead.
    Above,
}

/// A [`Clamp`] for each level that counts, by the levels' names in [`Patch`].
///
/// ```
/// use yoktvarim::{measure, Clamp, Clamps, Patch, Settings, Size};
///
/// let patch = Patch::Isolines { outer: [64.0, 100.0] };
/// let Size::Counts { clamps, .. } = measure(&patch, &Settings::default()) else {
///     panic!("not discarded");
/// };
/// assert_eq!(clamps, Clamps::Isolines { outer: [Clamp::Inside, Clamp::Above] });
/// ```
#[derive(Clone, Copy, Debug, PartialEq, Eq)]
pub enum Clamps {
    Triangles {
        outer: [Clamp; 3],
        inner: Clamp,
    },
    Quads {
        outer: [Clamp; 4],
        inner: [Clamp; 2],
    },
    /// The range of the number of lines is that of equal spacing, whatever spacing is asked.
    Isolines {
        outer: [Clamp; 2],
    },
}

fn clamp_of(byte: u8) -> Clamp {
    match byte {
        1 => Clamp::Below,
        2 => Clamp::Inside,
        3 => Clamp::Above,
        _ => unreachable!("a level that counts is reported by 1, 2 or 3 and not {byte}"),
    }
}

/// The six bytes of a call that measured this patch; those of levels that do not count are not looked at.
pub(crate) fn clamps_of(patch: &Patch, bytes: [u8; 6]) -> Clamps {
    let [a, b, c, d, inner, columns] = bytes;
    match patch {
        Patch::Triangles { .. } => Clamps::Triangles {
            outer: [a, b, c].map(clamp_of),
            inner: clamp_of(inner),
        },
        Patch::Quads { .. } => Clamps::Quads {
            outer: [a, b, c, d].map(clamp_of),
            inner: [inner, columns].map(clamp_of),
        },
        Patch::Isolines { .. } => Clamps::Isolines {
            outer: [a, b].map(clamp_of),
        },
    }
}
