//! Drawing in two operations, one for points and one for indices, with answers that no number can be taken for.

use crate::patch::{setting_bytes, six_levels, Patch, Settings};
use crate::raw::{self, Numbered};

/// What drawing points answers. Where several refusals apply, the first of this list is given.
#[must_use = "only `Drawn` means that something was written"]
#[derive(Clone, Copy, Debug, PartialEq, Eq)]
pub enum PointsAnswer {
    /// The list begins with this many points of three words.
    Drawn { points: u32 },
    /// The top is not an even number from 2 to 64.
    BadTop,
    /// An outer level is NaN or not above 0.
    Discarded,
    /// The list has under 3 words a point.
    NoRoomForVertices,
}

/// What drawing indices answers. Where several refusals apply, the first of this list is given.
#[must_use = "only `Drawn` means that something was written"]
#[derive(Clone, Copy, Debug, PartialEq, Eq)]
pub enum IndicesAnswer {
    /// The list begins with this many indices.
    Drawn { indices: u32 },
    /// The top is not an even number from 2 to 64.
    BadTop,
    /// An outer level is NaN or not above 0.
    Discarded,
    /// The list is too short.
    NoRoomForIndices,
}

/// Writes the points of the patch to the front of the list, each as u, v, w. Words past those stay as they were, and every
/// answer but `Drawn` leaves the whole list as it was.
pub fn draw_points(patch: &Patch, settings: &Settings, vertices: &mut [u32]) -> PointsAnswer {
    let Numbered { number, count } = raw::draw_points(
        &setting_bytes(patch, settings),
        &six_levels(patch),
        vertices,
    );
    match number {
        0 => PointsAnswer::Drawn { points: count },
        1 => PointsAnswer::Discarded,
        3 => PointsAnswer::NoRoomForVertices,
        11 => PointsAnswer::BadTop,
        _ => {
            unreachable!("every setting is known, so the answer is 0, 1, 3 or 11 and not {number}")
        }
    }
}

/// Writes the indices of the patch, which number its points from 0, to the front of the list. Words past those stay as they
/// were, and every answer but `Drawn` leaves the whole list as it was.
///
/// Indices may be kept while points are drawn again: two patches of the same kind, point mode, vertex order and origin,
/// neither discarded, have equal indices if both are the plain patch, which nothing divides, or if neither is and each of
/// their levels gives as many segments (an inner level's 1 raised as the rules say).
///
/// ```
/// use yoktvarim::{
///     draw_indices, draw_points, IndicesAnswer, Patch, PointsAnswer, Settings, Spacing, INDEX_WORDS, VERTEX_WORDS,
/// };
///
/// let settings = Settings { spacing: Spacing::FractionalOdd, ..Settings::default() };
/// let at = |slider| Patch::Quads { outer: [slider; 4], inner: [slider; 2] };
/// let mut vertices = vec![0; VERTEX_WORDS];
/// let mut indices = vec![0; INDEX_WORDS];
///
/// // With odd spacing every level above 3 and up to 5 gives five segments.
/// assert_eq!(draw_indices(&at(3.5), &settings, &mut indices), IndicesAnswer::Drawn { indices: 150 });
/// for slider in [3.5, 4.0, 4.5, 5.0] {
///     // The points move, and the indices hold for them.
///     assert_eq!(draw_points(&at(slider), &settings, &mut vertices), PointsAnswer::Drawn { points: 36 });
/// }
///
/// // Drawn again, they would be the same.
/// let kept = indices.clone();
/// assert_eq!(draw_indices(&at(5.0), &settings, &mut indices), IndicesAnswer::Drawn { indices: 150 });
/// assert_eq!(indices, kept);
/// ```
pub fn draw_indices(patch: &Patch, settings: &Settings, indices: &mut [u16]) -> IndicesAnswer {
    let Numbered { number, count } =
        raw::draw_indices(&setting_bytes(patch, settings), &six_levels(patch), indices);
    match number {
        0 => IndicesAnswer::Drawn { indices: count },
        1 => IndicesAnswer::Discarded,
        4 => IndicesAnswer::NoRoomForIndices,
        11 => IndicesAnswer::BadTop,
        _ => {
            unreachable!("every setting is known, so the answer is 0, 1, 4 or 11 and not {number}")
        }
    }
}
