//! Drawing with floats: points, indices and `f32` coordinates by one call, into three lists or none.
//!
//! A float is the whole coordinate divided once by the number that means 1. For quads and isolines it is exactly that quotient. For
//! triangles it differs from it by at most 2^-25; 0 and 1 are exact. A greater coordinate is a greater float, so no two points of
//! a patch have the same three floats. That the three floats of a triangle's point add up to 1 is not promised.
//!
//! ```
//! use yoktvarim::floats::{draw_with_floats, FloatsAnswer};
//! use yoktvarim::{Patch, Settings, INDEX_WORDS, VERTEX_WORDS};
//!
//! let patch = Patch::Quads { outer: [1.0; 4], inner: [2.0; 2] };
//! let mut vertices = vec![0; VERTEX_WORDS];
//! let mut indices = vec![0; INDEX_WORDS];
//! let mut floats = vec![0.0; VERTEX_WORDS];
//! let answer = draw_with_floats(&patch, &Settings::default(), &mut vertices, &mut indices, &mut floats);
//! assert_eq!(answer, FloatsAnswer::Drawn { points: 5, indices: 12 });
//! assert_eq!(vertices[12..15], [32768, 32768, 0]);
//! assert_eq!(floats[12..15], [0.5, 0.5, 0.0]);
//! ```

use crate::patch::{setting_bytes, six_levels, Patch, Settings};

pub use crate::raw::{draw_with_floats_by_number, FloatsNumbered};

/// What drawing with floats answers. Where several refusals apply, the first of this list is given.
#[must_use = "only `Drawn` means that something was written"]
#[derive(Clone, Copy, Debug, PartialEq, Eq)]
pub enum FloatsAnswer {
    /// The lists begin with this many points of three words, this many indices, and three floats for each point.
    Drawn { points: u32, indices: u32 },
    /// The top is not an even number from 2 to 64.
    BadTop,
    /// An outer level is NaN or not above 0.
    Discarded,
    /// The vertex list has under 3 words a point.
    NoRoomForVertices,
    /// The index list is too short.
    NoRoomForIndices,
    /// The float list has under 3 words a point.
    NoRoomForFloats,
}

/// Writes the points of the patch, its indices and the floats of the points to the fronts of the three lists. Words past those
/// stay as they were, and every answer but `Drawn` leaves all three lists as they were: all room is tested first.
///
/// Points and indices are what [`draw_points`](crate::draw_points) and [`draw_indices`](crate::draw_indices) write.
pub fn draw_with_floats(
    patch: &Patch,
    settings: &Settings,
    vertices: &mut [u32],
    indices: &mut [u16],
    floats: &mut [f32],
) -> FloatsAnswer {
    let FloatsNumbered {
        number,
        counts: [points, corners],
    } = draw_with_floats_by_number(
        &setting_bytes(patch, settings),
        &six_levels(patch),
        vertices,
        indices,
        floats,
    );
    match number {
        0 => FloatsAnswer::Drawn {
            points,
            indices: corners,
        },
        1 => FloatsAnswer::Discarded,
        3 => FloatsAnswer::NoRoomForVertices,
        4 => FloatsAnswer::NoRoomForIndices,
        9 => FloatsAnswer::NoRoomForFloats,
        11 => FloatsAnswer::BadTop,
        _ => unreachable!(
            "every setting is known, so the answer is 0, 1, 3, 4, 9 or 11 and not {number}"
        ),
    }
}
