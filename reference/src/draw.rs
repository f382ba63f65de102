//! Drawing into lists of a caller's. Ask 7 made two operations of it, one for the points
//! and one for the indices, so that either can be kept while the other changes.
//!
//! The answers keep their numbers from the section "What the cutter says" and
//! from Ask 10. 2 belonged to an answer that Ask 6 took out, and stays unused.

use crate::patch::{Patch, Settings};
use crate::tessellate::{tessellate, Answer};

/// What drawing points answers.
#[derive(Clone, Copy, Debug, PartialEq, Eq)]
pub enum PointsAnswer {
    Drawn { points: usize },
    Discarded,
    NoRoomForVertices,
    BadTop,
}

impl PointsAnswer {
    pub fn number(&self) -> u32 {
        match self {
            PointsAnswer::Drawn { .. } => 0,
            PointsAnswer::Discarded => 1,
            PointsAnswer::NoRoomForVertices => 3,
            PointsAnswer::BadTop => 11,
        }
    }
}

/// What drawing indices answers.
#[derive(Clone, Copy, Debug, PartialEq, Eq)]
pub enum IndicesAnswer {
    Drawn { indices: usize },
    Discarded,
    NoRoomForIndices,
    BadTop,
}

impl IndicesAnswer {
    pub fn number(&self) -> u32 {
        match self {
            IndicesAnswer::Drawn { .. } => 0,
            IndicesAnswer::Discarded => 1,
            IndicesAnswer::NoRoomForIndices => 4,
            IndicesAnswer::BadTop => 11,
        }
    }
}

/// Ask 7, the points: 11 where the top is none, else the lowest of 0, 1 and 3
/// that applies. The list changes only when the answer is "drawn", and then only
/// in the three words of each point.
pub fn draw_points(patch: &Patch, settings: &Settings, vertex_list: &mut [u32]) -> PointsAnswer {
    let points = match tessellate(patch, settings) {
        Answer::BadTop => return PointsAnswer::BadTop,
        Answer::Discarded => return PointsAnswer::Discarded,
        Answer::Drawn { points, .. } => points,
    };
    let Some(words) = vertex_list.get_mut(..3 * points.len()) else {
        return PointsAnswer::NoRoomForVertices;
    };
    words.copy_from_slice(points.as_flattened());
    PointsAnswer::Drawn {
        points: points.len(),
    }
}

/// Ask 7, the indices: 11 where the top is none, else the lowest of 0, 1 and 4
/// that applies. The list changes only when the answer is "drawn", and then only
/// as far as the count goes. No patch has more than 4,225 points (Ask 6), so
/// every index fits in a u16.
pub fn draw_indices(patch: &Patch, settings: &Settings, index_list: &mut [u16]) -> IndicesAnswer {
    let indices = match tessellate(patch, settings) {
        Answer::BadTop => return IndicesAnswer::BadTop,
        Answer::Discarded => return IndicesAnswer::Discarded,
        Answer::Drawn { indices, .. } => indices,
    };
    let Some(words) = index_list.get_mut(..indices.len()) else {
        return IndicesAnswer::NoRoomForIndices;
    };
    for (place, index) in words.iter_mut().zip(&indices) {
        *place = *index as u16;
    }
    IndicesAnswer::Drawn {
        indices: indices.len(),
    }
}
