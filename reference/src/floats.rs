//! Ask 1: drawing with a third list, of f32 coordinates.
//!
//! By Ask 7 this is one call that draws all three lists or none of them, and by
//! Ask 10 it looks at the top first of all.

use crate::patch::{Patch, Settings};
use crate::tessellate::{tessellate, Answer};

/// What drawing with floats answers.
#[derive(Clone, Copy, Debug, PartialEq, Eq)]
pub enum FloatsAnswer {
    Drawn { points: usize, indices: usize },
    Discarded,
    NoRoomForVertices,
    NoRoomForIndices,
    NoRoomForFloats,
    BadTop,
}

impl FloatsAnswer {
    pub fn number(&self) -> u32 {
        match self {
            FloatsAnswer::Drawn { .. } => 0,
            FloatsAnswer::Discarded => 1,
            FloatsAnswer::NoRoomForVertices => 3,
            FloatsAnswer::NoRoomForIndices => 4,
            FloatsAnswer::NoRoomForFloats => 9,
            FloatsAnswer::BadTop => 11,
        }
    }
}

/// Ask 1: whole / one as the nearest f32, and of two equally near ones the one
/// with an even last bit. `one` is above 0. The bits are found by long division
/// of whole numbers.
pub fn coordinate(whole: u32, one: u32) -> f32 {
    if whole == 0 {
        return 0.0;
    }
    let (mut dividend, mut divisor) = (u64::from(whole), u64::from(one));
    let mut exponent: u32 = 127; // stands for 2^0
    while dividend < divisor {
        dividend *= 2;
        exponent -= 1;
    }
    while dividend >= 2 * divisor {
        divisor *= 2;
        exponent += 1;
    }
    // The quotient is now from 1 to below 2; its first bit is not stored.
    let mut bits = exponent;
    let mut remainder = dividend - divisor;
    for _ in 0..23 {
        remainder *= 2;
        bits *= 2;
        if remainder >= divisor {
            remainder -= divisor;
            bits += 1;
        }
    }
    let odd = bits % 2 == 1;
    if 2 * remainder > divisor || (2 * remainder == divisor && odd) {
        bits += 1; // carries into the exponent where all fraction bits are set
    }
    f32::from_bits(bits)
}

/// Sections "Triangles" and "Quads": the whole number that stands for 1.
fn whole_number_for_one(patch: &Patch) -> u32 {
    match patch {
        Patch::Triangles { .. } => 196_608,
        Patch::Quads { .. } | Patch::Isolines { .. } => 65_536,
    }
}

/// Ask 1: 11 where the top is none, else the lowest of 0, 1, 3, 4 and 9 that
/// applies. The lists change only when the answer is "drawn", and then only as
/// far as the counts go: three words a point in the first and in the third.
pub fn draw_with_floats(
    patch: &Patch,
    settings: &Settings,
    vertices: &mut [u32],
    indices: &mut [u16],
    floats: &mut [f32],
) -> FloatsAnswer {
    let (points, connections) = match tessellate(patch, settings) {
        Answer::BadTop => return FloatsAnswer::BadTop,
        Answer::Discarded => return FloatsAnswer::Discarded,
        Answer::Drawn { points, indices } => (points, indices),
    };
    let wholes = points.as_flattened();
    if vertices.len() < wholes.len() {
        return FloatsAnswer::NoRoomForVertices;
    }
    if indices.len() < connections.len() {
        return FloatsAnswer::NoRoomForIndices;
    }
    if floats.len() < wholes.len() {
        return FloatsAnswer::NoRoomForFloats;
    }
    vertices[..wholes.len()].copy_from_slice(wholes);
    for (place, index) in indices.iter_mut().zip(&connections) {
        *place = *index as u16;
    }
    let one = whole_number_for_one(patch);
    for (place, whole) in floats.iter_mut().zip(wholes) {
        *place = coordinate(*whole, one);
    }
    FloatsAnswer::Drawn {
        points: points.len(),
        indices: connections.len(),
    }
}
