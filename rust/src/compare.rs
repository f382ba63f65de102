//! Comparing two triangle meshes: the points and triangles that one has and the other has not.
//!
//! Points are the same where their three coordinates agree, whatever their numbers; triangles where their corners agree by
//! coordinates up to rotation, and not by a flip. Meshes may come from anywhere: any lengths and any numbers are answered.
//!
//! ```
//! use yoktvarim::{compare, compare_meshes, Comparison, Difference, Side, What};
//!
//! let square = [0, 1, 0, 0, 0, 0, 1, 0, 0, 1, 1, 0];
//! let left = (&square[..], &[0, 1, 2, 0, 2, 3][..]);
//! let right = (&square[..], &[1, 2, 0, 1, 2, 3][..]); // the first triangle rotated, the other diagonal for the second
//! let mut words = [0; 6];
//! assert_eq!(compare_meshes(left, right, &mut words), Comparison::Differences { count: 2 });
//! let found: Vec<Difference> = compare::differences(&words).collect();
//! assert_eq!(found[0], Difference { what: What::Triangle, side: Side::Left, number: 1 });
//! assert_eq!(found[1], Difference { what: What::Triangle, side: Side::Right, number: 1 });
//! assert_eq!(compare_meshes(left, left, &mut []), Comparison::Differences { count: 0 });
//! ```

use crate::raw;

/// Why a mesh is refused. Where several apply, the first of this list is given.
#[derive(Clone, Copy, Debug, PartialEq, Eq)]
pub enum MeshFault {
    /// The point words or the indices are no multiple of three.
    NotThrees,
    /// An index is past the points.
    UnknownIndex,
    /// Two points are equal.
    EqualPoints,
}

/// What comparing answers. The left mesh is looked at first, then the right one, then the room.
#[must_use = "only `Differences` means that the list holds what is different"]
#[derive(Clone, Copy, Debug, PartialEq, Eq)]
pub enum Comparison {
    /// The list begins with this many differences of three words. 0: both hold the same points and triangles.
    Differences { count: u64 },
    /// So many there are, and the list has under three words for each; nothing was written.
    NoRoom { count: u64 },
    /// The left mesh cannot be compared; nothing was written.
    LeftRefused(MeshFault),
    /// The right mesh cannot be compared; nothing was written.
    RightRefused(MeshFault),
}

/// What is different.
#[derive(Clone, Copy, Debug, PartialEq, Eq)]
pub enum What {
    Point,
    Triangle,
}

/// The mesh that has it; the other has not.
#[derive(Clone, Copy, Debug, PartialEq, Eq)]
pub enum Side {
    Left,
    Right,
}

/// A point or a triangle that only one side has, by its number there; the lowest one, if a triangle is repeated.
#[derive(Clone, Copy, Debug, PartialEq, Eq)]
pub struct Difference {
    pub what: What,
    pub side: Side,
    pub number: u64,
}

/// A mesh as it is lent: point words, three a point, and indices, three a triangle.
pub type MeshWords<'a> = (&'a [u32], &'a [u16]);

/// Writes what only one side has to the front of the list, three words each: the left side's points, the right side's, the left
/// side's triangles, the right side's, each in the order of its own list and each once. Words past those stay as they were, and
/// every answer but `Differences` leaves the whole list as it was. An empty list counts them.
pub fn compare_meshes(left: MeshWords, right: MeshWords, differences: &mut [u64]) -> Comparison {
    let (number, count) = raw::compare_meshes(left, right, differences);
    match number {
        0 => Comparison::Differences { count },
        40 => Comparison::NoRoom { count },
        41 => Comparison::LeftRefused(MeshFault::NotThrees),
        42 => Comparison::LeftRefused(MeshFault::UnknownIndex),
        43 => Comparison::LeftRefused(MeshFault::EqualPoints),
        44 => Comparison::RightRefused(MeshFault::NotThrees),
        45 => Comparison::RightRefused(MeshFault::UnknownIndex),
        46 => Comparison::RightRefused(MeshFault::EqualPoints),
        _ => unreachable!("the answer is 0 or 40 to 46 and not {number}"),
    }
}

/// The differences in the written words; give it three words for each that the answer counts.
///
/// # Panics
///
/// Where the first word of a difference, or the second, is neither 0 nor 1, which no comparison writes.
pub fn differences(words: &[u64]) -> impl Iterator<Item = Difference> + '_ {
    words.chunks_exact(3).map(|words| Difference {
        what: match words[0] {
            0 => What::Point,
            1 => What::Triangle,
            other => panic!("{other} is neither a point nor a triangle"),
        },
        side: match words[1] {
            0 => Side::Left,
            1 => Side::Right,
            other => panic!("{other} is neither left nor right"),
        },
        number: words[2],
    })
}
