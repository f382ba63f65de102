//! Two designers on one vertex list and one index list, each with a quota of words in both: neither can disturb the other.
//!
//! ```
//! use yoktvarim::shared::{Designer, DrawAnswer, Quota, Shared};
//! use yoktvarim::{Patch, Settings};
//!
//! let (mut vertices, mut indices) = ([0; 60], [0; 60]);
//! let quota = Quota { vertices: 30, indices: 30 };
//! let mut shared = Shared::start(&vertices, &indices, [quota, quota]).expect("the quotas fit");
//!
//! let patch = Patch::Triangles { outer: [1.0, 1.0, 1.0], inner: 2.0 };
//! let settings = Settings::default();
//! for designer in [Designer::First, Designer::Second, Designer::Second] {
//!     let answer = shared.draw(designer, &patch, &settings, &mut vertices, &mut indices);
//!     assert_eq!(answer, DrawAnswer::Drawn { points: 4, indices: 9 });
//! }
//! // The second designer's part begins at word 30; the second patch there counts on from its 4 points.
//! assert_eq!(indices[30..48], [0, 1, 3, 1, 2, 3, 2, 0, 3, 4, 5, 7, 5, 6, 7, 6, 4, 7]);
//! // The first designer's quota does not show what the second has used, nor the other way round.
//! assert_eq!(shared.vertices.shares[0].used, 12);
//! ```
//!
//! Take any calls since a start, each with the state that the last one left and, unless it is refused, the same two lists,
//! which nobody else writes. What one designer gets (every answer, every count and every word of the own part) is then the
//! same as if the other had made none of them; and answers depend only on the own quotas, the own calls and the two lists'
//! lengths at the start. Nothing is promised about time: how long a call takes may depend on what is drawn, and two calls at
//! once are not made, since each borrows the state and the lists.

use crate::patch::{setting_bytes, six_levels, Patch, Settings};
use crate::raw;

/// Whose part of the lists a call is about.
#[derive(Clone, Copy, Debug, PartialEq, Eq)]
pub enum Designer {
    /// The part from word 0 on.
    First,
    /// The part right after the first one's.
    Second,
}

/// What a designer asks for at the start, in words.
#[derive(Clone, Copy, Debug, PartialEq, Eq)]
#[repr(C)]
pub struct Quota {
    pub vertices: u64,
    pub indices: u64,
}

/// One designer's part of a list: how many words it has, and how many of them are used, from its first word on.
#[derive(Clone, Copy, Debug, PartialEq, Eq)]
#[repr(C)]
pub struct Share {
    pub quota: u64,
    pub used: u64,
}

/// A list's length at the start, and the parts of both designers.
#[derive(Clone, Copy, Debug, PartialEq, Eq)]
#[repr(C)]
pub struct SharedList {
    pub length: u64,
    pub shares: [Share; 2],
}

/// How two lists are shared. It holds numbers only and may hold any: a state that cannot be is answered with `BadState`.
#[derive(Clone, Copy, Debug, PartialEq, Eq)]
#[repr(C)]
pub struct Shared {
    pub vertices: SharedList,
    pub indices: SharedList,
}

/// The quotas of both designers add up past a list.
#[derive(Clone, Copy, Debug, PartialEq, Eq)]
pub struct QuotasTooLarge;

/// What drawing answers. Where several refusals apply, the first of this list is given.
#[must_use = "only `Drawn` means that something was written"]
#[derive(Clone, Copy, Debug, PartialEq, Eq)]
pub enum DrawAnswer {
    /// This many points of three words and this many indices were appended to the designer's part.
    Drawn { points: u32, indices: u32 },
    /// The top is not an even number from 2 to 64.
    BadTop,
    /// A list has another length than at the start, or the state has quotas past a list, more used than a quota or part of
    /// a point used.
    BadState,
    /// An outer level is NaN or not above 0.
    Discarded,
    /// The designer's part would have more than 65,535 points.
    TooManyPoints,
    /// Too little is left of this designer's quota of vertex words.
    NoRoomForVertices,
    /// Too little is left of this designer's quota of index words.
    NoRoomForIndices,
}

/// What clearing answers.
#[must_use = "only `Cleared` means that the room is free again"]
#[derive(Clone, Copy, Debug, PartialEq, Eq)]
pub enum ClearAnswer {
    Cleared,
    /// As for drawing.
    BadState,
}

impl Designer {
    fn number(self) -> u32 {
        match self {
            Designer::First => 0,
            Designer::Second => 1,
        }
    }
}

impl Shared {
    /// Gives both designers their quotas of these lists, the first designer's first. Nothing is used of either part, whatever
    /// the words are; an earlier state of the same lists has ended.
    pub fn start(
        vertices: &[u32],
        indices: &[u16],
        quotas: [Quota; 2],
    ) -> Result<Shared, QuotasTooLarge> {
        let nothing = SharedList {
            length: 0,
            shares: [Share { quota: 0, used: 0 }; 2],
        };
        let mut state = Shared {
            vertices: nothing,
            indices: nothing,
        };
        match raw::share_start(vertices, indices, &quotas, &mut state) {
            0 => Ok(state),
            12 => Err(QuotasTooLarge),
            number => unreachable!("starting answers 0 or 12 and not {number}"),
        }
    }

    /// Appends the points and the indices of the patch to the designer's part of each list, or neither. The indices count from
    /// the part's beginning. Every answer but `Drawn` leaves the state and both lists as they were.
    pub fn draw(
        &mut self,
        designer: Designer,
        patch: &Patch,
        settings: &Settings,
        vertices: &mut [u32],
        indices: &mut [u16],
    ) -> DrawAnswer {
        let (settings, levels) = (setting_bytes(patch, settings), six_levels(patch));
        let (number, counts) = raw::share_draw(
            self,
            designer.number(),
            &settings,
            &levels,
            vertices,
            indices,
        );
        match number {
            0 => DrawAnswer::Drawn {
                points: counts[0],
                indices: counts[1],
            },
            1 => DrawAnswer::Discarded,
            3 => DrawAnswer::NoRoomForVertices,
            4 => DrawAnswer::NoRoomForIndices,
            11 => DrawAnswer::BadTop,
            13 => DrawAnswer::TooManyPoints,
            14 => DrawAnswer::BadState,
            _ => {
                unreachable!("the designer and every setting are known, and the answer is {number}")
            }
        }
    }

    /// Gives the room of the designer's part back. Its words stay as they are until they are written over.
    pub fn clear(&mut self, designer: Designer, vertices: &[u32], indices: &[u16]) -> ClearAnswer {
        match raw::share_clear(self, designer.number(), vertices, indices) {
            0 => ClearAnswer::Cleared,
            14 => ClearAnswer::BadState,
            number => unreachable!("the designer is known, and the answer is {number}"),
        }
    }
}
