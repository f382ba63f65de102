//! Ask 11: two designers share one vertex list and one index list.

use crate::patch::{Patch, Settings};
use crate::tessellate::{tessellate, Answer};

/// The words of a list that one designer may use, and those in use.
#[derive(Clone, Copy, Debug, PartialEq, Eq)]
pub struct Share {
    pub quota: u64,
    pub used: u64,
}

/// A list's length at the start, and both designers' parts of it: the first
/// one's from word 0, the second one's right after it.
#[derive(Clone, Copy, Debug, PartialEq, Eq)]
pub struct SharedList {
    pub length: u64,
    pub shares: [Share; 2],
}

/// What goes from call to call.
#[derive(Clone, Copy, Debug, PartialEq, Eq)]
pub struct State {
    pub vertices: SharedList,
    pub indices: SharedList,
}

/// What the operations on shared lists answer.
#[derive(Clone, Copy, Debug, PartialEq, Eq)]
pub enum ShareAnswer {
    Drawn { points: u32, indices: u32 },
    Discarded,
    NoRoomForVertices,
    NoRoomForIndices,
    BadTop,
    QuotasTooLarge,
    TooManyPoints,
    BadState,
    Started,
    Cleared,
}

impl ShareAnswer {
    pub fn number(&self) -> u32 {
        match self {
            ShareAnswer::Drawn { .. } | ShareAnswer::Started | ShareAnswer::Cleared => 0,
            ShareAnswer::Discarded => 1,
            ShareAnswer::NoRoomForVertices => 3,
            ShareAnswer::NoRoomForIndices => 4,
            ShareAnswer::BadTop => 11,
            ShareAnswer::QuotasTooLarge => 12,
            ShareAnswer::TooManyPoints => 13,
            ShareAnswer::BadState => 14,
        }
    }
}

/// The most points that a designer's part may hold.
const MOST_POINTS: u64 = 65_535;

impl Share {
    /// Words of the quota that are not in use.
    fn left(&self) -> u64 {
        self.quota - self.used
    }
}

impl SharedList {
    fn new(length: u64, quotas: [u64; 2]) -> SharedList {
        SharedList {
            length,
            shares: quotas.map(|quota| Share { quota, used: 0 }),
        }
    }

    /// Whether both parts lie in the list; a sum past u64 does not.
    fn quotas_fit(&self) -> bool {
        let [first, second] = self.shares;
        let sum = first.quota.checked_add(second.quota);
        sum.is_some_and(|sum| sum <= self.length)
    }

    /// Whether this can be the state of a list of so many words.
    fn describes(&self, words: u64) -> bool {
        let in_quota = |share: &Share| share.used <= share.quota;
        self.length == words && self.quotas_fit() && self.shares.iter().all(in_quota)
    }

    /// The first free word of a designer's part.
    fn front(&self, designer: usize) -> u64 {
        let start = match designer {
            0 => 0,
            _ => self.shares[0].quota,
        };
        start + self.shares[designer].used
    }
}

impl State {
    /// Ask 11, the reverse of 14: nothing is wrong with the state for lists of
    /// these lengths, whoever calls.
    fn is_good(&self, vertex_words: u64, index_words: u64) -> bool {
        let whole_points = |share: &Share| share.used.is_multiple_of(3);
        self.vertices.describes(vertex_words)
            && self.indices.describes(index_words)
            && self.vertices.shares.iter().all(whole_points)
    }
}

/// Ask 11, the start: quotas by designer, vertex words before index words, or 12
/// where they add up past a list.
pub fn start(
    vertex_words: u64,
    index_words: u64,
    quotas: [[u64; 2]; 2],
) -> Result<State, ShareAnswer> {
    let [first, second] = quotas;
    let state = State {
        vertices: SharedList::new(vertex_words, [first[0], second[0]]),
        indices: SharedList::new(index_words, [first[1], second[1]]),
    };
    if state.vertices.quotas_fit() && state.indices.quotas_fit() {
        Ok(state)
    } else {
        Err(ShareAnswer::QuotasTooLarge)
    }
}

/// Ask 11: appends a patch to the part of designer 0 or 1, points and indices or
/// neither. The first of 11, 14, 1, 13, 3 and 4 that applies is answered, and
/// changes nothing.
pub fn draw(
    state: &mut State,
    designer: usize,
    patch: &Patch,
    settings: &Settings,
    vertices: &mut [u32],
    indices: &mut [u16],
) -> ShareAnswer {
    let drawn = tessellate(patch, settings);
    if drawn == Answer::BadTop {
        return ShareAnswer::BadTop;
    }
    if !state.is_good(vertices.len() as u64, indices.len() as u64) {
        return ShareAnswer::BadState;
    }
    let Answer::Drawn {
        points: new_points,
        indices: new_indices,
    } = drawn
    else {
        return ShareAnswer::Discarded;
    };
    let points_before = state.vertices.shares[designer].used / 3;
    if points_before + new_points.len() as u64 > MOST_POINTS {
        return ShareAnswer::TooManyPoints;
    }
    let new_words = new_points.as_flattened();
    if state.vertices.shares[designer].left() < new_words.len() as u64 {
        return ShareAnswer::NoRoomForVertices;
    }
    if state.indices.shares[designer].left() < new_indices.len() as u64 {
        return ShareAnswer::NoRoomForIndices;
    }

    let front = state.vertices.front(designer) as usize;
    vertices[front..front + new_words.len()].copy_from_slice(new_words);
    let front = state.indices.front(designer) as usize;
    for (word, index) in indices[front..].iter_mut().zip(&new_indices) {
        // Below 65,535, as there are no more points than that.
        *word = points_before as u16 + *index as u16;
    }
    state.vertices.shares[designer].used += new_words.len() as u64;
    state.indices.shares[designer].used += new_indices.len() as u64;
    ShareAnswer::Drawn {
        points: new_points.len() as u32,
        indices: new_indices.len() as u32,
    }
}

/// Ask 11: gives a designer's room back, in lists of these lengths, or 14. No
/// word of the lists changes.
pub fn clear(
    state: &mut State,
    designer: usize,
    vertex_words: u64,
    index_words: u64,
) -> ShareAnswer {
    if !state.is_good(vertex_words, index_words) {
        return ShareAnswer::BadState;
    }
    state.vertices.shares[designer].used = 0;
    state.indices.shares[designer].used = 0;
    ShareAnswer::Cleared
}
