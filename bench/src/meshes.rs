//! Meshes that are refused by the check, and pairs of meshes that are compared.

use crate::cases::{Case, CASES, HALF, SMALL};
use crate::proved::{self, Lists};
use reference::MeshRef;

/// A mesh with the patch that it is checked for.
pub struct Mesh {
    pub case: &'static Case,
    pub points: Vec<u32>,
    pub indices: Vec<u16>,
}

impl Mesh {
    /// The mesh as the reference program takes it.
    pub fn lent(&self) -> MeshRef<'_> {
        MeshRef {
            points: &self.points,
            indices: &self.indices,
        }
    }
}

/// The mesh of a patch as it is drawn.
fn drawn(case: &'static Case) -> Mesh {
    let mut lists = Lists::new();
    let (points, indices) = proved::draw(case, &mut lists);
    lists.vertices.truncate(3 * points);
    lists.indices.truncate(indices);
    Mesh {
        case,
        points: lists.vertices,
        indices: lists.indices,
    }
}

/// The mesh after an edit of its indices.
fn edited(mut mesh: Mesh, edit: impl Fn(&mut Vec<u16>)) -> Mesh {
    edit(&mut mesh.indices);
    mesh
}

/// Slots of the table that points are put into.
const SLOTS: u32 = 16_381;

/// The largest quad patch's triangles over other points, of which all have one slot: the first of them has row `from`.
fn one_slot(from: u32) -> Mesh {
    let mut mesh = drawn(&CASES[0]);
    let count = mesh.points.len() as u32 / 3;
    mesh.points = (0..count)
        .flat_map(|k| {
            let v = from + k / 4;
            let u = (SLOTS - 65 * v % SLOTS) % SLOTS + SLOTS * (k % 4);
            [u, v, 0]
        })
        .collect();
    mesh
}

/// A name and its mesh.
type Refused = (&'static str, fn() -> Mesh);

pub const REFUSED: [Refused; 6] = [
    ("quads 64, a triangle repeated", || {
        edited(drawn(&CASES[0]), |indices| indices.extend_from_within(..3))
    }),
    ("quads 64, the first missing", || {
        edited(drawn(&CASES[0]), |indices| {
            indices.drain(..3);
        })
    }),
    ("quads 64, the last missing", || {
        edited(drawn(&CASES[0]), |indices| {
            indices.truncate(indices.len() - 3)
        })
    }),
    ("quads 64, each second missing", || {
        edited(drawn(&CASES[0]), |indices| {
            *indices = indices
                .chunks(6)
                .flat_map(|pair| pair[..3].to_vec())
                .collect()
        })
    }),
    ("quads odd 4, the last missing", || {
        edited(drawn(&SMALL[8]), |indices| {
            indices.truncate(indices.len() - 3)
        })
    }),
    ("4,225 points in one slot", || one_slot(0)),
];

/// A name and its two meshes.
type Pair = (&'static str, fn() -> (Mesh, Mesh));

pub const PAIRS: [Pair; 7] = [
    ("quads 64, even 63.5", || (drawn(&CASES[0]), drawn(&HALF))),
    ("quads 64, each triangle flipped", || {
        let flipped = edited(drawn(&CASES[0]), |indices| {
            indices.chunks_mut(3).for_each(|corners| corners.swap(1, 2))
        });
        (drawn(&CASES[0]), flipped)
    }),
    ("quads 64, itself", || (drawn(&CASES[0]), drawn(&CASES[0]))),
    ("quads 64, itself shuffled", || {
        let shuffled = edited(drawn(&CASES[0]), |indices| crate::shuffle(indices));
        (drawn(&CASES[0]), shuffled)
    }),
    ("triangles 64, quads 64", || {
        (drawn(&CASES[1]), drawn(&CASES[0]))
    }),
    ("quads 4, quads odd 3.7", || {
        (drawn(&CASES[3]), drawn(&CASES[6]))
    }),
    ("4,225 points in one slot", || {
        (one_slot(0), one_slot(2_000))
    }),
];
