//! Ask 12: what changed between two triangle meshes.

use std::collections::HashSet;
use std::hash::Hash;

pub use crate::mesh_pairs::{random_pair, Pair};

/// Ask 12: why a mesh is refused, in the order of looking.
#[derive(Clone, Copy, Debug, PartialEq, Eq)]
pub enum MeshFault {
    NotThrees,
    UnknownIndex,
    EqualPoints,
}

/// What comparing answers. `NoRoom` has the full number too, and nothing is
/// written for it.
#[derive(Clone, Copy, Debug, PartialEq, Eq)]
pub enum Comparison {
    Differences { count: usize },
    NoRoom { count: usize },
    LeftRefused(MeshFault),
    RightRefused(MeshFault),
}

/// A mesh as it is lent: three words a point, three indices a triangle.
#[derive(Clone, Copy, Debug)]
pub struct MeshRef<'a> {
    pub points: &'a [u32],
    pub indices: &'a [u16],
}

/// The two values of a difference's first word.
const POINT: u64 = 0;
const TRIANGLE: u64 = 1;

/// The two values of a difference's second word.
const LEFT: u64 = 0;
const RIGHT: u64 = 1;

type Point = [u32; 3];

/// A mesh without fault: its points and triangles by coordinates. Corners are
/// rotated so that two triangles are the same exactly when their rows are equal.
struct Coordinates {
    points: Vec<Point>,
    triangles: Vec<[Point; 3]>,
}

impl Coordinates {
    fn read(mesh: MeshRef) -> Result<Coordinates, MeshFault> {
        let ((points, []), (triangles, [])) =
            (mesh.points.as_chunks::<3>(), mesh.indices.as_chunks::<3>())
        else {
            return Err(MeshFault::NotThrees);
        };
        let unknown = |index: &u16| usize::from(*index) >= points.len();
        if mesh.indices.iter().any(unknown) {
            return Err(MeshFault::UnknownIndex);
        }
        let mut different = HashSet::with_capacity(points.len());
        if !points.iter().all(|point| different.insert(*point)) {
            return Err(MeshFault::EqualPoints);
        }
        let corners = |triangle: &[u16; 3]| triangle.map(|index| points[usize::from(index)]);
        Ok(Coordinates {
            points: points.to_vec(),
            triangles: triangles
                .iter()
                .map(|t| least_rotation(corners(t)))
                .collect(),
        })
    }
}

/// The one of a triangle's three rotations that comes first in order. Corners
/// may be equal.
fn least_rotation([p, q, r]: [Point; 3]) -> [Point; 3] {
    [p, q, r].min([q, r, p]).min([r, p, q])
}

/// The numbers of the entries in `here` that `there` does not have, the lowest
/// one of those that repeat.
fn only_here<T: Copy + Eq + Hash>(here: &[T], there: &[T]) -> Vec<u64> {
    let mut known: HashSet<T> = there.iter().copied().collect();
    let new = |(number, entry): (usize, &T)| known.insert(*entry).then_some(number as u64);
    here.iter().enumerate().filter_map(new).collect()
}

/// Ask 12: three words a difference, points before triangles and left before
/// right, written only when all of them fit.
pub fn compare(left: MeshRef, right: MeshRef, out: &mut [u64]) -> Comparison {
    let left = match Coordinates::read(left) {
        Ok(left) => left,
        Err(fault) => return Comparison::LeftRefused(fault),
    };
    let right = match Coordinates::read(right) {
        Ok(right) => right,
        Err(fault) => return Comparison::RightRefused(fault),
    };
    let groups = [
        (POINT, LEFT, only_here(&left.points, &right.points)),
        (POINT, RIGHT, only_here(&right.points, &left.points)),
        (TRIANGLE, LEFT, only_here(&left.triangles, &right.triangles)),
        (
            TRIANGLE,
            RIGHT,
            only_here(&right.triangles, &left.triangles),
        ),
    ];
    let words: Vec<u64> = groups
        .iter()
        .flat_map(|(what, side, numbers)| numbers.iter().flat_map(|n| [*what, *side, *n]))
        .collect();
    let count = words.len() / 3;
    match out.get_mut(..words.len()) {
        None => Comparison::NoRoom { count },
        Some(room) => {
            room.copy_from_slice(&words);
            Comparison::Differences { count }
        }
    }
}
