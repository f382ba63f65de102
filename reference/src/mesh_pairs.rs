//! Seeded pseudo random pairs of meshes for Ask 12.

use crate::damage_mesh::{
    add_words, drawn, drop_triangle, flip_triangle, lists, move_inside, one_in, permute_points,
    permute_triangles, place, repeat_triangle, rotate_corners, set_index_past_points, shuffle,
    some_point, Damage, DamagedMesh,
};
use crate::patch::Patch;
use crate::random::Random;

/// Two meshes to be compared.
#[derive(Clone, Debug, PartialEq, Eq)]
pub struct Pair {
    pub left_points: Vec<u32>,
    pub left_indices: Vec<u16>,
    pub right_points: Vec<u32>,
    pub right_indices: Vec<u16>,
}

/// How many sorts of pairs there are.
pub const PAIRS: u64 = 19;

/// One pair. The sort is `number` modulo the number of sorts; everything else
/// comes from both numbers together.
pub fn random_pair(seed: u64, number: u64) -> Pair {
    let mixed_seed = Random::new(seed).next() ^ Random::new(!number).next();
    let random = &mut Random::new(mixed_seed);
    let mut left = surface(random);
    let mut right = left.clone();
    match number % PAIRS {
        // a mesh and itself
        0 => {}
        // the same mesh in another order
        1 => permute_points(random, &mut right),
        2 => rotate_corners(random, &mut right),
        3 => permute_triangles(random, &mut right),
        4 => {
            for change in [permute_points, rotate_corners, permute_triangles] {
                change(random, &mut right);
            }
        }
        // other triangles on the same points
        5 => flip_triangle(random, &mut right),
        6 => repeat_triangles(random, &mut left),
        7 => repeat_triangles(random, &mut right),
        8 => {
            // The repeated triangles may then differ as well.
            repeat_triangles(random, &mut left);
            repeat_triangles(random, &mut right);
            for mesh in [&mut left, &mut right] {
                drop_triangle(random, mesh);
                flip_triangle(random, mesh);
            }
        }
        9 => {
            let shorter = either(random, &mut left, &mut right);
            drop_triangle(random, shorter);
        }
        // other points
        10 => move_inside(random, &mut right),
        11 => right = surface(random),
        12 => change_inner_level(random, &mut right),
        // two corners of a triangle the same
        13 => add_flat_triangles(random, &mut left, &mut right),
        // refusals
        14 => refuse(random, &mut left),
        15 => refuse(random, &mut right),
        16 => {
            refuse(random, &mut left);
            refuse(random, &mut right);
        }
        // nothing at all, or no triangles
        17 => {
            let emptied = either(random, &mut left, &mut right);
            emptied.indices.clear();
            if one_in(random, 2) {
                emptied.points.clear();
            }
            if one_in(random, 4) {
                left = emptied.clone();
                right = left.clone();
            }
        }
        // few coordinates, so that much coincides
        _ => {
            let words: &[u32] = match random.below(3) {
                0 => &[0, 1],
                1 => &[0, 1, 2],
                _ => &[0, 1 << 31, u32::MAX],
            };
            left = from_few_words(random, words, &left);
            right = from_few_words(random, words, &right);
        }
    }
    Pair {
        left_points: left.points,
        left_indices: left.indices,
        right_points: right.points,
        right_indices: right.indices,
    }
}

fn either<'a>(
    random: &mut Random,
    left: &'a mut DamagedMesh,
    right: &'a mut DamagedMesh,
) -> &'a mut DamagedMesh {
    if one_in(random, 2) {
        left
    } else {
        right
    }
}

/// A mesh of triangles.
fn surface(random: &mut Random) -> DamagedMesh {
    loop {
        let mesh = drawn(random);
        let lines = matches!(mesh.patch, Patch::Isolines { .. });
        if !lines && !mesh.settings.point_mode && !mesh.points.is_empty() {
            return mesh;
        }
    }
}

fn repeat_triangles(random: &mut Random, mesh: &mut DamagedMesh) {
    for _ in 0..1 + random.below(3) {
        repeat_triangle(random, mesh);
    }
}

/// The mesh of the same patch with its inner level, or one of them, raised by 1.
fn change_inner_level(random: &mut Random, mesh: &mut DamagedMesh) {
    match &mut mesh.patch {
        Patch::Triangles { inner, .. } => *inner += 1.0,
        Patch::Quads { inner, .. } => inner[place(random, 2)] += 1.0,
        Patch::Isolines { .. } => {}
    }
    (mesh.points, mesh.indices) = lists(&mesh.patch, &mesh.settings);
}

/// Triangles with equal corners, most of them on both sides, rotated or not.
fn add_flat_triangles(random: &mut Random, left: &mut DamagedMesh, right: &mut DamagedMesh) {
    let count = left.points.len() / 3;
    for _ in 0..1 + random.below(4) {
        let (a, b) = (place(random, count) as u16, place(random, count) as u16);
        for mesh in [&mut *left, &mut *right] {
            if !one_in(random, 4) {
                let mut corners = match random.below(8) {
                    0 => [a, a, a],
                    1..=2 => [b, b, a],
                    _ => [a, a, b],
                };
                corners.rotate_left(place(random, 3));
                mesh.indices.extend(corners);
            }
        }
    }
}

/// A point once more at the end of the list.
fn repeat_point(random: &mut Random, mesh: &mut DamagedMesh) {
    let point = *some_point(random, mesh);
    mesh.points.extend(point);
}

/// One reason to be refused, or two.
fn refuse(random: &mut Random, mesh: &mut DamagedMesh) {
    const REASONS: [Damage; 3] = [add_words, set_index_past_points, repeat_point];
    for _ in 0..1 + random.below(2) {
        REASONS[place(random, REASONS.len())](random, mesh);
    }
}

/// Different points from the words given, in any order, and triangles with any
/// corners; patch and settings have no meaning here.
fn from_few_words(random: &mut Random, words: &[u32], like: &DamagedMesh) -> DamagedMesh {
    let mut points = Vec::new();
    for u in words {
        for v in words {
            points.extend(words.iter().map(|w| [*u, *v, *w]));
        }
    }
    shuffle(random, &mut points);
    points.truncate(1 + place(random, points.len()));
    let indices = (0..3 * random.below(40)).map(|_| place(random, points.len()) as u16);
    DamagedMesh {
        indices: indices.collect(),
        points: points.into_flattened(),
        ..like.clone()
    }
}
