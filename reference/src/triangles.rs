//! Triangle patches.

use crate::edge::positions;
use crate::level::{division, widen_inner, Division};
use crate::mesh::{closed_walk, Mesh, Primitives};
use crate::patch::Spacing;
use crate::strip;

/// The whole number for a coordinate of 1.
pub const S: u32 = 196_608;

/// Section "Triangles", the walk: edge e lies opposite the corner of coordinate
/// e (u, v, w in turn), starts at the corner of the coordinate after it and ends
/// at the corner of the third.
fn point(e: usize, start: u32, end: u32, opposite: u32) -> [u32; 3] {
    let mut p = [0; 3];
    p[e] = opposite;
    p[(e + 1) % 3] = start;
    p[(e + 2) % 3] = end;
    p
}

/// Section "Triangles", last paragraph: the patch nothing divides.
fn plain() -> Mesh {
    Mesh {
        points: vec![[0, S, 0], [0, 0, S], [S, 0, 0]],
        primitives: Primitives::Triangles(vec![[0, 1, 2]]),
    }
}

/// Section "Triangles", outer ring: every edge is divided by its own level.
pub(crate) fn outer_ring(outer: [Division; 3], points: &mut Vec<[u32; 3]>) -> Vec<Vec<u32>> {
    let first = points.len() as u32;
    for e in 0..3 {
        let q = positions(outer[e]);
        for i in 0..outer[e].n as usize {
            points.push(point(e, S - 3 * q[i], 3 * q[i], 0));
        }
    }
    closed_walk(first, &outer.map(|edge| edge.n))
}

/// Section "Triangles", ring j: divided by the inner level, with j points fewer
/// at both ends of each edge. An even count leaves one point in the middle.
fn inner_ring(j: usize, q: &[u32], points: &mut Vec<[u32; 3]>) -> Vec<Vec<u32>> {
    let first = points.len() as u32;
    let n = q.len() - 1;
    if 2 * j == n {
        points.push([65_536, 65_536, 65_536]);
        return vec![vec![first]; 3];
    }
    for e in 0..3 {
        for i in j..n - j {
            points.push(point(e, S - 3 * q[i] - q[j], 3 * q[i] - q[j], 2 * q[j]));
        }
    }
    closed_walk(first, &[(n - 2 * j) as u32; 3])
}

/// Section "Triangles": the whole patch, every triangle of positive area.
pub fn build(outer: [f32; 3], inner: f32, spacing: Spacing, top: u32) -> Mesh {
    let outer = outer.map(|level| division(level, spacing, top));
    let inner = division(inner, spacing, top);
    if inner.n == 1 && outer.iter().all(|edge| edge.n == 1) {
        return plain();
    }
    let q = positions(widen_inner(inner, spacing));
    let n = q.len() - 1;

    let mut points = Vec::new();
    let mut rings = vec![outer_ring(outer, &mut points)];
    for j in 1..=n / 2 {
        rings.push(inner_ring(j, &q, &mut points));
    }

    let mut triangles = Vec::new();
    for pair in rings.windows(2) {
        for e in 0..3 {
            strip::fill(&pair[0][e], &pair[1][e], &mut triangles);
        }
    }
    if n % 2 == 1 {
        let innermost = &rings[n / 2];
        triangles.push([innermost[0][0], innermost[1][0], innermost[2][0]]);
    }
    Mesh {
        points,
        primitives: Primitives::Triangles(triangles),
    }
}
