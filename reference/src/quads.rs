//! Quad patches.

use crate::edge::{positions, LENGTH};
use crate::level::{division, widen_inner, Division};
use crate::mesh::{closed_walk, Mesh, Primitives};
use crate::patch::Spacing;
use crate::strip;

/// Section "Quads", the walk: the point `along` units from the start of edge e.
/// The edges go down u = 0, right along v = 0, up u = 1, left along v = 1.
fn outline_point(e: usize, along: u32) -> [u32; 3] {
    match e {
        0 => [0, LENGTH - along, 0],
        1 => [along, 0, 0],
        2 => [LENGTH, along, 0],
        _ => [LENGTH - along, LENGTH, 0],
    }
}

/// Section "Quads", last paragraph: the patch nothing divides.
fn plain() -> Mesh {
    Mesh {
        points: (0..4).map(|e| outline_point(e, 0)).collect(),
        primitives: Primitives::Triangles(vec![[0, 1, 2], [0, 2, 3]]),
    }
}

/// Section "Quads", first part of the points: the four edges, each divided by
/// its own level; every corner is listed once, where an edge starts.
pub(crate) fn outline(outer: [Division; 4], points: &mut Vec<[u32; 3]>) -> Vec<Vec<u32>> {
    for (e, edge) in outer.iter().enumerate() {
        let q = positions(*edge);
        for along in &q[..edge.n as usize] {
            points.push(outline_point(e, *along));
        }
    }
    closed_walk(0, &outer.map(|edge| edge.n))
}

/// Section "Quads": the whole patch, every triangle of positive area.
pub fn build(outer: [f32; 4], inner: [f32; 2], spacing: Spacing, top: u32) -> Mesh {
    let outer = outer.map(|level| division(level, spacing, top));
    let inner = inner.map(|level| division(level, spacing, top));
    if outer.iter().chain(&inner).all(|edge| edge.n == 1) {
        return plain();
    }
    let row_v = positions(widen_inner(inner[0], spacing));
    let column_u = positions(widen_inner(inner[1], spacing));
    let m = row_v.len() as u32 - 1;
    let n = column_u.len() as u32 - 1;

    let mut points = Vec::new();
    let edges = outline(outer, &mut points);
    let grid_start = points.len() as u32;
    for r in 1..m {
        for c in 1..n {
            points.push([column_u[c as usize], row_v[r as usize], 0]);
        }
    }
    // Index of the grid's point in row r and column c.
    let grid = |r: u32, c: u32| grid_start + (r - 1) * (n - 1) + (c - 1);

    // For each edge the row or column next to it, in the direction of the edge.
    let nearest: [Vec<u32>; 4] = [
        (1..m).rev().map(|r| grid(r, 1)).collect(),
        (1..n).map(|c| grid(1, c)).collect(),
        (1..m).map(|r| grid(r, n - 1)).collect(),
        (1..n).rev().map(|c| grid(m - 1, c)).collect(),
    ];
    let mut triangles = Vec::new();
    for e in 0..4 {
        strip::fill(&edges[e], &nearest[e], &mut triangles);
    }
    for r in 1..m - 1 {
        for c in 1..n - 1 {
            triangles.push([grid(r, c), grid(r, c + 1), grid(r + 1, c + 1)]);
            triangles.push([grid(r, c), grid(r + 1, c + 1), grid(r + 1, c)]);
        }
    }
    Mesh {
        points,
        primitives: Primitives::Triangles(triangles),
    }
}
