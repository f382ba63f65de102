//! Points along the outer edges: which level divides which edge, and that the level
//! alone decides where the points are.

use crate::drawn::{ensure, expect, meshes, with_each_spacing, Checked, Mesh, Point};
use crate::levels::{clamped, rounded_up};
use reference::Patch;
use std::collections::HashMap;

/// Where a point lies along edge `number`, if it lies on it. The edges are u = 0,
/// v = 0, and then w = 0, or u = 1 and v = 1. For isolines, edge 0 is u = 0 and
/// edge 1 is v = 0, the lowest line.
fn along(mesh: &Mesh, number: usize, [u, v]: Point) -> Option<i64> {
    let unit = mesh.unit();
    let (off_the_edge, position) = match (mesh.patch, number) {
        (_, 0) => (u, v),
        (_, 1) => (v, u),
        (Patch::Triangles { .. }, 2) => (unit - u - v, u),
        (Patch::Quads { .. }, 2) => (unit - u, v),
        (Patch::Quads { .. }, 3) => (unit - v, u),
        _ => unreachable!(),
    };
    (off_the_edge == 0).then_some(position)
}

/// The positions along an edge of the vertices on it, in rising order.
pub fn edge(mesh: &Mesh, number: usize) -> Vec<i64> {
    let vertices = mesh.primitives.iter().flatten();
    let mut positions: Vec<i64> = vertices.filter_map(|p| along(mesh, number, *p)).collect();
    positions.sort_unstable();
    positions.dedup();
    positions
}

/// The edges that are divided with the spacing asked, and the level of each.
pub fn edges_and_levels(patch: &Patch) -> Vec<(usize, f32)> {
    match patch {
        Patch::Triangles { outer, .. } => outer.iter().copied().enumerate().collect(),
        Patch::Quads { outer, .. } => outer.iter().copied().enumerate().collect(),
        Patch::Isolines { outer } => vec![(1, outer[1])],
    }
}

/// Every edge has the segments of its own level, and positions seen before for the
/// same spacing and clamped level, whatever the kind, the edge and the top. The
/// positions in `seen` are those of a triangle's units.
fn check(mesh: &Mesh, seen: &mut HashMap<(usize, u32), Vec<i64>>) -> Checked {
    let settings = &mesh.settings;
    for (number, level) in edges_and_levels(&mesh.patch) {
        let f = clamped(level, settings.spacing, settings.top);
        let scale = 196_608 / mesh.unit();
        let positions: Vec<i64> = edge(mesh, number).iter().map(|p| p * scale).collect();
        let n = rounded_up(f, settings.spacing);
        ensure(positions.len() == n + 1, || {
            format!(
                "edge {number} has {} points, not {}",
                positions.len(),
                n + 1
            )
        })?;
        let key = (settings.spacing as usize, f.to_bits());
        let first = seen.entry(key).or_insert_with(|| positions.clone());
        ensure(*first == positions, || {
            format!("edge {number} is not like another of level {f}")
        })?;
    }
    Ok(())
}

#[test]
fn each_outer_edge_is_divided_by_its_own_level_alone() {
    let mut seen = HashMap::new();
    for mesh in meshes(2, 8000) {
        expect(&mesh, check(&mesh, &mut seen));
    }
    assert!(seen.len() > 1000);
}

/// Meshes with another level on every edge.
fn uneven() -> [Mesh; 3] {
    with_each_spacing(&Patch::Quads {
        outer: [2.5, 3.5, 6.5, 7.5],
        inner: [4.5, 5.5],
    })
}

#[test]
fn the_check_refuses_edges_divided_by_a_neighbours_level() {
    for good in uneven() {
        let mut seen = HashMap::new();
        expect(&good, check(&good, &mut seen));
        for (a, b) in [(0, 1), (0, 2), (1, 2), (2, 3), (0, 3)] {
            let mut swapped = good.clone();
            let Patch::Quads { outer, .. } = &mut swapped.patch else {
                unreachable!()
            };
            outer.swap(a, b);
            assert!(check(&swapped, &mut seen).is_err());
        }
    }
}

#[test]
fn the_check_refuses_an_edge_unlike_another_of_its_level() {
    for good in uneven() {
        let mut seen = HashMap::new();
        expect(&good, check(&good, &mut seen));
        let position = edge(&good, 3)[2];
        let mut moved = good.clone();
        moved.move_vertex([position, 65_536], [position + 1, 65_536]);
        assert!(check(&moved, &mut seen).is_err());
    }
}
