//! "Triangle Tessellation": concentric triangles by the inner level, and outer edges
//! by their own levels.

use crate::drawn::{
    draw, ensure, expect, triangle_meshes, with_each_spacing, Checked, Mesh, Point,
};
use crate::fill::{ClosedLine, Places};
use crate::levels::{clamped, segments, ABOVE_ONE};
use crate::outer_edges::edge;
use reference::{Patch, Settings};

/// A point by the distances h from side `side`, and p and q from the two after it,
/// in the order u = 0, v = 0, w = 0.
fn by_distances(side: usize, [h, p, q]: [i64; 3]) -> Point {
    let mut distances = [h, p, q];
    distances.rotate_right(side);
    [distances[0], distances[1]]
}

/// The outermost triangle as drawn, each side from corner to corner.
fn outer_line(mesh: &Mesh) -> ClosedLine {
    let unit = mesh.unit();
    let points = |side: usize| {
        let positions = edge(mesh, side).into_iter();
        positions.map(move |p| match side {
            0 => [0, p],
            1 => [p, 0],
            _ => [p, unit - p],
        })
    };
    (0..3).map(|side| points(side).collect()).collect()
}

/// Where the lines meet that run perpendicular to two sides, each at `position` from
/// their common corner: its distance h from both. On the first line the distance from
/// the second side is the position less h / 2, so h = position - h / 2.
fn height(position: i64) -> Result<i64, String> {
    let height = 2 * position / 3;
    ensure(height + height / 2 == position && height % 2 == 0, || {
        format!("no whole units at {position}")
    })?;
    Ok(height)
}

/// Side `side` of the inner triangle whose corners come from the positions numbered
/// `first`: parallel to the patch's side, a point on every perpendicular between.
fn inner_side(temporary: &[i64], side: usize, first: usize) -> Result<Vec<Point>, String> {
    let n = temporary.len() - 1;
    let height = height(temporary[first])?;
    let distances = |p: i64| [height, p - height / 2, temporary[n] - p - height / 2];
    let points = temporary[first..=n - first].iter();
    Ok(points.map(|p| by_distances(side, distances(*p))).collect())
}

/// The inner triangles from the outermost one inwards, each with two segments fewer
/// on a side than the one before; the last has one, or is the point in the middle.
/// `temporary` holds the positions by which the inner level divides an outer edge.
fn inner_lines(temporary: &[i64]) -> Result<Vec<ClosedLine>, String> {
    let n = temporary.len() - 1;
    let unit = temporary[n];
    let mirrored = (0..=n).all(|i| temporary[i] + temporary[n - i] == unit);
    ensure(mirrored, || {
        "an edge that is not its mirror image".to_string()
    })?;
    let line = |first: usize| {
        (0..3)
            .map(|side| inner_side(temporary, side, first))
            .collect()
    };
    (1..=n / 2).map(line).collect()
}

/// Where an inner level divides an outer edge, as seen on a patch with it outside.
fn temporary_edge(inner: f32, settings: &Settings) -> Vec<i64> {
    let level = clamped(inner, settings.spacing, settings.top);
    let patch = Patch::Triangles {
        outer: [level, 1.0, 1.0],
        inner: 1.0,
    };
    edge(&draw(&patch, settings).unwrap(), 0)
}

/// Everything one, and so a single triangle.
fn check_single(mesh: &Mesh) -> Checked {
    let unit = mesh.unit();
    let corners = [[0, 0], [0, unit], [unit, 0]];
    let single = mesh.primitives.len() == 1 && mesh.vertices() == corners;
    ensure(single, || "not the single triangle".to_string())
}

/// The innermost closed line is a triangle drawn as it is, or a point joined to every
/// vertex of the line around it.
fn check_innermost(mesh: &Mesh, innermost: &ClosedLine, around: &ClosedLine) -> Checked {
    let (count, expected) = if innermost[0].len() == 1 {
        let middle = innermost[0][0];
        let count = mesh.triangles().filter(|t| t.contains(&middle)).count();
        (count, around.iter().map(|side| side.len() - 1).sum())
    } else {
        let count = mesh.triangles().filter(|t| is_inside(innermost, t)).count();
        (count, 1)
    };
    ensure(count == expected, || {
        format!("{count} triangles in the middle instead of {expected}")
    })
}

/// Whether a triangle has all vertices on the innermost closed line.
fn is_inside(innermost: &ClosedLine, triangle: &[Point; 3]) -> bool {
    let points = innermost.concat();
    triangle.iter().all(|point| points.contains(point))
}

/// Concentric triangles with the outer edges around them, and every triangle either
/// between two of them or the innermost one itself.
fn check_lines(mesh: &Mesh, inner: f32) -> Checked {
    let mut lines = vec![outer_line(mesh)];
    lines.extend(inner_lines(&temporary_edge(inner, &mesh.settings))?);
    let places = Places::of(&lines);
    ensure(mesh.vertices() == places.points(), || {
        "other vertices than those of the concentric triangles".to_string()
    })?;
    let [.., around, innermost] = &lines[..] else {
        unreachable!()
    };
    for triangle in mesh.triangles() {
        let good = places.joined_by(triangle) || is_inside(innermost, &triangle);
        ensure(good, || format!("{triangle:?} joins no facing sides"))?;
    }
    check_innermost(mesh, innermost, around)
}

fn check(mesh: &Mesh) -> Checked {
    let Patch::Triangles { outer, inner } = mesh.patch else {
        return Err("not triangles".to_string());
    };
    let n = |level: f32| segments(level, &mesh.settings);
    match (n(inner), outer.iter().all(|level| n(*level) == 1)) {
        (1, true) => check_single(mesh),
        (1, false) => check_lines(mesh, ABOVE_ONE),
        _ => check_lines(mesh, inner),
    }
}

/// Random triangle patches with inner levels for which the clamp is known.
fn meshes(seed: u64, count: u64) -> impl Iterator<Item = Mesh> {
    triangle_meshes(seed, count)
        .filter(|mesh| matches!(mesh.patch, Patch::Triangles { inner, .. } if !inner.is_nan()))
}

#[test]
fn triangles_are_concentric_and_joined_side_to_facing_side() {
    let mut count = 0;
    for mesh in meshes(10, 12_000) {
        expect(&mesh, check(&mesh));
        count += 1;
    }
    assert!(count > 2000, "{count}");
}

fn drawn_with(outer: [f32; 3], inner: f32) -> [Mesh; 3] {
    with_each_spacing(&Patch::Triangles { outer, inner })
}

#[test]
fn the_check_refuses_an_inner_vertex_moved_by_three_units() {
    for good in drawn_with([1.5, 3.0, 6.5], 4.5) {
        expect(&good, check(&good));
        for [u, v] in good.vertices() {
            if u > 0 && v > 0 && u + v < good.unit() {
                let mut moved = good.clone();
                moved.move_vertex([u, v], [u + 3, v]);
                assert!(check(&moved).is_err());
            }
        }
    }
}

#[test]
fn the_check_refuses_triangles_across_a_concentric_one() {
    for good in drawn_with([1.5, 3.0, 6.5], 4.5) {
        let lines = inner_lines(&temporary_edge(4.5, &good.settings)).unwrap();
        for side in lines.iter().flatten() {
            for two in side.windows(2) {
                let flipped = good.with_side_flipped(two[0], two[1]);
                let flipped = flipped.or(good.with_side_flipped(two[1], two[0]));
                assert!(check(&flipped.unwrap()).is_err());
            }
        }
    }
}

#[test]
fn the_check_refuses_the_mesh_of_another_inner_level() {
    for (level, other) in [(4.5, 5.25), (5.25, 4.5), (1.0, 4.5), (2.5, 7.0)] {
        let outer = [2.0, 1.0, 1.0];
        for mut mesh in drawn_with(outer, level) {
            expect(&mesh, check(&mesh));
            let inner = other;
            mesh.patch = Patch::Triangles { outer, inner };
            assert!(check(&mesh).is_err(), "{level} {other}");
        }
    }
}

#[test]
fn the_check_refuses_more_than_the_single_triangle_and_less_than_a_fan() {
    let [one, _, odd] = drawn_with([1.0; 3], 1.0);
    let [fan, _, three] = drawn_with([1.0, 1.0, 1.5], 1.0);
    assert_eq!(one.primitives.len(), 1);
    assert_eq!(odd.primitives, one.primitives);
    for mesh in [&one, &odd, &fan, &three] {
        expect(mesh, check(mesh));
    }
    for (drawn, patch) in [(&one, &fan), (&fan, &one), (&odd, &three), (&three, &odd)] {
        let mut wrong = (*drawn).clone();
        wrong.patch = patch.patch;
        assert!(check(&wrong).is_err());
    }
}
