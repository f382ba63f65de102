//! "Isoline Tessellation": lines across the patch by the first outer level, each
//! divided by the second.

use crate::drawn::{ensure, expect, meshes, settings, with_each_spacing, Checked, Mesh, Point};
use crate::levels::{clamped, divided_edge, rounded_up, segments};
use reference::{Patch, Spacing};

/// The coordinates v of the lines: an edge of equal spacing, whatever the spacing
/// asked for, without its end at v = 1.
fn heights(level: f32, top: u32) -> Vec<i64> {
    let f = clamped(level, Spacing::Equal, top);
    let (mut edge, _) = divided_edge(1, f, &settings(Spacing::Equal, top));
    edge.pop();
    edge
}

/// All segments of all lines, each with its lesser coordinate u first, sorted. The
/// direction in which each is drawn is left open.
fn expected(mesh: &Mesh, outer: [f32; 2]) -> Vec<[Point; 2]> {
    let settings = &mesh.settings;
    let f = clamped(outer[1], settings.spacing, settings.top);
    let (along, _) = divided_edge(0, f, settings);
    // Read off a triangle, whose units are three to one.
    let along: Vec<i64> = along.iter().map(|position| position / 3).collect();
    let line = |v: i64| {
        let segments = along.windows(2);
        segments.map(move |two| [[two[0], v], [two[1], v]])
    };
    let lines = heights(outer[0], settings.top).into_iter();
    let mut expected: Vec<[Point; 2]> = lines.flat_map(line).collect();
    expected.sort_unstable();
    expected
}

/// The number of lines and of segments, and that the lines lie close to the exact
/// heights of 0, 1 / n, and on to (n - 1) / n.
fn check_counts(mesh: &Mesh, outer: [f32; 2]) -> Checked {
    let mut vs: Vec<i64> = mesh.vertices().iter().map(|[_, v]| *v).collect();
    vs.sort_unstable();
    vs.dedup();
    let n = rounded_up(
        clamped(outer[0], Spacing::Equal, mesh.settings.top),
        Spacing::Equal,
    );
    let m = segments(outer[1], &mesh.settings);
    ensure(vs.len() == n && mesh.primitives.len() == n * m, || {
        format!(
            "{} lines for {n}, and {} segments",
            vs.len(),
            mesh.primitives.len()
        )
    })?;
    let close = |i: usize| (vs[i] * n as i64 - mesh.unit() * i as i64).abs() < n as i64;
    ensure((0..n).all(close), || format!("lines at {vs:?}"))
}

fn check(mesh: &Mesh) -> Checked {
    let Patch::Isolines { outer } = mesh.patch else {
        return Err("not isolines".to_string());
    };
    check_counts(mesh, outer)?;
    let segment = |p: &Vec<Point>| [p[0].min(p[1]), p[0].max(p[1])];
    let mut drawn: Vec<[Point; 2]> = mesh.primitives.iter().map(segment).collect();
    drawn.sort_unstable();
    ensure(drawn == expected(mesh, outer), || {
        "other segments than those of the lines".to_string()
    })
}

#[test]
fn isolines_are_equally_spaced_without_one_at_the_end_and_divided_by_the_second_level() {
    let mut count = 0;
    for mesh in meshes(16, 9000) {
        if matches!(mesh.patch, Patch::Isolines { .. }) {
            expect(&mesh, check(&mesh));
            count += 1;
        }
    }
    assert!(count > 2000, "{count}");
}

fn drawn_with(outer: [f32; 2]) -> [Mesh; 3] {
    with_each_spacing(&Patch::Isolines { outer })
}

#[test]
fn the_check_refuses_a_line_at_the_end_a_line_left_out_and_a_doubled_segment() {
    for good in drawn_with([4.0, 3.5]) {
        expect(&good, check(&good));
        let lowest = |p: &&Vec<Point>| p[0][1] == 0;
        let line: Vec<Vec<Point>> = good.primitives.iter().filter(lowest).cloned().collect();
        let mut with_last = good.clone();
        for segment in &line {
            let raised = segment.iter().map(|[u, _]| [*u, good.unit()]);
            with_last.primitives.push(raised.collect());
        }
        assert!(check(&with_last).is_err());
        let mut without_first = good.clone();
        without_first.primitives.retain(|p| p[0][1] != 0);
        assert!(check(&without_first).is_err());
        let mut doubled = good.clone();
        doubled.primitives[1] = line[0].clone();
        assert!(check(&doubled).is_err());
        let mut turned = good.clone();
        turned.primitives[1].swap(0, 1);
        expect(&turned, check(&turned));
    }
}

#[test]
fn every_spacing_has_the_lines_of_equal_spacing() {
    for mesh in drawn_with([2.25, 1.0]) {
        expect(&mesh, check(&mesh));
        let at_the_start = |[u, v]: &Point| (*u == 0).then_some(*v);
        let vs: Vec<i64> = mesh.vertices().iter().filter_map(at_the_start).collect();
        assert_eq!(vs.len(), 3);
    }
}

/// Whether the mesh of a patch with levels `drawn` is refused for one with `asked`.
fn refused_for(drawn: [f32; 2], asked: [f32; 2]) -> [bool; 3] {
    drawn_with(drawn).map(|mut mesh| {
        mesh.patch = Patch::Isolines { outer: asked };
        check(&mesh).is_err()
    })
}

#[test]
fn the_check_refuses_lines_by_the_other_level_and_other_numbers_of_lines() {
    assert_eq!(refused_for([2.5, 5.5], [5.5, 2.5]), [true; 3]);
    assert_eq!(refused_for([5.5, 2.5], [2.5, 5.5]), [true; 3]);
    // What fractional spacing would round 2.25 up to.
    assert_eq!(refused_for([4.0, 5.0], [2.25, 5.0]), [true; 3]);
    assert_eq!(refused_for([3.0, 5.0], [2.25, 5.0]), [false; 3]);
}

#[test]
fn the_check_refuses_a_vertex_moved_by_three_units() {
    for good in drawn_with([4.0, 3.5]) {
        for [u, v] in good.vertices() {
            let mut moved = good.clone();
            moved.move_vertex([u, v], [u + 3, v]);
            assert!(check(&moved).is_err());
        }
    }
}
