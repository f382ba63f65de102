//! "Quad Tessellation": a grid by the inner levels, and outer edges by their own
//! levels.

use crate::drawn::{
    draw, ensure, expect, triangle_meshes, with_each_spacing, Checked, Mesh, Point,
};
use crate::fill::{ClosedLine, Places};
use crate::levels::{clamped, segments, ABOVE_ONE};
use crate::outer_edges::edge;
use reference::{Patch, Settings};
use std::collections::HashMap;

/// The outer rectangle as drawn, with sides u = 0, v = 0, u = 1 and v = 1.
fn outer_line(mesh: &Mesh) -> ClosedLine {
    let unit = mesh.unit();
    let points = |side: usize| {
        let positions = edge(mesh, side).into_iter();
        positions.map(move |p| match side {
            0 => [0, p],
            1 => [p, 0],
            2 => [unit, p],
            _ => [p, unit],
        })
    };
    (0..4).map(|side| points(side).collect()).collect()
}

/// Where the grid lines lie that do not belong to the outer rectangle: the
/// coordinates u of the vertical ones, and v of the horizontal ones.
struct Grid {
    us: Vec<i64>,
    vs: Vec<i64>,
}

/// Where an inner level divides two opposite edges, without the corners.
fn inner_positions(level: f32, settings: &Settings) -> Vec<i64> {
    let level = clamped(level, settings.spacing, settings.top);
    let patch = Patch::Quads {
        outer: [level, 1.0, 1.0, 1.0],
        inner: [1.0; 2],
    };
    let positions = edge(&draw(&patch, settings).unwrap(), 0);
    positions[1..positions.len() - 1].to_vec()
}

impl Grid {
    /// The first level divides the edges u = 0 and u = 1, and so along v; the second
    /// one divides v = 0 and v = 1, along u.
    fn of([first, second]: [f32; 2], settings: &Settings) -> Grid {
        Grid {
            us: inner_positions(second, settings),
            vs: inner_positions(first, settings),
        }
    }

    /// The inner rectangle with sides in the order of the outer ones.
    fn inner_line(&self) -> ClosedLine {
        let vertical = |u: i64| self.vs.iter().map(|v| [u, *v]).collect();
        let horizontal = |v: i64| self.us.iter().map(|u| [*u, v]).collect();
        let (last_u, last_v) = (self.us.len() - 1, self.vs.len() - 1);
        vec![
            vertical(self.us[0]),
            horizontal(self.vs[0]),
            vertical(self.us[last_u]),
            horizontal(self.vs[last_v]),
        ]
    }

    fn points(&self) -> impl Iterator<Item = Point> + '_ {
        let column = |u: i64| self.vs.iter().map(move |v| [u, *v]);
        self.us.iter().flat_map(move |u| column(*u))
    }

    /// The step of a grid point along u and along v.
    fn steps(&self, [u, v]: Point) -> Option<[usize; 2]> {
        let along_u = self.us.binary_search(&u).ok()?;
        let along_v = self.vs.binary_search(&v).ok()?;
        Some([along_u, along_v])
    }

    /// The rectangle of the grid of which the triangle has three corners, by its
    /// lowest corner, and the corner that is left out, as 0 or 1 step in u and in v.
    fn rectangle(&self, triangle: [Point; 3]) -> Option<([usize; 2], [usize; 2])> {
        let [p, q, r] = triangle.map(|point| self.steps(point));
        let steps = [p?, q?, r?];
        let low = [0, 1].map(|i| steps.map(|step| step[i]).into_iter().min().unwrap());
        let taken = steps.map(|step| [step[0] - low[0], step[1] - low[1]]);
        let mut corners = vec![[0, 0], [0, 1], [1, 0], [1, 1]];
        corners.retain(|corner| !taken.contains(corner));
        (corners.len() == 1).then(|| (low, corners[0]))
    }
}

/// Every rectangle between inner grid lines is two triangles that each leave out one
/// of two opposite corners. Which two is left open.
fn check_rectangles(grid: &Grid, halves: &HashMap<[usize; 2], Vec<[usize; 2]>>) -> Checked {
    let count = (grid.us.len() - 1) * (grid.vs.len() - 1);
    ensure(halves.len() == count, || {
        format!("{} rectangles instead of {count}", halves.len())
    })?;
    for (low, left_out) in halves {
        let opposite = match left_out[..] {
            [p, q] => p[0] != q[0] && p[1] != q[1],
            _ => false,
        };
        ensure(opposite, || {
            format!("rectangle {low:?} without {left_out:?}")
        })?;
    }
    Ok(())
}

/// The grid, the outer edges around it, and every triangle either half a rectangle
/// between inner grid lines or between the inner and the outer rectangle.
fn check_grid(mesh: &Mesh, grid: &Grid) -> Checked {
    let places = Places::of(&[outer_line(mesh), grid.inner_line()]);
    let mut points = places.points();
    points.extend(grid.points());
    points.sort_unstable();
    points.dedup();
    ensure(mesh.vertices() == points, || {
        "other vertices than those of the grid and the outer edges".to_string()
    })?;
    let mut halves: HashMap<[usize; 2], Vec<[usize; 2]>> = HashMap::new();
    for triangle in mesh.triangles() {
        match grid.rectangle(triangle) {
            Some((low, left_out)) => halves.entry(low).or_default().push(left_out),
            None => ensure(places.joined_by(triangle), || {
                format!("{triangle:?} joins no facing sides")
            })?,
        }
    }
    check_rectangles(grid, &halves)
}

/// Everything one, and so a single pair of triangles.
fn check_single(mesh: &Mesh) -> Checked {
    let unit = mesh.unit();
    let corners = [[0, 0], [0, unit], [unit, 0], [unit, unit]];
    let pair = mesh.primitives.len() == 2 && mesh.vertices() == corners;
    ensure(pair, || "not the single pair of triangles".to_string())
}

fn check(mesh: &Mesh) -> Checked {
    let Patch::Quads { outer, inner } = mesh.patch else {
        return Err("not quads".to_string());
    };
    let is_one = |level: &f32| segments(*level, &mesh.settings) == 1;
    if outer.iter().chain(&inner).all(is_one) {
        return check_single(mesh);
    }
    let widened = inner.map(|level| if is_one(&level) { ABOVE_ONE } else { level });
    check_grid(mesh, &Grid::of(widened, &mesh.settings))
}

/// Random quad patches with inner levels for which the clamp is known.
fn meshes(seed: u64, count: u64) -> impl Iterator<Item = Mesh> {
    let numbers = |inner: [f32; 2]| !inner[0].is_nan() && !inner[1].is_nan();
    triangle_meshes(seed, count)
        .filter(move |mesh| matches!(mesh.patch, Patch::Quads { inner, .. } if numbers(inner)))
}

#[test]
fn quads_are_a_grid_of_pairs_with_a_border_joined_side_to_facing_side() {
    let mut count = 0;
    for mesh in meshes(11, 9000) {
        expect(&mesh, check(&mesh));
        count += 1;
    }
    assert!(count > 2000, "{count}");
}

fn drawn_with(outer: [f32; 4], inner: [f32; 2]) -> [Mesh; 3] {
    with_each_spacing(&Patch::Quads { outer, inner })
}

/// Meshes with other levels on every edge and in both directions.
fn uneven() -> [Mesh; 3] {
    drawn_with([1.5, 3.0, 6.5, 8.5], [4.5, 6.5])
}

fn grid(mesh: &Mesh) -> Grid {
    Grid::of([4.5, 6.5], &mesh.settings)
}

#[test]
fn the_check_refuses_rows_for_columns() {
    for good in uneven() {
        expect(&good, check(&good));
        let mut exchanged = good.clone();
        for vertex in exchanged.primitives.iter_mut().flatten() {
            vertex.swap(0, 1);
        }
        exchanged.patch = Patch::Quads {
            outer: [3.0, 1.5, 8.5, 6.5],
            inner: [4.5, 6.5],
        };
        assert!(check(&exchanged).is_err());
        exchanged.patch = Patch::Quads {
            outer: [3.0, 1.5, 8.5, 6.5],
            inner: [6.5, 4.5],
        };
        expect(&exchanged, check(&exchanged));
    }
}

#[test]
fn the_check_refuses_an_inner_vertex_moved_by_three_units() {
    for good in uneven() {
        for [u, v] in grid(&good).points() {
            let mut moved = good.clone();
            moved.move_vertex([u, v], [u, v + 3]);
            assert!(check(&moved).is_err());
        }
    }
}

/// The sides of all rectangles between inner grid lines.
fn grid_sides(Grid { us, vs }: &Grid) -> Vec<[Point; 2]> {
    let mut sides = Vec::new();
    for u in us {
        sides.extend(vs.windows(2).map(|two| [[*u, two[0]], [*u, two[1]]]));
    }
    for v in vs {
        sides.extend(us.windows(2).map(|two| [[two[0], *v], [two[1], *v]]));
    }
    sides
}

#[test]
fn the_check_refuses_triangles_across_a_grid_line() {
    for good in uneven() {
        for [p, q] in grid_sides(&grid(&good)) {
            let flipped = good.with_side_flipped(p, q);
            assert!(check(&flipped.unwrap()).is_err());
        }
    }
}

#[test]
fn the_check_takes_either_diagonal_and_refuses_four_triangles_in_a_rectangle() {
    for good in uneven() {
        let Grid { us, vs } = grid(&good);
        let corners = [
            [us[0], vs[0]],
            [us[1], vs[0]],
            [us[1], vs[1]],
            [us[0], vs[1]],
        ];
        let [a, b, c, d] = corners;
        let flipped = good
            .with_side_flipped(a, c)
            .or(good.with_side_flipped(b, d));
        let flipped = flipped.unwrap();
        expect(&flipped, check(&flipped));
        let mut four = good.clone();
        four.primitives
            .retain(|triangle| !triangle.iter().all(|p| corners.contains(p)));
        assert_eq!(four.primitives.len() + 2, good.primitives.len());
        let middle = [(us[0] + us[1]) / 2, (vs[0] + vs[1]) / 2];
        for [p, q] in [[a, b], [b, c], [c, d], [d, a]] {
            four.primitives.push(vec![p, q, middle]);
        }
        assert!(check(&four).is_err());
        // Halves over each other: the corners left out are not opposite.
        let mut halves = four;
        halves.primitives.truncate(good.primitives.len() - 2);
        halves.primitives.extend([vec![a, b, c], vec![a, b, d]]);
        assert!(check(&halves).is_err());
    }
}

#[test]
fn the_check_refuses_more_than_the_single_pair_and_less_than_a_grid() {
    let [one, _, odd] = drawn_with([1.0; 4], [1.0; 2]);
    let [fan, _, three] = drawn_with([1.0; 4], [1.0, 1.5]);
    assert_eq!(one.primitives.len(), 2);
    for mesh in [&one, &odd, &fan, &three] {
        expect(mesh, check(mesh));
    }
    for (drawn, patch) in [(&one, &fan), (&fan, &one), (&odd, &three), (&three, &odd)] {
        let mut wrong = (*drawn).clone();
        wrong.patch = patch.patch;
        assert!(check(&wrong).is_err());
    }
}
