//! The end of the sections on triangles and quads: the triangles cover the whole
//! patch, and no part of it twice.

use crate::drawn::{ensure, expect, triangle_meshes, with_each_spacing, Checked, Mesh, Point};
use crate::winding::twice_the_area;
use reference::random::Random;
use reference::Patch;
use std::collections::HashSet;

/// Twice the area of the patch in square units.
fn twice_the_whole(mesh: &Mesh) -> i64 {
    match mesh.patch {
        Patch::Triangles { .. } => mesh.unit() * mesh.unit(),
        _ => 2 * mesh.unit() * mesh.unit(),
    }
}

/// Areas of one sign, that add up to the area of the patch.
fn check_areas(mesh: &Mesh) -> Checked {
    let areas: Vec<i64> = mesh.triangles().map(twice_the_area).collect();
    let one_sign = areas.iter().all(|area| area.signum() == areas[0].signum());
    let sum: i64 = areas.iter().sum();
    ensure(one_sign && sum.abs() == twice_the_whole(mesh), || {
        format!("the areas add up to {sum}, all of one sign: {one_sign}")
    })
}

/// Whether two points lie on one and the same edge of the patch.
fn on_one_edge(mesh: &Mesh, p: Point, q: Point) -> bool {
    let unit = mesh.unit();
    let both = |lies: fn(Point, i64) -> bool| lies(p, unit) && lies(q, unit);
    let left_or_bottom = both(|[u, _], _| u == 0) || both(|[_, v], _| v == 0);
    left_or_bottom
        || match mesh.patch {
            Patch::Triangles { .. } => both(|[u, v], unit| u + v == unit),
            _ => both(|[u, _], unit| u == unit) || both(|[_, v], unit| v == unit),
        }
}

/// The three sides of a triangle, in its order.
fn sides([p, q, r]: [Point; 3]) -> [[Point; 2]; 3] {
    [[p, q], [q, r], [r, p]]
}

/// Every side is used once in its direction, and has a neighbour that uses it in the
/// other one unless it lies on an edge of the patch: whole sides meet whole sides.
fn check_sides(mesh: &Mesh) -> Checked {
    let mut used = HashSet::new();
    for side in mesh.triangles().flat_map(sides) {
        ensure(used.insert(side), || format!("{side:?} twice"))?;
    }
    for [p, q] in &used {
        let joined = used.contains(&[*q, *p]);
        ensure(joined != on_one_edge(mesh, *p, *q), || {
            format!("{p:?} to {q:?} is open, or joined across an edge")
        })?;
    }
    Ok(())
}

/// No vertex lies inside a side, by going through all of both.
fn check_no_vertex_inside_a_side(mesh: &Mesh) -> Checked {
    let between = |p: Point, q: Point, x: Point| {
        let inside = |i: usize| (p[i] - x[i]) * (q[i] - x[i]) <= 0;
        x != p && x != q && twice_the_area([p, q, x]) == 0 && inside(0) && inside(1)
    };
    let vertices = mesh.vertices();
    for [p, q] in mesh.triangles().flat_map(sides) {
        let found = vertices.iter().find(|x| between(p, q, **x));
        ensure(found.is_none(), || format!("{found:?} from {p:?} to {q:?}"))?;
    }
    Ok(())
}

/// Spots lie at thousandths of a unit, vertices at whole units.
const FINE: i64 = 1000;

/// How many triangles hold a spot; `None` where it lies in line with a side.
fn holders(triangles: &[[Point; 3]], spot: Point) -> Option<usize> {
    let mut holders = 0;
    for triangle in triangles {
        let turns = sides(*triangle).map(|[p, q]| twice_the_area([p, q, spot]).signum());
        if turns.contains(&0) {
            return None;
        }
        holders += usize::from(turns[0] == turns[1] && turns[1] == turns[2]);
    }
    Some(holders)
}

/// A random spot strictly inside the patch, in fine coordinates.
fn spot(mesh: &Mesh, random: &mut Random) -> Point {
    let end = mesh.unit() * FINE;
    let [u, v] = [0; 2].map(|_| 1 + random.below(end as u64 - 1) as i64);
    match mesh.patch {
        Patch::Triangles { .. } if u + v == end => [end / 3, end / 3],
        Patch::Triangles { .. } if u + v > end => [end - u, end - v],
        _ => [u, v],
    }
}

/// Random spots, in line with no side, are held by one triangle each.
fn check_spots(mesh: &Mesh, random: &mut Random, count: usize) -> Checked {
    let fine = |point: Point| point.map(|coordinate| coordinate * FINE);
    let triangles: Vec<[Point; 3]> = mesh.triangles().map(|t| t.map(fine)).collect();
    for _ in 0..count {
        let (spot, holders) = (0..100)
            .map(|_| spot(mesh, random))
            .find_map(|spot| Some((spot, holders(&triangles, spot)?)))
            .ok_or("spots all in line with sides")?;
        ensure(holders == 1, || {
            format!("{holders} triangles hold {spot:?}")
        })?;
    }
    Ok(())
}

#[test]
fn the_triangles_cover_the_patch_once() {
    let mut random = Random::new(12);
    for mesh in triangle_meshes(13, 6000) {
        expect(&mesh, check_areas(&mesh));
        expect(&mesh, check_sides(&mesh));
        expect(&mesh, check_spots(&mesh, &mut random, 4));
    }
}

#[test]
fn no_vertex_lies_inside_a_side() {
    for mesh in triangle_meshes(14, 4000) {
        if mesh.primitives.len() < 300 {
            expect(&mesh, check_no_vertex_inside_a_side(&mesh));
        }
    }
}

/// Both kinds with every spacing.
fn uneven() -> Vec<Mesh> {
    let triangles = Patch::Triangles {
        outer: [1.5, 3.0, 6.5],
        inner: 4.5,
    };
    let quads = Patch::Quads {
        outer: [1.5, 3.0, 6.5, 8.5],
        inner: [4.5, 6.5],
    };
    [triangles, quads]
        .iter()
        .flat_map(with_each_spacing)
        .collect()
}

/// Whether the areas, the sides, and many spots are refused.
fn refused(mesh: &Mesh) -> [bool; 3] {
    let spots = check_spots(mesh, &mut Random::new(15), 20_000);
    [check_areas(mesh), check_sides(mesh), spots].map(|checked| checked.is_err())
}

#[test]
fn the_checks_refuse_a_triangle_left_out_doubled_or_flipped() {
    for good in uneven() {
        assert_eq!(refused(&good), [false; 3]);
        // The largest triangle, for spots to come upon.
        let area = |n: &usize| twice_the_area(good.triangles().nth(*n).unwrap()).abs();
        let largest = (0..good.primitives.len()).max_by_key(area).unwrap();
        let mut left_out = good.clone();
        left_out.primitives.remove(largest);
        assert_eq!(refused(&left_out), [true; 3]);
        let mut doubled = good.clone();
        doubled.primitives.push(good.primitives[largest].clone());
        assert_eq!(refused(&doubled), [true; 3]);
        let mut flipped = good.clone();
        flipped.primitives[largest].swap(1, 2);
        assert_eq!(refused(&flipped), [true, true, false]);
    }
}

#[test]
fn the_check_of_sides_refuses_a_corner_of_one_triangle_moved_by_three_units() {
    for good in uneven() {
        for number in 0..good.primitives.len() {
            let mut moved = good.clone();
            moved.primitives[number][1][0] += 3;
            assert!(check_sides(&moved).is_err());
        }
    }
}

/// A triangle with a first side that lies inside the patch and has its middle at
/// whole units, by its number and from that side on.
fn with_a_middle(mesh: &Mesh) -> Option<(usize, [Point; 3])> {
    let middle = |p: Point, q: Point| [0, 1].iter().all(|i| (p[*i] + q[*i]) % 2 == 0);
    let turned = |[p, q, r]: [Point; 3]| [[p, q, r], [q, r, p], [r, p, q]];
    let all = mesh.triangles().enumerate();
    all.flat_map(|(number, t)| turned(t).map(|t| (number, t)))
        .find(|(_, [p, q, _])| middle(*p, *q) && !on_one_edge(mesh, *p, *q))
}

#[test]
fn the_checks_refuse_a_vertex_that_one_of_two_neighbours_leaves_out() {
    for good in uneven() {
        let (number, [p, q, r]) = with_a_middle(&good).unwrap();
        let middle = [(p[0] + q[0]) / 2, (p[1] + q[1]) / 2];
        let mut split = good.clone();
        split.primitives.remove(number);
        split.primitives.push(vec![p, middle, r]);
        split.primitives.push(vec![middle, q, r]);
        // The area is covered once all the same.
        assert_eq!(refused(&split), [false, true, false]);
        assert!(check_no_vertex_inside_a_side(&split).is_err());
    }
}
