//! Ask 5: meshes from elsewhere, accepted or with their first fault.

use std::collections::HashMap;
use std::time::Instant;

use reference::check::{places, Asked};
use reference::damage_mesh::MESH_DAMAGES;
use reference::job::{read_job, Version};
use reference::verdicts::verdicts;
use reference::*;

// ---- the ask word by word, by search over all pairs ------------------------

type Point = [u64; 3];

/// The outline by the search that the brute-force check uses for positions.
fn searched_outline(patch: &Patch, settings: &Settings) -> Vec<Point> {
    let asked = asked(settings);
    let mut all = Vec::new();
    for (e, level) in patch.outer_levels().iter().enumerate() {
        let on_edge = places(*level, asked.spacing, asked.top);
        for place in &on_edge[..on_edge.len() - 1] {
            let near = *place as u64;
            let (third, far) = (3 * near, 196_608 - 3 * near);
            all.push(match (patch.outer_levels().len(), e) {
                (3, 0) => [0, far, third],
                (3, 1) => [third, 0, far],
                (3, _) => [far, third, 0],
                (_, 0) => [0, 65_536 - near, 0],
                (_, 1) => [near, 0, 0],
                (_, 2) => [65_536, near, 0],
                (_, _) => [65_536 - near, 65_536, 0],
            });
        }
    }
    all
}

fn asked(settings: &Settings) -> Asked {
    Asked {
        kind: 0,
        spacing: settings.spacing as u8,
        vertex_order: settings.vertex_order as u8,
        origin: settings.domain_origin as u8,
        point_mode: 0,
        top: settings.top as u8,
        outer: [0.0; 4],
    }
}

/// Pairs (first, second) with `equal`, by second and then by first.
fn first_pair(count: usize, equal: impl Fn(usize, usize) -> bool) -> Option<(usize, usize)> {
    (0..count)
        .flat_map(|second| (0..second).map(move |first| (first, second)))
        .find(|(first, second)| equal(*first, *second))
}

fn slow_verdict(patch: &Patch, settings: &Settings, points: &[u32], indices: &[u16]) -> Verdict {
    if settings.top % 2 == 1 || settings.top == 0 || settings.top > 64 {
        return Verdict::BadTop;
    }
    if patch.outer_levels().len() == 2 {
        return Verdict::Isolines;
    }
    if settings.point_mode {
        return Verdict::Dots;
    }
    let discarded = !patch.outer_levels().iter().all(|level| *level > 0.0);
    if discarded && points.len() + indices.len() > 0 {
        return Verdict::ShouldBeDiscarded;
    }
    if discarded {
        return Verdict::Accepted;
    }
    if points.len() % 3 + indices.len() % 3 > 0 {
        return Verdict::NotThrees;
    }
    let points: Vec<Point> = points
        .chunks(3)
        .map(|p| [p[0].into(), p[1].into(), p[2].into()])
        .collect();
    for (place, index) in indices.iter().enumerate() {
        if usize::from(*index) >= points.len() {
            return Verdict::UnknownIndex { place };
        }
    }
    let triangle_patch = patch.outer_levels().len() == 3;
    for (point, [u, v, w]) in points.iter().enumerate() {
        let inside = match triangle_patch {
            true => u + v + w == 196_608,
            false => *u <= 65_536 && *v <= 65_536 && *w == 0,
        };
        if !inside {
            return Verdict::Outside { point };
        }
    }
    if let Some((first, second)) = first_pair(points.len(), |i, j| points[i] == points[j]) {
        return Verdict::EqualPoints { first, second };
    }
    let corners: Vec<[Point; 3]> = indices
        .chunks(3)
        .map(|t| [0, 1, 2].map(|i| points[usize::from(t[i])]))
        .collect();
    // Clockwise and upper-left are both 0 in a record.
    let positive = asked(settings).vertex_order == asked(settings).origin;
    for (triangle, [p, q, r]) in corners.iter().enumerate() {
        let minus = |a: u64, b: u64| i128::from(a) - i128::from(b);
        let area = minus(q[0], p[0]) * minus(r[1], p[1]) - minus(r[0], p[0]) * minus(q[1], p[1]);
        if area == 0 || (area > 0) != positive {
            return Verdict::Turned { triangle };
        }
    }
    let side = |triangle: usize, corner: usize| {
        let ends = corners[triangle];
        (ends[corner], ends[(corner + 1) % 3])
    };
    let places: Vec<(usize, usize)> = (0..corners.len())
        .flat_map(|triangle| (0..3).map(move |corner| (triangle, corner)))
        .collect();
    let common = |i, j| (0..9).any(|two| side(i, two / 3) == side(j, two % 3));
    if let Some((first, second)) = first_pair(corners.len(), common) {
        return Verdict::SideTwice { first, second };
    }
    let sides: Vec<(Point, Point)> = places.iter().map(|&(t, c)| side(t, c)).collect();
    let outline = searched_outline(patch, settings);
    let pieces: Vec<(Point, Point)> = (0..outline.len())
        .map(|k| (outline[k], outline[(k + 1) % outline.len()]))
        .map(|(from, to)| if positive { (from, to) } else { (to, from) })
        .collect();
    for (&(triangle, corner), (from, to)) in places.iter().zip(&sides) {
        if !sides.contains(&(*to, *from)) && !pieces.contains(&(*from, *to)) {
            return Verdict::OpenSide { triangle, corner };
        }
    }
    match pieces.iter().position(|piece| !sides.contains(piece)) {
        Some(piece) => Verdict::MissingPiece { piece },
        None => Verdict::Accepted,
    }
}

// ---- random meshes -------------------------------------------------------

fn verdict_on(mesh: &DamagedMesh) -> Verdict {
    check_mesh(&mesh.patch, &mesh.settings, &mesh.points, &mesh.indices)
}

/// The variant without its numbers.
fn name(verdict: Verdict) -> String {
    let text = format!("{verdict:?}");
    text.split(' ').next().unwrap().to_string()
}

const NAMES: [&str; 13] = [
    "Accepted",
    "BadTop",
    "Isolines",
    "Dots",
    "ShouldBeDiscarded",
    "NotThrees",
    "UnknownIndex",
    "Outside",
    "EqualPoints",
    "Turned",
    "SideTwice",
    "OpenSide",
    "MissingPiece",
];

#[test]
fn damaged_meshes_meet_every_verdict() {
    let mut seen: HashMap<String, u32> = HashMap::new();
    for number in 0..400 * MESH_DAMAGES {
        *seen
            .entry(name(verdict_on(&damaged_mesh(1, number))))
            .or_default() += 1;
    }
    for name in NAMES {
        let count = seen.get(name).copied().unwrap_or(0);
        println!("{name} {count}");
        assert!(count > 200, "{name} {count}");
    }
    assert_eq!(seen.len(), NAMES.len());
}

/// Sorts of damage that leave a mesh of a drawn patch as good as it was, and
/// some that never do.
#[test]
fn sorts_of_damage_do_what_they_are_for() {
    let mut seen: HashMap<(u64, String), u32> = HashMap::new();
    for number in 0..300 * MESH_DAMAGES {
        let mesh = damaged_mesh(2, number);
        let verdict = name(verdict_on(&mesh));
        if !["BadTop", "Isolines", "Dots", "ShouldBeDiscarded"].contains(&verdict.as_str())
            && !mesh.patch.is_discarded()
        {
            *seen.entry((number % MESH_DAMAGES, verdict)).or_default() += 1;
        }
    }
    let count = |sort: u64, name: &str| seen.get(&(sort, name.to_string())).copied().unwrap_or(0);
    let all = |sort: u64| NAMES.iter().map(|name| count(sort, name)).sum::<u32>();
    for sort in 0..MESH_DAMAGES {
        assert!(all(sort) > 100, "{sort}");
    }
    // nothing; rotated corners; permuted points; permuted triangles
    for sort in [0, 6, 17, 18] {
        assert_eq!(count(sort, "Accepted"), all(sort), "{sort}");
    }
    assert_eq!(count(2, "UnknownIndex"), all(2));
    let dropped = count(3, "OpenSide") + count(3, "MissingPiece");
    assert_eq!(dropped, all(3));
    assert_eq!(count(4, "SideTwice"), all(4));
    assert!(count(5, "Turned") > all(5) / 2);
    assert!(count(8, "Outside") > all(8) / 2);
    assert_eq!(count(16, "MissingPiece"), all(16));
    assert_eq!(count(22, "NotThrees"), all(22));
    for (sort, name) in [
        (1, "Turned"),
        (7, "EqualPoints"),
        (9, "OpenSide"),
        (9, "EqualPoints"),
        (10, "Accepted"),
        (10, "OpenSide"),
        (11, "Accepted"),
        (11, "OpenSide"),
        (12, "Accepted"),
        (12, "Turned"),
        (13, "NotThrees"),
        (13, "OpenSide"),
        (14, "Outside"),
        (15, "UnknownIndex"),
        (19, "Accepted"),
        (20, "Accepted"),
        (21, "Accepted"),
    ] {
        assert!(count(sort, name) > 5, "{sort} {name}");
    }
}

#[test]
fn verdicts_are_the_ones_of_the_search() {
    let mut compared = 0;
    for number in 0..600 * MESH_DAMAGES {
        let mesh = damaged_mesh(3, number);
        if mesh.indices.len() <= 600 {
            let DamagedMesh {
                patch,
                settings,
                points,
                indices,
            } = &mesh;
            let slow = slow_verdict(patch, settings, points, indices);
            assert_eq!(verdict_on(&mesh), slow, "damaged_mesh(3, {number})");
            compared += 1;
        }
    }
    assert!(compared > 500 * MESH_DAMAGES, "{compared}");
}

/// Ask 5, last sentence: own triangle output is always accepted.
#[test]
fn own_triangles_are_accepted() {
    let mut accepted = 0;
    for seed in 0..5 {
        let job = random::job(seed, 1000, Version::Two);
        for (patch, settings) in read_job(&job).unwrap().flatten() {
            let settings = Settings {
                point_mode: false,
                ..settings
            };
            let (points, indices) = match tessellate(&patch, &settings) {
                Answer::Drawn { points, indices } => (points.into_flattened(), indices),
                _ => Default::default(),
            };
            let indices: Vec<u16> = indices.into_iter().map(|index| index as u16).collect();
            let verdict = check_mesh(&patch, &settings, &points, &indices);
            if matches!(patch, Patch::Isolines { .. }) {
                assert_eq!(verdict, Verdict::Isolines);
            } else {
                assert_eq!(verdict, Verdict::Accepted, "{patch:?} {settings:?}");
                accepted += 1;
            }
        }
    }
    assert!(accepted > 3000, "{accepted}");
}

// ---- by hand -------------------------------------------------------------

const SETTINGS: Settings = Settings {
    spacing: Spacing::Equal,
    vertex_order: VertexOrder::CounterClockwise,
    domain_origin: DomainOrigin::LowerLeft,
    point_mode: false,
    top: 64,
};
const S: u32 = 196_608;
const TRIANGLES: Patch = Patch::Triangles {
    outer: [1.0; 3],
    inner: 2.0,
};
const POINTS: [u32; 12] = [0, S, 0, 0, 0, S, S, 0, 0, 65_536, 65_536, 65_536];
const INDICES: [u16; 9] = [0, 1, 3, 1, 2, 3, 2, 0, 3];

fn with_points(points: &[u32]) -> Verdict {
    check_mesh(&TRIANGLES, &SETTINGS, points, &INDICES)
}

fn with_indices(indices: &[u16]) -> Verdict {
    check_mesh(&TRIANGLES, &SETTINGS, &POINTS, indices)
}

#[test]
fn every_verdict_with_its_numbers() {
    assert_eq!(with_points(&POINTS), Verdict::Accepted);
    assert_eq!(with_points(&POINTS[..11]), Verdict::NotThrees);
    assert_eq!(with_indices(&INDICES[..8]), Verdict::NotThrees);
    assert_eq!(
        with_points(&POINTS[..9]),
        Verdict::UnknownIndex { place: 2 }
    );
    let mut points = POINTS;
    points[10] += 1;
    assert_eq!(with_points(&points), Verdict::Outside { point: 3 });
    points[9..].copy_from_slice(&POINTS[3..6]);
    let equal = Verdict::EqualPoints {
        first: 1,
        second: 3,
    };
    assert_eq!(with_points(&points), equal);
    let flat = [0, 1, 3, 1, 2, 2, 2, 0, 3];
    assert_eq!(with_indices(&flat), Verdict::Turned { triangle: 1 });
    let other_turn = [0, 1, 3, 1, 2, 3, 2, 3, 0];
    assert_eq!(with_indices(&other_turn), Verdict::Turned { triangle: 2 });
    let twice = [0, 1, 3, 1, 2, 3, 2, 0, 3, 0, 1, 2];
    assert_eq!(
        with_indices(&twice),
        Verdict::SideTwice {
            first: 0,
            second: 3
        }
    );
    let open = [1, 2, 3, 2, 0, 3];
    assert_eq!(
        with_indices(&open),
        Verdict::OpenSide {
            triangle: 0,
            corner: 2
        }
    );
    assert_eq!(with_indices(&[]), Verdict::MissingPiece { piece: 0 });
    let both_empty = check_mesh(&TRIANGLES, &SETTINGS, &[], &[]);
    assert_eq!(both_empty, Verdict::MissingPiece { piece: 0 });
    // One triangle over it all leaves the point in the middle unused.
    assert_eq!(with_indices(&[0, 1, 2]), Verdict::Accepted);
}

/// Asks 5 and 10: the refusals by name, one after the other taken away.
#[test]
fn refusals_before_all_faults() {
    let mut patch = Patch::Isolines { outer: [0.0; 2] };
    let mut settings = Settings {
        top: 63,
        point_mode: true,
        ..SETTINGS
    };
    let faulty = |patch: &Patch, settings: &Settings| check_mesh(patch, settings, &[1], &[]);
    assert_eq!(faulty(&patch, &settings), Verdict::BadTop);
    settings.top = 2;
    assert_eq!(faulty(&patch, &settings), Verdict::Isolines);
    patch = Patch::Triangles {
        outer: [1.0, -0.0, 1.0],
        inner: 1.0,
    };
    assert_eq!(faulty(&patch, &settings), Verdict::Dots);
    settings.point_mode = false;
    assert_eq!(faulty(&patch, &settings), Verdict::ShouldBeDiscarded);
    assert_eq!(
        check_mesh(&patch, &settings, &[], &[9]),
        Verdict::ShouldBeDiscarded
    );
    assert_eq!(check_mesh(&patch, &settings, &[], &[]), Verdict::Accepted);
    assert_eq!(faulty(&TRIANGLES, &settings), Verdict::NotThrees);
}

/// Sums are not taken modulo 2^32, and points past all u16 can be equal.
#[test]
fn great_numbers_and_long_lists() {
    for point in [[u32::MAX, S + 1, 0], [1 << 31, 1 << 31, S], [u32::MAX; 3]] {
        let mut points = POINTS;
        points[9..].copy_from_slice(&point);
        assert_eq!(with_points(&points), Verdict::Outside { point: 3 });
    }
    // Every piece has its points, but no index can name them.
    let far = 70_000;
    let mut points: Vec<u32> = (1..far).flat_map(|u| [u, 1, S - 1 - u]).collect();
    points.extend(&POINTS[..9]);
    let missing = Verdict::MissingPiece { piece: 0 };
    assert_eq!(check_mesh(&TRIANGLES, &SETTINGS, &points, &[]), missing);
    points.extend(&POINTS[..3]);
    let equal = Verdict::EqualPoints {
        first: 69_999,
        second: 70_002,
    };
    assert_eq!(check_mesh(&TRIANGLES, &SETTINGS, &points, &[]), equal);
}

#[test]
fn the_largest_mesh_takes_milliseconds() {
    let patch = Patch::Quads {
        outer: [64.0; 4],
        inner: [64.0; 2],
    };
    let Answer::Drawn { points, indices } = tessellate(&patch, &SETTINGS) else {
        panic!("discarded");
    };
    let indices: Vec<u16> = indices.into_iter().map(|index| index as u16).collect();
    let start = Instant::now();
    let verdict = check_mesh(&patch, &SETTINGS, points.as_flattened(), &indices);
    println!("{:?}", start.elapsed());
    assert_eq!(verdict, Verdict::Accepted);
    assert!(start.elapsed().as_millis() < 500);
}

// ---- the text of a whole job ---------------------------------------------

#[test]
fn one_line_for_every_record() {
    let description = "
triangles equal ccw lower-left primitives outer 1 1 1 inner 2
triangles equal ccw lower-left primitives outer 1 0 1 inner 2
quads     equal cw  lower-left primitives outer 1 1 1 1 inner 1 1
isolines  equal cw  lower-left primitives outer 1 1
quads     equal 2   lower-left primitives outer 1 1 1 1 inner 1 1
quads     odd   cw  lower-left points     outer 1 1 1 1 inner 1 1
";
    let job = text::job(description).unwrap().to_bytes();
    let text = output::answers(&job);
    let lines = "accepted\naccepted\naccepted\nisolines\nrefused 8\ndots\n";
    assert_eq!(verdicts(&job, &text).unwrap(), lines);

    for (from, to, line) in [
        ("drawn 4 6", "drawn 4 3", "triangle 0 with side 0 open"),
        (
            "\n0 2 1\n0 3 2\n",
            "\n0 2 1\n0 2 1\n",
            "triangles 0 and 1 with a common side",
        ),
        ("\n0 2 1\n0 3 2\n", "\n0 2 1\n0 2 3\n", "triangle 1 turned"),
        (
            "\n0 2 1\n0 3 2\n",
            "\n0 2 1\n0 4 2\n",
            "unknown index at place 4",
        ),
        ("\n0 65536 0\n", "\n0 65537 0\n", "point 0 outside"),
        ("\n0 65536 0\n", "\n0 0 0\n", "points 0 and 1 equal"),
        ("\ndiscarded\n", "\ndrawn 0 1\n0\n", "should be discarded"),
        ("\ndrawn 4 9\n", "\ndrawn 4 8\n", "not threes"),
    ] {
        let mut changed = text.replacen(from, to, 1);
        if to == "drawn 4 3" {
            changed = changed.replacen("\n0 3 2\n", "\n", 1);
        } else if to == "\ndrawn 4 8\n" {
            changed = changed.replacen("\n2 0 3\n", "\n2 0\n", 1);
        }
        let found = verdicts(&job, &changed).unwrap();
        assert!(found.lines().any(|other| other == line), "{line}: {found}");
    }
    assert!(verdicts(&job, &text.replacen("drawn 4 9", "drawn 4 12", 1)).is_err());
    assert!(verdicts(&job, &text[..text.len() - 2]).is_err());
    assert!(verdicts(&job, &(text + "discarded\n")).is_err());
}
