//! Every verdict on a mesh agrees with the second program's own checker: on meshes damaged in every way it knows, on our own,
//! and on lists of any length and content.

#[allow(dead_code)]
#[path = "agrees/here.rs"]
mod here;
#[allow(dead_code)]
#[path = "agrees/records.rs"]
mod records;

use here::{patch_here, settings_here};
use records::{known, levels, records, setting_bytes};
use reference::damage_mesh::{damaged_mesh, DamagedMesh, MESH_DAMAGES};
use reference::job::Version;
use std::collections::BTreeMap;
use yoktvarim::check::{check_numbered, Checked};
use yoktvarim::{check_mesh, mesh, Patch, Settings, Verdict};

/// The second program's verdict as this crate has it.
fn verdict_here(verdict: reference::verdict::Verdict) -> Verdict {
    use reference::verdict::Verdict as There;
    match verdict {
        There::Accepted => Verdict::Accepted,
        There::BadTop => Verdict::BadTop,
        There::Isolines => Verdict::Isolines,
        There::Dots => Verdict::Dots,
        There::ShouldBeDiscarded => Verdict::ShouldBeDiscarded,
        There::NotThrees => Verdict::NotThrees,
        There::UnknownIndex { place } => Verdict::UnknownIndex {
            place: place as u64,
        },
        There::Outside { point } => Verdict::Outside {
            point: point as u64,
        },
        There::EqualPoints { first, second } => Verdict::EqualPoints {
            first: first as u64,
            second: second as u64,
        },
        There::Turned { triangle } => Verdict::Turned {
            triangle: triangle as u64,
        },
        There::SideTwice { first, second } => Verdict::SideTwice {
            first: first as u64,
            second: second as u64,
        },
        There::OpenSide { triangle, corner } => Verdict::OpenSide {
            triangle: triangle as u64,
            corner: corner as u64,
        },
        There::MissingPiece { piece } => Verdict::MissingPiece {
            piece: piece as u64,
        },
    }
}

/// Checks with both programs: the verdicts have to agree.
fn compare(mesh: &DamagedMesh) -> Verdict {
    let DamagedMesh {
        patch,
        settings,
        points,
        indices,
    } = mesh;
    let verdict = check_mesh(
        &patch_here(patch),
        &settings_here(settings),
        points,
        indices,
    );
    let there = reference::verdict::check_mesh(patch, settings, points, indices);
    assert_eq!(verdict, verdict_here(there), "{patch:?} {settings:?}");
    verdict
}

/// The verdict's name without its places.
fn name(verdict: Verdict) -> String {
    let whole = format!("{verdict:?}");
    whole.split(' ').next().unwrap_or_default().to_string()
}

#[test]
fn damaged_meshes() {
    let mut seen: BTreeMap<String, u32> = BTreeMap::new();
    for seed in 1..=250 {
        for number in 0..MESH_DAMAGES {
            let verdict = compare(&damaged_mesh(seed, number));
            *seen.entry(name(verdict)).or_default() += 1;
        }
    }
    assert_eq!(seen.len(), 13, "{seen:?}");
    assert!(seen.values().all(|times| *times >= 20), "{seen:?}");
}

#[test]
fn our_own_meshes_are_accepted() {
    let mut accepted = 0;
    for record in [Version::One, Version::Two]
        .map(|version| records(5, 1_500, version))
        .concat()
    {
        let Some((patch, settings)) = known(&record) else {
            continue;
        };
        let (patch, mut settings) = (patch_here(&patch), settings_here(&settings));
        settings.point_mode = false;
        let (points, indices) = match mesh(&patch, &settings) {
            Err(_) => continue,
            Ok(None) => (Vec::new(), Vec::new()),
            Ok(Some(mesh)) => (mesh.points.concat(), mesh.indices),
        };
        let verdict = check_mesh(&patch, &settings, &points, &indices);
        if let Patch::Isolines { .. } = patch {
            assert_eq!(verdict, Verdict::Isolines);
        } else {
            assert_eq!(verdict, Verdict::Accepted, "{patch:?} {settings:?}");
            accepted += 1;
        }
    }
    assert!(accepted > 1_000, "few were to be accepted: {accepted}");
}

#[test]
fn the_largest_mesh_is_accepted() {
    let settings = Settings::default();
    let quads = Patch::Quads {
        outer: [64.0; 4],
        inner: [64.0; 2],
    };
    let mut mesh = mesh(&quads, &settings)
        .expect("a good top")
        .expect("not discarded");
    let points = mesh.points.concat();
    let accepted = check_mesh(&quads, &settings, &points, &mesh.indices);
    assert_eq!(accepted, Verdict::Accepted);
    mesh.indices.extend_from_within(3..6);
    let twice = check_mesh(&quads, &settings, &points, &mesh.indices);
    assert_eq!(
        twice,
        Verdict::SideTwice {
            first: 1,
            second: 8_192
        }
    );
}

/// The settings of drawing with this spacing, triangles turning counter-clockwise and every level taken.
fn plain_settings(spacing: reference::Spacing) -> reference::Settings {
    reference::Settings {
        spacing,
        vertex_order: reference::VertexOrder::CounterClockwise,
        domain_origin: reference::DomainOrigin::LowerLeft,
        point_mode: false,
        top: 64,
    }
}

/// The mesh of a quad patch with one level, with this many triangles split in three by a point inside, and unused points up to `points`.
fn refined(level: f32, splits: usize, points: usize) -> DamagedMesh {
    let patch = reference::Patch::Quads {
        outer: [level; 4],
        inner: [level; 2],
    };
    let settings = plain_settings(reference::Spacing::Equal);
    let drawn = mesh(&patch_here(&patch), &settings_here(&settings))
        .expect("a good top")
        .expect("not discarded");
    let (mut corners, mut indices) = (drawn.points, drawn.indices);
    for triangle in 0..splits {
        let [a, b, c] = [0, 1, 2].map(|corner| indices[3 * triangle + corner]);
        let [p, q, r] = [a, b, c].map(|index| corners[usize::from(index)]);
        let middle = corners.len() as u16;
        corners.push([0, 1, 2].map(|axis| (p[axis] + q[axis] + r[axis]) / 3));
        indices[3 * triangle + 2] = middle;
        indices.extend([b, c, middle, c, a, middle]);
    }
    for number in corners.len()..points {
        corners.push([2 * number as u32 + 1, 3, 0]);
    }
    DamagedMesh {
        patch,
        settings,
        points: corners.concat(),
        indices,
    }
}

/// Meshes as large as the tables of sides are made for, and larger ones: whole, with a triangle missing and with one repeated.
#[test]
fn meshes_around_the_sizes_of_the_tables() {
    for (level, splits, points) in [
        (4.0, 15, 0),
        (4.0, 16, 64),
        (4.0, 16, 65),
        (4.0, 17, 0),
        (64.0, 0, 8_192),
        (64.0, 0, 8_193),
        (64.0, 1, 0),
    ] {
        let mesh = refined(level, splits, points);
        assert_eq!(
            compare(&mesh),
            Verdict::Accepted,
            "{level} {splits} {points}"
        );
        for triangle in [0, mesh.indices.len() / 6, mesh.indices.len() / 3 - 1] {
            let (start, end) = (3 * triangle, 3 * triangle + 3);
            let mut open = mesh.clone();
            open.indices.drain(start..end);
            assert_ne!(compare(&open), Verdict::Accepted);
            let mut twice = mesh.clone();
            twice.indices.extend_from_within(start..end);
            assert_eq!(name(compare(&twice)), "SideTwice");
        }
    }
}

/// Patches whose outline has about 64 points, or as many as there can be: whole, and with each triangle at the outline missing.
#[test]
fn outlines_around_the_sizes_of_their_lists() {
    use reference::Patch::{Quads, Triangles};
    use reference::Spacing::{Equal, FractionalEven, FractionalOdd};
    let triangles = |outer| Triangles { outer, inner: 2.0 };
    let quads = |outer| Quads {
        outer,
        inner: [2.0; 2],
    };
    for patch in [
        triangles([21.0; 3]),
        triangles([22.0, 21.0, 21.0]),
        triangles([22.0, 22.0, 21.0]),
        triangles([64.0; 3]),
        quads([16.0, 16.0, 16.0, 15.0]),
        quads([16.0; 4]),
        quads([16.0, 16.0, 16.0, 17.0]),
        quads([64.0; 4]),
    ] {
        for spacing in [Equal, FractionalEven, FractionalOdd] {
            let settings = plain_settings(spacing);
            let drawn = mesh(&patch_here(&patch), &settings_here(&settings))
                .expect("a good top")
                .expect("not discarded");
            let whole = DamagedMesh {
                patch,
                settings,
                points: drawn.points.concat(),
                indices: drawn.indices,
            };
            assert_eq!(compare(&whole), Verdict::Accepted, "{patch:?}");
            for start in (0..whole.indices.len()).step_by(3) {
                let mut open = whole.clone();
                open.indices.drain(start..start + 3);
                assert_ne!(compare(&open), Verdict::Accepted, "{patch:?}");
            }
        }
    }
}

/// Few points and so many triangles, no two of which have a side in common, that more sides are open than an outline has pieces.
#[test]
fn more_open_sides_than_an_outline_has_pieces() {
    let mut mesh = refined(4.0, 16, 64);
    let points: Vec<[i64; 2]> = mesh
        .points
        .chunks(3)
        .map(|point| [i64::from(point[0]), i64::from(point[1])])
        .collect();
    let mut sides = std::collections::BTreeSet::new();
    mesh.indices.clear();
    let triples = (0..64).flat_map(|a| (0..64).flat_map(move |b| (0..64).map(move |c| [a, b, c])));
    for triple in triples {
        let [[pu, pv], [qu, qv], [ru, rv]] = triple.map(|corner: u16| points[usize::from(corner)]);
        let turns = (qu - pu) * (rv - pv) > (ru - pu) * (qv - pv);
        let [a, b, c] = triple;
        let around = [[a, b], [b, c], [c, a]].map(|[x, y]| [x.min(y), x.max(y)]);
        if turns && around.iter().all(|side| !sides.contains(side)) {
            sides.extend(around);
            mesh.indices.extend(triple);
        }
    }
    assert!(mesh.indices.len() > 256 + 4 * 64, "{}", mesh.indices.len());
    assert_eq!(name(compare(&mesh)), "OpenSide");
}

/// Lists of every short length, with words around every limit, and long ones of a single word.
#[test]
fn lists_of_any_length_and_content() {
    let settings = plain_settings(reference::Spacing::Equal);
    let triangles = reference::Patch::Triangles {
        outer: [1.0; 3],
        inner: 1.0,
    };
    let quads = reference::Patch::Quads {
        outer: [1.0; 4],
        inner: [1.0; 2],
    };
    let words = [
        0,
        1,
        65_535,
        65_536,
        65_537,
        196_607,
        196_608,
        196_609,
        1 << 31,
        u32::MAX,
    ];
    let lengths = (0..=12).chain([300, 4_000]);
    for (length, patch) in lengths.flat_map(|length| [(length, triangles), (length, quads)]) {
        for (step, word) in words.iter().enumerate() {
            for (index_count, index) in [(0, 0), (1, 0), (3, 0), (9, u16::MAX), (length, 1)] {
                let mesh = DamagedMesh {
                    patch,
                    settings,
                    points: (0..length)
                        .map(|at| if at % 3 == step % 3 { *word } else { 0 })
                        .collect(),
                    indices: vec![index; index_count],
                };
                let _ = compare(&mesh);
            }
        }
    }
}

#[test]
fn numbers_and_places() {
    let none = [0, 0];
    let plain = [1.0; 6];
    let told = |settings: [u8; 6], points: &[u32], indices: &[u16]| {
        let Checked { number, places } = check_numbered(&settings, &plain, points, indices);
        (number, places)
    };
    assert_eq!(told([0, 0, 1, 1, 0, 0], &[], &[]), (11, none));
    assert_eq!(told([9, 9, 9, 9, 9, 7], &[], &[]), (11, none));
    for place in 0..5 {
        let mut settings = [0, 0, 1, 1, 0, 64];
        settings[place] = 3;
        assert_eq!(told(settings, &[1], &[]), (8, [place as u64, 0]));
    }
    assert_eq!(told([2, 0, 1, 1, 1, 64], &[], &[]), (20, none));
    assert_eq!(told([1, 0, 1, 1, 1, 64], &[], &[]), (21, none));
    assert_eq!(told([0, 0, 1, 1, 0, 64], &[], &[]), (30, none));
    let corners = [0, 196_608, 0, 0, 0, 196_608, 196_608, 0, 0];
    assert_eq!(told([0, 0, 1, 1, 0, 64], &corners, &[0, 1, 2]), (0, none));
    assert_eq!(
        told([0, 0, 1, 1, 0, 64], &corners, &[0, 1, 3]),
        (24, [2, 0])
    );
    assert_eq!(told([0, 0, 0, 1, 0, 64], &corners, &[0, 1, 2]), (27, none));
    assert_eq!(
        told([0, 0, 1, 1, 0, 64], &corners, &[0, 1, 2, 1, 2, 0]),
        (28, [0, 1])
    );
    let nan = [f32::NAN; 6];
    let discarded = |points: &[u32]| check_numbered(&[0, 0, 1, 1, 0, 64], &nan, points, &[]).number;
    assert_eq!((discarded(&[]), discarded(&[1])), (0, 22));
}

/// Levels that do not count change nothing.
#[test]
fn levels_that_do_not_count() {
    for record in records(6, 300, Version::Two) {
        let mut other = record;
        if other.settings[0] == 0 {
            other.levels[3] = f32::NAN.to_bits();
            other.levels[5] ^= 0xFFFF;
        }
        let checked =
            |record| check_numbered(&setting_bytes(record), &levels(record), &[0; 6], &[0; 3]);
        assert_eq!(checked(&record), checked(&other));
    }
}
