//! Connections that are kept: patches of the same kind, point mode, vertex order and origin whose levels give the same
//! segments have equal indices, wherever their points lie, if both are the plain patch or neither is.

use crate::here::{patch_here, settings_here};
use crate::records::{known, levels, records, COUNTING};
use reference::job::{Record, Version};
use reference::level::{division, widen_inner};
use yoktvarim::{mesh, Mesh, Patch, Settings};

/// The mesh of a record that can be drawn.
fn mesh_of(record: &Record) -> Option<Mesh> {
    let (patch, settings) = known(record)?;
    mesh(&patch_here(&patch), &settings_here(&settings)).ok()?
}

/// The places of the levels that count, each with its segments. An inner 1 is raised as the rules say, unless the patch is
/// plain.
fn segments(record: &Record) -> Vec<(usize, u32)> {
    let (_, settings) = known(record).expect("a record that can be drawn");
    let isolines = record.settings[0] == 2;
    let divided = COUNTING[usize::from(record.settings[0])]
        .iter()
        .map(|place| {
            let spacing = match (isolines, place) {
                (true, 0) => reference::Spacing::Equal,
                _ => settings.spacing,
            };
            let level = levels(record)[*place];
            (*place, division(level, spacing, settings.top))
        });
    let plain = divided.clone().all(|(_, edge)| edge.n == 1);
    divided
        .map(|(place, edge)| match place {
            4.. if !plain => (place, widen_inner(edge, settings.spacing).n),
            _ => (place, edge.n),
        })
        .collect()
}

/// The record with levels that give so many segments in every spacing that can give them, each anywhere less than 1 below.
fn moved(record: &Record, segments: &[(usize, u32)]) -> Record {
    let mut moved = *record;
    for (place, segments) in segments {
        let scattered = record.levels[*place].wrapping_mul(0x9e37_79b9) >> 24;
        let level = *segments as f32 - scattered as f32 / 256.0;
        moved.levels[*place] = level.to_bits();
    }
    moved
}

/// Two records with as many segments: one with the same settings, and one with equal spacing and the top 64.
fn likes(record: &Record) -> [Record; 2] {
    let same = moved(record, &segments(record));
    let mut equal = Record { top: 64, ..same };
    equal.settings[1] = 0;
    [same, equal]
}

#[test]
fn equal_segments_keep_the_connections() {
    let mut moved = [0; 3];
    for record in [Version::One, Version::Two]
        .map(|version| records(14, 3_000, version))
        .concat()
    {
        let Some(first) = mesh_of(&record) else {
            continue;
        };
        for like in likes(&record) {
            let second = mesh_of(&like).expect("not discarded");
            assert!(first.indices == second.indices, "{record:?} {like:?}");
            if first.points != second.points {
                moved[usize::from(record.settings[0])] += 1;
            }
        }
    }
    assert!(
        moved.iter().all(|kind| *kind > 500),
        "the points of few were elsewhere: {moved:?}"
    );
}

/// Why both have to be plain or neither: with an inner level of 1, raised to 2 segments, or of 2, the segments are equal.
#[test]
fn the_plain_patch_has_connections_of_its_own() {
    let indices = |inner| {
        let outer = [1.0; 3];
        let drawn = mesh(&Patch::Triangles { outer, inner }, &Settings::default());
        drawn.expect("a good top").expect("not discarded").indices
    };
    assert_eq!(indices(1.0), [0, 1, 2]);
    assert_eq!(indices(2.0), [0, 1, 3, 1, 2, 3, 2, 0, 3]);
}
