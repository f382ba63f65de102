//! Ask 7: points and connections drawn apart, and connections that are kept.

use std::collections::HashMap;

use reference::job::{read_job, Version};
use reference::level::{division, widen_inner, Division};
use reference::*;

/// Random patches of both versions, with every sort of level, setting and top.
fn some_patches() -> Vec<(Patch, Settings)> {
    let one = random::job(11, 1000, Version::One);
    let two = random::job(12, 1000, Version::Two);
    [one, two]
        .iter()
        .flat_map(|bytes| read_job(bytes).unwrap().flatten())
        .collect()
}

fn points(patch: &Patch, settings: &Settings) -> Vec<u32> {
    let mut list = vec![0; 12_675];
    match draw_points(patch, settings, &mut list) {
        PointsAnswer::Drawn { points } => list[..3 * points].to_vec(),
        answer => panic!("{answer:?}"),
    }
}

fn indices(patch: &Patch, settings: &Settings) -> Vec<u16> {
    let mut list = vec![0; 24_576];
    match draw_indices(patch, settings, &mut list) {
        IndicesAnswer::Drawn { indices } => list[..indices].to_vec(),
        answer => panic!("{answer:?}"),
    }
}

// ---- each operation by itself -------------------------------------------

#[test]
fn apart_is_as_together() {
    for (patch, settings) in some_patches() {
        match tessellate(&patch, &settings) {
            Answer::BadTop => panic!("read from a file"),
            Answer::Discarded => {
                assert_eq!(draw_points(&patch, &settings, &mut []).number(), 1);
                assert_eq!(draw_indices(&patch, &settings, &mut []).number(), 1);
            }
            Answer::Drawn {
                points: all,
                indices: connections,
            } => {
                assert_eq!(points(&patch, &settings), all.as_flattened());
                assert!(indices(&patch, &settings)
                    .into_iter()
                    .map(u32::from)
                    .eq(connections));
            }
        }
    }
}

#[test]
fn one_word_too_few_leaves_a_list_alone() {
    for (patch, settings) in some_patches().into_iter().take(300) {
        if patch.is_discarded() {
            continue;
        }
        let mut list = vec![7777; points(&patch, &settings).len() - 1];
        let answer = draw_points(&patch, &settings, &mut list);
        assert_eq!(answer, PointsAnswer::NoRoomForVertices);
        assert!(list.iter().all(|word| *word == 7777));
        let mut list = vec![7777; indices(&patch, &settings).len() - 1];
        let answer = draw_indices(&patch, &settings, &mut list);
        assert_eq!(answer, IndicesAnswer::NoRoomForIndices);
        assert!(list.iter().all(|word| *word == 7777));
    }
}

// ---- kept connections ---------------------------------------------------

/// How a patch divides its edges, with every inner level of one segment raised,
/// and whether it is drawn plain all the same.
struct Edges {
    outer: Vec<Division>,
    inner: Vec<Division>,
    plain: bool,
}

fn edges(patch: &Patch, settings: &Settings) -> Edges {
    let divide = |level: f32| division(level, settings.spacing, settings.top);
    let (outer, inner) = match *patch {
        Patch::Triangles { outer, inner } => (outer.map(divide).to_vec(), vec![divide(inner)]),
        Patch::Quads { outer, inner } => (outer.map(divide).to_vec(), inner.map(divide).to_vec()),
        Patch::Isolines {
            outer: [lines, along],
        } => {
            let lines = division(lines, Spacing::Equal, settings.top);
            (vec![lines, divide(along)], Vec::new())
        }
    };
    let one = |edge: &Division| edge.n == 1;
    let isolines = inner.is_empty();
    Edges {
        plain: !isolines && outer.iter().chain(&inner).all(one),
        inner: inner
            .into_iter()
            .map(|edge| widen_inner(edge, settings.spacing))
            .collect(),
        outer,
    }
}

/// All that the connections may hang on, by Ask 7: kind, switch, winding,
/// origin, segment counts, plain or not. Spacing, top and levels are not in it.
fn key(patch: &Patch, settings: &Settings) -> String {
    let edges = edges(patch, settings);
    let kind = match patch {
        Patch::Triangles { .. } => "triangles",
        Patch::Quads { .. } => "quads",
        Patch::Isolines { .. } => "isolines",
    };
    let counts: Vec<u32> = edges
        .outer
        .iter()
        .chain(&edges.inner)
        .map(|e| e.n)
        .collect();
    format!(
        "{kind} {} {:?} {:?} {counts:?} {}",
        settings.point_mode, settings.vertex_order, settings.domain_origin, edges.plain
    )
}

/// The same kind with other levels, worked out from the numbers of segments.
fn with_levels(patch: &Patch, edges: &Edges, level: impl Fn(u32) -> f32) -> Patch {
    let outer = |i: usize| level(edges.outer[i].n);
    let inner = |i: usize| level(edges.inner[i].n);
    match patch {
        Patch::Triangles { .. } => Patch::Triangles {
            outer: [0, 1, 2].map(outer),
            inner: inner(0),
        },
        Patch::Quads { .. } => Patch::Quads {
            outer: [0, 1, 2, 3].map(outer),
            inner: [0, 1].map(inner),
        },
        Patch::Isolines { .. } => Patch::Isolines {
            outer: [0, 1].map(outer),
        },
    }
}

/// Every patch that is drawn, and for each two more with its numbers of segments
/// under equal spacing, by whole levels and by levels in between.
fn patches_and_their_likes() -> Vec<(Patch, Settings)> {
    let mut all = Vec::new();
    for (patch, settings) in some_patches() {
        if patch.is_discarded() {
            continue;
        }
        let edges = edges(&patch, &settings);
        let equal = Settings {
            spacing: Spacing::Equal,
            top: 64,
            ..settings
        };
        all.push((patch, settings));
        all.push((with_levels(&patch, &edges, |n| n as f32), equal));
        all.push((with_levels(&patch, &edges, |n| n as f32 - 0.25), equal));
    }
    all
}

#[test]
fn equal_segment_counts_keep_the_connections() {
    let mut first_with = HashMap::new();
    let (mut compared, mut moved) = (0, 0);
    for (patch, settings) in patches_and_their_likes() {
        let key = key(&patch, &settings);
        let Some((earlier, earlier_settings)) = first_with.get(&key) else {
            first_with.insert(key, (patch, settings));
            continue;
        };
        let kept = indices(earlier, earlier_settings);
        assert_eq!(kept, indices(&patch, &settings), "{key}");
        compared += 1;
        moved += u32::from(points(earlier, earlier_settings) != points(&patch, &settings));
    }
    // The connections were kept where points had moved, not only where none had.
    assert!(compared > 2000 && moved > 500, "{compared} {moved}");
}

/// Why the plain patch has a word of its own in the statement: with two inner
/// segments by rule or by level, the counts are the same and the patches not.
#[test]
fn plain_patches_have_connections_of_their_own() {
    let settings = Settings {
        spacing: Spacing::Equal,
        vertex_order: VertexOrder::CounterClockwise,
        domain_origin: DomainOrigin::LowerLeft,
        point_mode: false,
        top: 64,
    };
    let triangles = |inner: f32| Patch::Triangles {
        outer: [1.0; 3],
        inner,
    };
    assert_eq!(indices(&triangles(1.0), &settings), [0, 1, 2]);
    let divided = indices(&triangles(2.0), &settings);
    assert_eq!(divided, [0, 1, 3, 1, 2, 3, 2, 0, 3]);
}
