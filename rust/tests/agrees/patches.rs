//! The functions by their names: measuring, drawing into lists of several lengths, and the mesh.

use crate::here::{indices_here, patch_here, points_here, settings_here, size_here};
use crate::marked::{is_untouched, is_written, marked};
use crate::records::{known, records};
use reference::job::{Record, Version};
use yoktvarim::{
    draw_indices, draw_points, measure, mesh, BadTop, IndicesAnswer, Mesh, Patch, PointsAnswer,
    Settings,
};

/// How many words follow those that a patch needs.
const BEHIND: usize = 7;

/// Draws points with both programs into lists of this length: the answers and every word have to agree.
fn compare_points(
    patch: &reference::Patch,
    settings: &reference::Settings,
    words: usize,
) -> PointsAnswer {
    let (mut list, mut there) = (marked(words), marked(words));
    let answer = draw_points(&patch_here(patch), &settings_here(settings), &mut list);
    let answer_there = reference::draw_points(patch, settings, &mut there);
    assert_eq!(answer, points_here(answer_there), "{patch:?} {settings:?}");
    assert!(list == there, "points of {patch:?} {settings:?}");
    assert!(
        match answer {
            PointsAnswer::Drawn { points } => is_written(&list, 3 * points as usize),
            _ => is_untouched(&list),
        },
        "{patch:?} {settings:?}"
    );
    answer
}

/// The same for indices.
fn compare_indices(
    patch: &reference::Patch,
    settings: &reference::Settings,
    words: usize,
) -> IndicesAnswer {
    let (mut list, mut there) = (marked(words), marked(words));
    let answer = draw_indices(&patch_here(patch), &settings_here(settings), &mut list);
    let answer_there = reference::draw_indices(patch, settings, &mut there);
    assert_eq!(answer, indices_here(answer_there), "{patch:?} {settings:?}");
    assert!(list == there, "indices of {patch:?} {settings:?}");
    assert!(
        match answer {
            IndicesAnswer::Drawn { indices } => is_written(&list, indices as usize),
            _ => is_untouched(&list),
        },
        "{patch:?} {settings:?}"
    );
    answer
}

/// A patch that is drawn, in lists with room, without a word to spare, short by one word, and empty.
fn compare_sizes(
    patch: &reference::Patch,
    settings: &reference::Settings,
    points: usize,
    indices: usize,
) {
    let drawn = PointsAnswer::Drawn {
        points: points as u32,
    };
    for (words, answer) in [
        (3 * points + BEHIND, drawn),
        (3 * points, drawn),
        (3 * points - 1, PointsAnswer::NoRoomForVertices),
        (0, PointsAnswer::NoRoomForVertices),
    ] {
        assert_eq!(compare_points(patch, settings, words), answer);
    }
    let drawn = IndicesAnswer::Drawn {
        indices: indices as u32,
    };
    for (words, answer) in [
        (indices + BEHIND, drawn),
        (indices, drawn),
        (indices - 1, IndicesAnswer::NoRoomForIndices),
        (0, IndicesAnswer::NoRoomForIndices),
    ] {
        assert_eq!(compare_indices(patch, settings, words), answer);
    }
}

/// A patch that is refused whatever room there is.
fn compare_refused(
    patch: &reference::Patch,
    settings: &reference::Settings,
    points: PointsAnswer,
    indices: IndicesAnswer,
) {
    for words in [BEHIND, 0] {
        assert_eq!(compare_points(patch, settings, words), points);
        assert_eq!(compare_indices(patch, settings, words), indices);
    }
}

/// Compares all that can be asked of a record whose settings are known; what came of it where there is room.
pub fn compare_record(record: &Record) -> Option<reference::Answer> {
    let (patch, settings) = known(record)?;
    let (here, how) = (patch_here(&patch), settings_here(&settings));
    let size = size_here(reference::measure(&patch, &settings));
    assert_eq!(measure(&here, &how), size, "{patch:?} {settings:?}");
    let answer = reference::tessellate(&patch, &settings);
    let mesh_there = match &answer {
        reference::Answer::BadTop => {
            compare_refused(
                &patch,
                &settings,
                PointsAnswer::BadTop,
                IndicesAnswer::BadTop,
            );
            Err(BadTop(record.top))
        }
        reference::Answer::Discarded => {
            compare_refused(
                &patch,
                &settings,
                PointsAnswer::Discarded,
                IndicesAnswer::Discarded,
            );
            Ok(None)
        }
        reference::Answer::Drawn { points, indices } => {
            compare_sizes(&patch, &settings, points.len(), indices.len());
            Ok(Some(Mesh {
                points: points.clone(),
                indices: indices.iter().map(|index| *index as u16).collect(),
            }))
        }
    };
    assert!(mesh(&here, &how) == mesh_there, "{patch:?} {settings:?}");
    Some(answer)
}

#[test]
fn random_patches() {
    for version in [Version::One, Version::Two] {
        let mut drawn = [0; 3];
        for record in (1..=4).flat_map(|seed| records(seed, 3_000, version)) {
            if let Some(reference::Answer::Drawn { .. }) = compare_record(&record) {
                drawn[usize::from(record.settings[0])] += 1;
            }
        }
        assert!(
            drawn.iter().all(|kind| *kind > 1_500),
            "few were drawn: {drawn:?}"
        );
    }
}

#[test]
fn every_level_at_64() {
    let settings = Settings::default();
    let quads = Patch::Quads {
        outer: [64.0; 4],
        inner: [64.0; 2],
    };
    let mut vertices = vec![0; yoktvarim::VERTEX_WORDS];
    let points = draw_points(&quads, &settings, &mut vertices);
    assert_eq!(points, PointsAnswer::Drawn { points: 4_225 });
    let short = draw_points(&quads, &settings, &mut vertices[1..]);
    assert_eq!(short, PointsAnswer::NoRoomForVertices);
    let mut list = vec![0; yoktvarim::INDEX_WORDS];
    let indices = draw_indices(&quads, &settings, &mut list);
    assert_eq!(indices, IndicesAnswer::Drawn { indices: 24_576 });
    let short = draw_indices(&quads, &settings, &mut list[1..]);
    assert_eq!(short, IndicesAnswer::NoRoomForIndices);
}
