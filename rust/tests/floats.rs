//! Drawing with floats agrees with the second program on seeded random patches of every kind and top: every answer, every word
//! and every bit of the floats, in lists with and without room, in every combination.

#[path = "agrees/here.rs"]
#[allow(dead_code)]
mod here;
#[path = "agrees/marked.rs"]
mod marked;
#[path = "agrees/records.rs"]
#[allow(dead_code)]
mod records;

use here::{indices_here, patch_here, points_here, settings_here};
use marked::{is_untouched, is_written, marked, Word};
use records::{known, levels, records, setting_bytes};
use reference::floats as there;
use reference::job::{Record, Refusal, Version};
use std::collections::BTreeMap;
use yoktvarim::floats::{
    draw_with_floats, draw_with_floats_by_number, FloatsAnswer, FloatsNumbered,
};
use yoktvarim::{IndicesAnswer, PointsAnswer, INDEX_WORDS, VERTEX_WORDS};

/// How many words follow those that a patch needs.
const BEHIND: usize = 7;

/// A float by its bits: no NaN is taken for another, nor 0 for -0. The mark is a NaN that no division gives.
#[derive(Clone, Copy, PartialEq)]
#[repr(transparent)]
struct Bits(u32);

impl Word for Bits {
    const MARK: Bits = Bits(0xFFC0_BEEF);
}

fn marked_floats(words: usize) -> Vec<f32> {
    vec![f32::from_bits(Bits::MARK.0); words]
}

fn bits(floats: &[f32]) -> Vec<Bits> {
    floats.iter().map(|float| Bits(float.to_bits())).collect()
}

fn answer_here(answer: there::FloatsAnswer) -> FloatsAnswer {
    match answer {
        there::FloatsAnswer::Drawn { points, indices } => FloatsAnswer::Drawn {
            points: points as u32,
            indices: indices as u32,
        },
        there::FloatsAnswer::Discarded => FloatsAnswer::Discarded,
        there::FloatsAnswer::NoRoomForVertices => FloatsAnswer::NoRoomForVertices,
        there::FloatsAnswer::NoRoomForIndices => FloatsAnswer::NoRoomForIndices,
        there::FloatsAnswer::NoRoomForFloats => FloatsAnswer::NoRoomForFloats,
        there::FloatsAnswer::BadTop => FloatsAnswer::BadTop,
    }
}

/// Draws with both programs into lists of these lengths: the answers, every word and every bit have to agree, and only the
/// counted words are written.
fn compare(
    patch: &reference::Patch,
    settings: &reference::Settings,
    [v, i, f]: [usize; 3],
) -> FloatsAnswer {
    let (mut vertices, mut indices, mut floats) = (marked(v), marked(i), marked_floats(f));
    let answer = draw_with_floats(
        &patch_here(patch),
        &settings_here(settings),
        &mut vertices,
        &mut indices,
        &mut floats,
    );
    let (mut vertices_there, mut indices_there, mut floats_there) =
        (marked(v), marked(i), marked_floats(f));
    let answer_there = there::draw_with_floats(
        patch,
        settings,
        &mut vertices_there,
        &mut indices_there,
        &mut floats_there,
    );
    assert_eq!(answer, answer_here(answer_there), "{patch:?} {settings:?}");
    assert!(vertices == vertices_there, "{patch:?} {settings:?}");
    assert!(indices == indices_there, "{patch:?} {settings:?}");
    let floats = bits(&floats);
    assert!(floats == bits(&floats_there), "{patch:?} {settings:?}");
    let right = match answer {
        FloatsAnswer::Drawn { points, indices: n } => {
            is_written(&vertices, 3 * points as usize)
                && is_written(&indices, n as usize)
                && is_written(&floats, 3 * points as usize)
        }
        _ => is_untouched(&vertices) && is_untouched(&indices) && is_untouched(&floats),
    };
    assert!(right, "{patch:?} {settings:?} {v} {i} {f}");
    answer
}

/// The answer for a patch of this many points and indices in lists of these lengths.
fn expected(points: usize, indices: usize, [v, i, f]: [usize; 3]) -> FloatsAnswer {
    if v < 3 * points {
        FloatsAnswer::NoRoomForVertices
    } else if i < indices {
        FloatsAnswer::NoRoomForIndices
    } else if f < 3 * points {
        FloatsAnswer::NoRoomForFloats
    } else {
        FloatsAnswer::Drawn {
            points: points as u32,
            indices: indices as u32,
        }
    }
}

/// With room, without a word to spare, short by one word, and empty.
fn lengths(words: usize) -> [usize; 4] {
    [words + BEHIND, words, words - 1, 0]
}

/// All combinations of lengths of the three lists.
fn compare_sizes(
    patch: &reference::Patch,
    settings: &reference::Settings,
    points: usize,
    indices: usize,
) {
    for v in lengths(3 * points) {
        for i in lengths(indices) {
            for f in lengths(3 * points) {
                let told = compare(patch, settings, [v, i, f]);
                assert_eq!(told, expected(points, indices, [v, i, f]));
            }
        }
    }
}

/// Compares all that can be asked of a record whose settings are known; what came of it where there is room.
fn compare_record(record: &Record) -> Option<FloatsAnswer> {
    let (patch, settings) = known(record)?;
    let answer = compare(
        &patch,
        &settings,
        [VERTEX_WORDS + BEHIND, INDEX_WORDS, VERTEX_WORDS],
    );
    match answer {
        FloatsAnswer::Drawn { points, indices } => {
            compare_sizes(&patch, &settings, points as usize, indices as usize);
        }
        // Refused whatever room there is.
        _ => assert_eq!(compare(&patch, &settings, [0, 0, 0]), answer),
    }
    Some(answer)
}

#[test]
fn random_patches() {
    for version in [Version::One, Version::Two] {
        let mut drawn = [0; 3];
        for record in records(21, 1_500, version) {
            if let Some(FloatsAnswer::Drawn { .. }) = compare_record(&record) {
                drawn[usize::from(record.settings[0])] += 1;
            }
        }
        assert!(
            drawn.iter().all(|kind| *kind > 150),
            "few were drawn: {drawn:?}"
        );
    }
}

/// Every kind and spacing at every top, with all levels beyond it, and at the tops around.
#[test]
fn every_top() {
    for top in 0..=66 {
        for (kind, spacing) in (0..3).flat_map(|kind| (0..3).map(move |spacing| (kind, spacing))) {
            let record = Record {
                settings: [kind, spacing, 1, 1, 0],
                top,
                levels: [f32::from(top) + 0.5; 6].map(f32::to_bits),
            };
            let (patch, settings) = known(&record).expect("known settings");
            let answer = compare(&patch, &settings, [VERTEX_WORDS, INDEX_WORDS, VERTEX_WORDS]);
            let good = (1..=32).any(|half| 2 * half == top);
            assert_eq!(answer != FloatsAnswer::BadTop, good, "{record:?}");
        }
    }
}

/// The whole-number lists are what the two drawing operations write.
#[test]
fn as_the_two_operations() {
    for record in records(22, 2_000, Version::Two) {
        let Some((patch, settings)) = known(&record) else {
            continue;
        };
        let (here, how) = (patch_here(&patch), settings_here(&settings));
        let (mut vertices, mut indices) = (marked::<u32>(VERTEX_WORDS), marked::<u16>(INDEX_WORDS));
        let mut floats = marked_floats(VERTEX_WORDS);
        let (mut alone, mut kept) = (marked::<u32>(VERTEX_WORDS), marked::<u16>(INDEX_WORDS));
        let answer = draw_with_floats(&here, &how, &mut vertices, &mut indices, &mut floats);
        let points = yoktvarim::draw_points(&here, &how, &mut alone);
        let connections = yoktvarim::draw_indices(&here, &how, &mut kept);
        assert_eq!(
            points,
            points_here(reference::draw_points(
                &patch,
                &settings,
                &mut vec![0; VERTEX_WORDS]
            ))
        );
        assert_eq!(
            connections,
            indices_here(reference::draw_indices(
                &patch,
                &settings,
                &mut vec![0; INDEX_WORDS]
            ))
        );
        let both = match (points, connections) {
            (PointsAnswer::Drawn { points }, IndicesAnswer::Drawn { indices }) => {
                FloatsAnswer::Drawn { points, indices }
            }
            (PointsAnswer::Discarded, IndicesAnswer::Discarded) => FloatsAnswer::Discarded,
            (PointsAnswer::BadTop, IndicesAnswer::BadTop) => FloatsAnswer::BadTop,
            other => panic!("{other:?}"),
        };
        assert_eq!(answer, both, "{record:?}");
        assert!(vertices == alone && indices == kept, "{record:?}");
    }
}

/// The float in parts of 2^-41, which it is a whole number of.
fn parts(float: f32) -> u128 {
    let parts = f64::from(float) * 2f64.powi(41);
    assert_eq!(parts, parts.trunc(), "{float} is no whole number of parts");
    parts as u128
}

/// The floats beside their whole coordinates: exact for quads and isolines, within the bound for triangles; and rising.
#[test]
fn what_is_said_of_a_float() {
    let mut seen: [BTreeMap<u32, u128>; 2] = [BTreeMap::new(), BTreeMap::new()];
    for record in records(24, 3_000, Version::One) {
        let Some((patch, settings)) = known(&record) else {
            continue;
        };
        let triangles = matches!(patch, reference::Patch::Triangles { .. });
        let (mut vertices, mut indices) = (vec![0; VERTEX_WORDS], vec![0; INDEX_WORDS]);
        let mut floats = vec![0.0; VERTEX_WORDS];
        let (here, how) = (patch_here(&patch), settings_here(&settings));
        let answer = draw_with_floats(&here, &how, &mut vertices, &mut indices, &mut floats);
        let FloatsAnswer::Drawn { points, .. } = answer else {
            continue;
        };
        for (x, float) in vertices.iter().zip(&floats).take(3 * points as usize) {
            let (whole, parts) = (u128::from(*x), parts(*float));
            if triangles {
                let apart = (196_608 * parts).abs_diff(whole << 41);
                assert!(apart <= 196_608 * 65_536, "{x} {float}");
            } else {
                assert_eq!(parts, whole << 25, "{x} {float}");
            }
            seen[usize::from(triangles)].insert(*x, parts);
        }
    }
    for (kind, one) in seen.iter().zip([65_536, 196_608]) {
        assert!(kind.len() > 2_000, "only {} coordinates", kind.len());
        assert!(kind.values().zip(kind.values().skip(1)).all(|(a, b)| a < b));
        assert_eq!((kind[&0], kind[&one]), (0, 1 << 41));
    }
}

/// By setting bytes: what the record's decoding finds goes before what drawing finds, and a bad top before both.
fn numbered_there(record: &Record) -> FloatsNumbered {
    let (patch, settings) = match record.decode() {
        _ if !reference::patch::is_top(u32::from(record.top)) => {
            return FloatsNumbered {
                number: 11,
                counts: [0, 0],
            }
        }
        Ok(known) => known,
        Err(Refusal::UnknownSetting { place }) => {
            return FloatsNumbered {
                number: 8,
                counts: [place as u32, 0],
            }
        }
        Err(other) => panic!("{other:?}"),
    };
    let answer = there::draw_with_floats(
        &patch,
        &settings,
        &mut vec![0; VERTEX_WORDS],
        &mut vec![0; INDEX_WORDS],
        &mut vec![0.0; VERTEX_WORDS],
    );
    let counts = match answer {
        there::FloatsAnswer::Drawn { points, indices } => [points as u32, indices as u32],
        _ => [0, 0],
    };
    FloatsNumbered {
        number: answer.number(),
        counts,
    }
}

#[test]
fn by_numbers() {
    let mut told = [0; 12];
    for record in records(23, 3_000, Version::Two) {
        let (settings, levels) = (setting_bytes(&record), levels(&record));
        let (mut vertices, mut indices) = (marked::<u32>(VERTEX_WORDS), marked::<u16>(INDEX_WORDS));
        let mut floats = marked_floats(VERTEX_WORDS);
        let here = draw_with_floats_by_number(
            &settings,
            &levels,
            &mut vertices,
            &mut indices,
            &mut floats,
        );
        assert_eq!(here, numbered_there(&record), "{record:?}");
        told[here.number as usize] += 1;
        if here.number != 0 {
            assert!(is_untouched(&vertices) && is_untouched(&indices));
            assert!(is_untouched(&bits(&floats)));
        }
        // With empty lists only the first lack of room is reported, and only for what would be drawn.
        let short = draw_with_floats_by_number(&settings, &levels, &mut [], &mut [], &mut []);
        let number = if here.number == 0 { 3 } else { here.number };
        assert_eq!(short.number, number, "{record:?}");
    }
    for number in [0, 1, 8, 11] {
        assert!(told[number] > 50, "{told:?}");
    }
}
