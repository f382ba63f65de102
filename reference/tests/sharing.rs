//! Ask 11: two designers, one vertex list, one index list.

use std::collections::HashMap;

use reference::job::{read_job, Version};
use reference::random::Random;
use reference::shared_lists::{clear, draw, start};
use reference::*;

const SETTINGS: Settings = Settings {
    spacing: Spacing::Equal,
    vertex_order: VertexOrder::CounterClockwise,
    domain_origin: DomainOrigin::LowerLeft,
    point_mode: false,
    top: 64,
};
/// Three points and one triangle.
const PLAIN: Patch = Patch::Triangles {
    outer: [1.0; 3],
    inner: 1.0,
};
const DISCARDED: Patch = Patch::Triangles {
    outer: [0.0; 3],
    inner: 1.0,
};
/// 4,225 points, three words each; in point mode as many indices.
const LARGEST: Patch = Patch::Quads {
    outer: [64.0; 4],
    inner: [64.0; 2],
};
const PLAIN_POINTS: [u32; 9] = [0, 196_608, 0, 0, 0, 196_608, 196_608, 0, 0];

// ---- the parts -----------------------------------------------------------

#[test]
fn quotas_past_a_list() {
    let good = start(30, 20, [[12, 20], [18, 0]]).unwrap();
    let share = |quota| Share { quota, used: 0 };
    assert_eq!(good.vertices.shares, [share(12), share(18)]);
    assert_eq!(good.indices.shares, [share(20), share(0)]);
    assert_eq!((good.vertices.length, good.indices.length), (30, 20));
    let refused = [
        [[12, 20], [19, 0]],
        [[12, 20], [18, 1]],
        [[u64::MAX, 0], [1, 0]],
        [[0, u64::MAX], [0, u64::MAX]],
        [[31, 0], [0, 0]],
    ];
    for quotas in refused {
        let answer = start(30, 20, quotas).unwrap_err();
        assert_eq!((answer, answer.number()), (ShareAnswer::QuotasTooLarge, 12));
    }
    assert!(start(u64::MAX, 0, [[u64::MAX, 0], [0, 0]]).is_ok());
    assert!(start(u64::MAX, 0, [[u64::MAX, 0], [1, 0]]).is_err());
}

#[test]
fn parts_are_filled_one_patch_after_another() {
    let (mut vertices, mut indices) = ([7; 40], [7; 15]);
    let mut state = start(40, 15, [[19, 7], [20, 8]]).unwrap();
    let drawn = ShareAnswer::Drawn {
        points: 3,
        indices: 3,
    };
    for designer in [1, 0, 0, 1] {
        let answer = draw(
            &mut state,
            designer,
            &PLAIN,
            &SETTINGS,
            &mut vertices,
            &mut indices,
        );
        assert_eq!(answer, drawn);
    }
    let twice = [PLAIN_POINTS, PLAIN_POINTS].concat();
    assert_eq!(vertices[..18], twice);
    assert_eq!(vertices[18], 7);
    assert_eq!(vertices[19..37], twice);
    assert_eq!(vertices[37..], [7; 3]);
    assert_eq!(indices, [0, 1, 2, 3, 4, 5, 7, 0, 1, 2, 3, 4, 5, 7, 7]);
    assert_eq!(
        state.vertices.shares[0],
        Share {
            quota: 19,
            used: 18
        }
    );
    assert_eq!(state.indices.shares[1], Share { quota: 8, used: 6 });

    // Neither has room left, though both lists have.
    let full = (state, vertices, indices);
    for designer in [0, 1] {
        let answer = draw(
            &mut state,
            designer,
            &PLAIN,
            &SETTINGS,
            &mut vertices,
            &mut indices,
        );
        assert_eq!(
            (answer, answer.number()),
            (ShareAnswer::NoRoomForVertices, 3)
        );
    }
    assert_eq!((state, vertices, indices), full);

    // Cleared words stay, and are then written over.
    assert_eq!(clear(&mut state, 1, 40, 15), ShareAnswer::Cleared);
    assert_eq!((vertices, indices), (full.1, full.2));
    assert_eq!(state.vertices.shares[1].used, 0);
    assert_eq!(state.indices.shares[1].used, 0);
    assert_eq!(state.vertices.shares[0], full.0.vertices.shares[0]);
    let turned = Settings {
        vertex_order: VertexOrder::Clockwise,
        ..SETTINGS
    };
    let answer = draw(&mut state, 1, &PLAIN, &turned, &mut vertices, &mut indices);
    assert_eq!(answer, drawn);
    assert_eq!(indices, [0, 1, 2, 3, 4, 5, 7, 0, 2, 1, 3, 4, 5, 7, 7]);
}

// ---- the order of answers -------------------------------------------------

/// All reasons to refuse at once, taken away one after another.
#[test]
fn refusals_in_their_order() {
    let mut vertices = vec![7; 250_000];
    let mut indices = vec![7; 100_000];
    let quotas = [[3 * 65_535, 63_375], [3 * 4_224, 4_225]];
    let mut state = start(250_000, 100_000, quotas).unwrap();
    let dots = Settings {
        point_mode: true,
        ..SETTINGS
    };
    for _ in 0..15 {
        let answer = draw(&mut state, 0, &LARGEST, &dots, &mut vertices, &mut indices);
        assert_eq!(
            answer,
            ShareAnswer::Drawn {
                points: 4_225,
                indices: 4_225
            }
        );
    }
    let (before, vertices_before, indices_before) = (state, vertices.clone(), indices.clone());
    let mut bad_state = state;
    bad_state.vertices.shares[1].used = 1;
    let bad_top = Settings { top: 0, ..dots };

    let answer = draw(
        &mut bad_state,
        0,
        &DISCARDED,
        &bad_top,
        &mut vertices,
        &mut indices,
    );
    assert_eq!((answer, answer.number()), (ShareAnswer::BadTop, 11));
    let answer = draw(
        &mut bad_state,
        0,
        &DISCARDED,
        &dots,
        &mut vertices,
        &mut indices,
    );
    assert_eq!((answer, answer.number()), (ShareAnswer::BadState, 14));
    let answer = draw(
        &mut state,
        0,
        &DISCARDED,
        &dots,
        &mut vertices,
        &mut indices,
    );
    assert_eq!((answer, answer.number()), (ShareAnswer::Discarded, 1));
    // 63,375 points are there; also too little room in both lists.
    let answer = draw(&mut state, 0, &LARGEST, &dots, &mut vertices, &mut indices);
    assert_eq!((answer, answer.number()), (ShareAnswer::TooManyPoints, 13));
    let answer = draw(
        &mut state,
        1,
        &LARGEST,
        &SETTINGS,
        &mut vertices,
        &mut indices,
    );
    assert_eq!(
        (answer, answer.number()),
        (ShareAnswer::NoRoomForVertices, 3)
    );
    let answer = draw(
        &mut state,
        0,
        &PLAIN,
        &SETTINGS,
        &mut vertices,
        &mut indices,
    );
    assert_eq!(
        (answer, answer.number()),
        (ShareAnswer::NoRoomForIndices, 4)
    );
    assert!(state == before && vertices == vertices_before && indices == indices_before);
}

/// 65,535 points fit in one part, the greatest index being 65,534.
#[test]
fn as_many_points_as_there_can_be() {
    let mut vertices = vec![0; 200_000];
    let mut indices = vec![0; 70_000];
    let mut state = start(200_000, 70_000, [[5, 1], [199_995, 69_999]]).unwrap();
    let dots = Settings {
        point_mode: true,
        ..SETTINGS
    };
    let mut put = |patch: &Patch| draw(&mut state, 1, patch, &dots, &mut vertices, &mut indices);
    for _ in 0..15 {
        assert_eq!(put(&LARGEST).number(), 0);
    }
    for _ in 0..720 {
        assert_eq!(
            put(&PLAIN),
            ShareAnswer::Drawn {
                points: 3,
                indices: 3
            }
        );
    }
    assert_eq!(put(&PLAIN), ShareAnswer::TooManyPoints);
    assert_eq!(state.vertices.shares[1].used, 3 * 65_535);
    assert_eq!(indices[1..][..65_535].iter().max(), Some(&65_534));
    assert_eq!(indices[1..][65_532..65_536], [65_532, 65_533, 65_534, 0]);
}

#[test]
fn states_that_cannot_be() {
    let good = start(40, 15, [[18, 7], [20, 8]]).unwrap();
    let changes: [fn(&mut State); 12] = [
        |state| state.vertices.length = 41,
        |state| state.vertices.length = 39,
        |state| state.indices.length = 14,
        |state| state.vertices.shares[0].quota = 21,
        |state| state.indices.shares[1].quota = 9,
        |state| state.vertices.shares[1].quota = u64::MAX,
        |state| state.indices.shares[0].quota = u64::MAX,
        |state| state.vertices.shares[0].used = 21,
        |state| state.vertices.shares[1].used = 21,
        |state| state.indices.shares[0].used = 8,
        |state| state.vertices.shares[0].used = 1,
        |state| state.vertices.shares[1].used = 5,
    ];
    let (mut vertices, mut indices) = ([7; 40], [7; 15]);
    for (number, change) in changes.into_iter().enumerate() {
        for designer in [0, 1] {
            let mut state = good;
            change(&mut state);
            let before = state;
            let answer = draw(
                &mut state,
                designer,
                &PLAIN,
                &SETTINGS,
                &mut vertices,
                &mut indices,
            );
            assert_eq!(answer, ShareAnswer::BadState, "{number}");
            assert_eq!(clear(&mut state, designer, 40, 15), answer, "{number}");
            assert_eq!(state, before);
        }
    }
    assert_eq!((vertices, indices), ([7; 40], [7; 15]));
    let mut state = good;
    for (vertex_words, index_words) in [(39, 15), (41, 15), (40, 14), (40, 16)] {
        let (mut vertices, mut indices) = (vec![0; vertex_words], vec![0; index_words]);
        let answer = draw(
            &mut state,
            0,
            &PLAIN,
            &SETTINGS,
            &mut vertices,
            &mut indices,
        );
        assert_eq!(answer, ShareAnswer::BadState);
        let answer = clear(&mut state, 0, vertex_words as u64, index_words as u64);
        assert_eq!(answer, ShareAnswer::BadState);
    }
    assert_eq!(state, good);
}

// ---- one without the other -----------------------------------------------

#[derive(Clone, Copy)]
enum Call {
    Draw(Patch, Settings),
    /// Drawing with a vertex list that is a word too short.
    DrawShort(Patch, Settings),
    Clear,
    ClearShort,
}

/// A start and calls of either designer.
struct Sequence {
    words: [u64; 2],
    quotas: [[u64; 2]; 2],
    calls: Vec<(usize, Call)>,
}

fn random_sequence(seed: u64) -> Sequence {
    let mut random = Random::new(seed);
    let mut quota = || [random.below(400), random.below(500)];
    let quotas = [quota(), quota()];
    let words = [0, 1].map(|i| quotas[0][i] + quotas[1][i] + random.below(3));
    let job = random::job(seed, 40, Version::Two);
    let calls = read_job(&job)
        .unwrap()
        .flatten()
        .map(|(patch, mut settings)| {
            if random.below(10) == 0 {
                settings.top += 1;
            }
            let call = match random.below(12) {
                0 => Call::Clear,
                1 => Call::ClearShort,
                2 => Call::DrawShort(patch, settings),
                _ => Call::Draw(patch, settings),
            };
            (random.below(2) as usize, call)
        });
    Sequence {
        words,
        quotas,
        calls: calls.collect(),
    }
}

/// What one designer sees of a sequence: each answer, and each time the words of
/// both parts and how many are in use.
#[derive(Debug, PartialEq)]
struct Seen {
    answers: Vec<ShareAnswer>,
    shares: Vec<[Share; 2]>,
    vertices: Vec<Vec<u32>>,
    indices: Vec<Vec<u16>>,
}

/// Runs a sequence with the calls of some designers only.
fn run(sequence: &Sequence, who: &[usize], watched: usize) -> Seen {
    let [vertex_words, index_words] = sequence.words;
    let mut vertices = vec![7; vertex_words as usize];
    let mut indices = vec![7; index_words as usize];
    let mut state = start(vertex_words, index_words, sequence.quotas).unwrap();
    let mut seen = Seen {
        answers: Vec::new(),
        shares: Vec::new(),
        vertices: Vec::new(),
        indices: Vec::new(),
    };
    for (designer, call) in &sequence.calls {
        if !who.contains(designer) {
            continue;
        }
        let answer = match call {
            Call::Draw(patch, settings) => draw(
                &mut state,
                *designer,
                patch,
                settings,
                &mut vertices,
                &mut indices,
            ),
            Call::DrawShort(patch, settings) => {
                let short = vertices.len().saturating_sub(1);
                let lent = &mut vertices[..short];
                draw(&mut state, *designer, patch, settings, lent, &mut indices)
            }
            Call::Clear => clear(&mut state, *designer, vertex_words, index_words),
            Call::ClearShort => clear(&mut state, *designer, vertex_words, index_words + 1),
        };
        if *designer == watched {
            let part = |i: usize| {
                let from = [0, sequence.quotas[0][i]][watched] as usize;
                from..from + sequence.quotas[watched][i] as usize
            };
            seen.answers.push(answer);
            let lists = [&state.vertices, &state.indices];
            seen.shares.push(lists.map(|list| list.shares[watched]));
            seen.vertices.push(vertices[part(0)].to_vec());
            seen.indices.push(indices[part(1)].to_vec());
        }
    }
    seen
}

/// Ask 11: whatever one does or is refused, the other's answers, counts and words
/// are the same as without it.
#[test]
fn each_designer_sees_what_they_would_alone() {
    let mut answers: HashMap<u32, u32> = HashMap::new();
    for seed in 0..600 {
        let sequence = random_sequence(seed);
        for watched in [0, 1] {
            let alone = run(&sequence, &[watched], watched);
            assert_eq!(run(&sequence, &[0, 1], watched), alone, "{seed}");
            for answer in &alone.answers {
                *answers.entry(answer.number()).or_default() += 1;
            }
        }
    }
    println!("{answers:?}");
    for number in [0, 1, 3, 4, 11, 14] {
        assert!(answers[&number] > 300, "{answers:?}");
    }
}

/// A designer's answers and words hang on the own quotas and calls and the two
/// lengths only: other quotas for the other one make no difference.
#[test]
fn quotas_of_the_other_make_no_difference() {
    for seed in 0..300 {
        let sequence = random_sequence(seed);
        for watched in [0, 1] {
            let mut other = random_sequence(seed);
            other.quotas[1 - watched] = [0; 2];
            let seen = run(&other, &[watched], watched);
            assert_eq!(run(&sequence, &[0, 1], watched), seen, "{seed}");
        }
    }
}

/// Demand 3 holds of what one call appends: the words are those of drawing alone,
/// with indices counted on.
#[test]
fn a_call_appends_what_drawing_gives() {
    for seed in 0..300 {
        let sequence = random_sequence(seed);
        let [vertex_words, index_words] = sequence.words;
        let mut vertices = vec![7; vertex_words as usize];
        let mut indices = vec![7; index_words as usize];
        let mut state = start(vertex_words, index_words, sequence.quotas).unwrap();
        for (designer, call) in &sequence.calls {
            let Call::Draw(patch, settings) = call else {
                continue;
            };
            let (mut expected_vertices, mut expected_indices) = (vertices.clone(), indices.clone());
            let before = state;
            let answer = draw(
                &mut state,
                *designer,
                patch,
                settings,
                &mut vertices,
                &mut indices,
            );
            let mut expected = before;
            if let Answer::Drawn { points, indices } = tessellate(patch, settings) {
                let first = |list: &SharedList, i: usize| {
                    let start = [0, sequence.quotas[0][i]][*designer];
                    (start + list.shares[*designer].used) as usize
                };
                if answer.number() == 0 {
                    let words = points.as_flattened();
                    let count = before.vertices.shares[*designer].used as u32 / 3;
                    expected_vertices[first(&before.vertices, 0)..][..words.len()]
                        .copy_from_slice(words);
                    let at = first(&before.indices, 1);
                    for (i, index) in indices.iter().enumerate() {
                        expected_indices[at + i] = (index + count) as u16;
                    }
                    expected.vertices.shares[*designer].used += words.len() as u64;
                    expected.indices.shares[*designer].used += indices.len() as u64;
                }
            }
            assert!(
                vertices == expected_vertices && indices == expected_indices,
                "{seed}"
            );
            assert_eq!(state, expected);
        }
    }
}
