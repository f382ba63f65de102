//! Comparing two meshes against the second program, in lists with room, without a word to spare, one word short and empty.

#[path = "agrees/marked.rs"]
mod marked;

use marked::{is_untouched, is_written, marked, Word};
use reference::differences::{compare, random_pair, MeshRef, Pair};
use yoktvarim::compare::{differences, MeshWords};
use yoktvarim::{
    compare_meshes, mesh, Comparison, Difference, MeshFault, Patch, Settings, Side, What,
};

const SEED: u64 = 0x12_2026;
const PAIRS: u64 = 3_800;

impl Word for u64 {
    const MARK: u64 = 0xDEAD_BEEF_DEAD_BEEF;
}

fn fault_here(fault: reference::differences::MeshFault) -> MeshFault {
    match fault {
        reference::differences::MeshFault::NotThrees => MeshFault::NotThrees,
        reference::differences::MeshFault::UnknownIndex => MeshFault::UnknownIndex,
        reference::differences::MeshFault::EqualPoints => MeshFault::EqualPoints,
    }
}

fn answer_here(answer: reference::differences::Comparison) -> Comparison {
    match answer {
        reference::differences::Comparison::Differences { count } => Comparison::Differences {
            count: count as u64,
        },
        reference::differences::Comparison::NoRoom { count } => Comparison::NoRoom {
            count: count as u64,
        },
        reference::differences::Comparison::LeftRefused(fault) => {
            Comparison::LeftRefused(fault_here(fault))
        }
        reference::differences::Comparison::RightRefused(fault) => {
            Comparison::RightRefused(fault_here(fault))
        }
    }
}

fn sides(pair: &Pair) -> (MeshWords<'_>, MeshWords<'_>) {
    (
        (&pair.left_points, &pair.left_indices),
        (&pair.right_points, &pair.right_indices),
    )
}

/// Both programs give the same answer and the same list of this many words.
fn agree(pair: &Pair, words: usize, what: &str) -> Comparison {
    let ((left_points, left_indices), (right_points, right_indices)) = sides(pair);
    let mut there = marked::<u64>(words);
    let left = MeshRef {
        points: left_points,
        indices: left_indices,
    };
    let right = MeshRef {
        points: right_points,
        indices: right_indices,
    };
    let expected = answer_here(compare(left, right, &mut there));
    let mut here = marked::<u64>(words);
    let (left, right) = sides(pair);
    let answer = compare_meshes(left, right, &mut here);
    assert_eq!(answer, expected, "{what}, a list of {words} words");
    assert_eq!(here, there, "{what}, a list of {words} words");
    match answer {
        Comparison::Differences { count } => {
            assert!(is_written(&here, 3 * count as usize), "{what}")
        }
        _ => assert!(is_untouched(&here), "{what}"),
    }
    answer
}

/// How many differences there are, or nothing where a mesh is refused.
fn agree_in_all_lists(pair: &Pair, what: &str) -> Option<u64> {
    let count = match agree(pair, 0, what) {
        Comparison::Differences { count } | Comparison::NoRoom { count } => count,
        _ => {
            let _ = agree(pair, 6, what);
            return None;
        }
    };
    let words = 3 * count as usize;
    for room in [words, words + 1, words + 7] {
        assert_eq!(agree(pair, room, what), Comparison::Differences { count });
    }
    for short in [1, 2, 3] {
        if short <= words {
            assert_eq!(
                agree(pair, words - short, what),
                Comparison::NoRoom { count }
            );
        }
    }
    Some(count)
}

#[test]
fn agrees_on_random_pairs() {
    let (mut same, mut different, mut refused) = (0, 0, 0);
    for number in 0..PAIRS {
        let pair = random_pair(SEED, number);
        match agree_in_all_lists(&pair, &format!("pair {number}")) {
            Some(0) => same += 1,
            Some(_) => different += 1,
            None => refused += 1,
        }
    }
    assert!(same > PAIRS / 5, "{same} pairs are the same");
    assert!(different > PAIRS / 3, "{different} pairs are different");
    assert!(refused > PAIRS / 10, "{refused} pairs are refused");
}

#[test]
fn exchanging_the_sides_exchanges_left_and_right() {
    for number in 0..PAIRS / 10 {
        let pair = random_pair(SEED + 1, number);
        let (left, right) = sides(&pair);
        let mut words = vec![0; 1 << 16];
        let Comparison::Differences { count } = compare_meshes(left, right, &mut words) else {
            continue;
        };
        let mut back = vec![0; 1 << 16];
        assert_eq!(
            compare_meshes(right, left, &mut back),
            Comparison::Differences { count }
        );
        let end = 3 * count as usize;
        let turned = |found: Difference| Difference {
            side: match found.side {
                Side::Left => Side::Right,
                Side::Right => Side::Left,
            },
            ..found
        };
        let mut expected: Vec<Difference> = differences(&words[..end]).map(turned).collect();
        let place = |found: &Difference| {
            (
                found.what == What::Triangle,
                found.side == Side::Right,
                found.number,
            )
        };
        expected.sort_by_key(place);
        let found: Vec<Difference> = differences(&back[..end]).collect();
        assert_eq!(found, expected, "pair {number}");
    }
}

fn quads(level: f32, settings: &Settings) -> (Vec<u32>, Vec<u16>) {
    let patch = Patch::Quads {
        outer: [level; 4],
        inner: [level; 2],
    };
    let drawn = mesh(&patch, settings)
        .expect("a good top")
        .expect("not discarded");
    (drawn.points.into_iter().flatten().collect(), drawn.indices)
}

fn pair(left: (Vec<u32>, Vec<u16>), right: (Vec<u32>, Vec<u16>)) -> Pair {
    Pair {
        left_points: left.0,
        left_indices: left.1,
        right_points: right.0,
        right_indices: right.1,
    }
}

#[test]
fn agrees_on_the_largest_meshes() {
    let settings = Settings::default();
    let largest = quads(64.0, &settings);
    let itself = pair(largest.clone(), largest.clone());
    assert_eq!(agree_in_all_lists(&itself, "itself"), Some(0));

    let mut reversed = largest.clone();
    let points = reversed.0.len() / 3;
    reversed.0 = (0..points)
        .rev()
        .flat_map(|k| largest.0[3 * k..3 * k + 3].to_vec())
        .collect();
    reversed.1 = largest
        .1
        .iter()
        .map(|index| (points - 1) as u16 - index)
        .collect();
    assert_eq!(
        agree_in_all_lists(&pair(largest.clone(), reversed), "renumbered"),
        Some(0)
    );

    let mut moved = largest.clone();
    moved.0[3 * 2_000] += 1;
    let count = agree_in_all_lists(&pair(largest.clone(), moved), "one vertex moved");
    assert_eq!(count, Some(2 + 2 * 6));

    let mut dropped = largest.clone();
    dropped.1.drain(3 * 100..3 * 101);
    assert_eq!(
        agree_in_all_lists(&pair(largest.clone(), dropped), "one triangle dropped"),
        Some(1)
    );

    let mut flipped = largest;
    flipped.1.swap(1, 2);
    let right = quads(64.0, &settings);
    assert_eq!(
        agree_in_all_lists(&pair(flipped, right), "one triangle flipped"),
        Some(2)
    );
}

#[test]
fn agrees_past_the_points_that_an_index_can_number() {
    // 65,540 points; the triangle's corners are past number 65,535 on the right, where no index reaches them.
    let points: Vec<u32> = (0..65_540).flat_map(|k| [k, 0, 7]).collect();
    let mut turned = points.clone();
    turned.rotate_right(12);
    let same = pair(
        (points.clone(), vec![1, 2, 3]),
        (turned.clone(), vec![5, 6, 7]),
    );
    assert_eq!(
        agree(&same, 0, "moved by four"),
        Comparison::Differences { count: 0 }
    );
    let missing = pair((points, vec![65_535, 1, 2]), (turned, vec![3, 5, 6]));
    let answer = agree(&missing, 7, "a corner that cannot be numbered");
    assert_eq!(answer, Comparison::Differences { count: 2 });
}

#[test]
fn finds_equal_points_wherever_they_stand() {
    let (points, indices) = quads(16.0, &Settings::default());
    let count = points.len() / 3;
    for step in 1..count {
        let (at, from) = (step, (step * 37) % step);
        let mut equal = points.clone();
        equal.copy_within(3 * from..3 * from + 3, 3 * at);
        let here = pair((points.clone(), indices.clone()), (equal, indices.clone()));
        assert_eq!(
            agree(&here, 3, &format!("point {at} as {from}")),
            Comparison::RightRefused(MeshFault::EqualPoints)
        );
    }
}
