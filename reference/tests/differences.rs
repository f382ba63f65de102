//! Ask 12: what changed between two meshes.

use reference::mesh_pairs::PAIRS;
use reference::*;

// ---- the ask word by word, by search over all pairs ------------------------

fn fault(points: &[u32], indices: &[u16]) -> Option<MeshFault> {
    if points.len() % 3 + indices.len() % 3 > 0 {
        return Some(MeshFault::NotThrees);
    }
    if indices
        .iter()
        .any(|index| usize::from(*index) >= points.len() / 3)
    {
        return Some(MeshFault::UnknownIndex);
    }
    let points: Vec<&[u32]> = points.chunks(3).collect();
    let equal = (0..points.len()).any(|i| points[..i].contains(&points[i]));
    equal.then_some(MeshFault::EqualPoints)
}

fn corners<'a>(points: &'a [u32], indices: &[u16]) -> Vec<[&'a [u32]; 3]> {
    let point = |index: u16| &points[3 * usize::from(index)..][..3];
    let triangles = indices.chunks(3);
    triangles
        .map(|t| [point(t[0]), point(t[1]), point(t[2])])
        .collect()
}

fn same(one: &[&[u32]; 3], two: &[&[u32]; 3]) -> bool {
    (0..3).any(|turn| (0..3).all(|i| one[i] == two[(i + turn) % 3]))
}

/// The differences by search, or the refusal.
fn slow_compare(pair: &Pair) -> Result<Vec<u64>, Comparison> {
    if let Some(fault) = fault(&pair.left_points, &pair.left_indices) {
        return Err(Comparison::LeftRefused(fault));
    }
    if let Some(fault) = fault(&pair.right_points, &pair.right_indices) {
        return Err(Comparison::RightRefused(fault));
    }
    let mut words = Vec::new();
    let points = [&pair.left_points, &pair.right_points];
    for side in [0, 1] {
        for (number, point) in points[side].chunks(3).enumerate() {
            if !points[1 - side].chunks(3).any(|other| other == point) {
                words.extend([0, side as u64, number as u64]);
            }
        }
    }
    let triangles = [
        corners(&pair.left_points, &pair.left_indices),
        corners(&pair.right_points, &pair.right_indices),
    ];
    for side in [0, 1] {
        for (number, triangle) in triangles[side].iter().enumerate() {
            let earlier = &triangles[side][..number];
            let known = |list: &[[&[u32]; 3]]| list.iter().any(|other| same(triangle, other));
            if !known(earlier) && !known(&triangles[1 - side]) {
                words.extend([1, side as u64, number as u64]);
            }
        }
    }
    Ok(words)
}

fn compare_pair(pair: &Pair, out: &mut [u64]) -> Comparison {
    let left = MeshRef {
        points: &pair.left_points,
        indices: &pair.left_indices,
    };
    let right = MeshRef {
        points: &pair.right_points,
        indices: &pair.right_indices,
    };
    compare(left, right, out)
}

// ---- random pairs --------------------------------------------------------

const UNTOUCHED: u64 = 7777;

/// The answer and every word of the list, with just enough room, more, one word
/// less and none.
#[test]
fn comparisons_are_the_ones_of_the_search() {
    let (mut none, mut some, mut left_refused, mut right_refused) = (0, 0, 0, 0);
    for number in 0..300 * PAIRS {
        let pair = random_pair(1, number);
        if pair.left_indices.len() > 900 || pair.right_indices.len() > 900 {
            continue;
        }
        let words = match slow_compare(&pair) {
            Ok(words) => words,
            Err(refusal) => {
                let mut out = [UNTOUCHED; 300];
                assert_eq!(compare_pair(&pair, &mut out), refusal, "{number}");
                assert_eq!(out, [UNTOUCHED; 300]);
                match refusal {
                    Comparison::LeftRefused(_) => left_refused += 1,
                    _ => right_refused += 1,
                }
                continue;
            }
        };
        let count = words.len() / 3;
        for spare in [0, 5] {
            let mut out = vec![UNTOUCHED; words.len() + spare];
            let answer = compare_pair(&pair, &mut out);
            assert_eq!(answer, Comparison::Differences { count }, "{number}");
            assert_eq!(out[..words.len()], words, "{number}");
            assert_eq!(out[words.len()..], [UNTOUCHED; 5][..spare]);
        }
        if count == 0 {
            none += 1;
            continue;
        }
        some += 1;
        for room in [0, words.len() - 3, words.len() - 1] {
            let mut out = vec![UNTOUCHED; room];
            let answer = compare_pair(&pair, &mut out);
            assert_eq!(answer, Comparison::NoRoom { count }, "{number}");
            assert!(out.iter().all(|word| *word == UNTOUCHED));
        }
    }
    println!("{none} without, {some} with; {left_refused} and {right_refused} refused");
    assert!(none > 1000 && some > 1000 && left_refused > 300 && right_refused > 150);
}

/// What each sort of pair is for.
#[test]
fn sorts_of_pairs_do_what_they_are_for() {
    let mut refused = Vec::new();
    let mut all_kinds = [0; 4];
    for number in 0..200 * PAIRS {
        let pair = random_pair(2, number);
        let mut out = vec![0; 100_000];
        let answer = compare_pair(&pair, &mut out);
        let differences = match answer {
            Comparison::Differences { count } => &out[..3 * count],
            Comparison::NoRoom { .. } => panic!("{number}"),
            refusal => {
                // A moved point may meet another one.
                let may_be_refused = [10, 14, 15, 16];
                assert!(may_be_refused.contains(&(number % PAIRS)), "{number}");
                refused.push(refusal);
                continue;
            }
        };
        for difference in differences.chunks(3) {
            all_kinds[(2 * difference[0] + difference[1]) as usize] += 1;
        }
        let points = differences.chunks(3).filter(|d| d[0] == 0).count();
        match number % PAIRS {
            0..=4 | 6 | 7 => assert!(differences.is_empty(), "{number}"),
            5 | 8 | 9 | 13 => assert_eq!(points, 0, "{number}"),
            10 => assert!(points <= 2, "{number}"),
            _ => {}
        }
    }
    assert!(all_kinds.iter().all(|count| *count > 1000), "{all_kinds:?}");
    let faults = [
        MeshFault::NotThrees,
        MeshFault::UnknownIndex,
        MeshFault::EqualPoints,
    ];
    for fault in faults {
        for refusal in [
            Comparison::LeftRefused(fault),
            Comparison::RightRefused(fault),
        ] {
            let count = refused.iter().filter(|other| **other == refusal).count();
            println!("{refusal:?} {count}");
            assert!(count > 20, "{refusal:?} {count}");
        }
    }
}

// ---- by hand -------------------------------------------------------------

fn words(left: (&[u32], &[u16]), right: (&[u32], &[u16])) -> Vec<u64> {
    let mut out = [UNTOUCHED; 60];
    let mesh = |(points, indices)| MeshRef { points, indices };
    match compare(mesh(left), mesh(right), &mut out) {
        Comparison::Differences { count } => out[..3 * count].to_vec(),
        answer => panic!("{answer:?}"),
    }
}

const SQUARE: [u32; 12] = [0, 0, 0, 9, 0, 0, 9, 9, 0, 0, 9, 0];

#[test]
fn order_and_numbers_of_differences() {
    // One diagonal and the other; the first triangle once more, rotated.
    let one: (&[u32], &[u16]) = (&SQUARE, &[0, 1, 2, 1, 2, 0, 0, 2, 3]);
    let other: (&[u32], &[u16]) = (&SQUARE, &[0, 1, 3, 1, 2, 3]);
    assert_eq!(words(one, other), [1, 0, 0, 1, 0, 2, 1, 1, 0, 1, 1, 1]);
    // A flip is another triangle.
    let flipped: (&[u32], &[u16]) = (&SQUARE, &[2, 1, 0, 0, 2, 3]);
    assert_eq!(words(one, flipped), [1, 0, 0, 1, 1, 0]);
    // The same by coordinates, with other numbers.
    let mut points = SQUARE;
    points.rotate_left(3);
    let renamed: (&[u32], &[u16]) = (&points, &[1, 2, 3, 0, 1, 3]);
    assert_eq!(words(one, renamed), []);
    // Points that are in one only, with the triangles on them.
    let mut points = SQUARE;
    points[8] = 1;
    let moved: (&[u32], &[u16]) = (&points, &[0, 1, 3]);
    let expected = [[0, 0, 2], [0, 1, 2], [1, 0, 0], [1, 0, 1]];
    let other: (&[u32], &[u16]) = (&SQUARE, &[1, 2, 3, 2, 3, 0, 0, 1, 3]);
    assert_eq!(words(other, moved), expected.as_flattened());
    assert_eq!(words((&[], &[]), (&[], &[])), []);
}

/// Equal corners: rotations of one such triangle are the same, the two ways of
/// writing two corners are not.
#[test]
fn triangles_with_equal_corners() {
    let once: (&[u32], &[u16]) = (&SQUARE, &[0, 0, 1, 2, 2, 2]);
    let rotated: (&[u32], &[u16]) = (&SQUARE, &[2, 2, 2, 0, 1, 0, 1, 0, 0]);
    assert_eq!(words(once, rotated), []);
    let other: (&[u32], &[u16]) = (&SQUARE, &[0, 1, 1, 2, 2, 2]);
    assert_eq!(words(once, other), [1, 0, 0, 1, 1, 0]);
}

#[test]
fn all_faults_of_the_left_mesh_before_any_of_the_right() {
    let equal: [u32; 6] = [1, 2, 3, 1, 2, 3];
    let mesh = |points, indices| MeshRef { points, indices };
    let faulty = [
        (mesh(&equal[..5], &[9, 0, 0]), MeshFault::NotThrees),
        (mesh(&equal, &[0]), MeshFault::NotThrees),
        (mesh(&equal, &[0, 1, 2]), MeshFault::UnknownIndex),
        (mesh(&[], &[0, 0, 0]), MeshFault::UnknownIndex),
        (mesh(&equal, &[]), MeshFault::EqualPoints),
    ];
    let good = mesh(&SQUARE, &[0, 1, 2]);
    for (left, fault) in faulty {
        assert_eq!(compare(left, good, &mut []), Comparison::LeftRefused(fault));
        assert_eq!(
            compare(good, left, &mut []),
            Comparison::RightRefused(fault)
        );
        for (right, _) in faulty {
            assert_eq!(
                compare(left, right, &mut []),
                Comparison::LeftRefused(fault)
            );
        }
    }
}
