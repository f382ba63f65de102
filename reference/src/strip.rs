//! Filling the area between an outer and an inner line with triangles.

use std::cmp::Ordering;

/// Section "Strips", as Ask 4 has it: whether the next step is one along the
/// outer line, with a of its p segments walked so far and b of the inner line's
/// r. The line whose next segment has its middle first goes first. With both
/// middles at one place it is the outer line up to half of the way (the very
/// middle counts as that), the inner line after it.
fn outer_is_next(a: usize, p: usize, b: usize, r: usize) -> bool {
    match ((2 * a + 1) * r).cmp(&((2 * b + 1) * p)) {
        Ordering::Less => true,
        Ordering::Equal => 2 * a < p, // that is 2a + 1 <= p
        Ordering::Greater => false,
    }
}

/// Section "Strips": goes along both lines at once, each step adding to `out`
/// one triangle on a segment of either line. The lines run in parallel, with
/// the inner one on the left of the outer one.
pub fn fill(outer: &[u32], inner: &[u32], out: &mut Vec<[u32; 3]>) {
    let p = outer.len() - 1;
    let r = inner.len() - 1;
    let (mut a, mut b) = (0, 0);
    while a < p || b < r {
        if outer_is_next(a, p, b, r) {
            out.push([outer[a], outer[a + 1], inner[b]]);
            a += 1;
        } else {
            out.push([outer[a], inner[b + 1], inner[b]]);
            b += 1;
        }
    }
}

#[cfg(test)]
mod tests {
    use super::*;
    use std::collections::BTreeSet;

    /// What is added to the place on the inner line to tell its points apart.
    const INNER: u32 = 100;

    fn strip(p: u32, r: u32) -> Vec<[u32; 3]> {
        let outer: Vec<u32> = (0..=p).collect();
        let inner: Vec<u32> = (INNER..=INNER + r).collect();
        let mut out = Vec::new();
        fill(&outer, &inner, &mut out);
        out
    }

    /// Every pair of segment counts that a patch can ask for.
    fn all_counts() -> impl Iterator<Item = (u32, u32)> {
        (1..=64).flat_map(|p| (0..=64).map(move |r| (p, r)))
    }

    /// Neither line is ever walked past its end, and all of both is walked.
    #[test]
    fn every_pair_of_lengths_is_walked_to_the_end() {
        for (p, r) in all_counts() {
            let out = strip(p, r);
            assert_eq!(out.len() as u32, p + r);
            let last = out[out.len() - 1];
            assert!(last.contains(&p) && last.contains(&(INNER + r)));
        }
    }

    /// The triangles without order, each by its three corners without order.
    fn corner_sets(triangles: &[[u32; 3]]) -> BTreeSet<[u32; 3]> {
        triangles
            .iter()
            .map(|corners| {
                let mut corners = *corners;
                corners.sort_unstable();
                corners
            })
            .collect()
    }

    /// The same triangles with both lines counted from their other ends.
    fn mirrored(p: u32, r: u32, triangles: &[[u32; 3]]) -> Vec<[u32; 3]> {
        let other_end = |corner: u32| {
            if corner < INNER {
                p - corner
            } else {
                INNER + r - (corner - INNER)
            }
        };
        triangles
            .iter()
            .map(|corners| corners.map(other_end))
            .collect()
    }

    /// Ask 4: a strip walked from its other end has the mirrored triangles; only
    /// where both counts are odd do the two over the middle segments differ.
    #[test]
    fn strips_mirror_but_for_the_middle_of_two_odd_counts() {
        for (p, r) in all_counts() {
            let out = strip(p, r);
            let here = corner_sets(&out);
            let there = corner_sets(&mirrored(p, r, &out));
            assert_eq!(here.len() as u32, p + r);
            if p % 2 == 0 || r % 2 == 0 {
                assert_eq!(here, there, "{p} {r}");
                continue;
            }
            let (a, b) = (p / 2, INNER + r / 2);
            let only_here: Vec<_> = here.difference(&there).copied().collect();
            assert_eq!(only_here, [[a, a + 1, b], [a + 1, b, b + 1]]);
            let only_there: Vec<_> = there.difference(&here).copied().collect();
            assert_eq!(only_there, [[a, a + 1, b + 1], [a, b, b + 1]]);
        }
    }

    /// Ask 4, ties one by one: outer line first in the first half and in the
    /// middle, inner line first in the second half.
    #[test]
    fn ties_by_hand() {
        let i = INNER;
        assert_eq!(strip(1, 1), [[0, 1, i], [1, i + 1, i]]);
        assert_eq!(
            strip(2, 2),
            [[0, 1, i], [1, i + 1, i], [1, i + 2, i + 1], [1, 2, i + 2]]
        );
        assert_eq!(
            strip(3, 3),
            [
                [0, 1, i],
                [1, i + 1, i],
                [1, 2, i + 1],
                [2, i + 2, i + 1],
                [2, i + 3, i + 2],
                [2, 3, i + 3],
            ]
        );
        // Three against one: the only tie is the one in the middle.
        assert_eq!(
            strip(3, 1),
            [[0, 1, i], [1, 2, i], [2, i + 1, i], [2, 3, i + 1]]
        );
    }
}
