//! "Tessellator Spacing", the lengths: equal segments, or two that grow from nothing
//! to the length of the others as the level rises.
//!
//! The positions are whole units of 1/65,536 (three of a triangle's units), so that
//! equal segments of n to an edge are so up to rounding only. The least bound that
//! holds is one unit where n is even and two units where n is odd: `ROUNDING`.

use crate::drawn::{ensure, expect, meshes, settings, Checked, SPACINGS};
use crate::levels::{clamped, divided_edge, rounded_up};
use crate::outer_edges::{edge, edges_and_levels};
use reference::random::Random;
use reference::Spacing;

/// How many units segments of one length may differ by, for even and for odd n.
const ROUNDING: [i64; 2] = [1, 2];

const FRACTIONAL: [Spacing; 2] = [Spacing::FractionalEven, Spacing::FractionalOdd];

fn lengths(positions: &[i64]) -> Vec<i64> {
    positions.windows(2).map(|two| two[1] - two[0]).collect()
}

/// The greatest length less the least; 0 for an empty list.
fn spread(lengths: &[i64]) -> i64 {
    let most = lengths.iter().max().unwrap_or(&0);
    most - lengths.iter().min().unwrap_or(&0)
}

/// Segments of one length, and the points close to the exact places.
fn check_equal(positions: &[i64], unit: i64) -> Checked {
    let n = positions.len() - 1;
    let step = unit / 65_536;
    let lengths = lengths(positions);
    ensure(spread(&lengths) <= ROUNDING[n % 2] * step, || {
        format!("lengths {lengths:?}")
    })?;
    for (i, position) in positions.iter().enumerate() {
        let off = (position * n as i64 - unit * i as i64).abs();
        ensure(off < n as i64 * step, || format!("point {i} at {position}"))?;
    }
    Ok(())
}

/// Whether segment `i` and its mirror image can be the two additional ones: both
/// exactly alike and in mirrored places, the others all alike, and none of them
/// shorter.
fn is_additional(positions: &[i64], unit: i64, i: usize) -> bool {
    let n = positions.len() - 1;
    let rounding = ROUNDING[n % 2] * (unit / 65_536);
    let mirrored = |i: usize| positions[i] + positions[n - i] == unit;
    let mut others = lengths(positions);
    others.remove(n - 1 - i);
    let additional = others.remove(i);
    // At even n not even rounding makes the two longer than another.
    let longest = others.iter().min().copied().unwrap_or(unit);
    let room = if n.is_multiple_of(2) { 0 } else { rounding };
    mirrored(i) && mirrored(i + 1) && spread(&others) <= rounding && additional <= longest + room
}

/// The length of the two additional segments: the shortest that fit. Where on the
/// edge they lie is left open.
fn additional(positions: &[i64], unit: i64) -> Result<i64, String> {
    let lengths = lengths(positions);
    let n = lengths.len();
    let found = (0..n / 2).filter(|i| is_additional(positions, unit, *i));
    found
        .map(|i| lengths[i])
        .min()
        .ok_or_else(|| format!("no two additional segments in {lengths:?}"))
}

/// The lengths along an edge that a clamped level f divides.
fn check(positions: &[i64], unit: i64, f: f32, spacing: Spacing) -> Checked {
    let n = rounded_up(f, spacing);
    ensure(positions.len() == n + 1, || {
        format!("{} points for {n} segments", positions.len())
    })?;
    ensure(positions[0] == 0 && positions[n] == unit, || {
        "not from corner to corner".to_string()
    })?;
    if spacing != Spacing::Equal && n > 1 {
        additional(positions, unit)?;
    }
    if spacing == Spacing::Equal || f == n as f32 {
        check_equal(positions, unit)?;
    }
    Ok(())
}

#[test]
fn segments_are_equal_but_for_two_of_fractional_spacing() {
    for mesh in meshes(3, 8000) {
        let settings = mesh.settings;
        for (number, level) in edges_and_levels(&mesh.patch) {
            let f = clamped(level, settings.spacing, settings.top);
            let positions = edge(&mesh, number);
            let checked = check(&positions, mesh.unit(), f, settings.spacing);
            expect(&mesh, checked);
        }
    }
}

/// Levels from just above n - 2 to n, in rising order.
fn levels_of(n: usize, random: &mut Random) -> Vec<f32> {
    let low = n as f32 - 2.0;
    let mut levels = vec![low.next_up(), (low + 2.0).next_down(), low + 2.0];
    levels.extend((1..16).map(|step| low + step as f32 / 8.0));
    levels.extend((0..12).map(|_| low + (1 + random.below(131_071)) as f32 / 65_536.0));
    levels.sort_by(f32::total_cmp);
    levels
}

/// Every n above two that a fractional spacing can round up to.
fn fractional_counts() -> impl Iterator<Item = (Spacing, usize)> {
    let counts = |spacing| (3..=64).filter(move |n| rounded_up(*n as f32, spacing) == *n);
    FRACTIONAL
        .into_iter()
        .flat_map(move |spacing| counts(spacing).map(move |n| (spacing, n)))
}

/// The additional segments never shrink as the level rises, and grow with each
/// eighth of a level. (Relative to the others they then do so too, as all add up to
/// the edge.)
fn check_growth(levels_and_lengths: &[(f32, i64)]) -> Checked {
    for (number, (lower, short)) in levels_and_lengths.iter().enumerate() {
        for (higher, long) in &levels_and_lengths[number..] {
            let grown = higher - lower >= 0.125;
            ensure(short < long || short == long && !grown, || {
                format!("{short} at level {lower}, {long} at level {higher}")
            })?;
        }
    }
    Ok(())
}

#[test]
fn additional_segments_grow_with_the_level_from_nothing_to_the_others_length() {
    let mut random = Random::new(4);
    for (spacing, n) in fractional_counts() {
        let settings = settings(spacing, 64);
        for kind in 0..3 {
            let mut grown = Vec::new();
            for level in levels_of(n, &mut random) {
                let (positions, unit) = divided_edge(kind, level, &settings);
                assert_eq!(check(&positions, unit, level, spacing), Ok(()));
                grown.push((level, additional(&positions, unit).unwrap()));
                // Just above n - 2 one unit is left of them.
                let step = unit / 65_536;
                assert!(grown[0].1 <= step, "{n} {grown:?}");
            }
            assert_eq!(check_growth(&grown), Ok(()), "{n} {spacing:?}");
        }
    }
}

#[test]
fn a_level_that_needs_no_rounding_divides_like_equal_spacing() {
    for spacing in FRACTIONAL {
        for n in (1..=64).filter(|n| rounded_up(*n as f32, spacing) == *n) {
            for kind in 0..3 {
                let level = n as f32;
                let fractional = divided_edge(kind, level, &settings(spacing, 64));
                let equal = divided_edge(kind, level, &settings(Spacing::Equal, 64));
                assert_eq!(fractional, equal, "{n}");
            }
        }
    }
}

#[test]
fn the_bounds_on_rounding_are_reached() {
    let spread_of = |n: usize| {
        let (positions, _) = divided_edge(1, n as f32, &settings(Spacing::Equal, 64));
        spread(&lengths(&positions))
    };
    for (parity, bound) in ROUNDING.into_iter().enumerate() {
        let spreads = (1..=64).filter(|n| n % 2 == parity).map(spread_of);
        assert_eq!(spreads.max(), Some(bound));
    }
}

/// The positions of segments with these lengths, and the length of them all.
fn positions_of(lengths: &[i64]) -> (Vec<i64>, i64) {
    let end = |count: usize| 65_536 * lengths[..count].iter().sum::<i64>();
    let positions = (0..=lengths.len()).map(end).collect();
    (positions, end(lengths.len()))
}

#[test]
fn the_checks_refuse_other_lengths() {
    let even = Spacing::FractionalEven;
    let refused = |lengths: &[i64], f: f32, spacing: Spacing| {
        let (positions, unit) = positions_of(lengths);
        check(&positions, unit, f, spacing).is_err()
    };
    assert!(!refused(&[4, 8, 8, 8, 8, 4], 5.0, even));
    // Anywhere, as long as one mirrors the other.
    assert!(!refused(&[8, 8, 4, 4, 8, 8], 5.0, even));
    assert!(!refused(&[8, 4, 8, 8, 4, 8], 5.0, even));
    assert!(refused(&[4, 4, 8, 8, 8, 8], 5.0, even));
    assert!(refused(&[4, 8, 8, 4, 8, 8], 5.0, even));
    // Longer than the others, not alike, or one of the others not alike.
    assert!(refused(&[9, 8, 8, 8, 8, 9], 5.0, even));
    assert!(refused(&[4, 8, 8, 8, 8, 5], 5.0, even));
    assert!(refused(&[4, 8, 7, 8, 8, 4], 5.0, even));
    // No fraction to leave room for shorter ones; another number of segments.
    assert!(refused(&[4, 8, 8, 8, 8, 4], 6.0, even));
    assert!(refused(&[4, 8, 8, 4], 5.0, even));
    assert!(refused(&[4, 8, 8, 8, 8, 4], 6.0, Spacing::Equal));
    assert!(!refused(&[1; 6], 6.0, even));
}

#[test]
fn the_checks_refuse_points_moved_by_three_units() {
    for (level, spacing) in SPACINGS.map(|spacing| (6.5, spacing)) {
        let settings = settings(spacing, 64);
        let (good, unit) = divided_edge(1, level, &settings);
        assert_eq!(check(&good, unit, level, spacing), Ok(()));
        for place in 0..good.len() {
            let mut moved = good.clone();
            moved[place] += 3;
            assert!(check(&moved, unit, level, spacing).is_err(), "{place}");
        }
    }
}

#[test]
fn the_checks_refuse_segments_that_shrink_or_stay() {
    assert!(check_growth(&[(4.1, 10), (4.2, 10), (4.5, 11)]).is_ok());
    assert!(check_growth(&[(4.1, 10), (4.2, 9), (4.5, 11)]).is_err());
    assert!(check_growth(&[(4.1, 10), (4.2, 10), (4.5, 10)]).is_err());
}
