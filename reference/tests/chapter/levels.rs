//! "Tessellator Spacing", the number of segments: a level is clamped, then rounded
//! up to a whole, even or odd number.

use crate::drawn::{draw, settings, unit, SPACINGS};
use crate::outer_edges::edge;
use reference::random::Random;
use reference::{Patch, Settings, Spacing};

/// What an inner level of one is taken for beside levels above one: a level a little
/// above one. How little is left open; here it is the next f32.
pub const ABOVE_ONE: f32 = 1.0f32.next_up();

/// The level f after the clamp; a NaN, for which the clamp is left open, stays.
pub fn clamped(level: f32, spacing: Spacing, top: u32) -> f32 {
    let top = top as f32;
    match spacing {
        Spacing::Equal => level.clamp(1.0, top),
        Spacing::FractionalEven => level.clamp(2.0, top),
        Spacing::FractionalOdd => level.clamp(1.0, top - 1.0),
    }
}

/// The least n of the sort the spacing asks for that is not below f, by search.
pub fn rounded_up(f: f32, spacing: Spacing) -> usize {
    let fits = |n: &usize| match spacing {
        Spacing::Equal => true,
        Spacing::FractionalEven => n.is_multiple_of(2),
        Spacing::FractionalOdd => !n.is_multiple_of(2),
    };
    (1..100).filter(fits).find(|n| *n as f32 >= f).unwrap()
}

/// The number of segments of a level that is not a NaN.
pub fn segments(level: f32, settings: &Settings) -> usize {
    let f = clamped(level, settings.spacing, settings.top);
    rounded_up(f, settings.spacing)
}

/// Levels above zero: whole numbers and halves with the f32 next to them on either
/// side, the smallest and greatest there are, infinity, and random ones.
fn levels_above_zero(random: &mut Random) -> Vec<f32> {
    let halves = (1..=140).map(|twice| twice as f32 / 2.0);
    let mut levels: Vec<f32> = halves
        .flat_map(|level| [level.next_down(), level, level.next_up()])
        .collect();
    levels.extend([f32::from_bits(1), f32::MIN_POSITIVE]);
    levels.extend([f32::MAX, f32::INFINITY, 1e9]);
    levels.extend((0..50).map(|_| f32::from_bits(1 + random.below(0x7f7f_ffff) as u32)));
    levels.extend((0..50).map(|_| random.below(66 << 16) as f32 / 65_536.0 + 1e-6));
    levels
}

/// A patch of each kind with an edge divided by a level, and the number of the edge:
/// the third of a triangle, the fourth of a quad, the lowest line of isolines.
fn patches_divided_by(level: f32) -> [(Patch, usize); 3] {
    let triangles = Patch::Triangles {
        outer: [1.0, 1.0, level],
        inner: 1.0,
    };
    let quads = Patch::Quads {
        outer: [1.0, 1.0, 1.0, level],
        inner: [1.0; 2],
    };
    let isolines = Patch::Isolines {
        outer: [1.0, level],
    };
    [(triangles, 2), (quads, 3), (isolines, 1)]
}

/// The positions along an edge that a level divides, and its length, for triangles
/// (kind 0), quads (1) or isolines (2).
pub fn divided_edge(kind: usize, level: f32, settings: &Settings) -> (Vec<i64>, i64) {
    let (patch, number) = patches_divided_by(level)[kind];
    let mesh = draw(&patch, settings).unwrap();
    (edge(&mesh, number), unit(&patch))
}

#[test]
fn levels_are_clamped_and_rounded_up_to_whole_even_or_odd_numbers() {
    let mut random = Random::new(1);
    let levels = levels_above_zero(&mut random);
    for top in (2..=64).step_by(2) {
        for settings in SPACINGS.map(|spacing| settings(spacing, top)) {
            for (number, level) in levels.iter().enumerate() {
                let (edge, _) = divided_edge(number % 3, *level, &settings);
                let n = segments(*level, &settings);
                assert_eq!(edge.len(), n + 1, "{level} {settings:?}");
            }
        }
    }
}

#[test]
fn some_levels_by_hand() {
    for (spacing, top, level, n) in [
        (Spacing::Equal, 64, 0.1, 1),
        (Spacing::Equal, 64, 1.0f32.next_up(), 2),
        (Spacing::Equal, 16, 15.5, 16),
        (Spacing::Equal, 16, 16.5, 16),
        (Spacing::FractionalEven, 64, 0.1, 2),
        (Spacing::FractionalEven, 64, 2.0f32.next_up(), 4),
        (Spacing::FractionalEven, 16, 99.0, 16),
        (Spacing::FractionalOdd, 64, 1.0, 1),
        (Spacing::FractionalOdd, 64, 1.0f32.next_up(), 3),
        (Spacing::FractionalOdd, 64, 64.0, 63),
        (Spacing::FractionalOdd, 2, 64.0, 1),
    ] {
        assert_eq!(segments(level, &settings(spacing, top)), n, "{level}");
    }
}
