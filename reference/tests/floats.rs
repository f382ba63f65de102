//! Ask 1: the floats, and the call that draws three lists or none.

use reference::floats::coordinate;
use reference::job::{read_job, Version};
use reference::*;

const TRIANGLE_ONE: u32 = 196_608;
const QUAD_ONE: u32 = 65_536;

// ---- one coordinate -----------------------------------------------------

/// How many parts of 2^-41 a float from 0 to 1 is; `None` where that is no whole
/// number.
fn parts(float: f32) -> Option<u128> {
    let bits = float.to_bits();
    if bits == 0 {
        return Some(0);
    }
    let (exponent, fraction) = (bits >> 23, bits & 0x7f_ffff);
    assert!((1..=127).contains(&exponent), "{float}");
    // The float is significand · 2^(exponent − 150).
    let significand = u128::from((1 << 23) | fraction);
    match (exponent + 41).checked_sub(150) {
        Some(up) => Some(significand << up),
        None => {
            let down = 150 - (exponent + 41);
            let whole = significand >> down;
            (whole << down == significand).then_some(whole)
        }
    }
}

#[test]
fn parts_by_hand() {
    assert_eq!(parts(1.0), Some(1 << 41));
    assert_eq!(parts(0.5), Some(1 << 40));
    assert_eq!(
        parts(f32::from_bits(0x3f80_0000 - 1)),
        Some((1 << 41) - (1 << 17))
    );
    let smallest = 1.0 / (1u64 << 41) as f32;
    assert_eq!(parts(smallest), Some(1));
    assert_eq!(parts(smallest / 2.0), None);
    assert_eq!(parts(smallest * 1.5), None);
}

#[test]
fn every_coordinate_is_the_hardware_quotient() {
    for one in [TRIANGLE_ONE, QUAD_ONE] {
        for whole in 0..=one {
            let float = coordinate(whole, one);
            let quotient = whole as f32 / one as f32;
            assert_eq!(float.to_bits(), quotient.to_bits(), "{whole} {one}");
        }
    }
}

#[test]
fn every_coordinate_of_a_triangle_keeps_the_bound() {
    let one = u128::from(TRIANGLE_ONE);
    for whole in 0..=TRIANGLE_ONE {
        let n = parts(coordinate(whole, TRIANGLE_ONE)).expect("a whole number of parts");
        let difference = (one * n).abs_diff(u128::from(whole) << 41);
        assert!(difference <= one * 65_536, "{whole}");
    }
}

#[test]
fn every_coordinate_of_a_quad_is_exact() {
    for whole in 0..=QUAD_ONE {
        let n = parts(coordinate(whole, QUAD_ONE)).expect("a whole number of parts");
        assert_eq!(n * u128::from(QUAD_ONE), u128::from(whole) << 41);
    }
}

/// Ties, carries into the exponent and quotients above 1, which no coordinate
/// meets.
#[test]
fn other_quotients_are_rounded_too() {
    for whole in [
        1,
        2,
        3,
        5,
        7,
        0x00ff_ffff,
        0x0100_0001,
        0x0100_0003,
        0x01ff_ffff,
        u32::MAX,
    ] {
        // Powers of two leave the ties of the dividend alone; f64 is exact there.
        for one in [1, 2, 1 << 16, 1 << 31] {
            let quotient = (f64::from(whole) / f64::from(one)) as f32;
            assert_eq!(coordinate(whole, one).to_bits(), quotient.to_bits());
        }
    }
    // Both numbers are exact as f32, so that the division is the only rounding.
    for whole in (1..1 << 24).step_by(99_991) {
        for one in (1..1 << 24).step_by(76_543) {
            let quotient = whole as f32 / one as f32;
            assert_eq!(coordinate(whole, one).to_bits(), quotient.to_bits());
        }
    }
}

// ---- three lists or none ------------------------------------------------

/// Random patches of both versions, with every sort of level, setting and top.
fn some_patches() -> Vec<(Patch, Settings)> {
    let one = random::job(21, 700, Version::One);
    let two = random::job(22, 700, Version::Two);
    [one, two]
        .iter()
        .flat_map(|bytes| read_job(bytes).unwrap().flatten())
        .collect()
}

/// Three lists full of numbers that no drawing writes.
#[derive(Clone, Debug, PartialEq)]
struct Lists {
    vertices: Vec<u32>,
    indices: Vec<u16>,
    floats: Vec<f32>,
}

impl Lists {
    fn of_lengths([vertices, indices, floats]: [usize; 3]) -> Lists {
        Lists {
            vertices: vec![777_777; vertices],
            indices: vec![7777; indices],
            floats: vec![-7.0; floats],
        }
    }

    fn draw(&mut self, patch: &Patch, settings: &Settings) -> FloatsAnswer {
        draw_with_floats(
            patch,
            settings,
            &mut self.vertices,
            &mut self.indices,
            &mut self.floats,
        )
    }
}

/// The lengths that a patch fills; `None` where it is discarded.
fn needed(patch: &Patch, settings: &Settings) -> Option<[usize; 3]> {
    match tessellate(patch, settings) {
        Answer::BadTop => panic!("read from a file"),
        Answer::Discarded => None,
        Answer::Drawn { points, indices } => {
            Some([3 * points.len(), indices.len(), 3 * points.len()])
        }
    }
}

/// An answer other than "drawn" with its number, and every list untouched.
fn refuses(patch: &Patch, settings: &Settings, lengths: [usize; 3], answer: FloatsAnswer) {
    let mut lists = Lists::of_lengths(lengths);
    assert_eq!(lists.draw(patch, settings), answer, "{lengths:?}");
    assert_eq!(lists, Lists::of_lengths(lengths));
}

#[test]
fn drawn_lists_are_those_of_the_two_operations() {
    let mut drawn = [0; 3];
    for (patch, settings) in some_patches() {
        let Some([words, indices, _]) = needed(&patch, &settings) else {
            continue;
        };
        let (kind, one) = match patch {
            Patch::Triangles { .. } => (0, 196_608.0),
            Patch::Quads { .. } => (1, 65_536.0),
            Patch::Isolines { .. } => (2, 65_536.0),
        };
        drawn[kind] += 1;
        for more in [0, 5] {
            let lengths = [words + more, indices + more, words + more];
            let mut expected = Lists::of_lengths(lengths);
            draw_points(&patch, &settings, &mut expected.vertices);
            draw_indices(&patch, &settings, &mut expected.indices);
            for i in 0..words {
                expected.floats[i] = expected.vertices[i] as f32 / one;
            }
            let mut lists = Lists::of_lengths(lengths);
            let answer = lists.draw(&patch, &settings);
            let points = words / 3;
            assert_eq!(answer, FloatsAnswer::Drawn { points, indices });
            assert_eq!(answer.number(), 0);
            assert_eq!(lists, expected);
        }
    }
    assert!(drawn.iter().all(|count| *count > 100), "{drawn:?}");
}

/// Each list has exactly enough room, one word too little, or none; the lowest
/// number is given.
#[test]
fn too_little_room_leaves_every_list_alone() {
    for (patch, settings) in some_patches().into_iter().take(200) {
        let Some(needed) = needed(&patch, &settings) else {
            for lengths in [[0; 3], [12_675, 24_576, 12_675]] {
                refuses(&patch, &settings, lengths, FloatsAnswer::Discarded);
            }
            continue;
        };
        for code in 0..27 {
            let choice = [code % 3, code / 3 % 3, code / 9];
            let lengths = [0, 1, 2].map(|list| match choice[list] {
                0 => needed[list],
                1 => needed[list] - 1,
                _ => 0,
            });
            match choice.iter().position(|choice| *choice != 0) {
                Some(0) => refuses(&patch, &settings, lengths, FloatsAnswer::NoRoomForVertices),
                Some(1) => refuses(&patch, &settings, lengths, FloatsAnswer::NoRoomForIndices),
                Some(_) => refuses(&patch, &settings, lengths, FloatsAnswer::NoRoomForFloats),
                None => {
                    let answer = Lists::of_lengths(lengths).draw(&patch, &settings);
                    assert_eq!(answer.number(), 0);
                }
            }
        }
    }
}

#[test]
fn a_bad_top_comes_before_all_else() {
    for (patch, settings) in some_patches().into_iter().take(100) {
        for top in [0, 1, 3, 63, 65, 66, 256, u32::MAX] {
            let settings = Settings { top, ..settings };
            for lengths in [[0; 3], [12_675, 24_576, 12_675]] {
                refuses(&patch, &settings, lengths, FloatsAnswer::BadTop);
            }
        }
    }
}

#[test]
fn numbers() {
    for (answer, number) in [
        (FloatsAnswer::Discarded, 1),
        (FloatsAnswer::NoRoomForVertices, 3),
        (FloatsAnswer::NoRoomForIndices, 4),
        (FloatsAnswer::NoRoomForFloats, 9),
        (FloatsAnswer::BadTop, 11),
    ] {
        assert_eq!(answer.number(), number);
    }
}
