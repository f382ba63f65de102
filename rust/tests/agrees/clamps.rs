//! What measuring reports of each level, around the ends of each range at each top.

use crate::numbers::compare_numbers;
use crate::records::COUNTING;
use reference::job::Record;

/// A level on both sides of every end of a range, and what is no number or endless.
fn levels_around_ends(top: u8) -> Vec<u32> {
    let around = |end: f32| [end.to_bits() - 1, end.to_bits(), end.to_bits() + 1];
    let top = f32::from(top);
    let mut levels = [1.0, 2.0, top - 1.0, top].map(around).concat();
    levels.extend([0.0, f32::NAN, f32::INFINITY, f32::NEG_INFINITY].map(f32::to_bits));
    levels
}

/// Which bytes are reported of one level as it goes around the ends, with the others at 3.
fn told_around_ends(kind: u8, spacing: u8, top: u8, place: usize) -> [bool; 4] {
    let mut told = [false; 4];
    for level in levels_around_ends(top) {
        let mut record = Record {
            settings: [kind, spacing, 0, 0, 0],
            top,
            levels: [3f32.to_bits(); 6],
        };
        record.levels[place] = level;
        told[usize::from(compare_numbers(&record).clamps[place])] = true;
    }
    told
}

/// Each of 1, 2 and 3 is reported of every level that counts, and none of them of the others.
#[test]
fn each_level_around_each_end() {
    for top in (2..=64).step_by(2) {
        for (kind, places) in (0..).zip(COUNTING) {
            for (spacing, place) in
                (0..3).flat_map(|spacing| (0..6).map(move |place| (spacing, place)))
            {
                let told = told_around_ends(kind, spacing, top, place);
                let counts = places.contains(&place);
                assert_eq!(told[1..], [counts; 3], "{kind} {spacing} {top} {place}");
            }
        }
    }
}
