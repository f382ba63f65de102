//! The functions by their numbers, on setting bytes of every value.

use crate::here::measured_here;
use crate::marked::{is_untouched, is_written, marked};
use crate::records::{levels, records, setting_bytes};
use reference::job::{Record, Version, SETTING_COUNTS};
use yoktvarim::raw::{self, Measured, Numbered};

/// How many words follow the longest list that a patch needs.
const BEHIND: usize = 7;

/// Draws points in a list with room for every patch, and a drawn patch in one that is a word short too.
fn compare_points(settings: &[u8; 6], levels: &[f32; 6], expected: Numbered) {
    let mut list = marked(yoktvarim::VERTEX_WORDS + BEHIND);
    assert_eq!(raw::draw_points(settings, levels, &mut list), expected);
    if expected.number != 0 {
        assert!(is_untouched(&list), "{settings:?} {levels:?}");
        return;
    }
    let words = 3 * expected.count as usize;
    assert!(is_written(&list, words), "{settings:?} {levels:?}");
    let mut short = marked(words - 1);
    let refused = raw::draw_points(settings, levels, &mut short);
    assert_eq!((refused.number, refused.count), (3, 0));
    assert!(is_untouched(&short), "{settings:?} {levels:?}");
}

/// The same for indices.
fn compare_indices(settings: &[u8; 6], levels: &[f32; 6], expected: Numbered) {
    let mut list = marked(yoktvarim::INDEX_WORDS + BEHIND);
    assert_eq!(raw::draw_indices(settings, levels, &mut list), expected);
    if expected.number != 0 {
        assert!(is_untouched(&list), "{settings:?} {levels:?}");
        return;
    }
    let words = expected.count as usize;
    assert!(is_written(&list, words), "{settings:?} {levels:?}");
    let mut short = marked(words - 1);
    let refused = raw::draw_indices(settings, levels, &mut short);
    assert_eq!((refused.number, refused.count), (4, 0));
    assert!(is_untouched(&short), "{settings:?} {levels:?}");
}

/// Compares all three functions; what measuring reported.
pub fn compare_numbers(record: &Record) -> Measured {
    let (settings, levels) = (setting_bytes(record), levels(record));
    let measured = raw::measure(&settings, &levels);
    assert_eq!(measured, measured_here(record), "{record:?}");
    // With room for everything drawing has the same number; a place is reported by both calls.
    let Measured { number, counts, .. } = measured;
    let [points, indices] = match number {
        0 => counts,
        _ => [counts[0]; 2],
    };
    let told = |count| Numbered { number, count };
    compare_points(&settings, &levels, told(points));
    compare_indices(&settings, &levels, told(indices));
    measured
}

/// Each of these numbers is reported of more than a hundred random records, and no other of any.
fn tells_all_of(numbers: &[usize], version: Version) {
    let mut told = [0; 12];
    for record in records(9, 6_000, version) {
        told[compare_numbers(&record).number as usize] += 1;
    }
    for (number, times) in told.into_iter().enumerate() {
        let expected = if numbers.contains(&number) {
            101..=6_000
        } else {
            0..=0
        };
        assert!(expected.contains(&times), "{version:?} {told:?}");
    }
}

#[test]
fn random_numbers() {
    tells_all_of(&[0, 1, 8], Version::One);
    tells_all_of(&[0, 1, 8, 11], Version::Two);
}

#[test]
fn each_setting_at_each_value() {
    let known = records(10, 1, Version::One)[0];
    for (place, count) in SETTING_COUNTS.into_iter().enumerate() {
        for value in 0..=255 {
            let mut record = known;
            record.settings = [0; 5];
            record.settings[place] = value;
            let unknown = compare_numbers(&record).number == 8;
            assert_eq!(unknown, value >= count, "{record:?}");
        }
    }
}

#[test]
fn later_unknown_settings_have_no_say() {
    for first in 0..5 {
        let mut settings = [0, 0, 0, 0, 0, 64];
        settings[first..5].fill(255);
        let refused = Measured {
            number: 8,
            counts: [first as u32, 0],
            clamps: [0; 6],
        };
        assert_eq!(raw::measure(&settings, &[1.0; 6]), refused);
    }
}
