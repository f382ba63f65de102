//! Good and bad tops, in both ways to call.

use crate::marked::{is_untouched, marked};
use crate::numbers::compare_numbers;
use crate::patches::compare_record;
use crate::records::{levels, records, setting_bytes};
use reference::job::{Record, Version};
use yoktvarim::raw::{self, Measured, Numbered};
use yoktvarim::{measure, Patch, Settings, Size, Spacing};

fn is_good(top: u8) -> bool {
    (1..=32).any(|half| 2 * half == top)
}

/// Bad in each way there is: none at all, odd below and within, and odd and even beyond.
const BAD: [u8; 6] = [0, 1, 3, 65, 66, 255];

#[test]
fn each_number_as_top() {
    for top in 0..=255 {
        for (kind, spacing) in (0..3).flat_map(|kind| (0..3).map(move |spacing| (kind, spacing))) {
            let record = Record {
                settings: [kind, spacing, 1, 1, 0],
                top,
                levels: [f32::from(top.max(1)).to_bits(); 6],
            };
            let number = if is_good(top) { 0 } else { 11 };
            assert_eq!(compare_numbers(&record).number, number, "{record:?}");
            compare_record(&record);
        }
    }
}

/// Whatever else is wrong, and in lists without room, a bad top is reported and nothing is written.
fn tells_bad_top(record: &Record) {
    let (settings, levels) = (setting_bytes(record), levels(record));
    let measured = Measured {
        number: 11,
        counts: [0, 0],
        clamps: [0; 6],
    };
    assert_eq!(raw::measure(&settings, &levels), measured, "{record:?}");
    let refused = Numbered {
        number: 11,
        count: 0,
    };
    for words in [0, 1, yoktvarim::INDEX_WORDS] {
        let (mut vertices, mut indices) = (marked(words), marked(words));
        let points_told = raw::draw_points(&settings, &levels, &mut vertices);
        assert_eq!(points_told, refused, "{record:?}");
        let indices_told = raw::draw_indices(&settings, &levels, &mut indices);
        assert_eq!(indices_told, refused, "{record:?}");
        assert!(is_untouched(&vertices), "{record:?}");
        assert!(is_untouched(&indices), "{record:?}");
    }
}

#[test]
fn bad_tops_come_before_unknown_settings_and_discarding() {
    for (top, level) in BAD
        .iter()
        .flat_map(|top| [1.0, 0.0, f32::NAN].map(|level| (*top, level)))
    {
        let mut record = Record {
            top,
            levels: [f32::to_bits(level); 6],
            ..Record::BLANK
        };
        tells_bad_top(&record);
        for place in 0..5 {
            record.settings = [0; 5];
            record.settings[place] = 255;
            tells_bad_top(&record);
        }
        record.settings = [255; 5];
        tells_bad_top(&record);
    }
}

#[test]
fn random_records_with_bad_tops() {
    let some = records(11, 500, Version::Two);
    for (record, top) in some.iter().flat_map(|record| BAD.map(|top| (record, top))) {
        let spoilt = Record { top, ..*record };
        tells_bad_top(&spoilt);
        compare_record(&spoilt);
    }
}

/// The counts of a quad patch with every level beyond the top.
fn counts_of_full_quads(spacing: Spacing, top: u8) -> (u32, u32) {
    let quads = Patch::Quads {
        outer: [f32::INFINITY; 4],
        inner: [f32::INFINITY; 2],
    };
    let settings = Settings {
        spacing,
        top,
        ..Settings::default()
    };
    match measure(&quads, &settings) {
        Size::Counts {
            points, indices, ..
        } => (points, indices),
        other => panic!("{other:?}"),
    }
}

#[test]
fn the_top_is_the_most_segments_and_one_less_with_odd_spacing() {
    for top in (2..=64).step_by(2) {
        for (spacing, less) in [
            (Spacing::Equal, 0),
            (Spacing::FractionalEven, 0),
            (Spacing::FractionalOdd, 1),
        ] {
            let segments = u32::from(top) - less;
            let counts = ((segments + 1).pow(2), 6 * segments.pow(2));
            assert_eq!(
                counts_of_full_quads(spacing, top),
                counts,
                "{spacing:?} {top}"
            );
        }
    }
}

/// With the top 2 every odd level gives one segment, so nothing is cut.
#[test]
fn top_2_leaves_odd_patches_plain() {
    let mut plain = 0;
    for mut record in records(12, 3_000, Version::Two) {
        record.settings[1] = 2;
        record.top = 2;
        let Some(reference::Answer::Drawn { points, .. }) = compare_record(&record) else {
            continue;
        };
        if record.settings[0] < 2 {
            assert_eq!(
                points.len(),
                usize::from(record.settings[0]) + 3,
                "{record:?}"
            );
            plain += 1;
        }
    }
    assert!(plain > 1_000, "only {plain} patches were plain");
}

#[test]
fn the_top_of_a_record_without_one_is_the_default() {
    let record = records(13, 1, Version::One)[0];
    assert_eq!(record.top, Settings::default().top);
}
