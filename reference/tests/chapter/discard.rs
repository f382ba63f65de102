//! "Tessellator Patch Discard": outer levels that count for the kind discard a patch.

use crate::drawn::{ensure, records, Checked};
use reference::job::Record;
use reference::{tessellate, Answer};

/// How many of the four outer levels count for a kind.
fn relevant(kind: u8) -> usize {
    [3, 4, 2][usize::from(kind)]
}

/// How many of the two inner levels have an effect on a kind.
fn effective_inner(kind: u8) -> usize {
    [1, 2, 0][usize::from(kind)]
}

fn answer(record: &Record) -> Answer {
    let (patch, settings) = record.decode().unwrap();
    tessellate(&patch, &settings)
}

/// Whether `answer` is the one for the record, as far as discarding goes.
fn check(record: &Record, answer: &Answer) -> Checked {
    let outer = record.levels[..relevant(record.settings[0])].iter();
    let discards = |level: f32| level.is_nan() || level <= 0.0;
    let discarded = outer.copied().map(f32::from_bits).any(discards);
    ensure((*answer == Answer::Discarded) == discarded, || {
        format!("discarded should be {discarded}: {record:?}")
    })
}

#[test]
fn patches_are_discarded_by_their_relevant_outer_levels_alone() {
    let (mut discarded, mut drawn) = (0, 0);
    for record in records(5, 12_000) {
        let answer = answer(&record);
        assert_eq!(check(&record, &answer), Ok(()));
        match answer {
            Answer::Discarded => discarded += 1,
            _ => drawn += 1,
        }
    }
    assert!(discarded > 500 && drawn > 5000, "{discarded} {drawn}");
}

/// Levels that would discard, at one place of a record that is otherwise drawn.
fn with_a_level(kind: u8, place: usize, level: f32) -> Record {
    let mut record = Record {
        settings: [kind, 0, 0, 0, 0],
        levels: [2.5f32.to_bits(); 6],
        ..Record::BLANK
    };
    record.levels[place] = level.to_bits();
    record
}

#[test]
fn each_level_by_itself() {
    let tiny = f32::from_bits(1);
    for level in [
        f32::NAN,
        -f32::NAN,
        0.0,
        -0.0,
        -1.0,
        -tiny,
        f32::NEG_INFINITY,
    ] {
        for kind in 0..3 {
            for place in 0..6 {
                let answer = answer(&with_a_level(kind, place, level));
                let discarded = place < relevant(kind);
                assert_eq!(answer == Answer::Discarded, discarded, "{kind} {place}");
            }
        }
    }
    for level in [tiny, f32::MAX, f32::INFINITY] {
        for (kind, place) in [(0, 0), (1, 3), (2, 1), (0, 4)] {
            assert_ne!(answer(&with_a_level(kind, place, level)), Answer::Discarded);
        }
    }
}

#[test]
fn levels_that_do_not_count_change_nothing() {
    for pair in records(6, 4000).windows(2) {
        let (record, other) = (pair[0], pair[1]);
        let kind = record.settings[0];
        let mut changed = record;
        let (outer, inner) = (relevant(kind), 4 + effective_inner(kind));
        changed.levels[outer..4].copy_from_slice(&other.levels[outer..4]);
        changed.levels[inner..].copy_from_slice(&other.levels[inner..]);
        assert!(answer(&record) == answer(&changed), "{record:?}");
    }
}

#[test]
fn the_check_refuses_a_patch_discarded_by_an_inner_level_or_drawn_in_spite_of_an_outer_one() {
    let drawn = answer(&with_a_level(1, 4, f32::NAN));
    assert_eq!(check(&with_a_level(1, 4, f32::NAN), &drawn), Ok(()));
    for place in 0..6 {
        let record = with_a_level(1, place, -1.0);
        let wrong = if place < 4 {
            &drawn
        } else {
            &Answer::Discarded
        };
        assert!(check(&record, wrong).is_err());
    }
}
