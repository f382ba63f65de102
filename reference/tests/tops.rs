//! Ask 10: the top level in the settings, and the second version of job files.

use reference::job::{read_header, read_record, Job, Record, Refusal, Version};
use reference::measures::measures;
use reference::output::answers;
use reference::*;

/// Every record of a random file of version 1 that can be read.
fn some_patches() -> Vec<(Patch, Settings)> {
    let bytes = random::job(5, 1000, Version::One);
    job::read_job(&bytes).unwrap().flatten().collect()
}

fn good_tops() -> impl Iterator<Item = u32> + Clone {
    (2..=64).step_by(2)
}

fn bad_tops() -> impl Iterator<Item = u32> {
    let odd = (1..=65).step_by(2);
    [0, 66, 128, 255, 256, 65_536, u32::MAX - 1, u32::MAX]
        .into_iter()
        .chain(odd)
}

// ---- tops that are none -------------------------------------------------

#[test]
fn a_bad_top_comes_before_all_else() {
    let (good, settings) = (triangles(1.0), settings(Spacing::Equal));
    for top in bad_tops() {
        let settings = Settings { top, ..settings };
        // With room or without, discarded or not.
        for (patch, room) in [(good, 100), (good, 0), (triangles(0.0), 100)] {
            assert_eq!(tessellate(&patch, &settings), Answer::BadTop);
            assert_eq!(measure(&patch, &settings), Measure::BadTop);
            let mut list = vec![7777; room];
            let answer = draw_points(&patch, &settings, &mut list);
            assert_eq!((answer, answer.number()), (PointsAnswer::BadTop, 11));
            assert_eq!(list, vec![7777; room]);
            let mut list = vec![888; room];
            let answer = draw_indices(&patch, &settings, &mut list);
            assert_eq!((answer, answer.number()), (IndicesAnswer::BadTop, 11));
            assert_eq!(list, vec![888; room]);
        }
    }
    for top in good_tops() {
        let settings = Settings { top, ..settings };
        assert_eq!(measure(&triangles(0.0), &settings), Measure::Discarded);
        assert_eq!(draw_points(&good, &settings, &mut [0; 9]).number(), 0);
        assert_eq!(draw_indices(&good, &settings, &mut [0; 3]).number(), 0);
    }
}

// ---- tops that are ------------------------------------------------------

fn settings(spacing: Spacing) -> Settings {
    Settings {
        spacing,
        vertex_order: VertexOrder::CounterClockwise,
        domain_origin: DomainOrigin::LowerLeft,
        point_mode: false,
        top: 64,
    }
}

fn triangles(level: f32) -> Patch {
    Patch::Triangles {
        outer: [level; 3],
        inner: level,
    }
}

/// A level as it would be after the top's part of the clamp. NaN stays.
fn lowered(level: f32, end: u32) -> f32 {
    if level > end as f32 {
        end as f32
    } else {
        level
    }
}

/// The patch with no level above its range for this top.
fn lowered_patch(patch: &Patch, spacing: Spacing, top: u32) -> Patch {
    let end = match spacing {
        Spacing::FractionalOdd => top - 1,
        _ => top,
    };
    let lower = |level| lowered(level, end);
    match *patch {
        Patch::Triangles { outer, inner } => Patch::Triangles {
            outer: outer.map(lower),
            inner: lower(inner),
        },
        Patch::Quads { outer, inner } => Patch::Quads {
            outer: outer.map(lower),
            inner: inner.map(lower),
        },
        Patch::Isolines {
            outer: [lines, along],
        } => Patch::Isolines {
            outer: [lowered(lines, top), lower(along)],
        },
    }
}

/// A lower top gives what 64 gives for levels cut down by hand.
#[test]
fn a_top_is_a_lower_end_of_the_range_and_nothing_more() {
    let tops = good_tops().cycle();
    for ((patch, settings), top) in some_patches().into_iter().zip(tops) {
        let here = tessellate(&patch, &Settings { top, ..settings });
        let by_hand = lowered_patch(&patch, settings.spacing, top);
        assert_eq!(here, tessellate(&by_hand, &settings));
    }
}

#[test]
fn the_greatest_patches_of_each_top() {
    for top in good_tops() {
        let settings = Settings {
            top,
            ..settings(Spacing::Equal)
        };
        let huge = f32::INFINITY;
        let patch = Patch::Quads {
            outer: [huge; 4],
            inner: [huge; 2],
        };
        let Answer::Drawn { points, indices } = tessellate(&patch, &settings) else {
            panic!("{top}");
        };
        let side = top as usize;
        assert_eq!(points.len(), (side + 1) * (side + 1));
        assert_eq!(indices.len(), 6 * side * side);
    }
}

/// With top 2 an odd level has nowhere to go but 1.
#[test]
fn top_2_with_odd_spacing_is_always_the_plain_patch() {
    let ones = |patch: &Patch| match patch {
        Patch::Triangles { .. } => triangles(1.0),
        _ => Patch::Quads {
            outer: [1.0; 4],
            inner: [1.0; 2],
        },
    };
    let mut plain = 0;
    for (patch, settings) in some_patches() {
        if matches!(patch, Patch::Isolines { .. }) || patch.is_discarded() {
            continue;
        }
        let odd = Settings {
            spacing: Spacing::FractionalOdd,
            ..settings
        };
        let answer = tessellate(&patch, &Settings { top: 2, ..odd });
        assert_eq!(answer, tessellate(&ones(&patch), &odd));
        plain += 1;
    }
    assert!(plain > 300, "{plain}");
}

// ---- job files ----------------------------------------------------------

fn version_2(records: &[Record]) -> Vec<u8> {
    let job = Job {
        version: Version::Two,
        records: records.to_vec(),
    };
    job.to_bytes()
}

/// A version 1 file gets the answers of the version 2 file with 64 everywhere.
#[test]
fn version_1_is_top_64() {
    for seed in 0..3 {
        let one = random::job(seed, 300, Version::One);
        let records: Vec<Record> = one[5..]
            .chunks(29)
            .map(|bytes| Record::from_bytes(bytes, Version::One))
            .collect();
        assert!(records.iter().all(|record| record.top == 64));
        let two = version_2(&records);
        assert_eq!(two.len(), 5 + 300 * 30);
        let expected = answers(&one).replacen("TSJ 1\n", "TSJ 2\n", 1);
        assert_eq!(answers(&two), expected);
        assert_eq!(measures(&two), measures(&one));
    }
}

#[test]
fn headers() {
    assert_eq!(answers(b"TSJ\x02\x00"), "TSJ 2\n");
    assert_eq!(answers(b"TSJ\x03\x00"), "refused 6\n");
    assert_eq!(answers(b"TSJ\x00\x02"), "refused 6\n");
    assert_eq!(answers(b"TSJ\x02\x01"), "refused 6\n");
    assert_eq!(answers(b"TSJ\x02"), "refused 5\n");
    let rest = &b"ab"[..];
    assert_eq!(read_header(b"TSJ\x02\x00ab"), Ok((Version::Two, rest)));
}

const GOOD: Record = Record {
    settings: [2, 0, 0, 0, 1],
    top: 16,
    levels: [0x3f80_0000; 6],
};
const GOOD_LINES: &str = "drawn 2 2\n0 0 0\n65536 0 0\n0\n1\n";

#[test]
fn unknown_settings_in_version_2() {
    for top in 0..=255 {
        let decoded = Record { top, ..GOOD }.decode();
        match decoded {
            Ok((_, settings)) => assert_eq!(settings.top, u32::from(top)),
            Err(refusal) => assert_eq!(refusal, Refusal::UnknownSetting { place: 5 }),
        }
        let good = good_tops().any(|known| known == u32::from(top));
        assert_eq!(decoded.is_ok(), good);
    }
    // The top is the last place to be looked at.
    for place in 0..5 {
        let mut bad = Record { top: 1, ..GOOD };
        bad.settings[place] = 255;
        assert_eq!(bad.decode(), Err(Refusal::UnknownSetting { place }));
    }
    let bad = Record { top: 66, ..GOOD };
    let expected = format!("TSJ 2\nrefused 8\n{GOOD_LINES}");
    assert_eq!(answers(&version_2(&[bad, GOOD])), expected);
}

#[test]
fn cut_records_in_version_2() {
    for left in 1..30 {
        let bad = Record { top: 0, ..GOOD };
        let mut job = version_2(&[GOOD]);
        job.extend(&bad.to_bytes(Version::Two)[..left]);
        assert_eq!(answers(&job), format!("TSJ 2\n{GOOD_LINES}refused 7\n"));
        let mut rest = &job[5 + 30..];
        let record = read_record(Version::Two, &mut rest);
        assert_eq!(record, Err(Refusal::TruncatedRecord));
        assert_eq!(rest.len(), left);
    }
}

#[test]
fn bytes_of_a_record_in_version_2() {
    let record = Record {
        settings: [1, 2, 0, 1, 0],
        top: 38,
        levels: [0x3f800000, 2, 3, 4, 5, 0xff000006],
    };
    let bytes = record.to_bytes(Version::Two);
    assert_eq!(bytes.len(), 30);
    assert_eq!(bytes[..10], [1, 2, 0, 1, 0, 38, 0, 0, 0x80, 0x3f]);
    assert_eq!(bytes[26..], [6, 0, 0, 0xff]);
    assert_eq!(Record::from_bytes(&bytes, Version::Two), record);
}

/// A header decides how the records after it are read, whoever wrote them.
#[test]
fn mixed_versions_are_read_as_the_header_says() {
    // 29 bytes in version 2 are one too few.
    let mut job = Version::Two.header().to_vec();
    job.extend(GOOD.to_bytes(Version::One));
    assert_eq!(answers(&job), "TSJ 2\nrefused 7\n");
    // 30 bytes in version 1 are one too many; the top slips into the levels.
    let mut job = Version::One.header().to_vec();
    job.extend(GOOD.to_bytes(Version::Two));
    let text = answers(&job);
    assert!(text.starts_with("TSJ 1\n") && text.ends_with("\nrefused 7\n"));
}
