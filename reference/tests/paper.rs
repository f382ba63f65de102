//! Every example of the paper that concerns whole patches and job files.

use reference::job::{read_header, read_record, Job, Record, Refusal, Version};
use reference::output::answers;
use reference::*;

fn settings(spacing: Spacing) -> Settings {
    Settings {
        spacing,
        vertex_order: VertexOrder::CounterClockwise,
        domain_origin: DomainOrigin::LowerLeft,
        point_mode: false,
        top: 64,
    }
}

fn equal() -> Settings {
    settings(Spacing::Equal)
}

fn triangles(outer: f32, inner: f32) -> Patch {
    Patch::Triangles {
        outer: [outer; 3],
        inner,
    }
}

fn quads(outer: f32, inner: [f32; 2]) -> Patch {
    Patch::Quads {
        outer: [outer; 4],
        inner,
    }
}

fn drawn(patch: &Patch, settings: &Settings) -> (Vec<[u32; 3]>, Vec<u32>) {
    match tessellate(patch, settings) {
        Answer::Drawn { points, indices } => (points, indices),
        answer => panic!("{answer:?}"),
    }
}

fn job_of(description: &str) -> Vec<u8> {
    text::job(description).unwrap().to_bytes()
}

// ---- the examples -------------------------------------------------------

#[test]
fn the_whole_sample_output() {
    let job = job_of("triangles equal ccw lower-left primitives outer 1 1 1 inner 2");
    let expected = "TSJ 1
drawn 4 9
0 196608 0
0 0 196608
196608 0 0
65536 65536 65536
0 1 3
1 2 3
2 0 3
";
    assert_eq!(answers(&job), expected);
}

#[test]
fn star_triangles() {
    let (points, indices) = drawn(&triangles(1.0, 3.0), &equal());
    assert_eq!(points[3], [43692, 109224, 43692]);
    assert_eq!(
        indices,
        [0, 1, 3, 1, 4, 3, 1, 2, 4, 2, 5, 4, 2, 0, 5, 0, 3, 5, 3, 4, 5]
    );
    assert_eq!(points.len(), 6);
}

#[test]
fn star_quads() {
    let (points, indices) = drawn(&quads(1.0, [1.0, 3.0]), &equal());
    assert_eq!(points.len(), 6);
    assert_eq!(points[4..], [[21846, 32768, 0], [43690, 32768, 0]]);
    assert_eq!(
        indices,
        [0, 1, 4, 1, 2, 4, 2, 5, 4, 2, 3, 5, 3, 0, 5, 0, 4, 5]
    );
}

#[test]
fn star_isolines() {
    let patch = Patch::Isolines { outer: [3.0, 2.0] };
    let (points, indices) = drawn(&patch, &equal());
    assert_eq!(indices, [0, 1, 1, 2, 3, 4, 4, 5, 6, 7, 7, 8]);
    let expected: Vec<[u32; 3]> = [0, 21846, 43690]
        .iter()
        .flat_map(|v| [[0, *v, 0], [32768, *v, 0], [65536, *v, 0]])
        .collect();
    assert_eq!(points, expected);
}

fn counts(patch: &Patch, settings: &Settings) -> (usize, usize) {
    match measure(patch, settings) {
        Measure::Counts {
            points, indices, ..
        } => (points, indices),
        answer => panic!("{answer:?}"),
    }
}

#[test]
fn sizes() {
    let counts = |patch: &Patch| counts(patch, &equal());
    assert_eq!(counts(&quads(64.0, [64.0; 2])), (4_225, 24_576));
    assert_eq!(counts(&triangles(64.0, 64.0)), (3_169, 3 * 6_144));
    let isolines = Patch::Isolines { outer: [64.0; 2] };
    assert_eq!(counts(&isolines), (4_160, 2 * 4_096));
}

/// Ask 6: no patch has more than 4,225 points. A count hangs on the numbers of
/// segments alone, and whole levels 1 to 64 reach all of those. They are tried
/// inside the finest outline first, then on every outer edge.
#[test]
fn no_patch_has_more_than_4225_points() {
    let levels = || (1..=64).map(|level| level as f32);
    let mut most = 0;
    for spacing in [
        Spacing::Equal,
        Spacing::FractionalEven,
        Spacing::FractionalOdd,
    ] {
        let settings = settings(spacing);
        let mut meet = |patch: Patch| most = counts(&patch, &settings).0.max(most);
        for first in levels() {
            meet(triangles(64.0, first));
            for second in levels() {
                meet(quads(64.0, [first, second]));
                meet(Patch::Isolines {
                    outer: [first, second],
                });
            }
        }
    }
    assert_eq!(most, 4_225);
}

/// Ask 6, the other half: a finer outer edge adds its own segments and nothing
/// else, so the finest outline is the one with most points.
#[test]
fn outer_edges_add_their_own_points_only() {
    let finest = counts(&quads(64.0, [5.0, 6.0]), &equal()).0;
    for edge in 0..4 {
        for level in 1..=64 {
            let mut outer = [64.0; 4];
            outer[edge] = level as f32;
            let inner = [5.0, 6.0];
            let points = counts(&Patch::Quads { outer, inner }, &equal()).0;
            assert_eq!(points, finest - 64 + level);
        }
    }
    let finest = counts(&triangles(64.0, 5.0), &equal()).0;
    for edge in 0..3 {
        for level in 1..=64 {
            let mut outer = [64.0; 3];
            outer[edge] = level as f32;
            let points = counts(&Patch::Triangles { outer, inner: 5.0 }, &equal()).0;
            assert_eq!(points, finest - 64 + level);
        }
    }
}

// ---- plain patches and levels -------------------------------------------

#[test]
fn plain_patches() {
    const S: u32 = 196_608;
    let (points, indices) = drawn(&triangles(1.0, 1.0), &equal());
    assert_eq!(points, [[0, S, 0], [0, 0, S], [S, 0, 0]]);
    assert_eq!(indices, [0, 1, 2]);
    let (points, indices) = drawn(&quads(1.0, [1.0; 2]), &settings(Spacing::FractionalOdd));
    assert_eq!(
        points,
        [[0, 65536, 0], [0, 0, 0], [65536, 0, 0], [65536, 65536, 0]]
    );
    assert_eq!(indices, [0, 1, 2, 0, 2, 3]);
}

#[test]
fn one_divided_level_ends_the_plain_patch() {
    // Two segments under equal spacing, three under odd; even has no plain patch.
    let patch = Patch::Triangles {
        outer: [1.0, 2.0, 1.0],
        inner: 1.0,
    };
    assert_eq!(drawn(&patch, &equal()).0.len(), 4 + 1);
    let odd = settings(Spacing::FractionalOdd);
    assert_eq!(drawn(&patch, &odd).0.len(), 5 + 3);
    let even = settings(Spacing::FractionalEven);
    assert_eq!(drawn(&triangles(1.0, 1.0), &even).0.len(), 6 + 1);
    // For quads one inner level is enough, and the other is widened.
    let patch = quads(1.0, [1.0, 4.0]);
    assert_eq!(drawn(&patch, &equal()).0.len(), 4 + 3);
    assert_eq!(drawn(&patch, &odd).0.len(), 4 + 2 * 4);
    let odd_points = drawn(&patch, &odd).0;
    assert_eq!(odd_points[4][1], 1);
    assert_eq!(odd_points[8][1], 65535);
}

#[test]
fn rows_come_from_the_first_inner_level() {
    let (points, _) = drawn(&quads(1.0, [4.0, 2.0]), &equal());
    assert_eq!(
        points[4..],
        [[32768, 16384, 0], [32768, 32768, 0], [32768, 49152, 0]]
    );
}

#[test]
fn just_above_one_is_two_segments() {
    let above = f32::from_bits(1f32.to_bits() + 1);
    assert_eq!(drawn(&quads(above, [1.0; 2]), &equal()).0.len(), 8 + 1);
}

#[test]
fn spacing_leaves_the_number_of_isolines_alone() {
    let patch = Patch::Isolines { outer: [1.0, 1.0] };
    let even = settings(Spacing::FractionalEven);
    let (points, indices) = drawn(&patch, &even);
    assert_eq!(points, [[0, 0, 0], [32768, 0, 0], [65536, 0, 0]]);
    assert_eq!(indices, [0, 1, 1, 2]);
    let (points, indices) = drawn(&patch, &equal());
    assert_eq!(points, [[0, 0, 0], [65536, 0, 0]]);
    assert_eq!(indices, [0, 1]);
    // Two lines under odd spacing, where two would become three segments.
    let patch = Patch::Isolines { outer: [2.0, 1.0] };
    let odd = settings(Spacing::FractionalOdd);
    assert_eq!(drawn(&patch, &odd).0.len(), 4);
}

#[test]
fn inner_levels_never_discard() {
    for inner in [0.0, -0.0, -5.0, f32::NAN, f32::NEG_INFINITY] {
        assert_eq!(
            tessellate(&triangles(1.0, inner), &equal()),
            tessellate(&triangles(1.0, 1.0), &equal())
        );
        assert_eq!(
            tessellate(&quads(3.0, [inner, inner]), &equal()),
            tessellate(&quads(3.0, [1.0, 1.0]), &equal())
        );
    }
    assert_eq!(
        tessellate(&triangles(1.0, f32::INFINITY), &equal()),
        tessellate(&triangles(1.0, 64.0), &equal())
    );
}

#[test]
fn outer_levels_discard() {
    for bad in [0.0, -0.0, -1.0, f32::NAN, -f32::NAN, f32::NEG_INFINITY] {
        for place in 0..4 {
            let mut outer = [1.0; 4];
            outer[place] = bad;
            let patch = Patch::Quads {
                outer,
                inner: [1.0; 2],
            };
            assert_eq!(tessellate(&patch, &equal()), Answer::Discarded);
            assert_eq!(measure(&patch, &equal()), Measure::Discarded);
            if place < 3 {
                let outer = [outer[0], outer[1], outer[2]];
                let patch = Patch::Triangles { outer, inner: 1.0 };
                assert_eq!(tessellate(&patch, &equal()), Answer::Discarded);
            }
            if place < 2 {
                let outer = [outer[0], outer[1]];
                let patch = Patch::Isolines { outer };
                assert_eq!(tessellate(&patch, &equal()), Answer::Discarded);
            }
        }
    }
    // The smallest number above zero does not.
    let patch = triangles(f32::from_bits(1), 1.0);
    assert_eq!(drawn(&patch, &equal()).1, [0, 1, 2]);
}

// ---- turn and point mode ------------------------------------------------

#[test]
fn vertex_order_and_origin() {
    use DomainOrigin::*;
    use VertexOrder::*;
    let cases = [
        (CounterClockwise, LowerLeft, [0, 1, 3]),
        (Clockwise, UpperLeft, [0, 1, 3]),
        (Clockwise, LowerLeft, [0, 3, 1]),
        (CounterClockwise, UpperLeft, [0, 3, 1]),
    ];
    for (vertex_order, domain_origin, first) in cases {
        let settings = Settings {
            vertex_order,
            domain_origin,
            ..equal()
        };
        let (points, indices) = drawn(&triangles(1.0, 2.0), &settings);
        assert_eq!(indices[..3], first);
        assert_eq!(points, drawn(&triangles(1.0, 2.0), &equal()).0);
        // Lines know no turn.
        let lines = Patch::Isolines { outer: [3.0, 2.0] };
        assert_eq!(drawn(&lines, &settings), drawn(&lines, &equal()));
    }
}

#[test]
fn point_mode_keeps_the_points() {
    let patches = [
        triangles(2.0, 3.0),
        triangles(1.0, 1.0),
        quads(2.0, [3.0, 4.0]),
        Patch::Isolines { outer: [3.0, 2.0] },
    ];
    for patch in patches {
        let dots = Settings {
            point_mode: true,
            ..equal()
        };
        let (points, indices) = drawn(&patch, &dots);
        assert_eq!(points, drawn(&patch, &equal()).0);
        assert!(indices.iter().copied().eq(0..points.len() as u32));
    }
    let job = job_of("isolines equal cw upper-left points outer 1 1");
    assert_eq!(answers(&job), "TSJ 1\ndrawn 2 2\n0 0 0\n65536 0 0\n0\n1\n");
}

// ---- drawing into lists -------------------------------------------------

#[test]
fn drawing_points() {
    let patch = triangles(1.0, 2.0); // 4 points
    let draw_with = |patch: &Patch, words: usize| {
        let mut list = vec![7777; words];
        let answer = draw_points(patch, &equal(), &mut list);
        (answer, list)
    };
    let bad = triangles(0.0, 2.0);
    let cases = [
        (&bad, 0, PointsAnswer::Discarded, 1),
        (&bad, 100, PointsAnswer::Discarded, 1),
        (&patch, 0, PointsAnswer::NoRoomForVertices, 3),
        (&patch, 11, PointsAnswer::NoRoomForVertices, 3),
    ];
    for (patch, words, expected, number) in cases {
        let (answer, list) = draw_with(patch, words);
        assert_eq!((answer, answer.number()), (expected, number));
        assert_eq!(list, vec![7777; words]);
    }
    for words in [12, 13, 20] {
        let (answer, list) = draw_with(&patch, words);
        assert_eq!(answer, PointsAnswer::Drawn { points: 4 });
        assert_eq!(answer.number(), 0);
        assert_eq!(list[..3], [0, 196_608, 0]);
        assert_eq!(list[9..12], [65_536; 3]);
        assert!(list[12..].iter().all(|word| *word == 7777));
    }
}

#[test]
fn drawing_indices() {
    let patch = triangles(1.0, 2.0); // 9 indices
    let draw_with = |patch: &Patch, words: usize| {
        let mut list = vec![888; words];
        let answer = draw_indices(patch, &equal(), &mut list);
        (answer, list)
    };
    let bad = triangles(0.0, 2.0);
    let cases = [
        (&bad, 0, IndicesAnswer::Discarded, 1),
        (&bad, 100, IndicesAnswer::Discarded, 1),
        (&patch, 0, IndicesAnswer::NoRoomForIndices, 4),
        (&patch, 8, IndicesAnswer::NoRoomForIndices, 4),
    ];
    for (patch, words, expected, number) in cases {
        let (answer, list) = draw_with(patch, words);
        assert_eq!((answer, answer.number()), (expected, number));
        assert_eq!(list, vec![888; words]);
    }
    for words in [9, 10, 30] {
        let (answer, list) = draw_with(&patch, words);
        assert_eq!(answer, IndicesAnswer::Drawn { indices: 9 });
        assert_eq!(answer.number(), 0);
        assert_eq!(list[..9], [0, 1, 3, 1, 2, 3, 2, 0, 3]);
        assert!(list[9..].iter().all(|word| *word == 888));
    }
}

#[test]
fn the_greatest_patch_fits_the_full_lists() {
    let patch = quads(64.0, [64.0; 2]);
    let points = draw_points(&patch, &equal(), &mut vec![0; 12_675]);
    assert_eq!(points, PointsAnswer::Drawn { points: 4_225 });
    let indices = draw_indices(&patch, &equal(), &mut vec![0; 24_576]);
    assert_eq!(indices, IndicesAnswer::Drawn { indices: 24_576 });
}

// ---- job files ----------------------------------------------------------

#[test]
fn headers() {
    assert_eq!(answers(b""), "refused 5\n");
    assert_eq!(answers(b"TSJ\x01"), "refused 5\n");
    assert_eq!(answers(b"TSj\x01\x00"), "refused 5\n");
    assert_eq!(answers(b"TSj\x02\x00"), "refused 5\n");
    assert_eq!(answers(b"TSJ\x03\x00"), "refused 6\n");
    assert_eq!(answers(b"TSJ\x00\x00"), "refused 6\n");
    assert_eq!(answers(b"TSJ\x01\x01"), "refused 6\n");
    assert_eq!(answers(b"TSJ\x00\x01"), "refused 6\n");
    assert_eq!(answers(b"TSJ\x01\x00"), "TSJ 1\n");
    let rest = &b"ab"[..];
    assert_eq!(read_header(b"TSJ\x01\x00ab"), Ok((Version::One, rest)));
}

fn version_1(records: &[Record]) -> Vec<u8> {
    let job = Job {
        version: Version::One,
        records: records.to_vec(),
    };
    job.to_bytes()
}

#[test]
fn records_cut_short_or_with_unknown_settings() {
    let good = text::job("isolines equal cw upper-left points outer 1 1")
        .unwrap()
        .records[0];
    let lines = "drawn 2 2\n0 0 0\n65536 0 0\n0\n1\n";
    let last_known = [2, 2, 1, 1, 1];
    for place in 0..5 {
        for value in [last_known[place] + 1, 255] {
            let mut bad = good;
            bad.settings[place] = value;
            assert_eq!(bad.decode(), Err(Refusal::UnknownSetting { place }));
            let job = version_1(&[bad, good]);
            assert_eq!(answers(&job), format!("TSJ 1\nrefused 8\n{lines}"));
        }
    }
    let mut twice = good;
    twice.settings = [2, 9, 0, 0, 9];
    assert_eq!(twice.decode(), Err(Refusal::UnknownSetting { place: 1 }));
    for left in 1..29 {
        let mut job = version_1(&[good]);
        job.extend(&twice.to_bytes(Version::One)[..left]);
        assert_eq!(answers(&job), format!("TSJ 1\n{lines}refused 7\n"));
        let mut rest = &job[5 + 29..];
        let record = read_record(Version::One, &mut rest);
        assert_eq!(record, Err(Refusal::TruncatedRecord));
        assert_eq!(rest.len(), left);
    }
    let mut end: &[u8] = &[];
    assert_eq!(read_record(Version::One, &mut end), Ok(None));
}

#[test]
fn discarded_in_a_job_and_bytes_of_a_record() {
    let job = job_of("quads equal cw upper-left points outer 1 nan 1 1 inner 1 1");
    assert_eq!(answers(&job), "TSJ 1\ndiscarded\n");
    // Levels without a use are ignored.
    let job = job_of("isolines equal cw upper-left points outer 1 1 nan 0 inner nan -1");
    assert!(answers(&job).starts_with("TSJ 1\ndrawn 2 2\n"));
    let job = job_of("triangles equal cw upper-left points outer 1 1 1 nan inner 1 nan");
    assert!(answers(&job).starts_with("TSJ 1\ndrawn 3 3\n"));

    let record = Record {
        settings: [1, 2, 0, 1, 0],
        top: 64,
        levels: [0x3f800000, 2, 3, 4, 5, 0xff000006],
    };
    let bytes = record.to_bytes(Version::One);
    assert_eq!(bytes.len(), 29);
    assert_eq!(bytes[..9], [1, 2, 0, 1, 0, 0, 0, 0x80, 0x3f]);
    assert_eq!(bytes[25..], [6, 0, 0, 0xff]);
    assert_eq!(Record::from_bytes(&bytes, Version::One), record);
}
