//! The brute-force check: random cuts pass it, broken texts do not.

use reference::check::{check, places};
use reference::damage::{damaged_job, DAMAGES};
use reference::edge::positions;
use reference::job::{Job, Record, Version};
use reference::level::division;
use reference::output::answers;
use reference::{random, text, Spacing};

fn passes(job: &[u8]) -> (usize, usize) {
    match check(job, answers(job).as_bytes()) {
        Ok(summary) => (summary.records, summary.meshes),
        Err(fault) => panic!("{fault}"),
    }
}

#[test]
fn random_cuts_pass() {
    for version in [Version::One, Version::Two] {
        let mut meshes = 0;
        for seed in 0..10 {
            let (records, some) = passes(&random::job(seed, 200, version));
            assert_eq!(records, 200);
            meshes += some;
        }
        assert!(meshes > 300, "{meshes}");
    }
}

#[test]
fn random_jobs_meet_every_answer() {
    for version in [Version::One, Version::Two] {
        let text = answers(&random::job(1, 3000, version));
        for start in ["drawn", "discarded", "refused 8"] {
            let count = text.lines().filter(|line| line.starts_with(start)).count();
            assert!(count > 30, "{start}: {count}");
        }
        assert!(text.contains("\ndrawn 3 3\n") && text.contains("\ndrawn 4 6\n"));
    }
}

/// Every good top comes up in random files, and so does every sort of bad one.
#[test]
fn random_jobs_meet_every_top() {
    let job = random::job(1, 3000, Version::Two);
    let mut seen = [0; 256];
    for record in job[5..].chunks(30) {
        seen[usize::from(record[5])] += 1;
    }
    assert!((2..=64).step_by(2).all(|top| seen[top] > 10), "{seen:?}");
    let odd: u32 = seen[..64].iter().skip(1).step_by(2).sum();
    let above: u32 = seen[65..].iter().sum();
    assert!(seen[0] > 5 && odd > 5 && above > 5, "{seen:?}");
}

#[test]
fn damaged_jobs_are_answered_as_checked() {
    let mut seen = [0; 9];
    for seed in 0..5 {
        for which in 0..10 * DAMAGES {
            let job = damaged_job(seed, which);
            passes(&job);
            for number in 5..9 {
                let line = format!("refused {number}");
                seen[number] += answers(&job).lines().any(|l| l == line) as u32;
            }
        }
    }
    assert!(seen[5..].iter().all(|count| *count > 20), "{seen:?}");
}

/// Every inner count against fine and coarse outlines, in every spacing, both
/// turns, with the least and greatest L of each count.
#[test]
fn every_number_of_segments_makes_a_good_mesh() {
    let mut records = Vec::new();
    for spacing in 0..3 {
        for whole in 1..=64u32 {
            let whole = whole as f32;
            let above = f32::from_bits(whole.to_bits() + 1);
            for inner in [whole, above] {
                for (kind, outer) in [(0, [1.0, 5.5, 64.0, 0.0]), (1, [2.0, 64.0, 1.0, 7.5])] {
                    let other = 65.0 - whole;
                    let [a, b, c, d] = outer;
                    let order = (whole as u8) % 2;
                    records.push(Record {
                        settings: [kind, spacing, order, 1, 0],
                        top: 64,
                        levels: [a, b, c, d, inner, other].map(f32::to_bits),
                    });
                    records.push(Record {
                        settings: [kind, spacing, order, 0, 0],
                        top: 64,
                        levels: [inner, b, whole, inner, 3.5, inner].map(f32::to_bits),
                    });
                }
            }
        }
    }
    passes_as_meshes(records);
}

/// The check finds a good mesh in every record.
fn passes_as_meshes(records: Vec<Record>) {
    let count = records.len();
    let version = Version::Two;
    let job = Job { version, records };
    assert_eq!(passes(&job.to_bytes()), (count, count));
}

/// Ask 10: every top in every spacing, with levels on both sides of it.
#[test]
fn every_top_makes_a_good_mesh() {
    let mut records = Vec::new();
    for top in (2..=64u8).step_by(2) {
        let whole = f32::from(top);
        let [under, over] = [whole - 1.5, whole + 0.5];
        for spacing in 0..3 {
            for kind in 0..2 {
                records.push(Record {
                    settings: [kind, spacing, 1, 1, 0],
                    top,
                    levels: [whole, under, over, 64.0, over, under].map(f32::to_bits),
                });
            }
        }
    }
    passes_as_meshes(records);
}

/// The positions found by search are those found by division.
#[test]
fn positions_agree() {
    let spacings = [
        Spacing::Equal,
        Spacing::FractionalEven,
        Spacing::FractionalOdd,
    ];
    let tops = (2..=64).step_by(2).cycle();
    for (bits, top) in (0x3f00_0000u32..0x4300_0000).step_by(1999).zip(tops) {
        for (byte, spacing) in spacings.into_iter().enumerate() {
            let level = f32::from_bits(bits);
            let found = places(level, byte as u8, top);
            let cut: Vec<i64> = positions(division(level, spacing, u32::from(top)))
                .into_iter()
                .map(i64::from)
                .collect();
            assert_eq!(found, cut);
        }
    }
}

/// A fault is found in the second record, and says something like `what`.
fn finds(line: &str, from: &str, to: &str, what: &str) {
    let description = format!("isolines equal cw upper-left points outer 1 1\n{line}\n");
    let job = text::job(&description).unwrap().to_bytes();
    let good = answers(&job);
    assert!(good.contains(from), "{good}");
    let broken = good.replacen(from, to, 1);
    let fault = check(&job, broken.as_bytes()).expect_err("passed");
    assert_eq!(fault.record, 2, "{fault}");
    assert!(fault.what.contains(what), "{fault}");
}

#[test]
fn broken_lines_are_found() {
    let line = "triangles equal ccw lower-left primitives outer 1 1 1 inner 2";
    finds(line, "2 0 3\n", "", "the text is over");
    finds(line, "drawn 4 9", "drawn 4 8", "primitives of 3");
    finds(line, "drawn 4 9", "drawn 3 9", "index 65536 with 3 points");
    finds(line, "drawn 4 9", "drawn 5 9", "point 4 is");
    finds(line, "drawn 4 9", "drawn  4 9", "expected \"drawn\"");
    finds(line, "drawn 4 9\n", "discarded\n", "expected \"drawn\"");
    finds(line, "2 0 3\n", "2 0 4\n", "index 4 with 4 points");
    finds(line, "2 0 3\n", "2 0 3\n1\n", "a line too many");
    finds(line, "2 0 3\n", "2 0 3", "does not end");
    finds(line, "2 0 3\n", "2 0 03\n", "not a line of 3 numbers");
    finds(line, "65536 65536 65536", "65536 65536 65537", "point 3 is");

    let line = "quads equal cw lower-left points outer 0 1 1 1 inner 1 1";
    finds(line, "discarded", "refused 1", "expected \"discarded\"");
    let line = "quads equal cw lower-left 2 outer 0 1 1 1 inner 1 1";
    finds(line, "refused 8", "discarded", "expected \"refused 8\"");
}

#[test]
fn broken_meshes_are_found() {
    let line = "triangles equal ccw lower-left primitives outer 1 1 1 inner 2";
    finds(line, "0 1 3\n", "0 3 1\n", "triangle 0 has twice the area");
    finds(line, "0 1 3\n", "0 1 1\n", "triangle 0 has twice the area");
    finds(line, "2 0 3\n", "0 1 3\n", "side (0, 1) is used twice");
    finds(line, "drawn 4 9", "drawn 4 6", "areas add up");
    finds(
        line,
        "65536 65536 65536",
        "0 98304 98304",
        "edge 0 has places",
    );
    // The centre listed twice.
    let from = "drawn 4 9\n0 196608 0\n0 0 196608\n196608 0 0\n65536 65536 65536\n";
    let to = from.replace("4 9", "5 9") + "65536 65536 65536\n";
    finds(line, from, &to, "points 3 and 4 are both");

    // The other turn.
    let line = "quads equal cw lower-left primitives outer 1 1 1 1 inner 1 3";
    finds(line, "0 4 1\n", "0 1 4\n", "triangle 0 has twice the area");
    // The same area over a point of the outline that is left out.
    let line = "triangles equal ccw lower-left primitives outer 2 1 1 inner 2";
    let from = "drawn 5 12\n";
    finds(line, from, "drawn 5 9\n", "areas add up");
    let job = text::job(line).unwrap().to_bytes();
    let skipped = answers(&job)
        .replace(from, "drawn 5 9\n")
        .replace("0 1 4\n1 2 4\n", "0 2 4\n");
    let fault = check(&job, skipped.as_bytes()).unwrap_err();
    assert_eq!(fault.what, "outline piece (0, 1) is no side");
    // The same area between the same two lines of the grid, elsewhere.
    let line = "quads equal ccw lower-left primitives outer 1 1 1 1 inner 3 6";
    finds(line, "4 5 10\n", "4 5 12\n", "does not meet its reverse");
}

#[test]
fn broken_edges_are_found() {
    let line = "quads odd ccw lower-left points outer 2 1 1 1 inner 1 3";
    finds(line, "0 49152 0", "0 49151 0", "edge 0 has places");
    finds(line, "\n3\n4\n", "\n4\n3\n", "do not count up");
    let line = "triangles odd ccw lower-left points outer 1 2 1 inner 1";
    finds(line, "49152 0 147456", "49153 0 147455", "has no third");
    finds(
        line,
        "49152 0 147456",
        "49155 0 147453",
        "edge 1 has places",
    );
}

#[test]
fn broken_headers_are_found() {
    let fault = check(b"TSJ", "TSJ 1\n".as_bytes()).unwrap_err();
    assert_eq!(fault.record, 0);
    assert!(check(b"TSJ\x01\x00", "TSJ 1\nrefused 7\n".as_bytes()).is_err());
    assert!(check(b"TSJ\x01\x00", "".as_bytes()).is_err());
    assert!(check(b"TSJ\x03\x00", "refused 5\n".as_bytes()).is_err());
    assert!(check(b"TSJ\x02\x00", "TSJ 1\n".as_bytes()).is_err());
    assert!(check(b"TSJ\x00\x02", "TSJ 2\n".as_bytes()).is_err());
    assert!(check(b"TSJ\x02\x00", "TSJ 2\n".as_bytes()).is_ok());
}

/// Ask 10: places by another top, and tops that are none.
#[test]
fn broken_tops_are_found() {
    let line = "version 2\nisolines equal cw upper-left points top 2 outer 1 1\n";
    let text = format!("{line}quads odd cw lower-left points top 3 outer 1 1 1 1 inner 1 1");
    let job = text::job(&text).unwrap().to_bytes();
    let broken = answers(&job).replace("refused 8", "discarded");
    assert_eq!(check(&job, broken.as_bytes()).unwrap_err().record, 2);

    let [four, six] = [4, 6].map(|top| {
        let patch = "quads equal cw lower-left points";
        let text = format!("{line}{patch} top {top} outer 1 1 5 1 inner 1 1");
        text::job(&text).unwrap().to_bytes()
    });
    let fault = check(&four, answers(&six).as_bytes()).unwrap_err();
    assert!(fault.what.contains("edge 2 has places"), "{fault}");
}
