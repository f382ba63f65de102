//! Measuring: the counts of a cut, what the clamps found, and the text of both.

use reference::damage::{damaged_job, DAMAGES};
use reference::job::Version;
use reference::measures::measures;
use reference::output::answers;
use reference::{random, text};

fn measured(description: &str) -> String {
    measures(&text::job(description).unwrap().to_bytes())
}

#[test]
fn one_line_for_every_sort_of_answer() {
    let description = "
triangles equal ccw lower-left primitives outer 1 1 1 inner 2
triangles odd   ccw lower-left primitives outer 0.5 1 63.5 inner nan
quads     even  cw  upper-left primitives outer 2 1.5 64 64.5 inner -inf inf
isolines  odd   cw  upper-left points     outer 64 64
isolines  even  cw  upper-left primitives outer 1 1 nan nan inner nan nan
quads     equal cw  upper-left points     outer 1 1 1 -0 inner 99 99
quads     equal 2   upper-left 7          outer 1 1 1 1 inner 1 1
";
    let expected = "\
counts 4 9 inside inside inside inside
counts 68 207 below inside above below
counts 195 768 inside below inside above below above
counts 4096 4096 inside above
counts 3 4 inside below
discarded
refused 8 2
";
    assert_eq!(measured(description), expected);
}

/// An inner level that is raised keeps what its clamp said, drawn as the plain
/// patch or not.
#[test]
fn raised_inner_levels_keep_their_clamp() {
    for (inner, word) in [("1", "inside"), ("0", "below"), ("nan", "below")] {
        for (outer, counts) in [("1", "3 3"), ("2", "8 27")] {
            let line =
                format!("triangles odd ccw lower-left primitives outer 1 1 {outer} inner {inner}");
            let expected = format!("counts {counts} inside inside inside {word}\n");
            assert_eq!(measured(&line), expected);
        }
    }
}

#[test]
fn headers_and_cut_records() {
    assert_eq!(measures(b"TSJ\x01"), "refused 5\n");
    assert_eq!(measures(b"TSJ\x00\x01"), "refused 6\n");
    assert_eq!(measures(b"TSJ\x01\x00"), "");
    let line = "isolines equal cw upper-left points outer 1 1";
    let mut job = text::job(line).unwrap().to_bytes();
    job.extend([9; 28]);
    assert_eq!(measures(&job), "counts 2 2 inside inside\nrefused 7\n");
}

/// Ask 10: the clamps follow the top, and a bad top has place 5.
#[test]
fn tops() {
    let description = "
version 2
triangles equal ccw lower-left primitives top 16 outer 16 16.5 1 inner 17
triangles odd   ccw lower-left primitives top 16 outer 15 15.5 1 inner 16
quads     odd   cw  upper-left primitives top 2  outer 1 2 0.5 64 inner nan 1.5
isolines  odd   cw  upper-left primitives top 2  outer 2 2
isolines  even  cw  upper-left primitives top 65 outer 0 0
isolines  even  cw  upper-left 2          top 65 outer 0 0
isolines  even  cw  upper-left points     top 4  outer 0 0
";
    let expected = "\
counts 202 1107 inside above inside above
counts 178 969 inside above inside above
counts 4 6 inside above below above below above
counts 4 4 inside above
refused 8 5
refused 8 4
discarded
";
    assert_eq!(measured(description), expected);
    assert_eq!(measures(b"TSJ\x02\x00"), "");
    assert_eq!(measures(b"TSJ\x02\x00\x09"), "refused 7\n");
}

/// A measured file says what a cut one says, apart from clamps and places.
#[test]
fn measures_agree_with_cuts() {
    let mut jobs: Vec<Vec<u8>> = Vec::new();
    for seed in 0..5 {
        jobs.push(random::job(seed, 200, Version::One));
        jobs.push(random::job(seed, 200, Version::Two));
    }
    jobs.extend((0..4 * DAMAGES).map(|which| damaged_job(3, which)));
    for job in jobs {
        let cut = answers(&job);
        let cut: Vec<String> = cut
            .lines()
            .filter(|line| line.starts_with(['d', 'r']))
            .map(|line| line.replace("drawn", "counts"))
            .collect();
        let measured = measures(&job);
        let measured: Vec<String> = measured
            .lines()
            .map(|line| {
                let kept = match line.split_once(' ') {
                    Some(("counts", _)) => 3,
                    _ => 2,
                };
                let words: Vec<&str> = line.split(' ').take(kept).collect();
                words.join(" ")
            })
            .collect();
        assert_eq!(measured, cut);
    }
}
