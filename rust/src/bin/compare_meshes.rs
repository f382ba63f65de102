//! Compares two texts in the form of the program `tsj`, record by record: what only one of two meshes has, in words.
//!
//! `compare_meshes LEFT RIGHT`: two files, one of which may be `-` for standard input. Records, points and triangles are numbered
//! from 0. Status 0: no differences; 1: differences; 2: the words on the command line are wrong, or a text cannot be read, and
//! then standard error says which line is malformed.

use std::env;
use std::fmt::Write as _;
use std::fs;
use std::io::{self, Read, Write};
use std::process::ExitCode;
use yoktvarim::answers::{read, Answer};
use yoktvarim::compare::{differences, MeshWords};
use yoktvarim::{compare_meshes, Comparison, Difference, MeshFault, Side, What};

const USAGE: &str =
    "usage: compare_meshes LEFT RIGHT     one of the two may be - for standard input";

fn main() -> ExitCode {
    let words: Vec<String> = env::args().skip(1).collect();
    let [left, right] = words.as_slice() else {
        eprintln!("{USAGE}");
        return ExitCode::from(2);
    };
    match compare(left, right) {
        Ok((same, report)) => {
            let written = io::stdout().lock().write_all(report.as_bytes());
            match (written, same) {
                (Err(error), _) => fail(&error.to_string()),
                (Ok(()), true) => ExitCode::SUCCESS,
                (Ok(()), false) => ExitCode::FAILURE,
            }
        }
        Err(what) => fail(&what),
    }
}

fn fail(what: &str) -> ExitCode {
    eprintln!("compare_meshes: {what}");
    ExitCode::from(2)
}

fn answers(path: &str) -> Result<Vec<Answer>, String> {
    let text = if path == "-" {
        let mut text = String::new();
        io::stdin().lock().read_to_string(&mut text).map(|_| text)
    } else {
        fs::read_to_string(path)
    };
    let text = text.map_err(|error| format!("{path}: {error}"))?;
    read(&text).map_err(|malformed| format!("{path}: {malformed}"))
}

/// Whether nothing is different, and the report.
fn compare(left_path: &str, right_path: &str) -> Result<(bool, String), String> {
    let (left, right) = (answers(left_path)?, answers(right_path)?);
    let mut report = String::new();
    let mut same = true;
    for number in 0..left.len().max(right.len()) {
        let lines = match (left.get(number), right.get(number)) {
            (Some(left), Some(right)) => record(left, right),
            (Some(_), None) => vec!["only left has this record".to_string()],
            _ => vec!["only right has this record".to_string()],
        };
        same &= lines.is_empty();
        if lines.is_empty() {
            let _ = writeln!(report, "record {number}: no differences");
        }
        for line in lines {
            let _ = writeln!(report, "record {number}: {line}");
        }
    }
    Ok((same, report))
}

fn in_words(answer: &Answer) -> String {
    match answer {
        Answer::Drawn {
            points, indices, ..
        } => {
            format!("drawn {} {}", points.len() / 3, indices.len())
        }
        Answer::Discarded => "discarded".to_string(),
        Answer::Refused(number) => format!("refused {number}"),
    }
}

/// The points and indices of an answer whose primitives are triangles, if it has any.
fn mesh(answer: &Answer) -> Option<MeshWords<'_>> {
    match answer {
        Answer::Drawn {
            points,
            indices,
            width: 0 | 3,
        } => Some((points, indices)),
        _ => None,
    }
}

/// What is different between two answers, a line each.
fn record(left: &Answer, right: &Answer) -> Vec<String> {
    match (mesh(left), mesh(right)) {
        (Some(left), Some(right)) => meshes(left, right),
        _ if left == right => Vec::new(),
        (None, None) if matches!((left, right), (Answer::Drawn { .. }, Answer::Drawn { .. })) => {
            vec!["the lines or dots are not the same".to_string()]
        }
        _ => vec![format!(
            "left is {}, right is {}",
            in_words(left),
            in_words(right)
        )],
    }
}

fn meshes(left: MeshWords, right: MeshWords) -> Vec<String> {
    let mut words = Vec::new();
    loop {
        match compare_meshes(left, right, &mut words) {
            Comparison::NoRoom { count } => words = vec![0; 3 * count as usize],
            Comparison::Differences { count } => {
                let written = &words[..3 * count as usize];
                return differences(written)
                    .map(|found| line(found, left, right))
                    .collect();
            }
            Comparison::LeftRefused(fault) => {
                return vec![format!("left cannot be compared: {}", name(fault))]
            }
            Comparison::RightRefused(fault) => {
                return vec![format!("right cannot be compared: {}", name(fault))]
            }
        }
    }
}

fn name(fault: MeshFault) -> &'static str {
    match fault {
        MeshFault::NotThrees => "point words or indices no multiple of three",
        MeshFault::UnknownIndex => "an index past the points",
        MeshFault::EqualPoints => "two equal points",
    }
}

/// A difference with the coordinates of its point or of its three corners.
fn line(found: Difference, left: MeshWords, right: MeshWords) -> String {
    let number = found.number as usize;
    let (side, (points, indices)) = match found.side {
        Side::Left => ("left", left),
        Side::Right => ("right", right),
    };
    let at = |point: usize| {
        let p = &points[3 * point..3 * point + 3];
        format!("({}, {}, {})", p[0], p[1], p[2])
    };
    match found.what {
        What::Point => format!("only {side} has point {number} {}", at(number)),
        What::Triangle => {
            let corners: Vec<String> = indices[3 * number..3 * number + 3]
                .iter()
                .map(|index| at(usize::from(*index)))
                .collect();
            format!("only {side} has triangle {number} {}", corners.join(" "))
        }
    }
}
