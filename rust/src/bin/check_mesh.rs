//! Checks the meshes of a text against the job they were made for: one line a record, `accepted` or the fault in words.
//!
//! `check_mesh JOB TEXT`: JOB is a job file, TEXT what a tessellator wrote for it in the form of the program `tsj`, or `-` for
//! standard input. Records are numbered from 0. Status 0: every record is accepted; 1: some record is not; 2: the words on the
//! command line are wrong, or an input cannot be read, and then standard error says which line is malformed.

use std::collections::HashSet;
use std::env;
use std::fs;
use std::io::{self, Read, Write};
use std::process::ExitCode;
use yoktvarim::answers::{Answer, Malformed, Reader};
use yoktvarim::job::{self, Kind, Record, RecordRefusal};
use yoktvarim::{check_mesh, mesh, Verdict};

const USAGE: &str = "usage: check_mesh JOB TEXT     TEXT may be - for standard input";

fn main() -> ExitCode {
    let words: Vec<String> = env::args().skip(1).collect();
    let [job, text] = words.as_slice() else {
        eprintln!("{USAGE}");
        return ExitCode::from(2);
    };
    match run(job, text) {
        Ok(true) => ExitCode::SUCCESS,
        Ok(false) => ExitCode::FAILURE,
        Err(what) => {
            eprintln!("check_mesh: {what}");
            ExitCode::from(2)
        }
    }
}

fn read(path: &str) -> Result<Vec<u8>, String> {
    let read = if path == "-" {
        let mut bytes = Vec::new();
        io::stdin().lock().read_to_end(&mut bytes).map(|_| bytes)
    } else {
        fs::read(path)
    };
    read.map_err(|error| format!("{path}: {error}"))
}

/// Whether every record is accepted.
fn run(job_path: &str, text_path: &str) -> Result<bool, String> {
    let job = read(job_path)?;
    let records = job::read(&job).map_err(|refusal| format!("{job_path}: {refusal}"))?;
    let text = read(text_path)?;
    let in_text = |malformed: Malformed| format!("{text_path}: {malformed}");
    let mut reader = Reader::new(&text);
    reader
        .take_title(&format!("TSJ {}", records.version().number()))
        .map_err(in_text)?;
    let mut out = io::stdout().lock();
    let mut all_accepted = true;
    let mut count = 0;
    for record in records {
        let answer = reader
            .take_answer(count, Some(primitive_size(&record)))
            .map_err(in_text)?;
        let (accepted, words) = judge(&record, &answer);
        all_accepted &= accepted;
        writeln!(out, "record {count}: {words}").map_err(|error| error.to_string())?;
        count += 1;
    }
    reader
        .take_end(&format!("the job has no record {count}"))
        .map_err(in_text)?;
    Ok(all_accepted)
}

/// How many indices a line of the text has: a triangle's, a line's or a dot's. Of a record that is refused nothing is drawn.
fn primitive_size(record: &Result<Record, RecordRefusal>) -> usize {
    match record {
        Ok(record) if record.settings.point_mode => 1,
        Ok(Record {
            kind: Kind::Isolines,
            ..
        }) => 2,
        _ => 3,
    }
}

/// Whether an answer to a record is right, and what is to be said of it.
fn judge(record: &Result<Record, RecordRefusal>, answer: &Answer) -> (bool, String) {
    match (record, answer) {
        (Err(refusal), answer) => judge_refusal(*refusal, answer),
        (Ok(_), Answer::Refused(told)) => (false, format!("should not be refused {told}")),
        (Ok(record), Answer::Discarded) => judge_mesh(record, &[], &[]),
        (
            Ok(record),
            Answer::Drawn {
                points, indices, ..
            },
        ) => judge_mesh(record, points, indices),
    }
}

fn judge_refusal(refusal: RecordRefusal, answer: &Answer) -> (bool, String) {
    let right = match refusal {
        RecordRefusal::CutRecord => 7,
        RecordRefusal::UnknownSetting { .. } => 8,
    };
    match answer {
        Answer::Refused(told) if *told == right => (true, Verdict::Accepted.to_string()),
        _ => (false, format!("should be refused {right}")),
    }
}

fn judge_mesh(record: &Record, points: &[u32], indices: &[u16]) -> (bool, String) {
    let verdict = check_mesh(&record.patch(), &record.settings, points, indices);
    let words = match verdict {
        Verdict::MissingPiece { piece } => format!("{verdict}; {}", ends_of_piece(record, piece)),
        _ => verdict.to_string(),
    };
    (verdict.is_accepted(), words)
}

/// The ends of a piece of the outline. Our own mesh has the outline's points first, along the walk, and the pieces are its sides
/// without a reverse.
fn ends_of_piece(record: &Record, piece: u64) -> String {
    let ours = mesh(&record.patch(), &record.settings)
        .expect("the record's top was read")
        .expect("a discarded patch has no outline to miss");
    let sides: HashSet<[u16; 2]> = ours
        .indices
        .chunks_exact(3)
        .flat_map(|corners| [[0, 1], [1, 2], [2, 0]].map(|ends| ends.map(|end| corners[end])))
        .collect();
    let pieces = sides
        .iter()
        .filter(|[start, end]| !sides.contains(&[*end, *start]))
        .count();
    let end = |number: usize| {
        let [u, v, w] = ours.points[number % pieces];
        format!("{u} {v} {w}")
    };
    let piece = piece as usize;
    format!("its ends are {} and {}", end(piece), end(piece + 1))
}
