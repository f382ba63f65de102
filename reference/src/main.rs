//! The program: one subcommand a use of the library.

use std::env;
use std::fs;
use std::io::{self, BufWriter, Read, Write};
use std::process::ExitCode;

use reference::job::Version;
use reference::{check, damage, measures, output, random, recording, spots, table, text, verdicts};

const USAGE: &str = "usage:
  reference cut                          job file on input, answers on output
  reference measure                      job file on input, counts and clamps on output
  reference make                         patch descriptions on input, job file on output
  reference random SEED COUNT            job file of COUNT random records on output
  reference random SEED COUNT 2          the same, of version 2
  reference random SEED COUNT cut        the answers to the first of these on output
  reference random SEED COUNT cut 2      the answers to the second
  reference random SEED NUMBER damaged   one damaged job file on output
  reference check JOBFILE                answers on input, checked against the job file
  reference replay                       recording on input, what replaying says on output
  reference recording SEED NUMBER        one random recording on output
  reference spots SEED COUNT             COUNT random spots inside patches, counted
  reference verdict JOBFILE              answers on input, a verdict a record on output
  reference table                        the positions for equal spacing on output";

fn main() -> ExitCode {
    let words: Vec<String> = env::args().skip(1).collect();
    let words: Vec<&str> = words.iter().map(String::as_str).collect();
    let done = match words[..] {
        ["cut"] => run_cut(),
        ["measure"] => run_measure(),
        ["make"] => run_make(),
        ["random", seed, count] => run_random(seed, count, Version::One),
        ["random", seed, count, "2"] => run_random(seed, count, Version::Two),
        ["random", seed, count, "cut"] => run_random_cut(seed, count, Version::One),
        ["random", seed, count, "cut", "2"] => run_random_cut(seed, count, Version::Two),
        ["random", seed, count, "damaged"] => run_damaged(seed, count),
        ["check", path] => run_check(path),
        ["replay"] => run_replay(),
        ["recording", seed, which] => run_recording(seed, which),
        ["spots", seed, count] => run_spots(seed, count),
        ["verdict", path] => run_verdict(path),
        ["table"] => write_out(table::text().as_bytes()),
        _ => Err(USAGE.to_string()),
    };
    match done {
        Ok(()) => ExitCode::SUCCESS,
        Err(what) => {
            eprintln!("{what}");
            ExitCode::FAILURE
        }
    }
}

fn say(error: io::Error) -> String {
    error.to_string()
}

fn write_out(bytes: &[u8]) -> Result<(), String> {
    let mut out = io::stdout().lock();
    out.write_all(bytes).and_then(|()| out.flush()).map_err(say)
}

fn write_answers(job: &[u8]) -> Result<(), String> {
    let mut out = BufWriter::new(io::stdout().lock());
    output::write_answers(job, &mut out)
        .and_then(|()| out.flush())
        .map_err(say)
}

fn read_in() -> Result<Vec<u8>, String> {
    let mut bytes = Vec::new();
    io::stdin().read_to_end(&mut bytes).map_err(say)?;
    Ok(bytes)
}

fn run_cut() -> Result<(), String> {
    write_answers(&read_in()?)
}

fn run_measure() -> Result<(), String> {
    write_out(measures::measures(&read_in()?).as_bytes())
}

fn run_make() -> Result<(), String> {
    let text = io::read_to_string(io::stdin()).map_err(say)?;
    write_out(&text::job(&text)?.to_bytes())
}

fn number(word: &str) -> Result<u64, String> {
    word.parse()
        .map_err(|_| format!("\"{word}\" is not a whole number"))
}

fn run_random(seed: &str, count: &str, version: Version) -> Result<(), String> {
    write_out(&random::job(number(seed)?, number(count)?, version))
}

fn run_random_cut(seed: &str, count: &str, version: Version) -> Result<(), String> {
    write_answers(&random::job(number(seed)?, number(count)?, version))
}

fn run_damaged(seed: &str, which: &str) -> Result<(), String> {
    write_out(&damage::damaged_job(number(seed)?, number(which)?))
}

fn read_file(path: &str) -> Result<Vec<u8>, String> {
    fs::read(path).map_err(|error| format!("{path}: {error}"))
}

fn run_check(path: &str) -> Result<(), String> {
    let job = read_file(path)?;
    let summary = check::check(&job, io::stdin().lock()).map_err(|fault| fault.to_string())?;
    write_out(format!("{summary}\n").as_bytes())
}

fn run_spots(seed: &str, count: &str) -> Result<(), String> {
    let summary = spots::check(number(seed)?, number(count)?)?;
    write_out(format!("{summary}\n").as_bytes())
}

fn run_replay() -> Result<(), String> {
    let replay = recording::replay(&read_in()?);
    write_out(format!("{}\n", recording::line(&replay)).as_bytes())
}

fn run_recording(seed: &str, which: &str) -> Result<(), String> {
    write_out(&recording::random_recording(number(seed)?, number(which)?))
}

fn run_verdict(path: &str) -> Result<(), String> {
    let text = io::read_to_string(io::stdin()).map_err(say)?;
    write_out(verdicts::verdicts(&read_file(path)?, &text)?.as_bytes())
}
