//! Ask 5 for a whole job file: a verdict on each mesh in the text of a cut.

use std::fmt::Write;
use std::str::{FromStr, Lines};

use crate::job::read_job;
use crate::verdict::check_mesh;

/// One line a record: the verdict on its mesh, or the text's own line where the
/// record is refused. The error says where the text is none for this job file.
pub fn verdicts(job: &[u8], text: &str) -> Result<String, String> {
    let records = read_job(job).map_err(|refusal| format!("job refused {}", refusal.number()))?;
    let mut lines = text.lines();
    expect(&mut lines, &format!("TSJ {}", records.version.number()))?;
    let mut out = String::new();
    for record in records {
        match record {
            Ok((patch, settings)) => {
                let (points, indices) = read_mesh(&mut lines)?;
                let verdict = check_mesh(&patch, &settings, &points, &indices);
                writeln!(out, "{verdict}").expect("writing to memory does not fail");
            }
            Err(refusal) => {
                let line = format!("refused {}", refusal.number());
                expect(&mut lines, &line)?;
                out += &line;
                out.push('\n');
            }
        }
    }
    match lines.next() {
        None => Ok(out),
        Some(line) => Err(format!("a line too many: \"{line}\"")),
    }
}

fn need<'a>(lines: &mut Lines<'a>) -> Result<&'a str, String> {
    lines.next().ok_or_else(|| "the text is over".to_string())
}

fn expect(lines: &mut Lines, expected: &str) -> Result<(), String> {
    let line = need(lines)?;
    if line == expected {
        Ok(())
    } else {
        Err(format!("found \"{line}\", expected \"{expected}\""))
    }
}

/// The numbers on a line.
fn numbers<T: FromStr>(line: &str) -> Result<Vec<T>, String> {
    line.split(' ')
        .map(|word| word.parse().map_err(|_| format!("no numbers: \"{line}\"")))
        .collect()
}

/// The numbers of as many lines as it takes.
fn read_list<T: FromStr>(lines: &mut Lines, count: usize) -> Result<Vec<T>, String> {
    let mut list = Vec::new();
    while list.len() < count {
        let line = need(lines)?;
        list.extend(numbers::<T>(line)?);
        if list.len() > count {
            return Err(format!("more than {count} numbers at \"{line}\""));
        }
    }
    Ok(list)
}

/// Section "Job file": the two lists in one record's answer.
fn read_mesh(lines: &mut Lines) -> Result<(Vec<u32>, Vec<u16>), String> {
    let line = need(lines)?;
    if line == "discarded" {
        return Ok((Vec::new(), Vec::new()));
    }
    let counts = line.strip_prefix("drawn ").map(numbers::<u16>);
    let Some(Ok([points, indices])) = counts.as_ref().map(|counts| counts.as_deref()) else {
        return Err(format!(
            "found \"{line}\", expected \"drawn\" and two counts"
        ));
    };
    let points = read_list(lines, 3 * usize::from(*points))?;
    Ok((points, read_list(lines, usize::from(*indices))?))
}
