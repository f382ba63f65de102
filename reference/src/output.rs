//! The text a job file is answered with.

use std::io::{self, Write};

use crate::job::read_job;
use crate::patch::{Patch, Settings};
use crate::tessellate::{tessellate, Answer};

/// Section "Job file": the lines for one patch that could be read.
fn write_patch(patch: &Patch, settings: &Settings, out: &mut impl Write) -> io::Result<()> {
    let (points, indices) = match tessellate(patch, settings) {
        Answer::BadTop => unreachable!("no record with a bad top can be read"),
        Answer::Discarded => return writeln!(out, "discarded"),
        Answer::Drawn { points, indices } => (points, indices),
    };
    writeln!(out, "drawn {} {}", points.len(), indices.len())?;
    for [u, v, w] in points {
        writeln!(out, "{u} {v} {w}")?;
    }
    let per_primitive = match patch {
        _ if settings.point_mode => 1,
        Patch::Isolines { .. } => 2,
        _ => 3,
    };
    for primitive in indices.chunks(per_primitive) {
        let words: Vec<String> = primitive.iter().map(u32::to_string).collect();
        writeln!(out, "{}", words.join(" "))?;
    }
    Ok(())
}

/// Section "Job file": the whole text for a whole file.
pub fn write_answers(job: &[u8], out: &mut impl Write) -> io::Result<()> {
    let records = match read_job(job) {
        Ok(records) => records,
        Err(refusal) => return writeln!(out, "refused {}", refusal.number()),
    };
    writeln!(out, "TSJ {}", records.version.number())?;
    for record in records {
        match record {
            Ok((patch, settings)) => write_patch(&patch, &settings, out)?,
            Err(refusal) => writeln!(out, "refused {}", refusal.number())?,
        }
    }
    Ok(())
}

/// The same text as a string.
pub fn answers(job: &[u8]) -> String {
    let mut bytes = Vec::new();
    write_answers(job, &mut bytes).expect("writing to memory does not fail");
    String::from_utf8(bytes).expect("the text is plain ASCII")
}
