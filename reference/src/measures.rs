//! The text that says what measuring answers for each record of a job file.

use crate::job::{read_job, Refusal};
use crate::level::Clamp;
use crate::patch::{Patch, Settings};
use crate::tessellate::{measure, Measure};

/// Ask 9's word for what the clamp found.
fn word(clamp: Clamp) -> &'static str {
    match clamp {
        Clamp::Below => "below",
        Clamp::Inside => "inside",
        Clamp::Above => "above",
    }
}

/// Section "What the cutter says" on measuring, and Ask 9: the line for one
/// patch that could be read.
fn patch_line(patch: &Patch, settings: &Settings) -> String {
    match measure(patch, settings) {
        Measure::BadTop => unreachable!("no record with a bad top can be read"),
        Measure::Discarded => "discarded\n".to_string(),
        Measure::Counts {
            points,
            indices,
            levels,
        } => {
            let mut line = format!("counts {points} {indices}");
            for clamp in levels.in_order() {
                line += " ";
                line += word(clamp);
            }
            line + "\n"
        }
    }
}

/// Section "What the cutter says", answers 5 to 8: unlike the answers to a cut,
/// this line names the place of an unknown setting.
fn refusal_line(refusal: Refusal) -> String {
    match refusal {
        Refusal::UnknownSetting { place } => format!("refused {} {place}\n", refusal.number()),
        _ => format!("refused {}\n", refusal.number()),
    }
}

/// One line a record, for a whole job file; it stops where a cut stops. There is
/// no line for a header that is good.
pub fn measures(job: &[u8]) -> String {
    match read_job(job) {
        Err(refusal) => refusal_line(refusal),
        Ok(records) => records
            .map(|record| match record {
                Ok((patch, settings)) => patch_line(&patch, &settings),
                Err(refusal) => refusal_line(refusal),
            })
            .collect(),
    }
}
