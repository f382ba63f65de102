//! Readable descriptions of patches, turned into job records.
//!
//! One patch a line. `#` starts a comment that runs to the end of the line;
//! blank lines are skipped; words are separated by blanks or tabs.
//!
//! ```text
//! KIND      SPACING VERTEX-ORDER ORIGIN      OUTPUT      levels
//! triangles equal   ccw          lower-left  primitives  outer 1 1 1    inner 2
//! quads     even    cw           upper-left  points      outer 1 2 3 4  inner 5 6.5
//! isolines  odd     ccw          lower-left  primitives  outer 3 2
//! ```
//!
//! - KIND: `triangles`, `quads`, `isolines`
//! - SPACING: `equal`, `even`, `odd`
//! - VERTEX-ORDER: `cw`, `ccw`
//! - ORIGIN: `upper-left`, `lower-left`
//! - OUTPUT: `primitives` (point mode off), `points` (point mode on)
//! - any of these five may instead be the byte itself as a number, 0 to 255,
//!   so that a record with an unknown setting can be described too
//! - `outer`, then the kind's outer levels: 3 for triangles, 4 for quads, 2 for
//!   isolines, none needed for an unknown kind; up to 4 may be given
//! - `inner`, then the kind's inner levels: 1, 2 and 0; up to 2 may be given;
//!   the word may be left out where no inner level is needed
//! - a level: a decimal number (rounded to the nearest f32), `nan`, `inf`,
//!   `-inf`, `-0`, or the 32 bits of the f32 as `0x` and hexadecimal digits
//! - a level that is not given is written as 0
//!
//! A line `version 2` before the first patch makes a version 2 file (Ask 10).
//! Every patch then has a top level, two words right before `outer`: `top` and a
//! byte, 0 to 255, which may be a top that is refused.
//!
//! ```text
//! version 2
//! triangles odd     ccw          lower-left  primitives  top 16  outer 1 1 1  inner 2
//! ```

use crate::job::{Job, Record, Version};

/// The words of the five setting bytes, each at its value's place.
const WORDS: [(&str, &[&str]); 5] = [
    ("kind", &["triangles", "quads", "isolines"]),
    ("spacing", &["equal", "even", "odd"]),
    ("vertex order", &["cw", "ccw"]),
    ("origin", &["upper-left", "lower-left"]),
    ("output", &["primitives", "points"]),
];

/// Section "Job file": the value of one setting byte.
fn setting(place: usize, word: &str) -> Result<u8, String> {
    let (name, words) = WORDS[place];
    if let Some(value) = words.iter().position(|known| *known == word) {
        return Ok(value as u8);
    }
    word.parse().map_err(|_| {
        format!(
            "unknown {name} \"{word}\", expected one of: {}, or a byte 0 to 255",
            words.join(", ")
        )
    })
}

/// The bits of one level.
fn level(word: &str) -> Result<u32, String> {
    let bits = if let Some(digits) = word.strip_prefix("0x") {
        u32::from_str_radix(digits, 16).ok()
    } else if word == "nan" {
        Some(0x7fc0_0000)
    } else {
        word.parse::<f32>().ok().map(f32::to_bits)
    };
    bits.ok_or_else(|| format!("\"{word}\" is not a level"))
}

/// A group of levels: at least `least`, at most as many as `into` holds.
fn levels(name: &str, words: &[&str], least: usize, into: &mut [u32]) -> Result<(), String> {
    let most = into.len();
    if words.len() < least || words.len() > most {
        let count = words.len();
        return Err(format!(
            "{count} {name} levels given, expected {least} to {most}"
        ));
    }
    for (place, word) in into.iter_mut().zip(words) {
        *place = level(word)?;
    }
    Ok(())
}

/// Ask 10: the top level of a patch, from the words after the five settings, and
/// the words that are left. There is none in version 1.
fn top<'a, 'w>(words: &'a [&'w str], version: Version) -> Result<(u8, &'a [&'w str]), String> {
    match (version, words) {
        (Version::One, _) => Ok((Record::BLANK.top, words)),
        (Version::Two, ["top", word, rest @ ..]) => {
            let top = word.parse();
            let top = top.map_err(|_| format!("\"{word}\" is not a byte 0 to 255"))?;
            Ok((top, rest))
        }
        (Version::Two, _) => Err("expected the word \"top\" and a byte".to_string()),
    }
}

/// The words of one patch.
fn record(words: &[&str], version: Version) -> Result<Record, String> {
    let mut record = Record::BLANK;
    for place in 0..5 {
        let word = words
            .get(place)
            .ok_or_else(|| format!("no {} given", WORDS[place].0))?;
        record.settings[place] = setting(place, word)?;
    }
    let (top, mut outer) = top(&words[5..], version)?;
    record.top = top;
    let mut inner: &[&str] = &[];
    if let Some(at) = outer.iter().position(|word| *word == "inner") {
        inner = &outer[at + 1..];
        outer = &outer[..at];
    }
    if outer.first() != Some(&"outer") {
        return Err("expected the word \"outer\" after the settings".to_string());
    }
    let (outer_least, inner_least) = match record.settings[0] {
        0 => (3, 1),
        1 => (4, 2),
        2 => (2, 0),
        _ => (0, 0),
    };
    let (outer_bits, inner_bits) = record.levels.split_at_mut(4);
    levels("outer", &outer[1..], outer_least, outer_bits)?;
    levels("inner", inner, inner_least, inner_bits)?;
    Ok(record)
}

/// One line without its comment: nothing, the version, or one more patch.
fn take_line(words: &[&str], job: &mut Job) -> Result<(), String> {
    match words {
        [] => {}
        ["version", "2"] if job.records.is_empty() => job.version = Version::Two,
        ["version", ..] => {
            return Err("only \"version 2\" is known, before the first patch".to_string())
        }
        _ => job.records.push(record(words, job.version)?),
    }
    Ok(())
}

/// The job file of a description, or what is wrong with which line.
pub fn job(text: &str) -> Result<Job, String> {
    let mut job = Job {
        version: Version::One,
        records: Vec::new(),
    };
    for (number, line) in text.lines().enumerate() {
        let without_comment = line.split('#').next().unwrap_or("");
        let words: Vec<&str> = without_comment.split_whitespace().collect();
        take_line(&words, &mut job).map_err(|what| format!("line {}: {what}", number + 1))?;
    }
    Ok(job)
}

#[cfg(test)]
mod tests {
    use super::*;

    fn one(line: &str) -> Record {
        let job = job(line).unwrap();
        assert_eq!((job.version, job.records.len()), (Version::One, 1));
        assert_eq!(job.records[0].top, 64);
        job.records[0]
    }

    #[test]
    fn every_kind() {
        let one_bits = 1f32.to_bits();
        let r = one("triangles equal ccw lower-left primitives outer 1 1 1 inner 2 # a comment");
        assert_eq!(r.settings, [0, 0, 1, 1, 0]);
        assert_eq!(
            r.levels,
            [one_bits, one_bits, one_bits, 0, 2f32.to_bits(), 0]
        );
        let r = one("quads even cw upper-left points outer 1 1 1 1 inner 2 2");
        assert_eq!(r.settings, [1, 1, 0, 0, 1]);
        let r = one("\tisolines odd cw lower-left primitives outer 1 1");
        assert_eq!(r.settings, [2, 2, 0, 1, 0]);
        assert_eq!(r.levels, [one_bits, one_bits, 0, 0, 0, 0]);
    }

    #[test]
    fn every_form_of_level() {
        let r = one("quads equal cw upper-left points outer nan inf -inf -0 inner 0x7f800001 0.5");
        assert_eq!(
            r.levels,
            [0x7fc00000, 0x7f800000, 0xff800000, 0x80000000, 0x7f800001, 0x3f000000]
        );
    }

    #[test]
    fn bytes_in_place_of_words() {
        let r = one("9 3 2 255 7 outer");
        assert_eq!(r.settings, [9, 3, 2, 255, 7]);
        assert_eq!(r.levels, [0; 6]);
    }

    #[test]
    fn errors_name_the_line() {
        let bad = [
            (
                "squares equal cw upper-left points outer 1 1",
                "unknown kind \"squares\"",
            ),
            (
                "quads fractional cw upper-left points outer 1 1",
                "unknown spacing",
            ),
            (
                "quads equal left upper-left points outer 1 1",
                "unknown vertex order",
            ),
            (
                "quads equal cw 256 points outer 1 1",
                "unknown origin \"256\"",
            ),
            ("quads equal cw", "no origin given"),
            (
                "quads equal cw lower-left points 1 1 1 1",
                "expected the word \"outer\"",
            ),
            (
                "quads equal cw lower-left points outer 1 1 1",
                "3 outer levels given",
            ),
            (
                "quads equal cw lower-left points outer 1 1 1 1 inner 1",
                "1 inner levels given",
            ),
            (
                "isolines equal cw lower-left points outer 1 1 1 1 1",
                "5 outer levels given",
            ),
            (
                "isolines equal cw lower-left points outer 1 one",
                "\"one\" is not a level",
            ),
            (
                "isolines equal cw lower-left points outer 1 0x123456789",
                "is not a level",
            ),
        ];
        for (line, what) in bad {
            expect_error(&format!("# first\n\n{line}\n"), what);
        }
    }

    /// The error is in line 3.
    fn expect_error(text: &str, what: &str) {
        let message = job(text).unwrap_err();
        assert!(message.starts_with("line 3: "), "{message}");
        assert!(message.contains(what), "{message}");
    }

    #[test]
    fn tops_in_version_2() {
        let text = "
# a comment
version 2 # another
quads odd cw lower-left points top 16 outer 1 2 3 4 inner 5 6
9 9 9 9 9 top 255 outer
isolines equal cw lower-left points top 0 outer 1 1
";
        let job = job(text).unwrap();
        assert_eq!(job.version, Version::Two);
        let tops: Vec<u8> = job.records.iter().map(|record| record.top).collect();
        assert_eq!(tops, [16, 255, 0]);
        assert_eq!(job.records[0].levels[5], 6f32.to_bits());
        assert_eq!(super::job("version 2").unwrap().version, Version::Two);
    }

    #[test]
    fn errors_about_versions_and_tops() {
        let good = "isolines equal cw lower-left points outer 1 1";
        let known = "only \"version 2\" is known";
        expect_error(&format!("\n{good}\nversion 2"), known);
        expect_error("\n\nversion 3", known);
        expect_error("\n\nversion", known);
        expect_error("\n\nversion 2 2", known);
        expect_error(&format!("\nversion 2\n{good}"), "expected the word \"top\"");
        let topped = good.replace("outer", "top 64 outer");
        expect_error(&format!("\n\n{topped}"), "expected the word \"outer\"");
        for word in ["256", "-2", "outer"] {
            let topped = good.replace("outer", &format!("top {word} outer"));
            expect_error(&format!("\nversion 2\n{topped}"), "is not a byte");
        }
    }
}
