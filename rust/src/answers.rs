//! Reads the text that the program `tsj` writes, or anybody else in its form. The first line that is not exactly of that form is
//! reported by its number.

use std::fmt;
use std::str;

/// What a text says of one record.
#[derive(Clone, Debug, PartialEq, Eq)]
pub enum Answer {
    /// Point words, three a point, and the primitives' indices, `width` of them in each line; it is 0 if there are no indices.
    Drawn {
        points: Vec<u32>,
        indices: Vec<u16>,
        width: usize,
    },
    Discarded,
    /// The refusal's number.
    Refused(u32),
}

/// A line that is not of the form, counted from 1, and what is wrong with it.
#[derive(Clone, Debug, PartialEq, Eq)]
pub struct Malformed {
    pub line: usize,
    pub fault: String,
}

impl fmt::Display for Malformed {
    fn fmt(&self, f: &mut fmt::Formatter) -> fmt::Result {
        write!(f, "line {}: {}", self.line, self.fault)
    }
}

impl std::error::Error for Malformed {}

/// The answers of a whole text. A text of the single line `refused 5` or `refused 6` is that one answer.
///
/// ```
/// use yoktvarim::answers::{read, Answer};
///
/// let text = "TSJ 1\ndrawn 3 3\n0 196608 0\n0 0 196608\n196608 0 0\n0 1 2\ndiscarded\n";
/// let answers = read(text).expect("well formed");
/// assert_eq!(answers.len(), 2);
/// assert_eq!(answers[1], Answer::Discarded);
/// assert_eq!(read("TSJ 1\ndrawn 3\n").unwrap_err().line, 2);
/// ```
///
/// # Errors
///
/// The first line that is not of the form.
pub fn read(text: &str) -> Result<Vec<Answer>, Malformed> {
    const TITLES: &str = "'TSJ 1' or 'TSJ 2'";
    let mut reader = Reader::new(text.as_bytes());
    match reader.take(TITLES)? {
        "TSJ 1" | "TSJ 2" => {}
        "refused 5" if reader.is_at_end() => return Ok(vec![Answer::Refused(5)]),
        "refused 6" if reader.is_at_end() => return Ok(vec![Answer::Refused(6)]),
        other => return Err(reader.wrong(other, TITLES)),
    }
    let mut answers = Vec::new();
    while !reader.is_at_end() {
        answers.push(reader.take_answer(answers.len(), None)?);
    }
    Ok(answers)
}

/// Takes the lines of a text one after the other.
#[derive(Clone, Copy, Debug)]
pub struct Reader<'a> {
    left: &'a [u8],
    /// The number of the line that was taken last.
    line: usize,
}

impl<'a> Reader<'a> {
    pub fn new(text: &'a [u8]) -> Self {
        Reader {
            left: text,
            line: 0,
        }
    }

    #[must_use]
    pub fn is_at_end(&self) -> bool {
        self.left.is_empty()
    }

    /// Takes the line that the text has to begin with.
    ///
    /// # Errors
    ///
    /// The next line is another.
    pub fn take_title(&mut self, title: &str) -> Result<(), Malformed> {
        let expected = format!("'{title}'");
        let line = self.take(&expected)?;
        if line == title {
            Ok(())
        } else {
            Err(self.wrong(line, &expected))
        }
    }

    /// Takes the answer to the record of this number. With a `width` each line has that many indices, and the last one what is left of
    /// them; without one each line has as many as the first, one to three.
    ///
    /// # Errors
    ///
    /// The first line that is not of the form.
    pub fn take_answer(
        &mut self,
        record: usize,
        width: Option<usize>,
    ) -> Result<Answer, Malformed> {
        let expected = format!("the answer of record {record}");
        let line = self.take(&expected)?;
        let (word, rest) = line.split_once(' ').unwrap_or((line, ""));
        match (word, numbers(rest, u64::MAX).as_deref()) {
            ("discarded", None) if line == word => Ok(Answer::Discarded),
            ("refused", Some(&[number])) if number <= u64::from(u32::MAX) => {
                Ok(Answer::Refused(number as u32))
            }
            ("drawn", Some(&[points, indices])) => self.take_drawn(points, indices, width),
            _ => Err(self.wrong(line, &expected)),
        }
    }

    /// Takes the end of the text.
    ///
    /// # Errors
    ///
    /// A line is left, and `fault` says why that is wrong.
    pub fn take_end(&mut self, fault: &str) -> Result<(), Malformed> {
        if self.is_at_end() {
            return Ok(());
        }
        self.line += 1;
        Err(self.malformed(fault))
    }

    fn malformed(&self, fault: &str) -> Malformed {
        Malformed {
            line: self.line,
            fault: fault.to_string(),
        }
    }

    /// What is wrong with the line that was taken last.
    fn wrong(&self, line: &str, expected: &str) -> Malformed {
        self.malformed(&format!("{expected} expected, found '{line}'"))
    }

    /// The next line, without its newline; `expected` says what it should be.
    fn take(&mut self, expected: &str) -> Result<&'a str, Malformed> {
        self.line += 1;
        if self.is_at_end() {
            return Err(self.malformed(&format!("the text ends, {expected} expected")));
        }
        let Some(length) = self.left.iter().position(|byte| *byte == b'\n') else {
            return Err(self.malformed("no newline at its end"));
        };
        let (line, rest) = self.left.split_at(length);
        self.left = &rest[1..];
        if line.iter().all(|byte| (b' '..=b'~').contains(byte)) {
            Ok(str::from_utf8(line).expect("ASCII"))
        } else {
            Err(self.malformed("not a letter, digit, space or newline"))
        }
    }

    /// The numbers of the next line: no number above `greatest`, and as many as may be there.
    fn take_numbers(
        &mut self,
        expected: &str,
        greatest: u64,
        may_be: impl Fn(u64) -> bool,
    ) -> Result<Vec<u64>, Malformed> {
        let line = self.take(expected)?;
        numbers(line, greatest)
            .filter(|found| may_be(found.len() as u64))
            .ok_or_else(|| self.wrong(line, expected))
    }

    fn take_drawn(
        &mut self,
        points: u64,
        indices: u64,
        width: Option<usize>,
    ) -> Result<Answer, Malformed> {
        let points = self.take_points(points)?;
        let width = match (indices, width) {
            (0, _) => 0,
            (_, Some(width)) => width,
            (_, None) => self.width_ahead(indices)?,
        };
        Ok(Answer::Drawn {
            points,
            indices: self.take_indices(indices, width)?,
            width,
        })
    }

    fn take_points(&mut self, count: u64) -> Result<Vec<u32>, Malformed> {
        let mut points = Vec::new();
        for _ in 0..count {
            let expected = "a point's three numbers up to 4294967295";
            let point = self.take_numbers(expected, u64::from(u32::MAX), |many| many == 3)?;
            points.extend(point.into_iter().map(|word| word as u32));
        }
        Ok(points)
    }

    /// How many indices the next line has: one to three, and the count is a multiple.
    fn width_ahead(mut self, count: u64) -> Result<usize, Malformed> {
        let expected = format!("1 to 3 indices up to 65535 ({count} in lines of equal length)");
        let may_be = |many| (1..=3).contains(&many) && count % many == 0;
        let first = self.take_numbers(&expected, u64::from(u16::MAX), may_be)?;
        Ok(first.len())
    }

    /// A primitive a line; the last line has what is left of a count that is no multiple of the width.
    fn take_indices(&mut self, count: u64, width: usize) -> Result<Vec<u16>, Malformed> {
        let mut indices = Vec::new();
        let mut left = count;
        while left > 0 {
            let size = left.min(width as u64);
            let noun = if size == 1 { "index" } else { "indices" };
            let expected = format!("{size} {noun} up to 65535");
            let primitive =
                self.take_numbers(&expected, u64::from(u16::MAX), |many| many == size)?;
            indices.extend(primitive.into_iter().map(|index| index as u16));
            left -= size;
        }
        Ok(indices)
    }
}

/// The numbers of a line, separated by one space each, with no number above `greatest`: decimal digits, no sign and no leading zero.
fn numbers(line: &str, greatest: u64) -> Option<Vec<u64>> {
    line.split(' ')
        .map(|word| number(word).filter(|value| *value <= greatest))
        .collect()
}

fn number(word: &str) -> Option<u64> {
    let digits = word.bytes().all(|byte| byte.is_ascii_digit());
    let leading_zero = word.len() > 1 && word.starts_with('0');
    if digits && !leading_zero {
        word.parse().ok()
    } else {
        None
    }
}
