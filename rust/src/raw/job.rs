//! Job files by numbers, for callers that have setting bytes and bit patterns.
//!
//! A version is the number 1 or 2. The settings are six bytes as in [`crate::raw`], the top level last; in version 1 it is
//! 64. The patterns are the bits of the levels: outer one to four, inner one and two.

use super::foreign::{
    yoktvarim_read_header, yoktvarim_read_record, yoktvarim_write_header, yoktvarim_write_record,
};

/// The number of [`read_record`] where no byte is left, which is no refusal.
pub const END: u32 = 255;

/// What [`write_header`] and [`write_record`] answer, by its number: 0 written, 6 unknown version, 8 unknown setting (of a
/// record only), 10 no room, 11 bad top (of a record only). Where several apply, 6 goes before 11, 11 before 8 and 8 before
/// 10. No other number is given.
#[must_use = "only the number 0 means that something was written"]
#[derive(Clone, Copy, Debug, PartialEq, Eq)]
pub struct Written {
    pub number: u32,
    /// How many bytes were written beside 0, the place, 0 to 4, of the first unknown setting beside 8, else 0.
    pub count: u32,
}

/// What [`read_header`] answers, by its number: 0 read, 5 not a job, 6 unknown version. No other number is given.
#[must_use = "only the number 0 means that the file can be read"]
#[derive(Clone, Copy, Debug, PartialEq, Eq)]
pub struct HeaderRead {
    pub number: u32,
    /// 1 or 2 beside 0, else 0.
    pub version: u32,
}

/// What [`read_record`] answers, by its number: 0 read, 6 unknown version, 7 cut record, 8 unknown setting, and [`END`] where
/// no byte is left, whatever the version. No other number is given.
#[must_use = "only the number 0 means that a record was read"]
#[derive(Clone, Copy, Debug, PartialEq, Eq)]
pub struct RecordRead {
    pub number: u32,
    /// Beside 0 the record's; else six zeros, which every drawing function answers with a bad top.
    pub settings: [u8; 6],
    /// Beside 0 the record's; else six zeros.
    pub patterns: [u32; 6],
    /// Where to read on: past the record beside 0 and 8, else at the end. It is past the place that was asked for unless
    /// that was the end.
    pub next: usize,
    /// The place, 0 to 5, of the first unknown setting beside 8, else 0.
    pub place: u32,
}

/// Writes the 5 bytes of a header to the front of the list where the number is 0, and nothing otherwise.
pub fn write_header(version: u32, bytes: &mut [u8]) -> Written {
    // Overwritten whatever the answer is.
    let mut count = [u32::MAX];
    // SAFETY: the function is proved for every value of its arguments; the list goes as a pointer and its own length, and
    // cannot overlap `count`, since both are borrowed as `&mut`.
    let number =
        unsafe { yoktvarim_write_header(version, bytes.as_mut_ptr(), bytes.len(), &mut count) };
    let [count] = count;
    Written { number, count }
}

/// Writes the 29 or 30 bytes of a record to the front of the list where the number is 0, and nothing otherwise.
pub fn write_record(
    version: u32,
    settings: &[u8; 6],
    patterns: &[u32; 6],
    bytes: &mut [u8],
) -> Written {
    let mut count = [u32::MAX];
    // SAFETY: as in `write_header`.
    let number = unsafe {
        yoktvarim_write_record(
            version,
            settings,
            patterns,
            bytes.as_mut_ptr(),
            bytes.len(),
            &mut count,
        )
    };
    let [count] = count;
    Written { number, count }
}

/// The version of a job file. The first record is at byte 5.
pub fn read_header(bytes: &[u8]) -> HeaderRead {
    let mut version = [u32::MAX];
    // SAFETY: the function is proved for every value of its arguments; it reads the bytes and writes `version`.
    let number = unsafe { yoktvarim_read_header(bytes.as_ptr(), bytes.len(), &mut version) };
    let [version] = version;
    HeaderRead { number, version }
}

/// The record at a place of a job file whose header said this version.
pub fn read_record(bytes: &[u8], version: u32, at: usize) -> RecordRead {
    // All overwritten whatever the answer is.
    let mut settings = [u8::MAX; 6];
    let mut patterns = [u32::MAX; 6];
    let mut next = [usize::MAX];
    let mut place = [u32::MAX];
    // SAFETY: as in `read_header`; what is written are four locals.
    let number = unsafe {
        yoktvarim_read_record(
            bytes.as_ptr(),
            bytes.len(),
            version,
            at,
            &mut settings,
            &mut patterns,
            &mut next,
            &mut place,
        )
    };
    let ([next], [place]) = (next, place);
    RecordRead {
        number,
        settings,
        patterns,
        next,
        place,
    }
}
