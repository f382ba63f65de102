//! Ask 3: writing the bytes of a job file into a list of a caller's, in both
//! versions (Ask 10).

use crate::job::{Record, Version};
use crate::patch::{is_top, GREATEST_TOP};

/// What writing a header or a record answers.
#[derive(Clone, Copy, Debug, PartialEq, Eq)]
pub enum WriteAnswer {
    Written { bytes: usize },
    UnknownSetting { place: usize },
    NoRoom,
    BadTop,
}

impl WriteAnswer {
    pub fn number(&self) -> u32 {
        match self {
            WriteAnswer::Written { .. } => 0,
            WriteAnswer::UnknownSetting { .. } => 8,
            WriteAnswer::NoRoom => 10,
            WriteAnswer::BadTop => 11,
        }
    }
}

/// Ask 3: the bytes go to the front of the list, or it stays as it is.
fn write(bytes: &[u8], out: &mut [u8]) -> WriteAnswer {
    match out.get_mut(..bytes.len()) {
        None => WriteAnswer::NoRoom,
        Some(front) => {
            front.copy_from_slice(bytes);
            WriteAnswer::Written { bytes: bytes.len() }
        }
    }
}

/// Ask 10: whether a record's top can be written. Version 1 has no byte for it,
/// so there it has to be the one that readers take for granted.
fn has_good_top(version: Version, record: &Record) -> bool {
    let top = u32::from(record.top);
    match version {
        Version::One => top == GREATEST_TOP,
        Version::Two => is_top(top),
    }
}

/// Ask 3: the five bytes of a header, or 10.
pub fn write_header(version: Version, out: &mut [u8]) -> WriteAnswer {
    write(&version.header(), out)
}

/// Asks 3 and 10: the 29 or 30 bytes of a record; else 11 before all, then 8 for
/// a record that no reader would accept, then 10.
pub fn write_record(version: Version, record: &Record, out: &mut [u8]) -> WriteAnswer {
    if !has_good_top(version, record) {
        return WriteAnswer::BadTop;
    }
    if let Some(place) = record.first_bad_setting() {
        return WriteAnswer::UnknownSetting { place };
    }
    write(&record.to_bytes(version), out)
}
