//! Job files, written and read: a header, then records. What was written reads back bit for bit, and an accepted file written
//! again is the same bytes.
//!
//! ```
//! use yoktvarim::job::{read, BadTop, Record, Version, Writer};
//! use yoktvarim::{Patch, Settings};
//!
//! # fn main() -> Result<(), BadTop> {
//! let patch = Patch::Triangles { outer: [1.0, 1.0, 1.0], inner: 2.0 };
//! let settings = Settings { top: 16, ..Settings::default() };
//!
//! let mut bytes = Vec::new();
//! let mut job = Writer::new(Version::Two, &mut bytes);
//! job.write(&Record::new(&patch, &settings))?;
//! assert_eq!(bytes.len(), 5 + 30);
//!
//! for record in read(&bytes).expect("a job file") {
//!     let record = record.expect("no cut record and no unknown setting");
//!     assert_eq!((record.patch(), record.settings), (patch, settings));
//! }
//! # Ok(())
//! # }
//! ```

pub use crate::raw::job as raw;

use crate::patch::{
    setting_bytes, six_levels, DomainOrigin, Patch, Settings, Spacing, VertexOrder,
};
use raw::{HeaderRead, RecordRead, Written};
use std::error::Error;
use std::fmt::{self, Display, Formatter};
use std::iter::FusedIterator;

/// How many bytes a header has.
pub const HEADER_BYTES: usize = 5;

/// The two forms of a job file. The second has a byte for the top level in every record; in the first it is 64.
#[derive(Clone, Copy, Debug, PartialEq, Eq)]
pub enum Version {
    One,
    Two,
}

impl Version {
    /// The number in the header.
    pub fn number(self) -> u32 {
        match self {
            Version::One => 1,
            Version::Two => 2,
        }
    }

    /// How many bytes a record has.
    pub fn record_bytes(self) -> usize {
        match self {
            Version::One => 29,
            Version::Two => 30,
        }
    }
}

/// The kind of a record's patch.
#[derive(Clone, Copy, Debug, PartialEq, Eq)]
pub enum Kind {
    Triangles,
    Quads,
    Isolines,
}

impl Kind {
    /// A patch of this kind; the levels that do not count for it are dropped.
    fn patch(self, [a, b, c, d, rows, columns]: [f32; 6]) -> Patch {
        match self {
            Kind::Triangles => Patch::Triangles {
                outer: [a, b, c],
                inner: rows,
            },
            Kind::Quads => Patch::Quads {
                outer: [a, b, c, d],
                inner: [rows, columns],
            },
            Kind::Isolines => Patch::Isolines { outer: [a, b] },
        }
    }
}

/// The header of a job file.
#[derive(Clone, Copy, Debug, PartialEq, Eq)]
pub struct Header {
    pub version: Version,
}

/// Why bytes are no job file that can be read.
#[derive(Clone, Copy, Debug, PartialEq, Eq)]
pub enum HeaderRefusal {
    /// Under 5 bytes, or another mark than `TSJ`.
    NotAJob,
    /// The version is neither 1 nor 2.
    UnknownVersion,
}

impl Display for HeaderRefusal {
    fn fmt(&self, f: &mut Formatter<'_>) -> fmt::Result {
        f.write_str(match self {
            HeaderRefusal::NotAJob => "not a job file",
            HeaderRefusal::UnknownVersion => "a job file of another version than 1 and 2",
        })
    }
}

impl Error for HeaderRefusal {}

impl Header {
    /// The header that the bytes begin with.
    pub fn read(bytes: &[u8]) -> Result<Header, HeaderRefusal> {
        let HeaderRead { number, version } = raw::read_header(bytes);
        match (number, version) {
            (0, 1) => Ok(Header {
                version: Version::One,
            }),
            (0, 2) => Ok(Header {
                version: Version::Two,
            }),
            (5, _) => Err(HeaderRefusal::NotAJob),
            (6, _) => Err(HeaderRefusal::UnknownVersion),
            _ => unreachable!("a header is answered with 0, 5 or 6 and not {number}"),
        }
    }

    /// Its 5 bytes, at the end of a list.
    pub fn append_to(self, bytes: &mut Vec<u8>) {
        let start = bytes.len();
        bytes.resize(start + HEADER_BYTES, 0);
        let Written { number, .. } = raw::write_header(self.version.number(), &mut bytes[start..]);
        assert_eq!(number, 0, "a known version, and there is room");
    }
}

/// A record of a job file. Its levels are bit patterns, so that a NaN keeps every bit.
#[derive(Clone, Copy, Debug, PartialEq, Eq)]
pub struct Record {
    pub kind: Kind,
    pub settings: Settings,
    /// The bits of outer levels one to four and inner levels one and two, those that do not count for the kind too.
    pub patterns: [u32; 6],
}

/// What writing says to a top that a version cannot hold: version 1 takes 64 only, version 2 even numbers from 2 to 64.
#[derive(Clone, Copy, Debug, PartialEq, Eq)]
pub struct BadTop {
    pub version: Version,
    pub top: u8,
}

impl Display for BadTop {
    fn fmt(&self, f: &mut Formatter<'_>) -> fmt::Result {
        let number = self.version.number();
        write!(
            f,
            "a record of version {number} cannot have the top {}",
            self.top
        )
    }
}

impl Error for BadTop {}

/// Why there is no record at a place.
#[derive(Clone, Copy, Debug, PartialEq, Eq)]
pub enum RecordRefusal {
    /// The file ends within the record.
    CutRecord,
    /// The setting byte at this place, 0 to 4, or 5 for the top, is out of range. The record is passed over.
    UnknownSetting { place: u32 },
}

impl Display for RecordRefusal {
    fn fmt(&self, f: &mut Formatter<'_>) -> fmt::Result {
        match self {
            RecordRefusal::CutRecord => f.write_str("a cut record"),
            RecordRefusal::UnknownSetting { place } => {
                write!(f, "an unknown setting at place {place}")
            }
        }
    }
}

impl Error for RecordRefusal {}

impl Record {
    /// A record of a patch; its levels keep their bits, and those that do not count are 0.
    pub fn new(patch: &Patch, settings: &Settings) -> Record {
        Record {
            kind: match patch {
                Patch::Triangles { .. } => Kind::Triangles,
                Patch::Quads { .. } => Kind::Quads,
                Patch::Isolines { .. } => Kind::Isolines,
            },
            settings: *settings,
            patterns: six_levels(patch).map(f32::to_bits),
        }
    }

    /// The patch, with the levels that count for its kind.
    pub fn patch(&self) -> Patch {
        self.kind.patch(self.patterns.map(f32::from_bits))
    }

    /// Its 29 or 30 bytes, at the end of a list, which stays as it was where the version cannot hold the top.
    pub fn append_to(&self, version: Version, bytes: &mut Vec<u8>) -> Result<(), BadTop> {
        let settings = setting_bytes(&self.kind.patch([0.0; 6]), &self.settings);
        let start = bytes.len();
        bytes.resize(start + version.record_bytes(), 0);
        let Written { number, .. } = raw::write_record(
            version.number(),
            &settings,
            &self.patterns,
            &mut bytes[start..],
        );
        match number {
            0 => Ok(()),
            11 => {
                bytes.truncate(start);
                Err(BadTop {
                    version,
                    top: self.settings.top,
                })
            }
            _ => unreachable!("known settings and room, so the answer is 0 or 11 and not {number}"),
        }
    }
}

/// Writes a job file at the end of a list: the header at once, then record by record.
#[derive(Debug)]
pub struct Writer<'a> {
    version: Version,
    bytes: &'a mut Vec<u8>,
}

impl<'a> Writer<'a> {
    pub fn new(version: Version, bytes: &'a mut Vec<u8>) -> Writer<'a> {
        Header { version }.append_to(bytes);
        Writer { version, bytes }
    }

    /// Appends a record, or nothing.
    pub fn write(&mut self, record: &Record) -> Result<(), BadTop> {
        record.append_to(self.version, self.bytes)
    }
}

/// The records of a job file, or why it has no records.
pub fn read(bytes: &[u8]) -> Result<Records<'_>, HeaderRefusal> {
    let Header { version } = Header::read(bytes)?;
    Ok(Records {
        version,
        bytes,
        at: HEADER_BYTES,
    })
}

/// What a job file has after its header: records and named refusals. It goes on after an unknown setting, a cut record
/// is the last, and the end is the end of the iterator.
#[derive(Clone, Debug)]
pub struct Records<'a> {
    version: Version,
    bytes: &'a [u8],
    at: usize,
}

impl Records<'_> {
    pub fn version(&self) -> Version {
        self.version
    }
}

impl Iterator for Records<'_> {
    type Item = Result<Record, RecordRefusal>;

    fn next(&mut self) -> Option<Self::Item> {
        let read = raw::read_record(self.bytes, self.version.number(), self.at);
        self.at = read.next;
        match read.number {
            0 => Some(Ok(record_of(&read))),
            7 => Some(Err(RecordRefusal::CutRecord)),
            8 => Some(Err(RecordRefusal::UnknownSetting { place: read.place })),
            raw::END => None,
            number => unreachable!("a known version, so the answer is not {number}"),
        }
    }
}

impl FusedIterator for Records<'_> {}

/// A record that was read: its setting bytes are in range.
fn record_of(read: &RecordRead) -> Record {
    let [kind, spacing, order, origin, point_mode, top] = read.settings;
    Record {
        kind: match kind {
            0 => Kind::Triangles,
            1 => Kind::Quads,
            2 => Kind::Isolines,
            _ => out_of_range("kind", kind),
        },
        settings: Settings {
            spacing: match spacing {
                0 => Spacing::Equal,
                1 => Spacing::FractionalEven,
                2 => Spacing::FractionalOdd,
                _ => out_of_range("spacing", spacing),
            },
            vertex_order: match order {
                0 => VertexOrder::Clockwise,
                1 => VertexOrder::CounterClockwise,
                _ => out_of_range("vertex order", order),
            },
            domain_origin: match origin {
                0 => DomainOrigin::UpperLeft,
                1 => DomainOrigin::LowerLeft,
                _ => out_of_range("origin", origin),
            },
            point_mode: match point_mode {
                0 => false,
                1 => true,
                _ => out_of_range("point mode", point_mode),
            },
            top,
        },
        patterns: read.patterns,
    }
}

fn out_of_range(name: &str, byte: u8) -> ! {
    unreachable!("a record that was read has a known {name} and not {byte}")
}
