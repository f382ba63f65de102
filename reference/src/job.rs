//! The bytes of a job file.

use crate::patch::{is_top, DomainOrigin, Patch, Settings, Spacing, VertexOrder, GREATEST_TOP};

/// What every job file begins with.
const MARK: [u8; 3] = [0x54, 0x53, 0x4A];

/// Length of the mark and the version after it.
pub const HEADER_LENGTH: usize = 5;

/// Where the levels start, counted from a record's end.
const LEVELS_LENGTH: usize = 24;

/// How many values each of the first five setting bytes knows.
pub const SETTING_COUNTS: [u8; 5] = [3, 3, 2, 2, 2];

/// Section "Job file" and Ask 10: the two forms of a job file. The second has a
/// byte for the top level in every record.
#[derive(Clone, Copy, Debug, PartialEq, Eq)]
pub enum Version {
    One,
    Two,
}

impl Version {
    /// The number in the header, and in the first line of the answers.
    pub fn number(self) -> u16 {
        match self {
            Version::One => 1,
            Version::Two => 2,
        }
    }

    /// Mark and version, low byte first.
    pub fn header(self) -> [u8; HEADER_LENGTH] {
        let [a, b, c] = MARK;
        let [low, high] = self.number().to_le_bytes();
        [a, b, c, low, high]
    }

    /// Bytes in one record: settings, then levels.
    pub fn record_length(self) -> usize {
        match self {
            Version::One => 5 + LEVELS_LENGTH,
            Version::Two => 6 + LEVELS_LENGTH,
        }
    }
}

/// Section "What the cutter says", answers 5 to 8.
#[derive(Clone, Copy, Debug, PartialEq, Eq)]
pub enum Refusal {
    NotAJob,
    UnknownVersion,
    TruncatedRecord,
    UnknownSetting { place: usize },
}

impl Refusal {
    pub fn number(&self) -> u32 {
        match self {
            Refusal::NotAJob => 5,
            Refusal::UnknownVersion => 6,
            Refusal::TruncatedRecord => 7,
            Refusal::UnknownSetting { .. } => 8,
        }
    }
}

/// One record as it stands in the file: kind, spacing, vertex order, domain
/// origin and point mode, the top level, then the bits of outer levels one to
/// four and inner levels one and two. In version 1 the top is 64 and takes up no
/// byte.
#[derive(Clone, Copy, Debug, PartialEq, Eq)]
pub struct Record {
    pub settings: [u8; 5],
    pub top: u8,
    pub levels: [u32; 6],
}

impl Record {
    /// A record of zeros, apart from the top.
    pub const BLANK: Record = Record {
        settings: [0; 5],
        top: GREATEST_TOP as u8,
        levels: [0; 6],
    };

    /// Section "Job file" and Ask 10: the 29 or 30 bytes of a record.
    pub fn to_bytes(&self, version: Version) -> Vec<u8> {
        let mut bytes = self.settings.to_vec();
        if version == Version::Two {
            bytes.push(self.top);
        }
        for level in self.levels {
            bytes.extend(level.to_le_bytes());
        }
        bytes
    }

    /// Section "Job file" and Ask 10: a record from its 29 or 30 bytes.
    pub fn from_bytes(bytes: &[u8], version: Version) -> Record {
        let mut record = Record::BLANK;
        record.settings.copy_from_slice(&bytes[..5]);
        if version == Version::Two {
            record.top = bytes[5];
        }
        let levels = bytes[bytes.len() - LEVELS_LENGTH..].chunks(4);
        for (level, four) in record.levels.iter_mut().zip(levels) {
            *level = u32::from_le_bytes([four[0], four[1], four[2], four[3]]);
        }
        record
    }

    /// Answer 8: the place of the first setting out of range; the top comes last
    /// (Ask 10).
    pub(crate) fn first_bad_setting(&self) -> Option<usize> {
        let known = self.settings.iter().zip(SETTING_COUNTS);
        known
            .map(|(value, count)| *value < count)
            .chain([is_top(u32::from(self.top))])
            .position(|good| !good)
    }

    /// Section "Job file" and answer 8: the patch and settings of a record, or
    /// where the first unknown setting stands. The kind decides which of the six
    /// levels are looked at.
    pub fn decode(&self) -> Result<(Patch, Settings), Refusal> {
        if let Some(place) = self.first_bad_setting() {
            return Err(Refusal::UnknownSetting { place });
        }
        let [kind, spacing, order, origin, point_mode] = self.settings;
        let [o1, o2, o3, o4, i1, i2] = self.levels.map(f32::from_bits);
        let patch = match kind {
            0 => Patch::Triangles {
                outer: [o1, o2, o3],
                inner: i1,
            },
            1 => Patch::Quads {
                outer: [o1, o2, o3, o4],
                inner: [i1, i2],
            },
            _ => Patch::Isolines { outer: [o1, o2] },
        };
        let settings = Settings {
            spacing: match spacing {
                0 => Spacing::Equal,
                1 => Spacing::FractionalEven,
                _ => Spacing::FractionalOdd,
            },
            vertex_order: match order {
                0 => VertexOrder::Clockwise,
                _ => VertexOrder::CounterClockwise,
            },
            domain_origin: match origin {
                0 => DomainOrigin::UpperLeft,
                _ => DomainOrigin::LowerLeft,
            },
            point_mode: point_mode == 1,
            top: u32::from(self.top),
        };
        Ok((patch, settings))
    }
}

/// A job file to be written.
#[derive(Clone, Debug, PartialEq, Eq)]
pub struct Job {
    pub version: Version,
    pub records: Vec<Record>,
}

impl Job {
    /// Section "Job file": header and records.
    pub fn to_bytes(&self) -> Vec<u8> {
        let mut bytes = self.version.header().to_vec();
        for record in &self.records {
            bytes.extend(record.to_bytes(self.version));
        }
        bytes
    }
}

/// Answers 5 and 6, the latter as Ask 10 has it: the version and what follows
/// the header, or why there is none.
pub fn read_header(bytes: &[u8]) -> Result<(Version, &[u8]), Refusal> {
    let Some((header, rest)) = bytes.split_at_checked(HEADER_LENGTH) else {
        return Err(Refusal::NotAJob);
    };
    if header[..3] != MARK {
        return Err(Refusal::NotAJob);
    }
    match u16::from_le_bytes([header[3], header[4]]) {
        1 => Ok((Version::One, rest)),
        2 => Ok((Version::Two, rest)),
        _ => Err(Refusal::UnknownVersion),
    }
}

/// Answers 7 and 8 and the end: takes one record off the front of `rest`.
/// `Ok(None)` is the end. A truncated record takes nothing; a record with an
/// unknown setting is taken all the same.
pub fn read_record(
    version: Version,
    rest: &mut &[u8],
) -> Result<Option<(Patch, Settings)>, Refusal> {
    if rest.is_empty() {
        return Ok(None);
    }
    let Some((bytes, after)) = rest.split_at_checked(version.record_length()) else {
        return Err(Refusal::TruncatedRecord);
    };
    *rest = after;
    Record::from_bytes(bytes, version).decode().map(Some)
}

/// Section "Job file": what there is to answer after a header, one record after
/// another. A cut record is the last.
pub struct Records<'a> {
    pub version: Version,
    rest: &'a [u8],
}

impl Iterator for Records<'_> {
    type Item = Result<(Patch, Settings), Refusal>;

    fn next(&mut self) -> Option<Self::Item> {
        let record = read_record(self.version, &mut self.rest).transpose();
        if record == Some(Err(Refusal::TruncatedRecord)) {
            self.rest = &[];
        }
        record
    }
}

/// Section "Job file": the records of a whole file, or why it is refused.
pub fn read_job(bytes: &[u8]) -> Result<Records<'_>, Refusal> {
    let (version, rest) = read_header(bytes)?;
    Ok(Records { version, rest })
}
