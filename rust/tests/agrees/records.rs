//! Records of job files, as both programs take them.

use reference::job::{Record, Version, HEADER_LENGTH};

/// The places of the levels that count, by the number of the kind.
pub const COUNTING: [&[usize]; 3] = [&[0, 1, 2, 4], &[0, 1, 2, 3, 4, 5], &[0, 1]];

/// Random records of a version, some of them with unknown settings or a bad top.
pub fn records(seed: u64, count: u64, version: Version) -> Vec<Record> {
    let job = reference::random::job(seed, count, version);
    job[HEADER_LENGTH..]
        .chunks_exact(version.record_length())
        .map(|bytes| Record::from_bytes(bytes, version))
        .collect()
}

/// The patch and the settings of a record, whether or not its top is a good one; `None` where another setting is unknown.
pub fn known(record: &Record) -> Option<(reference::Patch, reference::Settings)> {
    let with_good_top = Record {
        top: Record::BLANK.top,
        ..*record
    };
    let (patch, settings) = with_good_top.decode().ok()?;
    let top = u32::from(record.top);
    Some((patch, reference::Settings { top, ..settings }))
}

pub fn setting_bytes(record: &Record) -> [u8; 6] {
    let [kind, spacing, order, origin, point_mode] = record.settings;
    [kind, spacing, order, origin, point_mode, record.top]
}

pub fn levels(record: &Record) -> [f32; 6] {
    record.levels.map(f32::from_bits)
}
