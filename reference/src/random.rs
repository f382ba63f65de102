//! Seeded pseudo random job files.

use crate::job::{Record, Version, SETTING_COUNTS};

/// The splitmix64 generator.
pub struct Random(u64);

impl Random {
    pub fn new(seed: u64) -> Random {
        Random(seed)
    }

    /// A generator that hangs on two numbers.
    pub(crate) fn of_both(seed: u64, number: u64) -> Random {
        Random(Random::new(seed).next() ^ Random::new(!number).next())
    }

    pub(crate) fn next(&mut self) -> u64 {
        self.0 = self.0.wrapping_add(0x9e37_79b9_7f4a_7c15);
        let mut z = self.0;
        z = (z ^ (z >> 30)).wrapping_mul(0xbf58_476d_1ce4_e5b9);
        z = (z ^ (z >> 27)).wrapping_mul(0x94d0_49bb_1331_11eb);
        z ^ (z >> 31)
    }

    pub fn below(&mut self, count: u64) -> u64 {
        self.next() % count
    }

    fn pick(&mut self, list: &[u32]) -> u32 {
        list[self.below(list.len() as u64) as usize]
    }
}

/// Bits of levels that are no everyday numbers.
const SPECIAL: [u32; 27] = [
    0x7fc0_0000, // quiet NaN
    0x7f80_0001, // signalling NaN
    0xffc0_0000, // negative quiet NaN
    0xff80_0001, // negative signalling NaN
    0x7fff_ffff, // NaN with every fraction bit set
    0x7f80_0000, // infinity
    0xff80_0000, // negative infinity
    0x8000_0000, // negative zero
    0x0000_0000, // zero
    0x0000_0001, // smallest subnormal
    0x007f_ffff, // greatest subnormal
    0x8000_0001, // negative subnormal
    0x0080_0000, // smallest normal
    0x3f00_0000, // 0.5
    0x3f7f_ffff, // just below 1
    0x3f80_0000, // 1
    0x3f80_0001, // just above 1
    0xbf80_0000, // -1
    0xbf00_0000, // -0.5
    0xc280_0000, // -64
    0x42fe_0000, // 127
    0x4300_0000, // 128
    0x447a_0000, // 1000
    0x4f80_0000, // 2^32
    0x5f80_0000, // 2^64
    0x7f7f_ffff, // greatest finite
    0xff7f_ffff, // greatest finite, negative
];

/// Special levels above zero that clamp to the high end.
const HUGE: [u32; 6] = [
    0x7f80_0000,
    0x42fe_0000,
    0x4300_0000,
    0x447a_0000,
    0x4f80_0000,
    0x7f7f_ffff,
];

/// Levels at and around the place where one segment becomes two or three.
const NEAR_ONE: [u32; 12] = [
    0x3f80_0000, // 1, more often than the others
    0x3f80_0000,
    0x3f80_0000,
    0x3f80_0000,
    0x3f7f_ffff, // just below 1
    0x3f80_0001, // just above 1
    0x3f00_0000, // 0.5
    0x0000_0001, // smallest subnormal
    0x3f80_0040, // 1 + 2^-17, half a unit above 1
    0x3f80_0081, // a little over one unit above 1
    0x3fff_ffff, // just below 2
    0x4000_0001, // just above 2
];

/// A whole number from `low` to `high`, or the next f32 on either side of it.
fn around_whole(random: &mut Random, low: u64, high: u64) -> u32 {
    let whole = (low + random.below(high - low + 1)) as f32;
    whole.to_bits() - 1 + random.below(3) as u32
}

/// A number with a fraction, above zero and below `high`.
fn fraction(random: &mut Random, high: u64) -> u32 {
    let parts = 1 + random.below(high * 65_536 - 1);
    (parts as f32 / 65_536.0).to_bits()
}

/// A half: 0.5, 1.5 and on to 65.5.
fn half(random: &mut Random) -> u32 {
    (random.below(66) as f32 + 0.5).to_bits()
}

fn small(random: &mut Random) -> u32 {
    match random.below(4) {
        0 => (1.0 + random.below(5) as f32).to_bits(),
        1 => around_whole(random, 1, 5),
        2 => ((1 + random.below(20)) as f32 / 4.0).to_bits(),
        _ => fraction(random, 6),
    }
}

fn any_size(random: &mut Random) -> u32 {
    match random.below(4) {
        0 => half(random),
        1 => fraction(random, 66),
        _ => around_whole(random, 1, 65),
    }
}

fn large(random: &mut Random) -> u32 {
    match random.below(4) {
        0 => random.pick(&HUGE),
        _ => around_whole(random, 61, 65),
    }
}

fn wild(random: &mut Random) -> u32 {
    match random.below(4) {
        0 => random.next() as u32,
        1 => 0x7f80_0000 | (random.next() as u32 & 0x807f_ffff), // NaNs mostly
        _ => random.pick(&SPECIAL),
    }
}

fn mixed(random: &mut Random) -> u32 {
    match random.below(16) {
        0 => wild(random),
        1..=3 => any_size(random),
        _ => small(random),
    }
}

/// A level of the pool that goes with one of 32 classes of record.
fn level(random: &mut Random, class: u64) -> u32 {
    match class {
        0 => large(random),
        1..=2 => any_size(random),
        3..=4 => wild(random),
        5..=8 => random.pick(&NEAR_ONE),
        9..=18 => mixed(random),
        _ => small(random),
    }
}

/// A value out of range for the setting byte at `place`.
fn bad_setting(random: &mut Random, place: usize) -> u8 {
    let known = u64::from(SETTING_COUNTS[place]);
    match random.below(3) {
        0 => known as u8,
        1 => 255,
        _ => (known + random.below(256 - known)) as u8,
    }
}

/// A byte that is no top level: 0, an odd one, or one above 64.
fn bad_top(random: &mut Random) -> u8 {
    match random.below(4) {
        0 => 0,
        1 => 2 * random.below(33) as u8 + 1,
        2 => 66,
        _ => (65 + random.below(191)) as u8,
    }
}

/// Puts a value out of range at one of the five places of version 1, or at place
/// 5, the top of version 2.
pub(crate) fn spoil(random: &mut Random, record: &mut Record, place: usize) {
    match place {
        5 => record.top = bad_top(random),
        _ => record.settings[place] = bad_setting(random, place),
    }
}

/// One of the 32 tops; low ones and 16 come more often than others.
fn top(random: &mut Random) -> u8 {
    let half = match random.below(4) {
        0 => 1 + random.below(4),
        1 => 8,
        _ => 1 + random.below(32),
    };
    2 * half as u8
}

/// A record of version 1 whose five settings are all known.
fn good_record_without_top(random: &mut Random) -> Record {
    let settings = SETTING_COUNTS.map(|count| random.below(u64::from(count)) as u8);
    let class = random.below(32);
    let mut levels = [0; 6].map(|_: u32| level(random, class));
    // Strange inner levels still give a mesh, so there are more of them.
    for inner in &mut levels[4..] {
        if random.below(8) == 0 {
            *inner = wild(random);
        }
    }
    // What the kind does not look at may hold anything.
    let unused: &[usize] = match settings[0] {
        0 => &[3, 5],
        1 => &[],
        _ => &[2, 3, 4, 5],
    };
    for place in unused {
        levels[*place] = wild(random);
    }
    Record {
        settings,
        levels,
        ..Record::BLANK
    }
}

/// A record of version 2 whose six settings are all known; one level in four
/// lies near its top.
fn good_record_with_top(random: &mut Random) -> Record {
    let mut record = good_record_without_top(random);
    record.top = top(random);
    let top = u64::from(record.top);
    for level in &mut record.levels {
        if random.below(4) == 0 {
            *level = around_whole(random, top - 1, top + 1);
        }
    }
    record
}

/// A record whose settings are all known.
pub(crate) fn good_record(random: &mut Random, version: Version) -> Record {
    match version {
        Version::One => good_record_without_top(random),
        Version::Two => good_record_with_top(random),
    }
}

/// A record; about one in thirty has a setting byte out of range, now and then
/// more than one. In version 2 some more have a bad top.
fn record(random: &mut Random, version: Version) -> Record {
    let mut record = good_record(random, version);
    if random.below(30) == 0 {
        for _ in 0..1 + random.below(2) {
            let place = random.below(5) as usize;
            spoil(random, &mut record, place);
        }
    }
    if version == Version::Two && random.below(30) == 0 {
        spoil(random, &mut record, 5);
    }
    record
}

/// A whole job file of `count` records.
pub fn job(seed: u64, count: u64, version: Version) -> Vec<u8> {
    let mut random = Random::new(seed);
    let mut bytes = version.header().to_vec();
    for _ in 0..count {
        bytes.extend(record(&mut random, version).to_bytes(version));
    }
    bytes
}
