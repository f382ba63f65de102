//! Records whose levels are NaNs of every sort.

use crate::records::records;
use reference::job::{Record, Version};

/// The splitmix64 generator.
pub struct Bits(pub u64);

impl Bits {
    pub fn next(&mut self) -> u64 {
        self.0 = self.0.wrapping_add(0x9e37_79b9_7f4a_7c15);
        let z = (self.0 ^ (self.0 >> 30)).wrapping_mul(0xbf58_476d_1ce4_e5b9);
        let z = (z ^ (z >> 27)).wrapping_mul(0x94d0_49bb_1331_11eb);
        z ^ (z >> 31)
    }

    /// A NaN: quiet or signalling, of either sign, with a random payload that is not 0.
    fn nan(&mut self) -> u32 {
        let bits = self.next() as u32;
        let payload = (bits & 0x003f_ffff).max(1);
        (bits & 0x8000_0000) | 0x7f80_0000 | (bits & 0x0040_0000) | payload
    }
}

/// Random records, some with unknown settings or a bad top, of which every second level became a NaN.
pub fn strange_records(seed: u64, count: u64, version: Version) -> Vec<Record> {
    let mut bits = Bits(!seed);
    let mut list = records(seed, count, version);
    for record in &mut list {
        for level in &mut record.levels {
            if bits.next() % 2 == 0 {
                *level = bits.nan();
                assert!(f32::from_bits(*level).is_nan());
            }
        }
    }
    list
}
