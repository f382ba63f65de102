//! Replaying a recording, by numbers.

use super::foreign::yoktvarim_replay;

/// The answer's number, then the entry, the recorded side and the replayed side: answer, points and indices each.
pub(crate) fn replay(bytes: &[u8]) -> (u32, [u64; 7]) {
    // Overwritten whatever the answer is.
    let mut words = [u64::MAX; 7];
    // SAFETY: the function is proved for every value of its arguments; it reads the bytes, which go as a pointer and their own
    // length, and writes `words`.
    let number = unsafe { yoktvarim_replay(bytes.as_ptr(), bytes.len(), &mut words) };
    (number, words)
}
