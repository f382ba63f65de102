//! Two designers on one pair of lists, by numbers.

use super::foreign::{yoktvarim_share_clear, yoktvarim_share_draw, yoktvarim_share_start};
use crate::shared::{Quota, Shared};

// The library reads and writes exactly this.
const _: () = assert!(size_of::<Shared>() == 80 && size_of::<[Quota; 2]>() == 32);

/// The answer's number. Writes the state where it is 0.
pub(crate) fn share_start(
    vertices: &[u32],
    indices: &[u16],
    quotas: &[Quota; 2],
    state: &mut Shared,
) -> u32 {
    // SAFETY: each pointer is to as many words as the library reads or writes there, and only `state` is written.
    unsafe {
        yoktvarim_share_start(
            vertices.as_ptr(),
            vertices.len(),
            indices.as_ptr(),
            indices.len(),
            quotas,
            state,
        )
    }
}

/// The answer's number, and points and indices beside 0. Writes the state and both lists where it is 0, and nothing otherwise.
pub(crate) fn share_draw(
    state: &mut Shared,
    designer: u32,
    settings: &[u8; 6],
    levels: &[f32; 6],
    vertices: &mut [u32],
    indices: &mut [u16],
) -> (u32, [u32; 2]) {
    let mut counts = [0; 2];
    // SAFETY: each pointer is to as many words as the library reads or writes there, and what is written overlaps nothing.
    let number = unsafe {
        yoktvarim_share_draw(
            state,
            designer,
            settings,
            levels,
            vertices.as_mut_ptr(),
            vertices.len(),
            indices.as_mut_ptr(),
            indices.len(),
            &mut counts,
        )
    };
    (number, counts)
}

/// The answer's number. Writes the state where it is 0.
pub(crate) fn share_clear(
    state: &mut Shared,
    designer: u32,
    vertices: &[u32],
    indices: &[u16],
) -> u32 {
    // SAFETY: each pointer is to as many words as the library reads or writes there, and only the state is written.
    unsafe {
        yoktvarim_share_clear(
            state,
            designer,
            vertices.as_ptr(),
            vertices.len(),
            indices.as_ptr(),
            indices.len(),
        )
    }
}
