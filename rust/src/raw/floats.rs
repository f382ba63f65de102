//! Drawing with floats, by numbers.

use super::foreign::yoktvarim_draw_with_floats;

/// What [`draw_with_floats_by_number`] answers: 0 drawn, 1 discarded, 3 no room for vertices, 4 no room for indices, 8 unknown
/// setting, 9 no room for floats, 11 bad top. No other number is given.
#[must_use = "only the number 0 means that something was drawn"]
#[derive(Clone, Copy, Debug, PartialEq, Eq)]
pub struct FloatsNumbered {
    pub number: u32,
    /// Points and indices beside 0, the place, 0 to 4, of the first unknown setting and 0 beside 8, else 0 and 0.
    pub counts: [u32; 2],
}

/// [`draw_with_floats`](crate::floats::draw_with_floats) by setting bytes and levels.
pub fn draw_with_floats_by_number(
    settings: &[u8; 6],
    levels: &[f32; 6],
    vertices: &mut [u32],
    indices: &mut [u16],
    floats: &mut [f32],
) -> FloatsNumbered {
    // Both overwritten whatever the answer is.
    let mut counts = [u32::MAX; 2];
    // SAFETY: the function is proved for every value of its arguments; each list goes as a pointer and its own length, and none
    // can overlap another or `counts`, since all are borrowed as `&mut`.
    let number = unsafe {
        yoktvarim_draw_with_floats(
            settings,
            levels,
            vertices.as_mut_ptr(),
            vertices.len(),
            indices.as_mut_ptr(),
            indices.len(),
            floats.as_mut_ptr(),
            floats.len(),
            &mut counts,
        )
    };
    FloatsNumbered { number, counts }
}
