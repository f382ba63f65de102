//! Measuring and drawing, by numbers.

use super::foreign::{yoktvarim_draw_indices, yoktvarim_draw_points, yoktvarim_measure};

/// What [`measure`] answers, by its number: 0 measured, 1 discarded, 8 unknown setting, 11 bad top. No other number is
/// given.
#[must_use = "only the number 0 means that the patch was measured"]
#[derive(Clone, Copy, Debug, PartialEq, Eq)]
pub struct Measured {
    pub number: u32,
    /// Points and indices beside 0, the place, 0 to 4, of the first unknown setting and 0 beside 8, else 0 and 0.
    pub counts: [u32; 2],
    /// For each level 1 below the range it is clamped to, 2 inside, 3 above. 0 where nothing is said: the level does not
    /// count for the kind, or the number is not 0.
    pub clamps: [u8; 6],
}

/// What [`draw_points`] and [`draw_indices`] answer, by its number: 0 drawn, 1 discarded, 3 no room for vertices (from the
/// first only), 4 no room for indices (from the second only), 8 unknown setting, 11 bad top. No other number is given.
#[must_use = "only the number 0 means that something was drawn"]
#[derive(Clone, Copy, Debug, PartialEq, Eq)]
pub struct Numbered {
    pub number: u32,
    /// Points or indices beside 0, the place, 0 to 4, of the first unknown setting beside 8, else 0.
    pub count: u32,
}

/// How many points [`draw_points`] and how many indices [`draw_indices`] would write, and which levels are clamped.
pub fn measure(settings: &[u8; 6], levels: &[f32; 6]) -> Measured {
    // Both overwritten whatever the answer is.
    let mut counts = [u32::MAX; 2];
    let mut clamps = [u8::MAX; 6];
    // SAFETY: the function is proved for every value of its arguments; it reads the two arrays and writes `counts` and
    // `clamps`.
    let number = unsafe { yoktvarim_measure(settings, levels, &mut counts, &mut clamps) };
    Measured {
        number,
        counts,
        clamps,
    }
}

/// Writes points to the front of the list where the number is 0, and nothing otherwise.
pub fn draw_points(settings: &[u8; 6], levels: &[f32; 6], vertices: &mut [u32]) -> Numbered {
    // Overwritten whatever the answer is.
    let mut count = [u32::MAX];
    // SAFETY: the function is proved for every value of its arguments; the list goes as a pointer and its own length, and
    // cannot overlap `count`, since both are borrowed as `&mut`.
    let number = unsafe {
        yoktvarim_draw_points(
            settings,
            levels,
            vertices.as_mut_ptr(),
            vertices.len(),
            &mut count,
        )
    };
    let [count] = count;
    Numbered { number, count }
}

/// Writes indices to the front of the list where the number is 0, and nothing otherwise.
pub fn draw_indices(settings: &[u8; 6], levels: &[f32; 6], indices: &mut [u16]) -> Numbered {
    // Overwritten whatever the answer is.
    let mut count = [u32::MAX];
    // SAFETY: as in `draw_points`.
    let number = unsafe {
        yoktvarim_draw_indices(
            settings,
            levels,
            indices.as_mut_ptr(),
            indices.len(),
            &mut count,
        )
    };
    let [count] = count;
    Numbered { number, count }
}
