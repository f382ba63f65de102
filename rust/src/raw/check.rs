//! Checking a mesh, by numbers.

use super::foreign::yoktvarim_check_mesh;

/// What [`check_numbered`] answers: 0 accepted, 8 unknown setting, 11 bad top, else the fault, 20 to 30 in the order of
/// [`Verdict`](crate::Verdict). No other number is given.
#[must_use = "only the number 0 means that the mesh was accepted"]
#[derive(Clone, Copy, Debug, PartialEq, Eq)]
pub struct Checked {
    pub number: u32,
    /// The fault's places in the order of the variant's fields, the setting's place, 0 to 4, with 8; 0 for a place that
    /// the answer lacks.
    pub places: [u64; 2],
}

/// [`check_mesh`](crate::check_mesh) by setting bytes and levels.
pub fn check_numbered(
    settings: &[u8; 6],
    levels: &[f32; 6],
    points: &[u32],
    indices: &[u16],
) -> Checked {
    // Overwritten whatever the answer is.
    let mut places = [u64::MAX; 2];
    // SAFETY: the function is proved for every value of its arguments; the lists go as pointers and their own lengths, are
    // only read, and cannot overlap `places`, which is borrowed as `&mut`.
    let number = unsafe {
        yoktvarim_check_mesh(
            settings,
            levels,
            points.as_ptr(),
            points.len(),
            indices.as_ptr(),
            indices.len(),
            &mut places,
        )
    };
    Checked { number, places }
}
