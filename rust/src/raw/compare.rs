//! Comparing two meshes, by numbers.

use super::foreign::yoktvarim_compare_meshes;
use crate::compare::MeshWords;

/// The answer's number and the count of differences. Writes to the front of the list where the number is 0, and nothing otherwise.
pub(crate) fn compare_meshes(
    (left_points, left_indices): MeshWords,
    (right_points, right_indices): MeshWords,
    differences: &mut [u64],
) -> (u32, u64) {
    // Overwritten whatever the answer is.
    let mut count = [u64::MAX];
    // SAFETY: the function is proved for every value of its arguments; each list goes as a pointer and its own length, and what
    // is written overlaps nothing, since it is borrowed as `&mut`.
    let number = unsafe {
        yoktvarim_compare_meshes(
            left_points.as_ptr(),
            left_points.len(),
            left_indices.as_ptr(),
            left_indices.len(),
            right_points.as_ptr(),
            right_points.len(),
            right_indices.as_ptr(),
            right_indices.len(),
            differences.as_mut_ptr(),
            differences.len(),
            &mut count,
        )
    };
    let [count] = count;
    (number, count)
}
