//! Isoline patches.

use crate::edge::positions;
use crate::level::division;
use crate::mesh::{Mesh, Primitives};
use crate::patch::Spacing;

/// Section "Isolines and dots": the first level divides v, whatever the spacing,
/// into equal parts with a line at the start of each; the second divides every
/// line, and here the spacing counts.
pub fn build(outer: [f32; 2], spacing: Spacing, top: u32) -> Mesh {
    let lines = division(outer[0], Spacing::Equal, top);
    let v = positions(lines);
    let u = positions(division(outer[1], spacing, top));
    let mut points = Vec::new();
    let mut pairs = Vec::new();
    for line_v in &v[..lines.n as usize] {
        for (i, point_u) in u.iter().enumerate() {
            if i > 0 {
                let here = points.len() as u32;
                pairs.push([here - 1, here]);
            }
            points.push([*point_u, *line_v, 0]);
        }
    }
    Mesh {
        points,
        primitives: Primitives::Lines(pairs),
    }
}
