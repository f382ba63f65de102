//! The outline of a patch, as its outer levels alone decide it.

use crate::level::division;
use crate::patch::{Patch, Settings};
use crate::{quads, triangles};

/// Section "The words of demand 3": the points that each outer edge's own
/// positions put on it, in walk order, every corner once. Isolines have none.
pub fn outline(patch: &Patch, settings: &Settings) -> Vec<[u32; 3]> {
    let divide = |level: f32| division(level, settings.spacing, settings.top);
    let mut points = Vec::new();
    match *patch {
        Patch::Triangles { outer, .. } => {
            triangles::outer_ring(outer.map(divide), &mut points);
        }
        Patch::Quads { outer, .. } => {
            quads::outline(outer.map(divide), &mut points);
        }
        Patch::Isolines { .. } => {}
    }
    points
}
