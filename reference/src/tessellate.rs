//! What a patch comes to when room plays no part: all of it, or its measure.

use crate::clamps::Clamps;
use crate::mesh::{Mesh, Primitives};
use crate::patch::{is_top, Patch, Settings};
use crate::{isolines, quads, triangles};

/// What a patch comes to when room plays no part.
#[derive(Clone, Debug, PartialEq, Eq)]
pub enum Answer {
    BadTop,
    Discarded,
    Drawn {
        points: Vec<[u32; 3]>,
        indices: Vec<u32>,
    },
}

/// What measuring answers; a discarded patch has nothing to say of its levels.
#[derive(Clone, Copy, Debug, PartialEq, Eq)]
pub enum Measure {
    BadTop,
    Discarded,
    Counts {
        points: usize,
        indices: usize,
        levels: Clamps,
    },
}

/// The mesh of a patch that is not discarded, cut up to a top that is one,
/// before vertex order and point mode are looked at.
fn build(patch: &Patch, settings: &Settings) -> Mesh {
    let (spacing, top) = (settings.spacing, settings.top);
    match *patch {
        Patch::Triangles { outer, inner } => triangles::build(outer, inner, spacing, top),
        Patch::Quads { outer, inner } => quads::build(outer, inner, spacing, top),
        Patch::Isolines { outer } => isolines::build(outer, spacing, top),
    }
}

/// Sections "Strips" and "Isolines and dots": the list of indices. Triangles
/// swap their second and third corner for the other turn; lines never change;
/// point mode lists every point once.
fn indices(mesh: &Mesh, settings: &Settings) -> Vec<u32> {
    if settings.point_mode {
        return (0..mesh.points.len() as u32).collect();
    }
    match &mesh.primitives {
        Primitives::Triangles(list) => list
            .iter()
            .flat_map(|&[a, b, c]| {
                if settings.area_is_positive() {
                    [a, b, c]
                } else {
                    [a, c, b]
                }
            })
            .collect(),
        Primitives::Lines(list) => list.iter().flatten().copied().collect(),
    }
}

/// Section "What the cutter says", answers 0 and 1, for lists without end, and
/// Ask 10's refusal before either.
pub fn tessellate(patch: &Patch, settings: &Settings) -> Answer {
    if !is_top(settings.top) {
        return Answer::BadTop;
    }
    if patch.is_discarded() {
        return Answer::Discarded;
    }
    let mesh = build(patch, settings);
    let indices = indices(&mesh, settings);
    Answer::Drawn {
        points: mesh.points,
        indices,
    }
}

/// Section "What the cutter says", on measuring: the counts a drawing would
/// have, whether or not it could be done, and what the clamp found for each
/// level (Ask 9).
pub fn measure(patch: &Patch, settings: &Settings) -> Measure {
    match tessellate(patch, settings) {
        Answer::BadTop => Measure::BadTop,
        Answer::Discarded => Measure::Discarded,
        Answer::Drawn { points, indices } => Measure::Counts {
            points: points.len(),
            indices: indices.len(),
            levels: Clamps::of(patch, settings),
        },
    }
}
