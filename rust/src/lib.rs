//! Tessellates a patch by the Vulkan rules, with a library whose every function is proved.
//!
//! ```
//! use yoktvarim::{mesh, BadTop, Patch, Settings};
//!
//! # fn main() -> Result<(), BadTop> {
//! let patch = Patch::Triangles { outer: [1.0, 1.0, 1.0], inner: 2.0 };
//! let settings = Settings::default(); // equal spacing, counter-clockwise, lower-left, no point mode, top 64
//! let mesh = mesh(&patch, &settings)?.expect("not discarded");
//! assert_eq!(mesh.points[3], [65536, 65536, 65536]);
//! assert_eq!(mesh.indices, [0, 1, 3, 1, 2, 3, 2, 0, 3]);
//! # Ok(())
//! # }
//! ```
//!
//! [`draw_points`] and [`draw_indices`] each write into a list of the caller's, [`measure()`] says how long the lists have to
//! be and which levels were clamped, and [`mesh()`] draws both into lists of its own. While a level moves within a number of
//! segments, the indices stay and only the points need to be drawn again.
//!
//! The top of the settings says how finely a patch can be cut at most: an even number from 2 to 64. Any other number is
//! answered with `BadTop`, before everything else.

#![deny(unsafe_code)]

#[cfg(not(target_pointer_width = "64"))]
compile_error!("the library takes lengths of 64 bits, and usize has another size on this target");

pub mod answers;
pub mod check;
mod clamps;
pub mod compare;
mod draw;
pub mod floats;
pub mod job;
mod measure;
mod mesh;
mod patch;
#[allow(unsafe_code)]
pub mod raw;
mod replay;
pub mod shared;

pub use check::{check_mesh, Verdict};
pub use clamps::{Clamp, Clamps};
pub use compare::{compare_meshes, Comparison, Difference, MeshFault, Side, What};
pub use draw::{draw_indices, draw_points, IndicesAnswer, PointsAnswer};
pub use measure::{measure, Size};
pub use mesh::{mesh, BadTop, Mesh};
pub use patch::{DomainOrigin, Patch, Settings, Spacing, VertexOrder, GREATEST_TOP};
pub use replay::{replay, Outcome, Replay};

/// A vertex list of this many words has room for every patch at every top: 4,225 points of 3 words each.
pub const VERTEX_WORDS: usize = 12_675;

/// An index list of this many words has room for every patch at every top: 8,192 triangles.
pub const INDEX_WORDS: usize = 24_576;

/// The number that means 1 in a triangle patch: u, v and w of a point add up to it.
pub const ONE_IN_TRIANGLES: u32 = 196_608;

/// The number that means 1 in a quad patch and in isolines, where w is 0.
pub const ONE_IN_QUADS: u32 = 65_536;
