//! The exported functions by their numbers, for callers that have setting bytes and levels as a job file has them. All foreign
//! declarations and all unsafe code of this wrapper are here.
//!
//! The settings are six bytes: kind (0 triangles, 1 quads, 2 isolines), spacing (0 equal, 1 even, 2 odd), vertex order
//! (0 clockwise, 1 counter-clockwise), domain origin (0 upper-left, 1 lower-left), point mode (0, 1) and the top level (even
//! numbers from 2 to 64; a job file of version 1 has no such byte and means 64). The levels are outer one to four, then
//! inner one and two.
//!
//! A bad top is the number 11, reported before everything else. In a job file it is an unknown setting instead, at place 5.

mod check;
mod compare;
mod draw;
mod floats;
mod foreign;
pub mod job;
mod replay;
mod shared;

pub use check::{check_numbered, Checked};
pub(crate) use compare::compare_meshes;
pub use draw::{draw_indices, draw_points, measure, Measured, Numbered};
pub use floats::{draw_with_floats_by_number, FloatsNumbered};
pub(crate) use replay::replay;
pub(crate) use shared::{share_clear, share_draw, share_start};
