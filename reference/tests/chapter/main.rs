//! The drawn meshes held against the tessellation chapter of the Vulkan
//! specification, read by itself: each section is checked on random patches by
//! looking at coordinates alone. The modules follow the chapter's order.
//!
//! Every check is a function that returns what it finds wrong, so that each module
//! also shows, on damaged meshes, that its checks can refuse.
//!
//! Left open by the chapter, and not looked at: the order of points, of primitives
//! and of the vertices in a line; the third coordinate of quads and isolines; the
//! clamp of a NaN as inner level. Where an inner level is at most one, fractional odd
//! spacing may also put inner vertices on an outer edge; these drawings never do, and
//! the checks rely on it to find vertices by coordinates.

mod coordinates;
mod cover;
mod discard;
mod drawn;
mod fill;
mod isolines;
mod levels;
mod outer_edges;
mod point_mode;
mod quads;
mod spacing;
mod triangles;
mod winding;
