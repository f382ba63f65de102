//! A second, independent reading of the rules for tessellating a patch.
//!
//! It exists to be compared with another program, so it favours being easy to
//! read over being fast. "The paper" in the comments is the project's scope
//! document; each function says which of its sections it follows. "Ask N" is a
//! request from the document that came after it.

pub mod check;
pub mod clamps;
pub mod damage;
pub mod damage_mesh;
pub mod differences;
pub mod draw;
pub mod edge;
pub mod floats;
pub mod isolines;
pub mod job;
pub mod level;
pub mod measures;
pub mod mesh;
pub mod mesh_pairs;
pub mod outline;
pub mod output;
pub mod patch;
pub mod quads;
pub mod random;
pub mod recording;
pub mod shared_lists;
pub mod spots;
pub mod strip;
pub mod table;
pub mod tessellate;
pub mod text;
pub mod triangles;
pub mod verdict;
pub mod verdicts;
pub mod writer;

pub use clamps::Clamps;
pub use damage_mesh::{damaged_mesh, DamagedMesh};
pub use differences::{compare, Comparison, MeshFault, MeshRef};
pub use draw::{draw_indices, draw_points, IndicesAnswer, PointsAnswer};
pub use floats::{draw_with_floats, FloatsAnswer};
pub use level::Clamp;
pub use mesh_pairs::{random_pair, Pair};
pub use patch::{DomainOrigin, Patch, Settings, Spacing, VertexOrder};
pub use shared_lists::{Share, ShareAnswer, SharedList, State};
pub use tessellate::{measure, tessellate, Answer, Measure};
pub use verdict::{check_mesh, Verdict};
