//! Drawing into lists of the right size.

use crate::draw::{draw_indices, draw_points, IndicesAnswer, PointsAnswer};
use crate::measure::{measure, Size};
use crate::patch::{Patch, Settings};
use std::error::Error;
use std::fmt::{self, Display, Formatter};

/// What drawing a patch wrote.
#[derive(Clone, Debug, PartialEq, Eq)]
pub struct Mesh {
    /// u, v and w of each point.
    pub points: Vec<[u32; 3]>,
    /// Three to a triangle, two to a line, one to a dot.
    pub indices: Vec<u16>,
}

/// What [`mesh()`] says to a top that is not an even number from 2 to 64, together with that number.
#[derive(Clone, Copy, Debug, PartialEq, Eq)]
pub struct BadTop(pub u8);

impl Display for BadTop {
    fn fmt(&self, f: &mut Formatter<'_>) -> fmt::Result {
        write!(f, "the top {} is not an even number from 2 to 64", self.0)
    }
}

impl Error for BadTop {}

/// The mesh of a patch, or `None` where the patch is discarded, which is no error: the rules ask for it. A bad top is one,
/// whether or not the patch would be discarded.
///
/// ```
/// use yoktvarim::{mesh, BadTop, Patch, Settings};
///
/// let away = Patch::Isolines { outer: [0.0, 1.0] };
/// assert_eq!(mesh(&away, &Settings::default()), Ok(None));
/// assert_eq!(mesh(&away, &Settings { top: 7, ..Settings::default() }), Err(BadTop(7)));
/// ```
pub fn mesh(patch: &Patch, settings: &Settings) -> Result<Option<Mesh>, BadTop> {
    match measure(patch, settings) {
        Size::Counts {
            points, indices, ..
        } => Ok(Some(drawn(patch, settings, points, indices))),
        Size::BadTop => Err(BadTop(settings.top)),
        Size::Discarded => Ok(None),
    }
}

/// The mesh of a patch that was measured to have this many points and indices.
fn drawn(patch: &Patch, settings: &Settings, points: u32, indices: u32) -> Mesh {
    let mut mesh = Mesh {
        points: vec![[0; 3]; points as usize],
        indices: vec![0; indices as usize],
    };
    let answers = (
        draw_points(patch, settings, mesh.points.as_flattened_mut()),
        draw_indices(patch, settings, &mut mesh.indices),
    );
    match answers {
        (PointsAnswer::Drawn { .. }, IndicesAnswer::Drawn { .. }) => mesh,
        other => unreachable!("a measured patch is drawn where it has room: {other:?}"),
    }
}
