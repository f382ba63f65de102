//! Checking a mesh that anybody made for a patch.

use crate::patch::{setting_bytes, six_levels, Patch, Settings};
use std::fmt::{self, Display, Formatter};

pub use crate::raw::{check_numbered, Checked};

/// What [`check_mesh`] says: `Accepted`, or the first kind of fault in the order of the variants, at its first place. Points,
/// indices, triangles, a triangle's corners and the outline's pieces are numbered from 0.
#[must_use = "only `Accepted` means that the mesh covers its patch"]
#[derive(Clone, Copy, Debug, PartialEq, Eq)]
pub enum Verdict {
    /// None of the faults is there: the mesh has no hole, no overlap and no turned triangle. For a patch that is discarded:
    /// both lists are empty.
    Accepted,
    /// The top is not an even number from 2 to 64.
    BadTop,
    /// Isolines have no triangles.
    Isolines,
    /// Nor have patches in point mode.
    Dots,
    /// The patch is discarded, and a list is not empty.
    ShouldBeDiscarded,
    /// The words of the points or the number of indices is no multiple of three.
    NotThrees,
    /// The index at this place of the list is no point's number.
    UnknownIndex { place: u64 },
    /// This point lies outside the patch.
    Outside { point: u64 },
    /// These two points are equal.
    EqualPoints { first: u64, second: u64 },
    /// This triangle has no area, or turns the wrong way.
    Turned { triangle: u64 },
    /// These two triangles have a directed side in common.
    SideTwice { first: u64, second: u64 },
    /// The side that starts at this corner, 0 to 2, of this triangle has no reverse and is no piece of the outline.
    OpenSide { triangle: u64, corner: u64 },
    /// This piece of the outline, counted along the walk, is no side of a triangle.
    MissingPiece { piece: u64 },
}

impl Verdict {
    /// The verdict of a number and its places as [`check_numbered`] gives them; `None` for 8, an unknown setting, and for what
    /// is no number of an answer.
    pub fn of_number(number: u32, [first, second]: [u64; 2]) -> Option<Self> {
        Some(match number {
            0 => Verdict::Accepted,
            11 => Verdict::BadTop,
            20 => Verdict::Isolines,
            21 => Verdict::Dots,
            22 => Verdict::ShouldBeDiscarded,
            23 => Verdict::NotThrees,
            24 => Verdict::UnknownIndex { place: first },
            25 => Verdict::Outside { point: first },
            26 => Verdict::EqualPoints { first, second },
            27 => Verdict::Turned { triangle: first },
            28 => Verdict::SideTwice { first, second },
            29 => Verdict::OpenSide {
                triangle: first,
                corner: second,
            },
            30 => Verdict::MissingPiece { piece: first },
            _ => return None,
        })
    }

    #[must_use]
    pub fn is_accepted(self) -> bool {
        self == Verdict::Accepted
    }
}

/// In words, with the place: `point 3 lies outside the patch`.
impl Display for Verdict {
    fn fmt(&self, f: &mut Formatter<'_>) -> fmt::Result {
        match self {
            Verdict::Accepted => write!(f, "accepted"),
            Verdict::BadTop => write!(f, "the top is not an even number from 2 to 64"),
            Verdict::Isolines => write!(f, "isolines have no triangles to check"),
            Verdict::Dots => write!(f, "dots have no triangles to check"),
            Verdict::ShouldBeDiscarded => {
                write!(f, "the patch is discarded, so that both lists should be empty")
            }
            Verdict::NotThrees => {
                write!(f, "the words of the points or the indices are no multiple of three")
            }
            Verdict::UnknownIndex { place } => write!(f, "the index at place {place} is past the points"),
            Verdict::Outside { point } => write!(f, "point {point} lies outside the patch"),
            Verdict::EqualPoints { first, second } => {
                write!(f, "points {first} and {second} are equal")
            }
            Verdict::Turned { triangle } => {
                write!(f, "triangle {triangle} has no area or turns the wrong way")
            }
            Verdict::SideTwice { first, second } => {
                write!(f, "triangles {first} and {second} have a directed side in common")
            }
            Verdict::OpenSide { triangle, corner } => write!(
                f,
                "the side of triangle {triangle} from corner {corner} has no reverse and is no piece of the outline"
            ),
            Verdict::MissingPiece { piece } => {
                write!(f, "piece {piece} of the outline is no side of a triangle")
            }
        }
    }
}

/// Whether points, three words each, and triangle indices are a right mesh of the patch, whoever made them. Lists of any
/// length and content may be given.
///
/// `Accepted` says as much as of our own meshes: every piece of the outline is a side once, every other side meets its
/// reverse, all triangles turn the way asked, and each spot inside that lies on no side is in exactly one of them. Other
/// points inside the patch and other triangles than ours are allowed; the points on its edges are not free.
///
/// ```
/// use yoktvarim::{check_mesh, Patch, Settings, Verdict};
///
/// let patch = Patch::Triangles { outer: [1.0; 3], inner: 1.0 };
/// let settings = Settings::default();
/// let corners = [0, 196_608, 0, 0, 0, 196_608, 196_608, 0, 0];
/// assert_eq!(check_mesh(&patch, &settings, &corners, &[0, 1, 2]), Verdict::Accepted);
///
/// // Begun at another corner it is the same triangle; turned over it is not.
/// assert!(check_mesh(&patch, &settings, &corners, &[1, 2, 0]).is_accepted());
/// let turned = check_mesh(&patch, &settings, &corners, &[0, 2, 1]);
/// assert_eq!(turned, Verdict::Turned { triangle: 0 });
/// assert_eq!(turned.to_string(), "triangle 0 has no area or turns the wrong way");
/// ```
pub fn check_mesh(patch: &Patch, settings: &Settings, points: &[u32], indices: &[u16]) -> Verdict {
    let Checked { number, places } = check_numbered(
        &setting_bytes(patch, settings),
        &six_levels(patch),
        points,
        indices,
    );
    Verdict::of_number(number, places)
        .unwrap_or_else(|| unreachable!("every setting is known, so the answer is not {number}"))
}
