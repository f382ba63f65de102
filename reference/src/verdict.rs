//! Ask 5: checks a mesh that somebody else cut from a patch.

use std::collections::{HashMap, HashSet};
use std::fmt;

use crate::edge::LENGTH;
use crate::outline::outline;
use crate::patch::{is_top, Patch, Settings};
use crate::triangles::S;

/// Ask 5, and Ask 10 for the top: accepted, or the first kind of fault in the
/// order of the variants. Points, triangles and entries count from 0.
#[derive(Clone, Copy, Debug, PartialEq, Eq)]
pub enum Verdict {
    Accepted,
    BadTop,
    Isolines,
    Dots,
    ShouldBeDiscarded,
    NotThrees,
    /// The lowest place in the index list that names no point.
    UnknownIndex {
        place: usize,
    },
    Outside {
        point: usize,
    },
    /// The lowest point that has an equal one before it, and the lowest of these.
    EqualPoints {
        first: usize,
        second: usize,
    },
    Turned {
        triangle: usize,
    },
    /// The lowest triangle with a directed side of one before it, and the lowest
    /// of these.
    SideTwice {
        first: usize,
        second: usize,
    },
    /// Corner 0 stands for the side from first to second corner, 1 and 2 for the
    /// next ones.
    OpenSide {
        triangle: usize,
        corner: usize,
    },
    /// Piece k goes from outline point k to the next one, or back.
    MissingPiece {
        piece: usize,
    },
}

impl fmt::Display for Verdict {
    fn fmt(&self, out: &mut fmt::Formatter) -> fmt::Result {
        match self {
            Verdict::Accepted => write!(out, "accepted"),
            Verdict::BadTop => write!(out, "bad top"),
            Verdict::Isolines => write!(out, "isolines"),
            Verdict::Dots => write!(out, "dots"),
            Verdict::ShouldBeDiscarded => write!(out, "should be discarded"),
            Verdict::NotThrees => write!(out, "not threes"),
            Verdict::UnknownIndex { place } => write!(out, "unknown index at place {place}"),
            Verdict::Outside { point } => write!(out, "point {point} outside"),
            Verdict::EqualPoints { first, second } => {
                write!(out, "points {first} and {second} equal")
            }
            Verdict::Turned { triangle } => write!(out, "triangle {triangle} turned"),
            Verdict::SideTwice { first, second } => {
                write!(out, "triangles {first} and {second} with a common side")
            }
            Verdict::OpenSide { triangle, corner } => {
                write!(out, "triangle {triangle} with side {corner} open")
            }
            Verdict::MissingPiece { piece } => write!(out, "piece {piece} missing"),
        }
    }
}

/// A directed side by the numbers of its ends. Sides are compared only once no
/// two points are equal, so that numbers tell as much as coordinates.
type Side = (u16, u16);

/// Ask 5: the verdict on points and triangle indices for a patch.
pub fn check_mesh(patch: &Patch, settings: &Settings, points: &[u32], indices: &[u16]) -> Verdict {
    match find_fault(patch, settings, points, indices) {
        Ok(()) => Verdict::Accepted,
        Err(fault) => fault,
    }
}

/// The faults in their order; each step may count on the ones before it.
fn find_fault(
    patch: &Patch,
    settings: &Settings,
    points: &[u32],
    indices: &[u16],
) -> Result<(), Verdict> {
    if !is_top(settings.top) {
        return Err(Verdict::BadTop);
    }
    if matches!(patch, Patch::Isolines { .. }) {
        return Err(Verdict::Isolines);
    }
    if settings.point_mode {
        return Err(Verdict::Dots);
    }
    if patch.is_discarded() {
        return if points.is_empty() && indices.is_empty() {
            Ok(())
        } else {
            Err(Verdict::ShouldBeDiscarded)
        };
    }
    let ((points, []), (triangles, [])) = (points.as_chunks::<3>(), indices.as_chunks::<3>())
    else {
        return Err(Verdict::NotThrees);
    };
    if let Some(place) = indices.iter().position(|i| usize::from(*i) >= points.len()) {
        return Err(Verdict::UnknownIndex { place });
    }
    if let Some(point) = points.iter().position(|point| !is_inside(patch, *point)) {
        return Err(Verdict::Outside { point });
    }
    let number_of = find_equal_points(points)?;
    let turned = |corners: &[u16; 3]| !turns_as_asked(settings, points, *corners);
    if let Some(triangle) = triangles.iter().position(turned) {
        return Err(Verdict::Turned { triangle });
    }
    let sides = find_side_twice(triangles)?;

    let pieces = pieces(patch, settings, &number_of);
    let closed: HashSet<Side> = pieces.iter().flatten().copied().collect();
    for (triangle, corners) in triangles.iter().enumerate() {
        for (corner, side) in sides_of(*corners).into_iter().enumerate() {
            if !sides.contains_key(&(side.1, side.0)) && !closed.contains(&side) {
                return Err(Verdict::OpenSide { triangle, corner });
            }
        }
    }
    let missing = |piece: &Option<Side>| piece.is_none_or(|side| !sides.contains_key(&side));
    match pieces.iter().position(missing) {
        Some(piece) => Err(Verdict::MissingPiece { piece }),
        None => Ok(()),
    }
}

/// Ask 5: a sum of 196,608 for triangles; two numbers up to 65,536, then 0, for
/// quads. The sum is taken in u64, which no three u32 can overflow.
fn is_inside(patch: &Patch, [u, v, w]: [u32; 3]) -> bool {
    match patch {
        Patch::Triangles { .. } => {
            [u, v, w].into_iter().map(u64::from).sum::<u64>() == u64::from(S)
        }
        _ => u <= LENGTH && v <= LENGTH && w == 0,
    }
}

/// The number of every point by its coordinates, or the two equal points.
fn find_equal_points(points: &[[u32; 3]]) -> Result<HashMap<[u32; 3], usize>, Verdict> {
    let mut number_of = HashMap::with_capacity(points.len());
    for (second, point) in points.iter().enumerate() {
        if let Some(first) = number_of.insert(*point, second) {
            return Err(Verdict::EqualPoints { first, second });
        }
    }
    Ok(number_of)
}

/// Section "The words of demand 3": twice the signed area is not zero and has
/// the sign asked for. All points are inside the patch.
fn turns_as_asked(settings: &Settings, points: &[[u32; 3]], corners: [u16; 3]) -> bool {
    let [[up, vp], [uq, vq], [ur, vr]] = corners.map(|corner| {
        let [u, v, _] = points[usize::from(corner)];
        [i64::from(u), i64::from(v)]
    });
    let area = (uq - up) * (vr - vp) - (ur - up) * (vq - vp);
    if settings.area_is_positive() {
        area > 0
    } else {
        area < 0
    }
}

/// Section "The words of demand 3": the directed sides of a triangle.
fn sides_of([p, q, r]: [u16; 3]) -> [Side; 3] {
    [(p, q), (q, r), (r, p)]
}

/// The triangle of every directed side, or the two triangles with a common one.
/// A triangle may share sides with several before it, each with another one.
fn find_side_twice(triangles: &[[u16; 3]]) -> Result<HashMap<Side, usize>, Verdict> {
    let mut sides = HashMap::with_capacity(3 * triangles.len());
    for (second, corners) in triangles.iter().enumerate() {
        let earlier = sides_of(*corners).map(|side| sides.insert(side, second));
        if let Some(first) = earlier.into_iter().flatten().min() {
            return Err(Verdict::SideTwice { first, second });
        }
    }
    Ok(sides)
}

/// Section "The words of demand 3": the pieces of the outline as directed sides.
/// `None` is a piece whose ends are not both points that an index can name.
fn pieces(
    patch: &Patch,
    settings: &Settings,
    number_of: &HashMap<[u32; 3], usize>,
) -> Vec<Option<Side>> {
    let numbers: Vec<Option<u16>> = outline(patch, settings)
        .iter()
        .map(|point| u16::try_from(*number_of.get(point)?).ok())
        .collect();
    let piece = |k: usize| {
        let (from, to) = (numbers[k]?, numbers[(k + 1) % numbers.len()]?);
        Some(if settings.area_is_positive() {
            (from, to)
        } else {
            (to, from)
        })
    };
    (0..numbers.len()).map(piece).collect()
}
