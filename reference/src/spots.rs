//! Ask 13: spots inside a patch, each held by exactly one of its triangles.
//!
//! The triangles are gone through one by one, with the signed areas of the
//! section "The words of demand 3"; how strips are walked plays no part.

use std::fmt;

use crate::job::Version;
use crate::patch::{Patch, Settings};
use crate::random::{good_record, Random};
use crate::tessellate::{tessellate, Answer};

/// The most spots that one patch gets, and the fewest.
const SPOTS_A_PATCH: u64 = 32;
const SPOTS_A_LARGE_PATCH: u64 = 8;

/// How many pairs of a spot and a triangle one patch may come to before it gets
/// fewer spots.
const PAIRS_A_PATCH: u64 = 200_000;

/// The coordinates u and v of a vertex, or of any other place.
pub type Spot = [i64; 2];

/// A patch drawn as triangles: the corners of each, and whether twice their
/// areas are to be above zero.
#[derive(Clone, Debug, PartialEq, Eq)]
pub struct TriangleMesh {
    pub triangles: Vec<[Spot; 3]>,
    pub positive: bool,
}

/// Section "The words of demand 3": twice the signed area of P, Q, R.
fn twice_area([pu, pv]: Spot, [qu, qv]: Spot, [ru, rv]: Spot) -> i64 {
    (qu - pu) * (rv - pv) - (ru - pu) * (qv - pv)
}

/// Same section: the directed sides of a triangle.
fn sides([p, q, r]: [Spot; 3]) -> [[Spot; 2]; 3] {
    [[p, q], [q, r], [r, p]]
}

/// Ask 13, "holds": the areas of the spot with each side all have the sign of
/// the turn asked.
fn holds(triangle: [Spot; 3], positive: bool, spot: Spot) -> bool {
    sides(triangle).into_iter().all(|[p, q]| {
        let area = twice_area(p, q, spot);
        if positive {
            area > 0
        } else {
            area < 0
        }
    })
}

/// Ask 13: in line with both ends of a side, and between them in u and in v.
fn lies_on([p, q]: [Spot; 2], spot: Spot) -> bool {
    let between = |i: usize| p[i].min(q[i]) <= spot[i] && spot[i] <= p[i].max(q[i]);
    twice_area(p, q, spot) == 0 && between(0) && between(1)
}

/// Ask 13: whether a spot is strictly inside the patch. Isolines have no inside.
pub fn is_inside(patch: &Patch, [u, v]: Spot) -> bool {
    match patch {
        Patch::Triangles { .. } => u > 0 && v > 0 && 196_608 - u - v > 0,
        Patch::Quads { .. } => u > 0 && v > 0 && u < 65_536 && v < 65_536,
        Patch::Isolines { .. } => false,
    }
}

impl TriangleMesh {
    /// The triangles of a patch; `None` where it is not drawn as triangles.
    pub fn of(patch: &Patch, settings: &Settings) -> Option<TriangleMesh> {
        if settings.point_mode || matches!(patch, Patch::Isolines { .. }) {
            return None;
        }
        let Answer::Drawn { points, indices } = tessellate(patch, settings) else {
            return None;
        };
        let corner = |index: u32| {
            let [u, v, _] = points[index as usize];
            [i64::from(u), i64::from(v)]
        };
        Some(TriangleMesh {
            triangles: indices
                .chunks(3)
                .map(|three| [three[0], three[1], three[2]].map(corner))
                .collect(),
            positive: settings.area_is_positive(),
        })
    }

    /// How many triangles hold a spot.
    pub fn holders(&self, spot: Spot) -> usize {
        self.triangles
            .iter()
            .filter(|triangle| holds(**triangle, self.positive, spot))
            .count()
    }

    /// Whether a spot lies on a side of some triangle.
    pub fn has_on_a_side(&self, spot: Spot) -> bool {
        self.triangles
            .iter()
            .any(|triangle| sides(*triangle).into_iter().any(|side| lies_on(side, spot)))
    }
}

/// A place up to `reach` units off in u and in v.
fn near(random: &mut Random, [u, v]: Spot, reach: i64) -> Spot {
    let mut step = || random.below(2 * reach as u64 + 1) as i64 - reach;
    [u + step(), v + step()]
}

/// A place between the ends of a side, or the nearest whole coordinates below.
fn along(random: &mut Random, [p, q]: [Spot; 2]) -> Spot {
    let parts = random.below(1001) as i64;
    [0, 1].map(|i| p[i] + ((q[i] - p[i]) * parts).div_euclid(1000))
}

fn greatest_common_divisor(a: i64, b: i64) -> i64 {
    match b {
        0 => a,
        _ => greatest_common_divisor(b, a % b),
    }
}

/// A place exactly in line with a side and past either end of it.
fn beyond(random: &mut Random, [p, q]: [Spot; 2]) -> Spot {
    let [du, dv] = [q[0] - p[0], q[1] - p[1]];
    let pieces = greatest_common_divisor(du.abs(), dv.abs());
    let steps = match random.below(2) {
        0 => 1 + random.below(2) as i64,
        _ => 1 + random.below(pieces as u64) as i64,
    };
    let (u, v) = (du / pieces * steps, dv / pieces * steps);
    match random.below(2) {
        0 => [p[0] - u, p[1] - v],
        _ => [q[0] + u, q[1] + v],
    }
}

/// A place that may lie anywhere, next to a vertex, next to a side, in line with
/// a side, or in the middle of a triangle.
fn place(random: &mut Random, mesh: &TriangleMesh, one: u64) -> Spot {
    let triangle = mesh.triangles[random.below(mesh.triangles.len() as u64) as usize];
    let [p, q] = sides(triangle)[random.below(3) as usize];
    match random.below(8) {
        0 | 1 => [(); 2].map(|()| random.below(one) as i64),
        2 => near(random, p, 1),
        3 => near(random, p, 2),
        4 => near(random, [0, 1].map(|i| (p[i] + q[i]) / 2), 1),
        5 => {
            let place = along(random, [p, q]);
            near(random, place, 1)
        }
        6 => beyond(random, [p, q]),
        _ => {
            let [p, q, r] = triangle;
            near(random, [0, 1].map(|i| (p[i] + q[i] + r[i]) / 3), 1)
        }
    }
}

/// One of those places that is strictly inside the patch.
fn spot(random: &mut Random, patch: &Patch, mesh: &TriangleMesh) -> Spot {
    let one = match patch {
        Patch::Triangles { .. } => 196_608,
        _ => 65_536,
    };
    loop {
        let spot = place(random, mesh, one);
        if is_inside(patch, spot) {
            return spot;
        }
    }
}

/// A triangle or quad patch drawn as triangles, half of the time cut up to 64,
/// else to any top.
fn drawn_patch(random: &mut Random) -> (Patch, Settings, TriangleMesh) {
    let version = match random.below(2) {
        0 => Version::One,
        _ => Version::Two,
    };
    loop {
        let mut record = good_record(random, version);
        record.settings[4] = 0; // no point mode
        let Ok((patch, settings)) = record.decode() else {
            unreachable!("all settings are known");
        };
        if let Some(mesh) = TriangleMesh::of(&patch, &settings) {
            return (patch, settings, mesh);
        }
    }
}

/// How much was counted.
#[derive(Clone, Copy, Debug, Default, PartialEq, Eq)]
pub struct Summary {
    pub held_once: u64,
    pub on_a_side: u64,
    pub patches: u64,
}

impl fmt::Display for Summary {
    fn fmt(&self, out: &mut fmt::Formatter) -> fmt::Result {
        write!(
            out,
            "spots: {} held once, {} on a side, over {} patches",
            self.held_once, self.on_a_side, self.patches
        )
    }
}

/// A spot on no side that is held by no triangle, or by more than one.
#[derive(Clone, Copy, Debug, PartialEq, Eq)]
pub struct Fault {
    pub spot: Spot,
    pub holders: usize,
}

impl fmt::Display for Fault {
    fn fmt(&self, out: &mut fmt::Formatter) -> fmt::Result {
        let [u, v] = self.spot;
        write!(out, "spot {u} {v} is held by {} triangles", self.holders)
    }
}

/// Ask 13 for `count` random spots of one patch, whose mesh has at least one
/// triangle.
pub fn check_patch(
    random: &mut Random,
    patch: &Patch,
    mesh: &TriangleMesh,
    count: u64,
) -> Result<Summary, Fault> {
    let mut summary = Summary {
        patches: 1,
        ..Summary::default()
    };
    for _ in 0..count {
        let spot = spot(random, patch, mesh);
        if mesh.has_on_a_side(spot) {
            summary.on_a_side += 1;
            continue;
        }
        match mesh.holders(spot) {
            1 => summary.held_once += 1,
            holders => return Err(Fault { spot, holders }),
        }
    }
    Ok(summary)
}

/// Ask 13 for `count` random spots in all, over random patches; the largest of
/// them get few spots each. The first fault is told with its patch.
pub fn check(seed: u64, count: u64) -> Result<Summary, String> {
    let mut random = Random::new(seed);
    let mut total = Summary::default();
    let mut left = count;
    while left > 0 {
        let (patch, settings, mesh) = drawn_patch(&mut random);
        let share = (PAIRS_A_PATCH / mesh.triangles.len() as u64)
            .clamp(SPOTS_A_LARGE_PATCH, SPOTS_A_PATCH)
            .min(left);
        let some = check_patch(&mut random, &patch, &mesh, share)
            .map_err(|fault| format!("{fault} of {patch:?} with {settings:?}"))?;
        left -= share;
        total.held_once += some.held_once;
        total.on_a_side += some.on_a_side;
        total.patches += 1;
    }
    Ok(total)
}
