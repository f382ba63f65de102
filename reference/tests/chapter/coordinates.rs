//! "Tessellator": what the coordinates of a vertex may be.

use crate::drawn::{ensure, records, unit, Checked};
use reference::{tessellate, Answer, Patch};

/// Coordinates from 0 to 1; three that add up to 1 for triangles.
fn check(patch: &Patch, [u, v, w]: [u32; 3]) -> Checked {
    let [u, v, w] = [u, v, w].map(i64::from);
    let unit = unit(patch);
    let good = match patch {
        Patch::Triangles { .. } => u + v + w == unit,
        Patch::Quads { .. } | Patch::Isolines { .. } => u <= unit && v <= unit,
    };
    ensure(good, || format!("{u} {v} {w}"))
}

#[test]
fn coordinates_lie_in_the_domain() {
    for record in records(7, 2000) {
        let (patch, settings) = record.decode().unwrap();
        if let Answer::Drawn { points, .. } = tessellate(&patch, &settings) {
            for point in points {
                assert_eq!(check(&patch, point), Ok(()), "{patch:?}");
            }
        }
    }
}

#[test]
fn the_check_refuses_points_outside() {
    let triangles = Patch::Triangles {
        outer: [1.0; 3],
        inner: 1.0,
    };
    let isolines = Patch::Isolines { outer: [1.0; 2] };
    assert!(check(&triangles, [65_536, 65_536, 65_536]).is_ok());
    assert!(check(&triangles, [65_536, 65_536, 65_537]).is_err());
    assert!(check(&isolines, [65_536, 65_536, 0]).is_ok());
    assert!(check(&isolines, [65_537, 0, 0]).is_err());
}
