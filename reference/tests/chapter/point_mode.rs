//! "Tessellation Point Mode": one point for each vertex.

use crate::drawn::{draw, ensure, expect, records, without_point_mode, Checked, Mesh, Point};
use reference::Settings;

/// Points that are the vertices of `primitives`, each once.
fn check(points: &Mesh, primitives: &Mesh) -> Checked {
    let mut drawn: Vec<Point> = points.primitives.concat();
    drawn.sort_unstable();
    ensure(drawn == primitives.vertices(), || {
        format!(
            "{} points for {} vertices",
            drawn.len(),
            primitives.vertices().len()
        )
    })
}

/// Random patches drawn as points and as lines or triangles.
fn pairs(seed: u64, count: u64) -> impl Iterator<Item = (Mesh, Mesh)> {
    records(seed, count).into_iter().filter_map(|record| {
        let (patch, settings) = record.decode().unwrap();
        let primitives = without_point_mode(&settings);
        let points = Settings {
            point_mode: true,
            ..settings
        };
        Some((draw(&patch, &points)?, draw(&patch, &primitives)?))
    })
}

#[test]
fn point_mode_draws_every_vertex_once() {
    for (points, primitives) in pairs(17, 8000) {
        expect(&points, check(&points, &primitives));
    }
}

#[test]
fn the_check_refuses_a_point_doubled_left_out_or_elsewhere() {
    for (good, primitives) in pairs(18, 200) {
        let mut doubled = good.clone();
        doubled.primitives.push(good.primitives[0].clone());
        assert!(check(&doubled, &primitives).is_err());
        let mut left_out = good.clone();
        left_out.primitives.pop();
        assert!(check(&left_out, &primitives).is_err());
        let mut moved = good.clone();
        moved.primitives[0][0][0] += 1;
        assert!(check(&moved, &primitives).is_err());
    }
}
