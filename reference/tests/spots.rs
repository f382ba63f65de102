//! Ask 13: every spot in exactly one triangle, and a counter that finds faults.

use reference::random::Random;
use reference::spots::{check, check_patch, is_inside, Fault, Spot, TriangleMesh};
use reference::*;

fn settings(vertex_order: VertexOrder) -> Settings {
    Settings {
        spacing: Spacing::FractionalOdd,
        vertex_order,
        domain_origin: DomainOrigin::LowerLeft,
        point_mode: false,
        top: 16,
    }
}

/// Both kinds in both turns, with more than ten triangles each.
fn meshes() -> Vec<(Patch, TriangleMesh)> {
    let triangles = Patch::Triangles {
        outer: [1.0, 3.5, 5.0],
        inner: 4.5,
    };
    let quads = Patch::Quads {
        outer: [1.0, 2.5, 3.0, 16.0],
        inner: [3.0, 4.5],
    };
    let mut meshes = Vec::new();
    for patch in [triangles, quads] {
        for order in [VertexOrder::Clockwise, VertexOrder::CounterClockwise] {
            let mesh = TriangleMesh::of(&patch, &settings(order)).unwrap();
            assert!(mesh.triangles.len() > 10);
            meshes.push((patch, mesh));
        }
    }
    meshes
}

/// The whole coordinates at the middle of a triangle.
fn middle(triangle: [Spot; 3]) -> Spot {
    [0, 1].map(|i| triangle.iter().map(|corner| corner[i]).sum::<i64>() / 3)
}

#[test]
fn random_spots_are_held_once() {
    for seed in 0..4 {
        let summary = check(seed, 5000).unwrap();
        assert_eq!(summary.held_once + summary.on_a_side, 5000);
        assert!(summary.held_once > 3000, "{summary}");
        assert!(summary.on_a_side > 300, "{summary}");
        assert!(summary.patches > 50, "{summary}");
    }
}

#[test]
fn what_the_summary_says() {
    let summary = check(1, 0).unwrap().to_string();
    assert_eq!(summary, "spots: 0 held once, 0 on a side, over 0 patches");
}

#[test]
fn spots_by_hand() {
    // Two triangles over a square of 65,536 units, by the plain patch.
    let patch = Patch::Quads {
        outer: [1.0; 4],
        inner: [1.0; 2],
    };
    let order = VertexOrder::CounterClockwise;
    let mesh = TriangleMesh::of(&patch, &settings(order)).unwrap();
    assert_eq!(mesh.triangles.len(), 2);
    // The diagonal runs from (0, 1) to (1, 0).
    for ([u, v], on_a_side, holders) in [
        ([1, 1], false, 1),
        ([1, 65_535], true, 0),
        ([1, 65_534], false, 1),
        ([2, 65_535], false, 1),
        ([32_768, 32_768], true, 0),
        ([32_768, 32_769], false, 1),
        // In line with the diagonal past its end, and past the side u = 0.
        ([-1, 65_537], false, 0),
        ([0, 65_537], false, 0),
        ([0, 65_536], true, 0),
    ] {
        assert_eq!(mesh.has_on_a_side([u, v]), on_a_side, "{u} {v}");
        assert_eq!(mesh.holders([u, v]), holders, "{u} {v}");
    }
    for (spot, inside) in [
        ([0, 1], false),
        ([1, 0], false),
        ([1, 1], true),
        ([65_535, 65_535], true),
        ([65_535, 65_536], false),
        ([65_536, 65_535], false),
    ] {
        assert_eq!(is_inside(&patch, spot), inside, "{spot:?}");
    }
    let triangles = Patch::Triangles {
        outer: [1.0; 3],
        inner: 1.0,
    };
    for (spot, inside) in [
        ([1, 196_606], true),
        ([1, 196_607], false),
        ([0, 1], false),
        ([1, 0], false),
    ] {
        assert_eq!(is_inside(&triangles, spot), inside, "{spot:?}");
    }
}

#[test]
fn other_patches_have_no_triangle_mesh() {
    let settings = settings(VertexOrder::Clockwise);
    let isolines = Patch::Isolines { outer: [1.0; 2] };
    assert_eq!(TriangleMesh::of(&isolines, &settings), None);
    let triangles = |level: f32| Patch::Triangles {
        outer: [level; 3],
        inner: 1.0,
    };
    assert_eq!(TriangleMesh::of(&triangles(0.0), &settings), None);
    let points = Settings {
        point_mode: true,
        ..settings
    };
    assert_eq!(TriangleMesh::of(&triangles(1.0), &points), None);
    let bad_top = Settings { top: 3, ..settings };
    assert_eq!(TriangleMesh::of(&triangles(1.0), &bad_top), None);
}

/// Breaks each triangle of each mesh in turn; its middle is then held by as many
/// triangles as `holders` says, and random spots come upon the fault.
fn finds(holders: usize, break_at: fn(&mut TriangleMesh, usize)) {
    for (patch, good) in meshes() {
        for number in 0..good.triangles.len() {
            let mut broken = good.clone();
            break_at(&mut broken, number);
            let spot = middle(good.triangles[number]);
            assert_eq!(good.holders(spot), 1);
            assert_eq!(broken.holders(spot), holders);

            let mut random = Random::new(number as u64);
            assert!(check_patch(&mut random, &patch, &good, 2000).is_ok());
            let fault = check_patch(&mut random, &patch, &broken, 20_000).unwrap_err();
            let Fault { spot, holders: h } = fault;
            assert_eq!(h, holders, "{fault}");
            assert!(is_inside(&patch, spot) && !broken.has_on_a_side(spot));
        }
    }
}

#[test]
fn a_triangle_left_out_is_found() {
    finds(0, |mesh, number| {
        mesh.triangles.remove(number);
    });
}

#[test]
fn a_doubled_triangle_is_found() {
    finds(2, |mesh, number| {
        let [p, q, r] = mesh.triangles[number];
        mesh.triangles.push([q, r, p]);
    });
}

#[test]
fn a_flipped_triangle_is_found() {
    finds(0, |mesh, number| mesh.triangles[number].swap(1, 2));
}

/// One corner of a single triangle put elsewhere, so that it covers some of its
/// neighbours or leaves some of its own area open.
#[test]
fn a_moved_corner_is_found() {
    for (patch, mut mesh) in meshes() {
        let [u, v] = mesh.triangles[3][0];
        mesh.triangles[3][0] = [u + 900, v + 700];
        let mut random = Random::new(9);
        let fault = check_patch(&mut random, &patch, &mesh, 20_000).unwrap_err();
        assert_ne!(fault.holders, 1);
    }
}
