//! "Tessellator Vertex Winding Order": every triangle turns the way that vertex
//! order and domain origin ask for together.

use crate::drawn::{ensure, expect, triangle_meshes, Checked, Mesh, Point};
use reference::{DomainOrigin, VertexOrder};

/// The chapter's quantity a, in square units: twice the signed area.
pub fn twice_the_area([p, q, r]: [Point; 3]) -> i64 {
    let turn = |[u0, v0]: Point, [u1, v1]: Point| u0 * v1 - u1 * v0;
    turn(p, q) + turn(q, r) + turn(r, p)
}

/// The order of a triangle's vertices; `None` where they lie on one line.
fn order(triangle: [Point; 3], origin: DomainOrigin) -> Option<VertexOrder> {
    let a = twice_the_area(triangle);
    let counter_clockwise = match origin {
        DomainOrigin::UpperLeft => a < 0,
        DomainOrigin::LowerLeft => a > 0,
    };
    match (a, counter_clockwise) {
        (0, _) => None,
        (_, true) => Some(VertexOrder::CounterClockwise),
        (_, false) => Some(VertexOrder::Clockwise),
    }
}

pub fn check(mesh: &Mesh) -> Checked {
    for triangle in mesh.triangles() {
        let order = order(triangle, mesh.settings.domain_origin);
        ensure(order == Some(mesh.settings.vertex_order), || {
            format!("{triangle:?} turns {order:?}")
        })?;
    }
    Ok(())
}

#[test]
fn every_triangle_turns_the_way_asked_for() {
    for mesh in triangle_meshes(8, 6000) {
        expect(&mesh, check(&mesh));
    }
}

#[test]
fn orders_by_hand() {
    // A lower-left origin has v upwards: right, then up, is counter-clockwise.
    let triangle = [[0, 0], [1, 0], [0, 1]];
    let lower_left = order(triangle, DomainOrigin::LowerLeft);
    let upper_left = order(triangle, DomainOrigin::UpperLeft);
    assert_eq!(lower_left, Some(VertexOrder::CounterClockwise));
    assert_eq!(upper_left, Some(VertexOrder::Clockwise));
    let flat = [[0, 0], [1, 1], [2, 2]];
    assert_eq!(order(flat, DomainOrigin::LowerLeft), None);
}

#[test]
fn the_check_refuses_a_flipped_triangle_and_other_settings() {
    for good in triangle_meshes(9, 60) {
        let mut flipped = good.clone();
        flipped.primitives[0].swap(0, 1);
        assert!(check(&flipped).is_err());
        let mut flat = good.clone();
        flat.primitives[0][0] = flat.primitives[0][1];
        assert!(check(&flat).is_err());
        let mut turned = good.clone();
        turned.settings.domain_origin = match good.settings.domain_origin {
            DomainOrigin::UpperLeft => DomainOrigin::LowerLeft,
            DomainOrigin::LowerLeft => DomainOrigin::UpperLeft,
        };
        assert!(check(&turned).is_err());
        turned.settings.vertex_order = match good.settings.vertex_order {
            VertexOrder::Clockwise => VertexOrder::CounterClockwise,
            VertexOrder::CounterClockwise => VertexOrder::Clockwise,
        };
        expect(&turned, check(&turned));
    }
}
