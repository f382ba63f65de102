//! Draws one triangle patch and prints it, measures it and one with clamped levels at two tops, draws points again over
//! indices that are kept, and meets the answers that are no drawing.

use yoktvarim::{
    draw_indices, draw_points, measure, DomainOrigin, IndicesAnswer, Patch, PointsAnswer, Settings,
    Size, Spacing, VertexOrder, GREATEST_TOP,
};

/// Draws the points into the list, and prints what came of it: a line a point.
fn show_points(patch: &Patch, settings: &Settings, vertices: &mut [u32]) {
    match draw_points(patch, settings, vertices) {
        PointsAnswer::Drawn { points } => {
            println!("points {points}");
            for point in vertices.chunks(3).take(points as usize) {
                println!("{} {} {}", point[0], point[1], point[2]);
            }
        }
        PointsAnswer::BadTop => println!("bad top"),
        PointsAnswer::Discarded => println!("discarded"),
        PointsAnswer::NoRoomForVertices => println!("no room for vertices"),
    }
}

/// Draws the indices into the list, and prints what came of it: a line a triangle.
fn show_indices(patch: &Patch, settings: &Settings, indices: &mut [u16]) {
    match draw_indices(patch, settings, indices) {
        IndicesAnswer::Drawn { indices: count } => {
            println!("indices {count}");
            for triangle in indices[..count as usize].chunks(3) {
                println!("{} {} {}", triangle[0], triangle[1], triangle[2]);
            }
        }
        IndicesAnswer::BadTop => println!("bad top"),
        IndicesAnswer::Discarded => println!("discarded"),
        IndicesAnswer::NoRoomForIndices => println!("no room for indices"),
    }
}

/// Measures, and prints the counts and where each level lies; the counts, or `None` where it was not measured.
fn show_size(patch: &Patch, settings: &Settings) -> Option<(usize, usize)> {
    let Size::Counts {
        points,
        indices,
        clamps,
    } = measure(patch, settings)
    else {
        return None;
    };
    println!("measured {points} {indices}");
    println!("{clamps:?}");
    Some((points as usize, indices as usize))
}

/// Draws the indices once, and the points again for each place of a slider that moves the inner level: with odd spacing
/// every level above 1 and up to 3 gives three segments, so the indices stay what they were.
fn slide(settings: &Settings, vertices: &mut [u32], indices: &mut [u16]) {
    let settings = Settings {
        spacing: Spacing::FractionalOdd,
        ..*settings
    };
    let at = |inner| Patch::Triangles {
        outer: [1.0, 1.0, 1.0],
        inner,
    };
    println!("kept: {:?}", draw_indices(&at(1.5), &settings, indices));
    for inner in [1.5, 2.0, 2.5, 3.0] {
        let PointsAnswer::Drawn { points } = draw_points(&at(inner), &settings, vertices) else {
            panic!("not discarded, and there is room");
        };
        let last = &vertices[3 * (points as usize - 1)..][..3];
        println!("inner {inner:.1}: last point {last:?}");
    }
}

fn main() {
    let patch = Patch::Triangles {
        outer: [1.0, 1.0, 1.0],
        inner: 2.0,
    };
    let settings = Settings {
        spacing: Spacing::Equal,
        vertex_order: VertexOrder::CounterClockwise,
        domain_origin: DomainOrigin::LowerLeft,
        point_mode: false,
        top: GREATEST_TOP,
    };

    // Lists of these sizes have room for every patch.
    let mut vertices = vec![0; yoktvarim::VERTEX_WORDS];
    let mut indices = vec![0; yoktvarim::INDEX_WORDS];
    show_points(&patch, &settings, &mut vertices);
    show_indices(&patch, &settings, &mut indices);

    // Measuring says how much room one patch needs; a word less is refused.
    let (points, count) = show_size(&patch, &settings).expect("not discarded");
    show_points(&patch, &settings, &mut vertices[..3 * points - 1]);
    show_indices(&patch, &settings, &mut indices[..count - 1]);

    // It also says which levels lie outside 1 to 64, the range of equal spacing: 0.5 counts as 1, and 100 as 64.
    let clamped = Patch::Triangles {
        outer: [0.5, 64.0, 100.0],
        inner: 2.0,
    };
    show_size(&clamped, &settings).expect("not discarded");

    // With the top 16 that range is 1 to 16, and 64 counts as 16 too.
    let up_to_16 = Settings {
        top: 16,
        ..settings
    };
    show_size(&clamped, &up_to_16).expect("not discarded");

    slide(&settings, &mut vertices, &mut indices);

    let discarded = Patch::Triangles {
        outer: [1.0, 0.0, 1.0],
        inner: 2.0,
    };
    show_points(&discarded, &settings, &mut vertices);

    // A top is an even number from 2 to 64; any other is reported before everything else, here that the patch is discarded.
    let bad = Settings {
        top: 15,
        ..settings
    };
    show_indices(&discarded, &bad, &mut indices);
}
