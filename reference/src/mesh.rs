//! What the three kinds build: points, and triangles or lines over them.

/// Points as three whole coordinates, and the primitives as drawn without
/// point mode.
#[derive(Clone, Debug, PartialEq, Eq)]
pub struct Mesh {
    pub points: Vec<[u32; 3]>,
    pub primitives: Primitives,
}

#[derive(Clone, Debug, PartialEq, Eq)]
pub enum Primitives {
    Triangles(Vec<[u32; 3]>),
    Lines(Vec<[u32; 2]>),
}

/// Sections "Triangles" and "Quads", order of points: on a closed line each
/// corner is listed once, with the edge that starts there. `counts` holds the
/// number of points listed per edge, `first` the index of the very first one.
/// The answer holds each edge's indices from corner to corner.
pub fn closed_walk(first: u32, counts: &[u32]) -> Vec<Vec<u32>> {
    let total: u32 = counts.iter().sum();
    let mut start = 0;
    let mut walks = Vec::new();
    for count in counts {
        walks.push((start..=start + count).map(|i| first + i % total).collect());
        start += count;
    }
    walks
}
