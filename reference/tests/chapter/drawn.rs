//! Random patches, and their drawings by coordinates.

use reference::job::{Record, Version};
use reference::{random, tessellate};
use reference::{Answer, DomainOrigin, Patch, Settings, Spacing, VertexOrder};
use std::collections::HashSet;

pub const SPACINGS: [Spacing; 3] = [
    Spacing::Equal,
    Spacing::FractionalEven,
    Spacing::FractionalOdd,
];

/// Settings for patches made by hand.
pub fn settings(spacing: Spacing, top: u32) -> Settings {
    Settings {
        spacing,
        vertex_order: VertexOrder::CounterClockwise,
        domain_origin: DomainOrigin::LowerLeft,
        point_mode: false,
        top,
    }
}

/// The coordinates u and v, in whole units.
pub type Point = [i64; 2];

/// What one check found wrong, if anything.
pub type Checked = Result<(), String>;

/// A drawn patch: every primitive by the coordinates of its vertices.
#[derive(Clone, Debug)]
pub struct Mesh {
    pub patch: Patch,
    pub settings: Settings,
    pub primitives: Vec<Vec<Point>>,
}

/// The whole length of an edge: a coordinate of 1, in units.
pub fn unit(patch: &Patch) -> i64 {
    match patch {
        Patch::Triangles { .. } => 196_608,
        Patch::Quads { .. } | Patch::Isolines { .. } => 65_536,
    }
}

/// How many vertices a primitive has.
fn corners(patch: &Patch, settings: &Settings) -> usize {
    match patch {
        _ if settings.point_mode => 1,
        Patch::Isolines { .. } => 2,
        Patch::Triangles { .. } | Patch::Quads { .. } => 3,
    }
}

/// The drawing of a patch; `None` for a discarded one.
pub fn draw(patch: &Patch, settings: &Settings) -> Option<Mesh> {
    let Answer::Drawn { points, indices } = tessellate(patch, settings) else {
        return None;
    };
    let count = corners(patch, settings);
    assert!(indices.len().is_multiple_of(count));
    let vertex = |index: &u32| {
        let [u, v, _] = points[*index as usize];
        [i64::from(u), i64::from(v)]
    };
    let primitives = indices.chunks(count);
    Some(Mesh {
        patch: *patch,
        settings: *settings,
        primitives: primitives
            .map(|primitive| primitive.iter().map(vertex).collect())
            .collect(),
    })
}

/// The drawings of a patch with each spacing, up to a top of 16.
pub fn with_each_spacing(patch: &Patch) -> [Mesh; 3] {
    SPACINGS.map(|spacing| draw(patch, &settings(spacing, 16)).unwrap())
}

/// Random records with known settings, half of them with tops of their own.
pub fn records(seed: u64, count: u64) -> Vec<Record> {
    let mut records = Vec::new();
    for version in [Version::One, Version::Two] {
        let job = random::job(seed, count / 2, version);
        let bytes = &job[version.header().len()..];
        let all = bytes.chunks(version.record_length());
        records.extend(all.map(|record| Record::from_bytes(record, version)));
    }
    records.retain(|record| record.decode().is_ok());
    records
}

/// Random patches that are not discarded, drawn as lines or triangles.
pub fn meshes(seed: u64, count: u64) -> impl Iterator<Item = Mesh> {
    records(seed, count).into_iter().filter_map(|record| {
        let (patch, settings) = record.decode().unwrap();
        draw(&patch, &without_point_mode(&settings))
    })
}

/// Those of the random patches that are drawn as triangles.
pub fn triangle_meshes(seed: u64, count: u64) -> impl Iterator<Item = Mesh> {
    meshes(seed, count).filter(|mesh| !matches!(mesh.patch, Patch::Isolines { .. }))
}

pub fn without_point_mode(settings: &Settings) -> Settings {
    Settings {
        point_mode: false,
        ..*settings
    }
}

impl Mesh {
    pub fn unit(&self) -> i64 {
        unit(&self.patch)
    }

    /// The primitives of a mesh of triangles.
    pub fn triangles(&self) -> impl Iterator<Item = [Point; 3]> + '_ {
        let triangle = |p: &Vec<Point>| [p[0], p[1], p[2]];
        self.primitives.iter().map(triangle)
    }

    /// The points that are a vertex of some primitive, sorted, each once.
    pub fn vertices(&self) -> Vec<Point> {
        let mut vertices = self.primitives.concat();
        vertices.sort_unstable();
        vertices.dedup();
        vertices
    }

    /// Puts one vertex elsewhere, in every primitive it belongs to.
    pub fn move_vertex(&mut self, from: Point, to: Point) {
        let vertices = self.primitives.iter_mut().flatten();
        vertices
            .filter(|vertex| **vertex == from)
            .for_each(|vertex| *vertex = to);
    }

    /// The number of the triangle with a side from p to q, and its third vertex.
    fn triangle_at(&self, p: Point, q: Point) -> Option<(usize, Point)> {
        let third = |t: [Point; 3]| (0..3).find(|i| [t[*i], t[(i + 1) % 3]] == [p, q]);
        let mut triangles = self.triangles().enumerate();
        triangles.find_map(|(number, t)| third(t).map(|i| (number, t[(i + 2) % 3])))
    }

    /// Joins the two other vertices of the triangles at the side from p to q in its
    /// place; `None` where there are not two such triangles.
    pub fn with_side_flipped(&self, p: Point, q: Point) -> Option<Mesh> {
        let (left, r) = self.triangle_at(p, q)?;
        let (right, s) = self.triangle_at(q, p)?;
        let mut flipped = self.clone();
        flipped.primitives[left] = vec![r, p, s];
        flipped.primitives[right] = vec![s, q, r];
        Some(flipped)
    }
}

/// Panics at a fault, with the patch and its settings in front of it.
pub fn expect(mesh: &Mesh, checked: Checked) {
    if let Err(fault) = checked {
        panic!("{:?} {:?}: {fault}", mesh.patch, mesh.settings);
    }
}

/// An error with this text unless `holds`.
pub fn ensure(holds: bool, fault: impl Fn() -> String) -> Checked {
    if holds {
        Ok(())
    } else {
        Err(fault())
    }
}

#[test]
fn random_patches_have_all_settings_tops_and_sorts_of_levels() {
    let records = records(1, 4000);
    let settings: HashSet<[u8; 5]> = records.iter().map(|record| record.settings).collect();
    let tops: HashSet<u8> = records.iter().map(|record| record.top).collect();
    assert_eq!((settings.len(), tops.len()), (72, 32));
    let levels: Vec<(f32, f32)> = records
        .iter()
        .flat_map(|record| {
            record
                .levels
                .map(|bits| (f32::from_bits(bits), record.top.into()))
        })
        .collect();
    let sorts: [fn(f32, f32) -> bool; 8] = [
        |level, _| level.is_nan(),
        |level, _| level == f32::INFINITY,
        |level, _| level == f32::NEG_INFINITY,
        |level, _| level < 0.0,
        |level, _| level == 0.0,
        |level, _| level > 0.0 && level < 1e-30,
        |level, top| level > top && level.is_finite(),
        |level, top| level >= 1.0 && level < top && level.next_down().fract() == 0.0,
    ];
    for (number, sort) in sorts.iter().enumerate() {
        let count = levels.iter().filter(|(level, top)| sort(*level, *top));
        assert!(count.count() > 40, "sort {number}");
    }
}
