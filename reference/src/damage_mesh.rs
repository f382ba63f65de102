//! Seeded pseudo random meshes for Ask 5, drawn and then changed.

use std::iter::repeat_n;

use crate::edge::LENGTH;
use crate::job::Version;
use crate::patch::{is_top, DomainOrigin, Patch, Settings, Spacing, VertexOrder, GREATEST_TOP};
use crate::random::{good_record, spoil, Random};
use crate::tessellate::{tessellate, Answer};
use crate::triangles::S;

/// A patch with its settings, and a mesh that may be one of it or not.
#[derive(Clone, Debug)]
pub struct DamagedMesh {
    pub patch: Patch,
    pub settings: Settings,
    pub points: Vec<u32>,
    pub indices: Vec<u16>,
}

pub(crate) type Damage = fn(&mut Random, &mut DamagedMesh);

/// The single sorts of damage. Some leave a mesh that is still to be accepted.
const SINGLE: [Damage; 22] = [
    change_index,
    set_index_past_points,
    drop_triangle,
    repeat_triangle,
    flip_triangle,
    rotate_corners,
    merge_points,
    move_outside,
    move_along_outline,
    move_inside,
    change_levels,
    change_settings,
    truncate,
    set_random_words,
    empty_one_list,
    empty_both_lists,
    permute_points,
    permute_triangles,
    add_unused_point,
    split_triangle,
    change_diagonal,
    add_words,
];

/// How many sorts there are: none, the single ones, several at once.
pub const MESH_DAMAGES: u64 = SINGLE.len() as u64 + 2;

/// One mesh. The sort of damage is `number` modulo the number of sorts;
/// everything else comes from both numbers together.
pub fn damaged_mesh(seed: u64, number: u64) -> DamagedMesh {
    let mixed_seed = Random::new(seed).next() ^ Random::new(!number).next();
    let mut random = Random::new(mixed_seed);
    let mut mesh = drawn(&mut random);
    match number % MESH_DAMAGES {
        0 => {}
        sort if sort < MESH_DAMAGES - 1 => {
            apply(&mut random, &mut mesh, SINGLE[sort as usize - 1]);
        }
        _ => {
            for _ in 0..2 + random.below(2) {
                let damage = SINGLE[place(&mut random, SINGLE.len())];
                apply(&mut random, &mut mesh, damage);
            }
        }
    }
    mesh
}

/// Lists without a whole point or a whole triangle stay as they are.
fn apply(random: &mut Random, mesh: &mut DamagedMesh, damage: Damage) {
    if mesh.points.len() >= 3 && mesh.indices.len() >= 3 {
        damage(random, mesh);
    }
}

/// A place in a list of `count` entries.
pub(crate) fn place(random: &mut Random, count: usize) -> usize {
    random.below(count as u64) as usize
}

pub(crate) fn one_in(random: &mut Random, count: u64) -> bool {
    random.below(count) == 0
}

// ---- patches and their meshes --------------------------------------------

/// A triangle or quad patch for the most part, without point mode and with a
/// good top; all else as in random jobs.
fn random_patch(random: &mut Random) -> (Patch, Settings) {
    let mut record = good_record(random, Version::Two);
    record.settings[0] = match random.below(16) {
        0 => 2,
        other => (other % 2) as u8,
    };
    record.settings[4] = u8::from(one_in(random, 16));
    let (patch, mut settings) = record.decode().expect("every setting is known");
    if one_in(random, 24) {
        spoil(random, &mut record, 5);
        settings.top = u32::from(record.top);
    }
    (patch, settings)
}

fn outer_levels_mut(patch: &mut Patch) -> &mut [f32] {
    match patch {
        Patch::Triangles { outer, .. } => outer,
        Patch::Quads { outer, .. } => outer,
        Patch::Isolines { outer } => outer,
    }
}

fn inner_levels_mut(patch: &mut Patch) -> &mut [f32] {
    match patch {
        Patch::Triangles { inner, .. } => std::slice::from_mut(inner),
        Patch::Quads { inner, .. } => inner,
        Patch::Isolines { .. } => &mut [],
    }
}

/// What is drawn for a patch. Where nothing would be, a level of 1 stands in for
/// each that discards, and 64 for a top that is none.
pub(crate) fn lists(patch: &Patch, settings: &Settings) -> (Vec<u32>, Vec<u16>) {
    let (mut patch, mut settings) = (*patch, *settings);
    for level in outer_levels_mut(&mut patch) {
        if level.is_nan() || *level <= 0.0 {
            *level = 1.0;
        }
    }
    if !is_top(settings.top) {
        settings.top = GREATEST_TOP;
    }
    match tessellate(&patch, &settings) {
        Answer::Drawn { points, indices } => (
            points.into_flattened(),
            indices.into_iter().map(|index| index as u16).collect(),
        ),
        answer => unreachable!("{answer:?} after mending"),
    }
}

/// A random patch and its mesh; half of the discarded ones have none.
pub(crate) fn drawn(random: &mut Random) -> DamagedMesh {
    let (patch, settings) = random_patch(random);
    let (points, indices) = if patch.is_discarded() && one_in(random, 2) {
        (Vec::new(), Vec::new())
    } else {
        lists(&patch, &settings)
    };
    DamagedMesh {
        patch,
        settings,
        points,
        indices,
    }
}

impl DamagedMesh {
    /// Whole points in the list.
    fn point_count(&self) -> usize {
        self.points.len() / 3
    }

    fn point_mut(&mut self, number: usize) -> &mut [u32; 3] {
        &mut self.points.as_chunks_mut::<3>().0[number]
    }

    fn triangles_mut(&mut self) -> &mut [[u16; 3]] {
        self.indices.as_chunks_mut::<3>().0
    }

    fn is_triangles(&self) -> bool {
        matches!(self.patch, Patch::Triangles { .. })
    }
}

/// Any point of the mesh.
pub(crate) fn some_point<'a>(random: &mut Random, mesh: &'a mut DamagedMesh) -> &'a mut [u32; 3] {
    let number = place(random, mesh.point_count());
    mesh.point_mut(number)
}

/// Any triangle of the mesh.
fn some_triangle<'a>(random: &mut Random, mesh: &'a mut DamagedMesh) -> &'a mut [u16; 3] {
    let triangles = mesh.triangles_mut();
    let number = place(random, triangles.len());
    &mut triangles[number]
}

// ---- damage to indices ---------------------------------------------------

/// One entry names another point.
fn change_index(random: &mut Random, mesh: &mut DamagedMesh) {
    let entry = place(random, mesh.indices.len());
    mesh.indices[entry] = place(random, mesh.point_count()) as u16;
}

/// One entry, or two, name no point.
pub(crate) fn set_index_past_points(random: &mut Random, mesh: &mut DamagedMesh) {
    for _ in 0..1 + random.below(2) {
        let entry = place(random, mesh.indices.len());
        mesh.indices[entry] = match random.below(3) {
            0 => mesh.point_count() as u16,
            1 => u16::MAX,
            _ => (mesh.point_count() + place(random, 1000)) as u16,
        };
    }
}

pub(crate) fn drop_triangle(random: &mut Random, mesh: &mut DamagedMesh) {
    let triangle = place(random, mesh.indices.len() / 3);
    mesh.indices.drain(3 * triangle..3 * triangle + 3);
}

/// A triangle once more, maybe with its corners rotated, somewhere in the list.
pub(crate) fn repeat_triangle(random: &mut Random, mesh: &mut DamagedMesh) {
    let mut corners = *some_triangle(random, mesh);
    corners.rotate_left(place(random, 3));
    let at = 3 * place(random, mesh.indices.len() / 3 + 1);
    mesh.indices.splice(at..at, corners);
}

pub(crate) fn flip_triangle(random: &mut Random, mesh: &mut DamagedMesh) {
    for _ in 0..1 + random.below(2) {
        some_triangle(random, mesh).swap(1, 2);
    }
}

/// Every triangle begins with any of its corners.
pub(crate) fn rotate_corners(random: &mut Random, mesh: &mut DamagedMesh) {
    for corners in mesh.triangles_mut() {
        corners.rotate_left(place(random, 3));
    }
}

/// The triangles in any order.
pub(crate) fn permute_triangles(random: &mut Random, mesh: &mut DamagedMesh) {
    shuffle(random, mesh.triangles_mut());
}

/// Two triangles with a common side, P to Q here and back there, get the other
/// diagonal of their four corners.
fn change_diagonal(random: &mut Random, mesh: &mut DamagedMesh) {
    let triangles = mesh.triangles_mut();
    let here = place(random, triangles.len());
    let [p, q, r] = triangles[here];
    for there in 0..triangles.len() {
        for turns in 0..3 {
            let mut other = triangles[there];
            other.rotate_left(turns);
            if other[..2] == [q, p] {
                triangles[here] = [other[2], q, r];
                triangles[there] = [other[2], r, p];
                return;
            }
        }
    }
}

// ---- damage to points ----------------------------------------------------

/// One point gets the coordinates of another.
fn merge_points(random: &mut Random, mesh: &mut DamagedMesh) {
    for _ in 0..1 + random.below(2) {
        let from = *some_point(random, mesh);
        *some_point(random, mesh) = from;
    }
}

/// One point leaves the patch, now and then so that a sum in u32 would not show
/// it.
fn move_outside(random: &mut Random, mesh: &mut DamagedMesh) {
    let coordinate = place(random, 3);
    let point = some_point(random, mesh);
    match random.below(6) {
        0 => point[coordinate] = point[coordinate].wrapping_add(1),
        1 => point[coordinate] = u32::MAX,
        2 => point[coordinate] = LENGTH + 1 + random.below(200_000) as u32,
        3 => point[2] = point[2].wrapping_add(1),
        4 => *point = [u32::MAX, S + 1, 0],
        _ => *point = [1 << 31, 1 << 31, S],
    }
}

/// One point on the outline moves along its edge, by a step or to any place.
fn move_along_outline(random: &mut Random, mesh: &mut DamagedMesh) {
    let triangles = mesh.is_triangles();
    let mut on_outline = Vec::new();
    for point in mesh.points.as_chunks_mut::<3>().0 {
        // The coordinate that does not change on the edge.
        let fixed = if triangles {
            point.iter().position(|coordinate| *coordinate == 0)
        } else {
            point[..2].iter().position(|c| [0, LENGTH].contains(c))
        };
        if let Some(fixed) = fixed {
            on_outline.push((point, fixed));
        }
    }
    if on_outline.is_empty() {
        return;
    }
    let chosen = place(random, on_outline.len());
    let (point, fixed) = on_outline.swap_remove(chosen);
    let along = if triangles {
        (fixed + 1) % 3
    } else {
        1 - fixed
    };
    let one = if triangles { S } else { LENGTH };
    let to = match random.below(4) {
        0 => random.below(u64::from(one) + 1) as u32,
        1 => one / 2,
        2 => point[along].wrapping_add(1).min(one),
        _ => point[along].saturating_sub(1),
    };
    point[along] = to;
    if triangles {
        point[(fixed + 2) % 3] = one - to.min(one);
    }
}

/// One point moves by a unit and does not leave the patch.
pub(crate) fn move_inside(random: &mut Random, mesh: &mut DamagedMesh) {
    let triangles = mesh.is_triangles();
    let (coordinate, other) = (place(random, 3), 1 + place(random, 2));
    let point = some_point(random, mesh);
    if triangles {
        if point[coordinate] > 0 {
            point[coordinate] -= 1;
            let other = (coordinate + other) % 3;
            point[other] = point[other].wrapping_add(1);
        }
    } else {
        let moved = &mut point[coordinate % 2];
        *moved = if *moved < LENGTH && other == 1 {
            *moved + 1
        } else {
            moved.saturating_sub(1)
        };
    }
}

/// Any number; those next to a limit come more often.
fn extreme_word(random: &mut Random) -> u32 {
    const LIMITS: [u32; 6] = [0, LENGTH, S, 1 << 31, S / 2, 1 << 30];
    match random.below(4) {
        0 => random.next() as u32,
        1 => LIMITS[place(random, LIMITS.len())],
        2 => LIMITS[place(random, LIMITS.len())].wrapping_sub(1),
        _ => LIMITS[place(random, LIMITS.len())].wrapping_add(1),
    }
}

/// All words of the points, or a few.
fn set_random_words(random: &mut Random, mesh: &mut DamagedMesh) {
    if one_in(random, 2) {
        for word in &mut mesh.points {
            *word = extreme_word(random);
        }
    } else {
        for _ in 0..1 + random.below(4) {
            let word = place(random, mesh.points.len());
            mesh.points[word] = extreme_word(random);
        }
    }
}

pub(crate) fn shuffle<T>(random: &mut Random, list: &mut [T]) {
    for last in (1..list.len()).rev() {
        list.swap(place(random, last + 1), last);
    }
}

/// The points in any order, each index renamed after its point.
pub(crate) fn permute_points(random: &mut Random, mesh: &mut DamagedMesh) {
    let count = mesh.point_count();
    let mut old_numbers: Vec<usize> = (0..count).collect();
    shuffle(random, &mut old_numbers);
    let mut new_numbers = vec![0; count];
    let before = mesh.points.clone();
    for (new, old) in old_numbers.into_iter().enumerate() {
        new_numbers[old] = new as u16;
        *mesh.point_mut(new) = before.as_chunks::<3>().0[old];
    }
    for index in &mut mesh.indices {
        // An index past the points stays as it is.
        if let Some(new) = new_numbers.get(usize::from(*index)) {
            *index = *new;
        }
    }
}

/// Any point inside the patch, as long as it is not drawn as lines.
fn inside_point(random: &mut Random, triangles: bool) -> [u32; 3] {
    if triangles {
        let u = random.below(u64::from(S) + 1) as u32;
        let v = random.below(u64::from(S - u) + 1) as u32;
        [u, v, S - u - v]
    } else {
        let mut coordinate = || random.below(u64::from(LENGTH) + 1) as u32;
        [coordinate(), coordinate(), 0]
    }
}

/// A point that no triangle has, at the end of the list.
fn add_unused_point(random: &mut Random, mesh: &mut DamagedMesh) {
    let point = inside_point(random, mesh.is_triangles());
    mesh.points.extend(point);
}

/// A new point inside a triangle, which becomes three.
fn split_triangle(random: &mut Random, mesh: &mut DamagedMesh) {
    let Ok(new) = u16::try_from(mesh.point_count()) else {
        return;
    };
    let [p, q, r] = *some_triangle(random, mesh);
    if [p, q, r].iter().any(|corner| *corner >= new) || !mesh.points.len().is_multiple_of(3) {
        return;
    }
    let mut middle = [0; 3];
    for (coordinate, at) in middle.iter_mut().enumerate() {
        let of = |corner: u16| u64::from(mesh.points[3 * usize::from(corner) + coordinate]);
        *at = ((of(p) + of(q) + of(r)) / 3) as u32;
    }
    if mesh.is_triangles() {
        middle[2] = S.wrapping_sub(middle[0].wrapping_add(middle[1]));
    }
    mesh.points.extend(middle);
    let split = mesh.triangles_mut().iter().position(|c| *c == [p, q, r]);
    if let Some(number) = split {
        mesh.triangles_mut()[number] = [p, q, new];
        mesh.indices.extend([q, r, new, r, p, new]);
    }
}

// ---- other patches, other lengths ----------------------------------------

/// The mesh stays, and its patch gets other levels or another kind.
fn change_levels(random: &mut Random, mesh: &mut DamagedMesh) {
    let (other, _) = random_patch(random);
    let outer = outer_levels_mut(&mut mesh.patch);
    let (one, two) = (place(random, outer.len()), place(random, outer.len()));
    match random.below(6) {
        0 => outer.swap(one, two),
        1 => outer.rotate_left(1),
        2 => outer[one] += 1.0,
        3 => outer[one] = [0.0, -0.0, f32::NAN, -1.0][place(random, 4)],
        4 => {
            for inner in inner_levels_mut(&mut mesh.patch) {
                *inner += 1.0;
            }
        }
        _ => mesh.patch = other,
    }
}

/// The mesh stays, and its patch is asked for with other settings.
fn change_settings(random: &mut Random, mesh: &mut DamagedMesh) {
    let (_, other) = random_patch(random);
    let settings = &mut mesh.settings;
    let sort = random.below(6);
    if [0, 2].contains(&sort) {
        settings.vertex_order = match settings.vertex_order {
            VertexOrder::Clockwise => VertexOrder::CounterClockwise,
            VertexOrder::CounterClockwise => VertexOrder::Clockwise,
        };
    }
    // With both changed the turn is the same.
    if [1, 2].contains(&sort) {
        settings.domain_origin = match settings.domain_origin {
            DomainOrigin::UpperLeft => DomainOrigin::LowerLeft,
            DomainOrigin::LowerLeft => DomainOrigin::UpperLeft,
        };
    }
    match sort {
        0..=2 => {}
        3 => {
            settings.spacing = match settings.spacing {
                Spacing::Equal => Spacing::FractionalEven,
                Spacing::FractionalEven => Spacing::FractionalOdd,
                Spacing::FractionalOdd => Spacing::Equal,
            }
        }
        4 => settings.top = other.top,
        _ => *settings = other,
    }
}

/// One list or both end early, after a whole point or triangle or not.
fn truncate(random: &mut Random, mesh: &mut DamagedMesh) {
    let sort = random.below(6);
    let mut length = |full: usize| match sort % 2 {
        0 => place(random, full + 1),
        _ => 3 * place(random, full / 3 + 1),
    };
    let (points, indices) = (length(mesh.points.len()), length(mesh.indices.len()));
    if sort / 2 != 1 {
        mesh.points.truncate(points);
    }
    if sort / 2 != 2 {
        mesh.indices.truncate(indices);
    }
}

/// One word or two after the end of a list, or one after each.
pub(crate) fn add_words(random: &mut Random, mesh: &mut DamagedMesh) {
    let count = 1 + place(random, 2);
    match random.below(3) {
        0 => mesh.points.extend(repeat_n(0, count)),
        1 => mesh.indices.extend(repeat_n(0, count)),
        _ => {
            mesh.points.push(0);
            mesh.indices.push(0);
        }
    }
}

fn empty_one_list(random: &mut Random, mesh: &mut DamagedMesh) {
    if one_in(random, 2) {
        mesh.points.clear();
    } else {
        mesh.indices.clear();
    }
}

fn empty_both_lists(_: &mut Random, mesh: &mut DamagedMesh) {
    mesh.points.clear();
    mesh.indices.clear();
}
