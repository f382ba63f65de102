//! The proved operations, called as C calls them.

use crate::cases::Case;
use crate::meshes::Mesh;

extern "C" {
    fn yoktvarim_draw_points(
        settings: *const u8,
        levels: *const f32,
        vertices: *mut u32,
        vertices_length: usize,
        count: *mut u32,
    ) -> u32;

    fn yoktvarim_draw_indices(
        settings: *const u8,
        levels: *const f32,
        indices: *mut u16,
        indices_length: usize,
        count: *mut u32,
    ) -> u32;

    fn yoktvarim_draw_with_floats(
        settings: *const u8,
        levels: *const f32,
        vertices: *mut u32,
        vertices_length: usize,
        indices: *mut u16,
        indices_length: usize,
        floats: *mut f32,
        floats_length: usize,
        counts: *mut u32,
    ) -> u32;

    fn yoktvarim_share_start(
        vertices: *const u32,
        vertices_length: usize,
        indices: *const u16,
        indices_length: usize,
        quotas: *const u64,
        state: *mut u64,
    ) -> u32;

    fn yoktvarim_share_draw(
        state: *mut u64,
        designer: u32,
        settings: *const u8,
        levels: *const f32,
        vertices: *mut u32,
        vertices_length: usize,
        indices: *mut u16,
        indices_length: usize,
        counts: *mut u32,
    ) -> u32;

    fn yoktvarim_share_clear(
        state: *mut u64,
        designer: u32,
        vertices: *const u32,
        vertices_length: usize,
        indices: *const u16,
        indices_length: usize,
    ) -> u32;

    fn yoktvarim_check_mesh(
        settings: *const u8,
        levels: *const f32,
        points: *const u32,
        points_length: usize,
        indices: *const u16,
        indices_length: usize,
        places: *mut u64,
    ) -> u32;

    fn yoktvarim_compare_meshes(
        left_points: *const u32,
        left_points_length: usize,
        left_indices: *const u16,
        left_indices_length: usize,
        right_points: *const u32,
        right_points_length: usize,
        right_indices: *const u16,
        right_indices_length: usize,
        differences: *mut u64,
        differences_length: usize,
        count: *mut u64,
    ) -> u32;
}

/// Full-size lists, cleared once.
pub struct Lists {
    pub vertices: Vec<u32>,
    pub indices: Vec<u16>,
    pub floats: Vec<f32>,
}

impl Lists {
    pub fn new() -> Self {
        Lists {
            vertices: vec![0; 12_675],
            indices: vec![0; 24_576],
            floats: vec![0.0; 12_675],
        }
    }
}

fn draw_points(case: &Case, vertices: &mut [u32]) -> usize {
    let mut count = 0;
    let answer = unsafe {
        yoktvarim_draw_points(
            case.settings.as_ptr(),
            case.levels.as_ptr(),
            vertices.as_mut_ptr(),
            vertices.len(),
            &mut count,
        )
    };
    assert_eq!(answer, 0, "the points of {} are drawn", case.name);
    count as usize
}

fn draw_indices(case: &Case, indices: &mut [u16]) -> usize {
    let mut count = 0;
    let answer = unsafe {
        yoktvarim_draw_indices(
            case.settings.as_ptr(),
            case.levels.as_ptr(),
            indices.as_mut_ptr(),
            indices.len(),
            &mut count,
        )
    };
    assert_eq!(answer, 0, "the indices of {} are drawn", case.name);
    count as usize
}

/// Draws a case by both calls and gives the points and indices written.
pub fn draw(case: &Case, lists: &mut Lists) -> (usize, usize) {
    let points = draw_points(case, &mut lists.vertices);
    (points, draw_indices(case, &mut lists.indices))
}

/// Draws a case with floats, by one call.
pub fn draw_with_floats(case: &Case, lists: &mut Lists) -> (usize, usize) {
    let mut counts = [0; 2];
    let answer = unsafe {
        yoktvarim_draw_with_floats(
            case.settings.as_ptr(),
            case.levels.as_ptr(),
            lists.vertices.as_mut_ptr(),
            lists.vertices.len(),
            lists.indices.as_mut_ptr(),
            lists.indices.len(),
            lists.floats.as_mut_ptr(),
            lists.floats.len(),
            counts.as_mut_ptr(),
        )
    };
    assert_eq!(answer, 0, "{} is drawn with floats", case.name);
    (counts[0] as usize, counts[1] as usize)
}

/// The state of lists that the first designer has whole.
pub fn start_shared(lists: &Lists) -> [u64; 10] {
    let quotas = [
        lists.vertices.len() as u64,
        lists.indices.len() as u64,
        0,
        0,
    ];
    let mut state = [0; 10];
    let answer = unsafe {
        yoktvarim_share_start(
            lists.vertices.as_ptr(),
            lists.vertices.len(),
            lists.indices.as_ptr(),
            lists.indices.len(),
            quotas.as_ptr(),
            state.as_mut_ptr(),
        )
    };
    assert_eq!(answer, 0, "the lists are shared");
    state
}

/// Draws a case on shared lists and clears the part again.
pub fn draw_shared(case: &Case, lists: &mut Lists, state: &mut [u64; 10]) {
    let mut counts = [0; 2];
    let drawn = unsafe {
        yoktvarim_share_draw(
            state.as_mut_ptr(),
            0,
            case.settings.as_ptr(),
            case.levels.as_ptr(),
            lists.vertices.as_mut_ptr(),
            lists.vertices.len(),
            lists.indices.as_mut_ptr(),
            lists.indices.len(),
            counts.as_mut_ptr(),
        )
    };
    let cleared = unsafe {
        yoktvarim_share_clear(
            state.as_mut_ptr(),
            0,
            lists.vertices.as_ptr(),
            lists.vertices.len(),
            lists.indices.as_ptr(),
            lists.indices.len(),
        )
    };
    assert_eq!((drawn, cleared), (0, 0), "{} is drawn", case.name);
}

/// Checks points and indices as a mesh of a case, and gives the number of the answer.
pub fn check(case: &Case, points: &[u32], indices: &[u16]) -> u32 {
    let mut places = [0; 2];
    unsafe {
        yoktvarim_check_mesh(
            case.settings.as_ptr(),
            case.levels.as_ptr(),
            points.as_ptr(),
            points.len(),
            indices.as_ptr(),
            indices.len(),
            places.as_mut_ptr(),
        )
    }
}

/// Compares two meshes and gives the number of differences, which are written.
pub fn compare(left: &Mesh, right: &Mesh, differences: &mut [u64]) -> u64 {
    let mut count = 0;
    let answer = unsafe {
        yoktvarim_compare_meshes(
            left.points.as_ptr(),
            left.points.len(),
            left.indices.as_ptr(),
            left.indices.len(),
            right.points.as_ptr(),
            right.points.len(),
            right.indices.as_ptr(),
            right.indices.len(),
            differences.as_mut_ptr(),
            differences.len(),
            &mut count,
        )
    };
    assert_eq!(answer, 0, "the meshes are compared");
    count
}
