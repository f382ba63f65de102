//! Every function of the static library, as `include/yoktvarim.h` declares it. A list goes as a pointer and its length. Each function is
//! proved for every value of its arguments, as long as what it writes overlaps nothing else.

use crate::shared::{Quota, Shared};

extern "C" {
    pub fn yoktvarim_measure(
        settings: &[u8; 6],
        levels: &[f32; 6],
        counts: &mut [u32; 2],
        clamps: &mut [u8; 6],
    ) -> u32;

    pub fn yoktvarim_draw_points(
        settings: &[u8; 6],
        levels: &[f32; 6],
        vertices: *mut u32,
        vertex_words: usize,
        count: &mut [u32; 1],
    ) -> u32;

    pub fn yoktvarim_draw_indices(
        settings: &[u8; 6],
        levels: &[f32; 6],
        indices: *mut u16,
        index_words: usize,
        count: &mut [u32; 1],
    ) -> u32;

    pub fn yoktvarim_draw_with_floats(
        settings: &[u8; 6],
        levels: &[f32; 6],
        vertices: *mut u32,
        vertex_words: usize,
        indices: *mut u16,
        index_words: usize,
        floats: *mut f32,
        float_words: usize,
        counts: &mut [u32; 2],
    ) -> u32;

    pub fn yoktvarim_write_header(
        version: u32,
        bytes: *mut u8,
        length: usize,
        count: &mut [u32; 1],
    ) -> u32;

    pub fn yoktvarim_write_record(
        version: u32,
        settings: &[u8; 6],
        patterns: &[u32; 6],
        bytes: *mut u8,
        length: usize,
        count: &mut [u32; 1],
    ) -> u32;

    pub fn yoktvarim_read_header(bytes: *const u8, length: usize, version: &mut [u32; 1]) -> u32;

    pub fn yoktvarim_read_record(
        bytes: *const u8,
        length: usize,
        version: u32,
        at: usize,
        settings: &mut [u8; 6],
        patterns: &mut [u32; 6],
        next: &mut [usize; 1],
        place: &mut [u32; 1],
    ) -> u32;

    pub fn yoktvarim_check_mesh(
        settings: &[u8; 6],
        levels: &[f32; 6],
        points: *const u32,
        point_words: usize,
        indices: *const u16,
        index_words: usize,
        places: &mut [u64; 2],
    ) -> u32;

    pub fn yoktvarim_compare_meshes(
        left_points: *const u32,
        left_point_words: usize,
        left_indices: *const u16,
        left_index_words: usize,
        right_points: *const u32,
        right_point_words: usize,
        right_indices: *const u16,
        right_index_words: usize,
        differences: *mut u64,
        difference_words: usize,
        count: &mut [u64; 1],
    ) -> u32;

    pub fn yoktvarim_replay(bytes: *const u8, byte_count: usize, told: &mut [u64; 7]) -> u32;

    pub fn yoktvarim_share_start(
        vertices: *const u32,
        vertex_words: usize,
        indices: *const u16,
        index_words: usize,
        quotas: *const [Quota; 2],
        state: *mut Shared,
    ) -> u32;

    pub fn yoktvarim_share_draw(
        state: *mut Shared,
        designer: u32,
        settings: *const [u8; 6],
        levels: *const [f32; 6],
        vertices: *mut u32,
        vertex_words: usize,
        indices: *mut u16,
        index_words: usize,
        counts: *mut [u32; 2],
    ) -> u32;

    pub fn yoktvarim_share_clear(
        state: *mut Shared,
        designer: u32,
        vertices: *const u32,
        vertex_words: usize,
        indices: *const u16,
        index_words: usize,
    ) -> u32;
}
