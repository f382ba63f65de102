//! Every answer, every count, every clamp and every word of a list agree with the second program, on seeded random patches
//! and around every limit.

mod clamps;
mod here;
mod kept;
mod marked;
mod numbers;
mod patches;
mod records;
mod tops;
