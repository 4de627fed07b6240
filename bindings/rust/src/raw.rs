//! The exports of `libhaul_c.a` as they are: grids, numbers and lent slices go in, the status comes out, 0 or the
//! refusal's number. The takes are written on acceptance only, the index only with a refusal that has one.
//!
//! The table at the end is the one place in Rust that knows an export's arguments and their order. `include/haul.h`
//! says what each means, and `crates/haul_c` has the other side.

use crate::Grid;

/// The most cells that a grid may have.
pub const CELLS_MAX: usize = 1_048_576;

/// The slices that a call writes to: the answer, then the work buffers. A search looks only at those that it has. With
/// n cells each has n places, the queue n + 1. They may hold anything before a call.
#[derive(Debug)]
pub struct Lent<'a> {
    pub answer: &'a mut [f32],
    pub distances: &'a mut [f32],
    pub marks: &'a mut [u8],
    pub listed: &'a mut [u32],
    pub adjacent: &'a mut [u32],
    pub added: &'a mut [u8],
    pub queue: &'a mut [u32],
}

/// The bytes of the longest answer file.
pub const ANSWER_MAX: usize = 4114;

/// The program `haul` as a call: the answer to a grid file goes to the front of the output, and its length is given, or
/// 0 where the output is shorter than [`ANSWER_MAX`].
pub fn answer(input: &[u8], output: &mut [u8]) -> u32 {
    unsafe extern "C" {
        fn haul_answer(_: *const u8, _: usize, _: *mut u8, _: usize) -> u32;
    }
    // SAFETY: the export is proved safe for all slices that do not overlap, and a borrowed slice overlaps no mutable one.
    unsafe { haul_answer(input.as_ptr(), input.len(), output.as_mut_ptr(), output.len()) }
}

/// 1 where floats are rounded to nearest even and small ones are not taken for 0, given 1 and the least float above 0; else 0.
pub fn keeps_binary32(one: f32, least: f32) -> u32 {
    unsafe extern "C" {
        fn haul_keeps_binary32(_: f32, _: f32) -> u32;
    }
    // SAFETY: the export takes numbers alone and touches no memory.
    unsafe { haul_keeps_binary32(one, least) }
}

/// For each search: its grids, its numbers and flags, its work buffers. All have the answer before the work buffers,
/// and after them the queue, the takes and the index. A grid is passed as rows, columns, pointer and length, a lent
/// slice as pointer and length.
macro_rules! exports {
    ($(
        $(#[$doc:meta])*
        fn $search:ident($($grid:ident: $cell:ty),+)($($number:ident: $kind:ty),*)($($buffer:ident: $item:ty),+);
    )+) => {$(
        $(#[$doc])*
        #[allow(clippy::too_many_arguments)]
        pub fn $search(
            $($grid: Grid<$cell>,)+
            $($number: $kind,)*
            lent: Lent,
            takes: &mut u64,
            index: &mut u32,
        ) -> u32 {
            unsafe extern "C" {
                #[link_name = concat!("haul_", stringify!($search))]
                fn export(
                    $(_: i32, _: i32, _: *const $cell, _: usize,)+
                    $(_: $kind,)*
                    _: *mut f32, _: usize,
                    $(_: *mut $item, _: usize,)+
                    _: *mut u32, _: usize,
                    _: *mut u64,
                    _: *mut u32,
                ) -> u32;
            }
            // SAFETY: the export is proved safe for all arguments whose pointers are good for their lengths and whose
            // lent slices overlap nothing, which references are and do.
            unsafe {
                export(
                    $($grid.rows, $grid.columns, $grid.cells.as_ptr(), $grid.cells.len(),)+
                    $($number,)*
                    lent.answer.as_mut_ptr(), lent.answer.len(),
                    $(lent.$buffer.as_mut_ptr(), lent.$buffer.len(),)+
                    lent.queue.as_mut_ptr(), lent.queue.len(),
                    takes,
                    index,
                )
            }
        }
    )+};
}

exports! {
    /// Search 1.
    fn distances_up_to(targets: u8)(cell_size: f32, limit: f32)(marks: u8);

    /// Search 2. Diagonals: 0 is Include, any other number Exclude.
    fn distance_with_obstacles(targets: u8, obstacles: u8)(cell_size: f32, diagonals: u32)(marks: u8);

    /// Search 3.
    fn travel_distances_up_to(targets: u8, times: f32)(limit: f32)(marks: u8);

    /// Search 4.
    fn value_at_closest_target(targets: u8, values: f32)()(distances: f32, marks: u8);

    /// Search 5.
    fn value_at_closest_travel_target(targets: u8, times: f32, values: f32)()(distances: f32, marks: u8);

    /// Search 6.
    fn value_at_closest_less_than_travel_target(targets: u8, times: f32, values: f32)(limit: f32)
        (distances: f32, marks: u8);

    /// Search 7. Include adjacent: 0 is no, any other number yes.
    fn sum_within_travel_distance(mask: u8, times: f32, values: f32)(limit: f32, include_adjacent: u32)
        (distances: f32, marks: u8, listed: u32, adjacent: u32);

    /// Search 8.
    fn sum_targets_within_travel_distance(times: f32, amounts: f32)(limit: f32)(distances: f32, marks: u8, added: u8);
}
