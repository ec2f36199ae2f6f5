//! `include/terrain.h`, call by call: slices for areas, the answer as its number, and the numbers that a call sets as it leaves them.
//!
//! It is for programs that keep states and stores in places of their own, and for tests that lend what no call has made; everything else in
//! this crate stands on it. Each call is safe with every argument: the library is total, and slices keep the rules at the top of the header
//! (areas are as long as they say, one that is written overlaps no other, no pointer is null). All unsafe code of the crate is in this file.
#![allow(unsafe_code)]

/// A writer or reader as the library keeps it. Any numbers may be lent: those that are no state of the call's kind are answered by 1.
pub type State = [u64; 16];

/// A saver as the library keeps it.
pub type SaverState = [u64; 32];

/// A loader as the library keeps it.
pub type LoaderState = [u64; 32];

use crate::{Rectangle, Shape};

mod c {
    use super::{Rectangle, Shape};

    extern "C" {
        pub fn terrain_version() -> u32;
        pub fn terrain_line_forward(
            line: *const i32,
            line_len: usize,
            start: usize,
            out: *mut i32,
            out_len: usize,
        ) -> u32;
        pub fn terrain_line_backward(
            coefficients: *const i32,
            coefficients_len: usize,
            start: usize,
            out: *mut i32,
            out_len: usize,
        ) -> u32;
        pub fn terrain_ccsds_line_forward(
            line: *const i32,
            line_len: usize,
            start: usize,
            out: *mut i32,
            out_len: usize,
        ) -> u32;
        pub fn terrain_ccsds_line_backward(
            coefficients: *const i32,
            coefficients_len: usize,
            start: usize,
            out: *mut i32,
            out_len: usize,
        ) -> u32;
        pub fn terrain_profile(row: *const u16, row_len: usize, out: *mut f32, out_len: usize) -> u32;
        pub fn terrain_picture_head(
            width: usize,
            height: usize,
            from: usize,
            out: *mut u8,
            out_len: usize,
            written: *mut usize,
        ) -> u32;
        pub fn terrain_picture_row(
            heights: *const u16,
            heights_len: usize,
            from: usize,
            out: *mut u8,
            out_len: usize,
        ) -> usize;
        pub fn terrain_map_forward(
            heights: *const u16,
            heights_len: usize,
            shape: Shape,
            plane: *mut i32,
            plane_len: usize,
            work: *mut i32,
            work_len: usize,
        ) -> u32;
        pub fn terrain_map_mend(
            heights: *const u16,
            heights_len: usize,
            width: usize,
            height: usize,
            levels: usize,
            rectangle: Rectangle,
            plane: *mut i32,
            plane_len: usize,
            work: *mut i32,
            work_len: usize,
        ) -> u32;
        pub fn terrain_round(
            plane: *mut i32,
            plane_len: usize,
            width: usize,
            height: usize,
            levels: usize,
            step: usize,
        ) -> u32;
        pub fn terrain_error_bound(levels: usize, step: usize, bound: *mut usize) -> u32;
        pub fn terrain_map_backward(
            plane: *const i32,
            plane_len: usize,
            shape: Shape,
            heights: *mut u16,
            heights_len: usize,
            work: *mut i32,
            work_len: usize,
        ) -> u32;
        pub fn terrain_band_row(
            plane_len: usize,
            shape: Shape,
            level: usize,
            band: usize,
            row: usize,
            start: *mut usize,
            length: *mut usize,
        ) -> u32;
        pub fn terrain_nearest_change(
            heights: *const u16,
            heights_len: usize,
            width: usize,
            height: usize,
            row: usize,
            column: usize,
            change: *mut [u64; 3],
        ) -> u32;
        pub fn terrain_store_length(shape: Shape) -> usize;
        pub fn terrain_reader_store_length(shape: Shape) -> usize;
        pub fn terrain_writer_set_up(state: *mut [u64; 16], shape: Shape, store: *mut i32, store_len: usize) -> u32;
        pub fn terrain_writer_offer(
            state: *mut [u64; 16],
            store: *mut i32,
            store_len: usize,
            run: *const u16,
            run_len: usize,
            taken: *mut usize,
        ) -> u32;
        pub fn terrain_writer_draw(
            state: *mut [u64; 16],
            store: *mut i32,
            store_len: usize,
            out: *mut i32,
            out_len: usize,
            row: *mut [u64; 4],
        ) -> u32;
        pub fn terrain_writer_run(
            state: *mut [u64; 16],
            store: *mut i32,
            store_len: usize,
            heights: *const u16,
            heights_len: usize,
            out: *mut i32,
            out_len: usize,
            names: *mut u64,
            names_len: usize,
            counts: *mut [u64; 3],
        ) -> u32;
        pub fn terrain_writer_waits(state: *const [u64; 16], row: *mut [u64; 4]) -> u32;
        pub fn terrain_writer_finish(state: *mut [u64; 16], store: *mut i32, store_len: usize) -> u32;
        pub fn terrain_reader_set_up(state: *mut [u64; 16], shape: Shape, store: *mut i32, store_len: usize) -> u32;
        pub fn terrain_level_size(shape: Shape, level: usize, columns: *mut usize, rows: *mut usize) -> u32;
        pub fn terrain_reader_set_up_at(
            state: *mut [u64; 16],
            shape: Shape,
            stop: usize,
            store: *mut i32,
            store_len: usize,
        ) -> u32;
        pub fn terrain_tolerant_set_up(
            state: *mut [u64; 16],
            width: usize,
            height: usize,
            levels: usize,
            store: *mut i32,
            store_len: usize,
        ) -> u32;
        pub fn terrain_reader_want(state: *const [u64; 16], want: *mut [u64; 5]) -> u32;
        pub fn terrain_reader_feed(
            state: *mut [u64; 16],
            store: *mut i32,
            store_len: usize,
            run: *const i32,
            run_len: usize,
        ) -> u32;
        pub fn terrain_reader_draw(
            state: *mut [u64; 16],
            store: *mut i32,
            store_len: usize,
            out: *mut u16,
            out_len: usize,
            drawn: *mut usize,
        ) -> u32;
        pub fn terrain_reader_run(
            state: *mut [u64; 16],
            store: *mut i32,
            store_len: usize,
            run: *const i32,
            run_len: usize,
            out: *mut u16,
            out_len: usize,
            counts: *mut [u64; 2],
        ) -> u32;
        pub fn terrain_turns_set_up(turns: *mut [u64; 4]) -> u32;
        pub fn terrain_turns_mark(turns: *mut [u64; 4], reader: usize) -> u32;
        pub fn terrain_turns_clear(turns: *mut [u64; 4], reader: usize) -> u32;
        pub fn terrain_turns_give(turns: *mut [u64; 4], reader: *mut usize) -> u32;
        pub fn terrain_save_set_up(state: *mut [u64; 32], shape: Shape, step: usize) -> u32;
        pub fn terrain_save(
            state: *mut [u64; 32],
            plane: *const i32,
            plane_len: usize,
            out: *mut u8,
            out_len: usize,
            written: *mut usize,
        ) -> u32;
        pub fn terrain_file_header(bytes: *const u8, bytes_len: usize, header: *mut [u64; 7]) -> u32;
        pub fn terrain_load_set_up(
            state: *mut [u64; 32],
            shape: Shape,
            step: usize,
            store: *mut i32,
            store_len: usize,
        ) -> u32;
        pub fn terrain_load_want(state: *const [u64; 32], want: *mut u32) -> u32;
        pub fn terrain_load_take(
            state: *mut [u64; 32],
            store: *mut i32,
            store_len: usize,
            row: *mut i32,
            row_len: usize,
            run: *const u8,
            run_len: usize,
            taken: *mut usize,
        ) -> u32;
        pub fn terrain_load_draw(
            state: *mut [u64; 32],
            store: *mut i32,
            store_len: usize,
            out: *mut u16,
            out_len: usize,
            drawn: *mut usize,
        ) -> u32;
    }
}

// SAFETY, of every call below: each area is a whole slice with its own length, each number that is set a reference, and Rust lets none of
// those that are written overlap another.

pub fn version() -> u32 {
    unsafe { c::terrain_version() }
}

pub fn line_forward(line: &[i32], start: usize, out: &mut [i32]) -> u32 {
    unsafe { c::terrain_line_forward(line.as_ptr(), line.len(), start, out.as_mut_ptr(), out.len()) }
}

pub fn line_backward(coefficients: &[i32], start: usize, out: &mut [i32]) -> u32 {
    unsafe { c::terrain_line_backward(coefficients.as_ptr(), coefficients.len(), start, out.as_mut_ptr(), out.len()) }
}

pub fn ccsds_line_forward(line: &[i32], start: usize, out: &mut [i32]) -> u32 {
    unsafe { c::terrain_ccsds_line_forward(line.as_ptr(), line.len(), start, out.as_mut_ptr(), out.len()) }
}

pub fn ccsds_line_backward(coefficients: &[i32], start: usize, out: &mut [i32]) -> u32 {
    unsafe {
        c::terrain_ccsds_line_backward(coefficients.as_ptr(), coefficients.len(), start, out.as_mut_ptr(), out.len())
    }
}

pub fn profile(row: &[u16], out: &mut [f32]) -> u32 {
    unsafe { c::terrain_profile(row.as_ptr(), row.len(), out.as_mut_ptr(), out.len()) }
}

pub fn picture_head(width: usize, height: usize, from: usize, out: &mut [u8], written: &mut usize) -> u32 {
    unsafe { c::terrain_picture_head(width, height, from, out.as_mut_ptr(), out.len(), written) }
}

pub fn picture_row(heights: &[u16], from: usize, out: &mut [u8]) -> usize {
    unsafe { c::terrain_picture_row(heights.as_ptr(), heights.len(), from, out.as_mut_ptr(), out.len()) }
}

pub fn map_forward(heights: &[u16], shape: Shape, plane: &mut [i32], work: &mut [i32]) -> u32 {
    let (from, to, between) = (heights.as_ptr(), plane.as_mut_ptr(), work.as_mut_ptr());
    unsafe { c::terrain_map_forward(from, heights.len(), shape, to, plane.len(), between, work.len()) }
}

pub fn map_mend(
    heights: &[u16],
    width: usize,
    height: usize,
    levels: usize,
    rectangle: Rectangle,
    plane: &mut [i32],
    work: &mut [i32],
) -> u32 {
    let (from, to, between) = (heights.as_ptr(), plane.as_mut_ptr(), work.as_mut_ptr());
    let (n, m, k) = (heights.len(), plane.len(), work.len());
    unsafe { c::terrain_map_mend(from, n, width, height, levels, rectangle, to, m, between, k) }
}

pub fn round(plane: &mut [i32], width: usize, height: usize, levels: usize, step: usize) -> u32 {
    unsafe { c::terrain_round(plane.as_mut_ptr(), plane.len(), width, height, levels, step) }
}

pub fn error_bound(levels: usize, step: usize, bound: &mut usize) -> u32 {
    unsafe { c::terrain_error_bound(levels, step, bound) }
}

pub fn map_backward(plane: &[i32], shape: Shape, heights: &mut [u16], work: &mut [i32]) -> u32 {
    let (from, to, between) = (plane.as_ptr(), heights.as_mut_ptr(), work.as_mut_ptr());
    unsafe { c::terrain_map_backward(from, plane.len(), shape, to, heights.len(), between, work.len()) }
}

pub fn band_row(
    plane_len: usize,
    shape: Shape,
    level: usize,
    band: usize,
    row: usize,
    start: &mut usize,
    length: &mut usize,
) -> u32 {
    unsafe { c::terrain_band_row(plane_len, shape, level, band, row, start, length) }
}

pub fn nearest_change(heights: &[u16], width: usize, height: usize, row: usize, column: usize, change: &mut [u64; 3]) -> u32 {
    unsafe { c::terrain_nearest_change(heights.as_ptr(), heights.len(), width, height, row, column, change) }
}

pub fn store_length(shape: Shape) -> usize {
    unsafe { c::terrain_store_length(shape) }
}

pub fn reader_store_length(shape: Shape) -> usize {
    unsafe { c::terrain_reader_store_length(shape) }
}

pub fn writer_set_up(state: &mut State, shape: Shape, store: &mut [i32]) -> u32 {
    unsafe { c::terrain_writer_set_up(state, shape, store.as_mut_ptr(), store.len()) }
}

pub fn writer_offer(state: &mut State, store: &mut [i32], run: &[u16], taken: &mut usize) -> u32 {
    unsafe { c::terrain_writer_offer(state, store.as_mut_ptr(), store.len(), run.as_ptr(), run.len(), taken) }
}

pub fn writer_draw(state: &mut State, store: &mut [i32], out: &mut [i32], row: &mut [u64; 4]) -> u32 {
    unsafe { c::terrain_writer_draw(state, store.as_mut_ptr(), store.len(), out.as_mut_ptr(), out.len(), row) }
}

pub fn writer_run(state: &mut State, store: &mut [i32], heights: &[u16], out: &mut [i32], names: &mut [u64], counts: &mut [u64; 3]) -> u32 {
    let (lent, count) = (store.as_mut_ptr(), store.len());
    let (into, room) = (out.as_mut_ptr(), out.len());
    unsafe {
        c::terrain_writer_run(state, lent, count, heights.as_ptr(), heights.len(), into, room, names.as_mut_ptr(), names.len(), counts)
    }
}

pub fn writer_waits(state: &State, row: &mut [u64; 4]) -> u32 {
    unsafe { c::terrain_writer_waits(state, row) }
}

pub fn writer_finish(state: &mut State, store: &mut [i32]) -> u32 {
    unsafe { c::terrain_writer_finish(state, store.as_mut_ptr(), store.len()) }
}

pub fn reader_set_up(state: &mut State, shape: Shape, store: &mut [i32]) -> u32 {
    unsafe { c::terrain_reader_set_up(state, shape, store.as_mut_ptr(), store.len()) }
}

pub fn level_size(shape: Shape, level: usize, columns: &mut usize, rows: &mut usize) -> u32 {
    unsafe { c::terrain_level_size(shape, level, columns, rows) }
}

pub fn reader_set_up_at(state: &mut State, shape: Shape, stop: usize, store: &mut [i32]) -> u32 {
    unsafe { c::terrain_reader_set_up_at(state, shape, stop, store.as_mut_ptr(), store.len()) }
}

pub fn tolerant_set_up(state: &mut State, width: usize, height: usize, levels: usize, store: &mut [i32]) -> u32 {
    unsafe { c::terrain_tolerant_set_up(state, width, height, levels, store.as_mut_ptr(), store.len()) }
}

pub fn reader_want(state: &State, want: &mut [u64; 5]) -> u32 {
    unsafe { c::terrain_reader_want(state, want) }
}

pub fn reader_feed(state: &mut State, store: &mut [i32], run: &[i32]) -> u32 {
    unsafe { c::terrain_reader_feed(state, store.as_mut_ptr(), store.len(), run.as_ptr(), run.len()) }
}

pub fn reader_draw(state: &mut State, store: &mut [i32], out: &mut [u16], drawn: &mut usize) -> u32 {
    unsafe { c::terrain_reader_draw(state, store.as_mut_ptr(), store.len(), out.as_mut_ptr(), out.len(), drawn) }
}

pub fn reader_run(state: &mut State, store: &mut [i32], run: &[i32], out: &mut [u16], counts: &mut [u64; 2]) -> u32 {
    let (lent, count) = (store.as_mut_ptr(), store.len());
    unsafe { c::terrain_reader_run(state, lent, count, run.as_ptr(), run.len(), out.as_mut_ptr(), out.len(), counts) }
}

pub fn turns_set_up(turns: &mut [u64; 4]) -> u32 {
    unsafe { c::terrain_turns_set_up(turns) }
}

pub fn turns_mark(turns: &mut [u64; 4], reader: usize) -> u32 {
    unsafe { c::terrain_turns_mark(turns, reader) }
}

pub fn turns_clear(turns: &mut [u64; 4], reader: usize) -> u32 {
    unsafe { c::terrain_turns_clear(turns, reader) }
}

pub fn turns_give(turns: &mut [u64; 4], reader: &mut usize) -> u32 {
    unsafe { c::terrain_turns_give(turns, reader) }
}

pub fn save_set_up(state: &mut SaverState, shape: Shape, step: usize) -> u32 {
    unsafe { c::terrain_save_set_up(state, shape, step) }
}

pub fn save(state: &mut SaverState, plane: &[i32], out: &mut [u8], written: &mut usize) -> u32 {
    unsafe { c::terrain_save(state, plane.as_ptr(), plane.len(), out.as_mut_ptr(), out.len(), written) }
}

pub fn file_header(bytes: &[u8], header: &mut [u64; 7]) -> u32 {
    unsafe { c::terrain_file_header(bytes.as_ptr(), bytes.len(), header) }
}

pub fn load_set_up(state: &mut LoaderState, shape: Shape, step: usize, store: &mut [i32]) -> u32 {
    unsafe { c::terrain_load_set_up(state, shape, step, store.as_mut_ptr(), store.len()) }
}

pub fn load_want(state: &LoaderState, want: &mut u32) -> u32 {
    unsafe { c::terrain_load_want(state, want) }
}

pub fn load_take(state: &mut LoaderState, store: &mut [i32], row: &mut [i32], run: &[u8], taken: &mut usize) -> u32 {
    let (lent, line) = (store.as_mut_ptr(), row.as_mut_ptr());
    unsafe { c::terrain_load_take(state, lent, store.len(), line, row.len(), run.as_ptr(), run.len(), taken) }
}

pub fn load_draw(state: &mut LoaderState, store: &mut [i32], out: &mut [u16], drawn: &mut usize) -> u32 {
    unsafe { c::terrain_load_draw(state, store.as_mut_ptr(), store.len(), out.as_mut_ptr(), out.len(), drawn) }
}
