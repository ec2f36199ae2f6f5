//! Crate `test_exports`: a level of the integer 9/7 on the way back. Nothing checks a declaration here against the Rattle source, so each stands beside its
//! wrapper and is driven by a test.
extern "C" {
    fn nine_seven_row_place(w: usize, r: usize) -> usize;
    fn nine_seven_work_set(stretch: *mut i32, stretch_len: usize, last: bool, k: usize, w: usize, h: usize, x: usize, y: usize, n: usize) -> u32;
}

/// A level that splits w columns from x on and h rows from y on. Its rows are low-low values of level k; `last` says that it is level L.
#[derive(Clone, Copy, Debug)]
pub struct Level {
    pub last: bool,
    pub k: usize,
    pub w: usize,
    pub h: usize,
    pub x: usize,
    pub y: usize,
}

/// Where the row at r begins, of w columns.
pub fn row_place(w: usize, r: usize) -> usize {
    // SAFETY: no memory is touched.
    unsafe { nine_seven_row_place(w, r) }
}

/// Set n worked out.
pub fn work_set(stretch: &mut [i32], level: Level, n: usize) -> u32 {
    let Level { last, k, w, h, x, y } = level;
    // SAFETY: the area is a whole slice.
    unsafe { nine_seven_work_set(stretch.as_mut_ptr(), stretch.len(), last, k, w, h, x, y, n) }
}
