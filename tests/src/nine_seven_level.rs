//! One level of the integer 9/7 on the way forward, in a line store, as crate `test_exports` exports it.
extern "C" {
    fn nine_seven_level_slot(w: usize, q: usize) -> usize;
    fn nine_seven_level_put(
        store: *mut i32, store_len: usize, w: usize, x: usize, q: usize, column: usize, run: *const u16, run_len: usize, from: usize, n: usize,
    ) -> u32;
    fn nine_seven_level_make(store: *mut i32, store_len: usize, w: usize, x: usize, y: usize, n: usize) -> u32;
    fn nine_seven_level_close(store: *mut i32, store_len: usize, w: usize, x: usize, y: usize, m: usize, n: usize) -> u32;
    fn nine_seven_level_deliver(store: *mut i32, store_len: usize, w: usize, x: usize, n: usize, q: usize) -> u32;
}

/// Where the slot of row q of w numbers begins.
pub fn slot(w: usize, q: usize) -> usize {
    // SAFETY: numbers alone.
    unsafe { nine_seven_level_slot(w, q) }
}

/// A level: how many columns it has, where they start, and where its rows do.
#[derive(Clone, Copy, Debug)]
pub struct Level {
    pub w: usize,
    pub x: usize,
    pub y: usize,
}

impl Level {
    /// Heights to row q, from a column on.
    pub fn put(self, store: &mut [i32], q: usize, column: usize, run: &[u16]) -> u32 {
        // SAFETY: both areas are whole slices, and no one else has the store.
        unsafe { nine_seven_level_put(store.as_mut_ptr(), store.len(), self.w, self.x, q, column, run.as_ptr(), run.len(), 0, run.len()) }
    }

    /// Set n, rows up to 2n + 4 being there.
    pub fn make(self, store: &mut [i32], n: usize) -> u32 {
        // SAFETY: the store is a whole slice.
        unsafe { nine_seven_level_make(store.as_mut_ptr(), store.len(), self.w, self.x, self.y, n) }
    }

    /// Set n of m rows, all of them being there.
    pub fn close(self, store: &mut [i32], m: usize, n: usize) -> u32 {
        // SAFETY: as above.
        unsafe { nine_seven_level_close(store.as_mut_ptr(), store.len(), self.w, self.x, self.y, m, n) }
    }

    /// The LL row of set n as row q of the next level.
    pub fn deliver(self, store: &mut [i32], n: usize, q: usize) -> u32 {
        // SAFETY: as above.
        unsafe { nine_seven_level_deliver(store.as_mut_ptr(), store.len(), self.w, self.x, n, q) }
    }
}
