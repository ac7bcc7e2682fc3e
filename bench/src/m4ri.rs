//! Matrices of M4RI: reduced row echelon form by each of its ways.
use std::ffi::c_void;

pub const WAYS: [&str; 4] = ["m4ri", "pluq", "echelonize", "gauss"];

extern "C" {
    fn bench_m4ri_new(rows: i32, cols: i32) -> *mut c_void;
    fn bench_m4ri_free(matrix: *mut c_void);
    fn bench_m4ri_fill(matrix: *mut c_void, words: *const u64);
    fn bench_m4ri_read(matrix: *const c_void, words: *mut u64);
    fn bench_m4ri_reduce(work: *mut c_void, from: *const c_void, way: i32) -> i32;
}

pub struct Matrix {
    inner: *mut c_void,
    rows: usize,
    width: usize,
}

impl Matrix {
    pub fn new(rows: usize, cols: usize) -> Self {
        Matrix { inner: unsafe { bench_m4ri_new(rows as i32, cols as i32) }, rows, width: cols.div_ceil(64) }
    }

    pub fn fill(&mut self, words: &[u64]) {
        assert_eq!(words.len(), self.rows * self.width);
        unsafe { bench_m4ri_fill(self.inner, words.as_ptr()) }
    }

    pub fn words(&self) -> Vec<u64> {
        let mut words = vec![0; self.rows * self.width];
        unsafe { bench_m4ri_read(self.inner, words.as_mut_ptr()) }
        words
    }

    /// Copies `from` here and reduces it; the rank.
    pub fn reduce(&mut self, from: &Matrix, way: usize) -> usize {
        unsafe { bench_m4ri_reduce(self.inner, from.inner, way as i32) as usize }
    }
}

impl Drop for Matrix {
    fn drop(&mut self) {
        unsafe { bench_m4ri_free(self.inner) }
    }
}
