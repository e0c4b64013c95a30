//! The engines that are measured.

use crate::columns::{Column, ROWS};

pub trait Engine {
    fn name(&self) -> &'static str;

    /// The bytes of the column's node.
    fn bind(&mut self, column: &Column) -> &[u8];

    /// The cells and presence words of the column whose node the bytes are.
    fn read(&mut self, bytes: &[u8]) -> (&[u64], &[u64]);
}

/// The engines at hand, plain Rust first.
pub fn engines() -> Vec<Box<dyn Engine>> {
    vec![
        Box::new(Plain::new()),
        #[cfg(feature = "proved")]
        Box::new(proved::Proved::new()),
    ]
}

struct Plain {
    bytes: Vec<u8>,
    cells: Vec<u64>,
    words: Vec<u64>,
}

impl Plain {
    fn new() -> Plain {
        Plain { bytes: Vec::new(), cells: vec![0; ROWS], words: vec![0; ROWS.div_ceil(64)] }
    }
}

impl Engine for Plain {
    fn name(&self) -> &'static str {
        "plain"
    }

    fn bind(&mut self, column: &Column) -> &[u8] {
        self.bytes.clear();
        plain::bind(column.kind, &column.cells, &column.words, &mut self.bytes).expect("it is bound");
        &self.bytes
    }

    fn read(&mut self, bytes: &[u8]) -> (&[u64], &[u64]) {
        let (_, rows) = plain::read(bytes, &mut self.cells, &mut self.words).expect("it is read");
        (&self.cells[..rows], &self.words[..rows.div_ceil(64)])
    }
}

#[cfg(feature = "proved")]
pub mod proved {
    use super::{Column, Engine, ROWS};

    // Two functions of `benchlib`; slices are passed as a pointer and a length. Each gives 0 where it refuses.
    #[link(name = "benchlib", kind = "static")]
    unsafe extern "C" {
        fn bench_bind(
            kind: u8,
            cells: *const u64,
            cells_len: usize,
            words: *const u64,
            words_len: usize,
            mem: *mut u64,
            mem_len: usize,
            out: *mut u8,
            out_len: usize,
        ) -> usize;

        fn bench_read(
            bytes: *const u8,
            bytes_len: usize,
            mem: *mut u64,
            mem_len: usize,
            cells: *mut u64,
            cells_len: usize,
            words: *mut u64,
            words_len: usize,
        ) -> usize;
    }

    /// The proved engine, with the memory that it is lent.
    pub struct Proved {
        mem: Vec<u64>,
        bytes: Vec<u8>,
        cells: Vec<u64>,
        words: Vec<u64>,
    }

    impl Proved {
        pub fn new() -> Proved {
            Proved {
                mem: vec![0; (12 * ROWS + 512) * (plain::LEVELS as usize + 1)],
                bytes: vec![0; 16 * ROWS],
                cells: vec![0; ROWS],
                words: vec![0; ROWS.div_ceil(64)],
            }
        }
    }

    impl Engine for Proved {
        fn name(&self) -> &'static str {
            "proved"
        }

        fn bind(&mut self, column: &Column) -> &[u8] {
            // SAFETY: each pointer goes with the length of its vector, and those that are written are borrowed mutably.
            let len = unsafe {
                bench_bind(
                    column.kind.number(),
                    column.cells.as_ptr(),
                    column.cells.len(),
                    column.words.as_ptr(),
                    column.words.len(),
                    self.mem.as_mut_ptr(),
                    self.mem.len(),
                    self.bytes.as_mut_ptr(),
                    self.bytes.len(),
                )
            };
            assert!(len > 0, "it is bound");
            &self.bytes[..len]
        }

        fn read(&mut self, bytes: &[u8]) -> (&[u64], &[u64]) {
            // SAFETY: as above.
            let rows = unsafe {
                bench_read(
                    bytes.as_ptr(),
                    bytes.len(),
                    self.mem.as_mut_ptr(),
                    self.mem.len(),
                    self.cells.as_mut_ptr(),
                    self.cells.len(),
                    self.words.as_mut_ptr(),
                    self.words.len(),
                )
            };
            assert!(rows > 0, "it is read");
            (&self.cells[..rows], &self.words[..rows.div_ceil(64)])
        }
    }

    // One more, by the binder's public calls.
    unsafe extern "C" {
        fn bench_calls(
            kind: u8,
            cells: *const u64,
            cells_len: usize,
            words: *const u64,
            words_len: usize,
            mem: *mut u64,
            mem_len: usize,
            bytes: *mut u8,
            bytes_len: usize,
            cells_back: *mut u64,
            cells_back_len: usize,
            words_back: *mut u64,
            words_back_len: usize,
        ) -> usize;
    }

    impl Proved {
        /// Opens a binder and binds the column, and fetches it where that is wished; its rows.
        pub fn calls(&mut self, column: &Column, fetch: bool) -> usize {
            let (cells, words) = if fetch { (self.cells.len(), self.words.len()) } else { (0, 0) };
            // SAFETY: as above; places of no length are part of the vectors.
            unsafe {
                bench_calls(
                    column.kind.number(),
                    column.cells.as_ptr(),
                    column.cells.len(),
                    column.words.as_ptr(),
                    column.words.len(),
                    self.mem.as_mut_ptr(),
                    self.mem.len(),
                    self.bytes.as_mut_ptr(),
                    self.bytes.len(),
                    self.cells.as_mut_ptr(),
                    cells,
                    self.words.as_mut_ptr(),
                    words,
                )
            }
        }
    }
}
