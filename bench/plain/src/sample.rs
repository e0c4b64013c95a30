//! Samples: 64 rows from each of some strata.

use crate::column::Column;

const SAMPLE_SIZE: usize = 64;
const SEED: u64 = 1234567890;

/// A linear congruential generator.
struct Mill(u64);

impl Mill {
    fn draw(&mut self, low: usize, high: usize) -> usize {
        self.0 = self.0.wrapping_mul(6364136223846793005).wrapping_add(1442695040888963407);
        low + (self.0 >> 33) as usize % (high - low + 1)
    }
}

pub struct Sample {
    pub cells: Vec<u64>,
    pub words: Vec<u64>,
}

/// The sample of a column; none where the column is its own.
pub fn sample(column: Column<'_>) -> Option<Sample> {
    let rows = column.rows();
    let count = (rows / 100 / SAMPLE_SIZE).next_multiple_of(16).max(16);
    if rows <= SAMPLE_SIZE * count {
        return None;
    }
    let (each, longer) = (rows / count, rows % count);
    let mut mill = Mill(SEED);
    let mut cells = Vec::with_capacity(SAMPLE_SIZE * count);
    let mut words = Vec::with_capacity(count);
    let mut start = 0;
    for i in 0..count {
        let stop = start + each + usize::from(i < longer);
        let from = mill.draw(start, stop - SAMPLE_SIZE);
        cells.extend_from_slice(&column.cells[from..from + SAMPLE_SIZE]);
        words.push(column.words.map_or(u64::MAX, |words| word_from(words, from)));
        start = stop;
    }
    Some(Sample { cells, words })
}

/// The 64 presence bits from row `from` on.
fn word_from(words: &[u64], from: usize) -> u64 {
    let (at, bit) = (from / 64, from % 64);
    match bit {
        0 => words[at],
        _ => words[at] >> bit | words[at + 1] << (64 - bit),
    }
}
