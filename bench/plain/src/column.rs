//! Columns as slices lend them.

use std::borrow::Cow;

use crate::MAX_ROWS;
use crate::kind::Kind;
use crate::packing::packed_len;

/// A kind, a cell for each row, and a presence bit for each row; no words where no row is blank. The cell of a blank is 0.
#[derive(Clone, Copy)]
pub struct Column<'a> {
    pub kind: Kind,
    pub cells: &'a [u64],
    pub words: Option<&'a [u64]>,
}

impl<'a> Column<'a> {
    /// A column without blanks.
    pub fn full(kind: Kind, cells: &'a [u64]) -> Column<'a> {
        Column { kind, cells, words: None }
    }

    pub fn rows(&self) -> usize {
        self.cells.len()
    }

    /// The cells 64 at a time, each with its presence bits.
    pub fn blocks(&self) -> impl Iterator<Item = (&'a [u64], u64)> {
        let words = self.words;
        self.cells.chunks(64).enumerate().map(move |(i, cells)| {
            let full = u64::MAX >> (64 - cells.len());
            (cells, words.map_or(full, |words| words[i]))
        })
    }

    pub fn value_count(&self) -> usize {
        match self.words {
            None => self.rows(),
            Some(words) => words.iter().map(|w| w.count_ones() as usize).sum(),
        }
    }

    /// The values in row order.
    pub fn values(&self) -> Cow<'a, [u64]> {
        if self.words.is_none() {
            return Cow::Borrowed(self.cells);
        }
        let mut values = Vec::with_capacity(self.rows());
        for (cells, word) in self.blocks() {
            if word == u64::MAX {
                values.extend_from_slice(cells);
            } else {
                values.extend(bits(word).map(|i| cells[i]));
            }
        }
        Cow::Owned(values)
    }

    /// The one value, if all values are equal.
    pub fn constant(&self) -> Option<u64> {
        let (cells, word) = self.blocks().find(|(_, word)| *word != 0)?;
        let first = cells[word.trailing_zeros() as usize];
        let same = match self.words {
            None => self.cells.iter().all(|cell| *cell == first),
            Some(_) => self.blocks().all(|(cells, word)| bits(word).all(|i| cells[i] == first)),
        };
        same.then_some(first)
    }

    pub fn mask_len(&self) -> usize {
        if self.words.is_some() { packed_len(1, self.rows()) } else { 0 }
    }

    pub fn plain_weight(&self) -> usize {
        packed_len(self.kind.width(), self.rows()) + self.mask_len()
    }
}

/// The places of the bits that are set.
pub fn bits(mut word: u64) -> impl Iterator<Item = usize> {
    std::iter::from_fn(move || {
        (word != 0).then(|| {
            let i = word.trailing_zeros() as usize;
            word &= word - 1;
            i
        })
    })
}

/// Whether a column is turned away: too many rows, presence words that do not fit, or a value outside its kind.
pub fn is_refused(kind: Kind, cells: &[u64], words: &[u64]) -> bool {
    let rows = cells.len();
    if rows > MAX_ROWS || words.len() != rows.div_ceil(64) {
        return true;
    }
    if words.get(rows / 64).is_some_and(|last| last >> (rows % 64) != 0) {
        return true;
    }
    let (low, high) = kind.range();
    let outside = |cell: u64| !(low..=high).contains(&kind.key(cell));
    cells.chunks(64).zip(words).any(|(cells, word)| match *word {
        u64::MAX => cells.iter().any(|cell| outside(*cell)),
        word => bits(word).any(|i| outside(cells[i])),
    })
}

/// The cells with 0 under each blank; as they are where no row is blank.
pub fn cleaned<'a>(cells: &'a [u64], words: &[u64]) -> Cow<'a, [u64]> {
    let present: usize = words.iter().map(|w| w.count_ones() as usize).sum();
    if present == cells.len() {
        return Cow::Borrowed(cells);
    }
    let mut clean = vec![0; cells.len()];
    for ((out, cells), word) in clean.chunks_mut(64).zip(cells.chunks(64)).zip(words) {
        if *word == u64::MAX {
            out.copy_from_slice(cells);
        } else {
            bits(*word).for_each(|i| out[i] = cells[i]);
        }
    }
    Cow::Owned(clean)
}
