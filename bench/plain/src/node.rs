//! The stored form: a head of 16 bytes, a payload, child 0 and child 1.

use crate::column::Column;
use crate::packing::{pack, packed_len};

pub const HEAD: usize = 16;

pub const PLAIN: u8 = 0;
pub const CONSTANT: u8 = 1;
pub const BLANK: u8 = 2;

/// What a head says of a node beside its kind, rows and lengths.
#[derive(Clone, Copy)]
pub struct Head {
    pub form: u8,
    pub cell_bits: u32,
    pub masked: bool,
}

/// A node that is being written at the end of `out`.
pub struct Writer<'a> {
    pub out: &'a mut Vec<u8>,
    start: usize,
}

impl<'a> Writer<'a> {
    pub fn new(out: &'a mut Vec<u8>) -> Writer<'a> {
        let start = out.len();
        out.resize(start + HEAD, 0);
        Writer { out, start }
    }

    pub fn put_mask(&mut self, column: Column<'_>) {
        let Some(words) = column.words else { return };
        let end = self.out.len() + packed_len(1, column.rows());
        self.out.extend(words.iter().flat_map(|word| word.to_le_bytes()));
        self.out.truncate(end);
    }

    /// Bytes written so far beside the head.
    pub fn len(&self) -> usize {
        self.out.len() - self.start - HEAD
    }

    /// Writes the head, now that the lengths are known.
    pub fn finish(self, head: Head, column: Column<'_>, payload: usize) {
        let whole = self.out.len() - self.start;
        let bytes = &mut self.out[self.start..self.start + HEAD];
        let kind = column.kind.number();
        bytes[..4].copy_from_slice(&[head.form, kind, head.cell_bits as u8, head.masked.into()]);
        bytes[4..8].copy_from_slice(&(column.rows() as u32).to_le_bytes());
        bytes[8..12].copy_from_slice(&(payload as u32).to_le_bytes());
        bytes[12..].copy_from_slice(&(whole as u32).to_le_bytes());
    }
}

/// Each of these appends a node without children and gives its weight.
pub fn put_plain(column: Column<'_>, out: &mut Vec<u8>) -> usize {
    put_leaf(PLAIN, column, column.cells, out)
}

pub fn put_constant(column: Column<'_>, value: u64, out: &mut Vec<u8>) -> usize {
    put_leaf(CONSTANT, column, &[value], out)
}

pub fn put_blank(column: Column<'_>, out: &mut Vec<u8>) -> usize {
    let head = Head { form: BLANK, cell_bits: 0, masked: false };
    Writer::new(out).finish(head, column, 0);
    0
}

fn put_leaf(form: u8, column: Column<'_>, cells: &[u64], out: &mut Vec<u8>) -> usize {
    let mut node = Writer::new(out);
    let width = column.kind.width();
    pack(cells.iter().copied(), width, node.out);
    node.put_mask(column);
    let payload = node.len();
    node.finish(Head { form, cell_bits: width, masked: column.words.is_some() }, column, payload);
    payload
}
