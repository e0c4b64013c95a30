//! Nodes read back; total on any bytes.

use crate::column::bits;
use crate::kind::Kind;
use crate::node::{BLANK, CONSTANT, HEAD, PLAIN};
use crate::packing::{packed_len, unpack};
use crate::{LEVELS, MAX_ROWS};

/// A node's head and payload, and what follows.
struct Node<'a> {
    form: u8,
    kind: Kind,
    cell_bits: u32,
    masked: bool,
    rows: usize,
    payload: &'a [u8],
    children: &'a [u8],
}

/// A child that was read.
struct Child {
    cells: Vec<u64>,
    words: Vec<u64>,
}

/// Fills the fronts of `cells` and `words` with the column whose node the bytes begin with; cells 0 under blanks. Gives its kind and rows.
pub fn read(bytes: &[u8], cells: &mut [u64], words: &mut [u64]) -> Option<(Kind, usize)> {
    let (node, _) = cut(bytes)?;
    let cells = cells.get_mut(..node.rows)?;
    let words = words.get_mut(..node.rows.div_ceil(64))?;
    read_node(&node, LEVELS, cells, words)?;
    Some((node.kind, node.rows))
}

/// The node at the front, and the bytes after it.
fn cut(bytes: &[u8]) -> Option<(Node<'_>, &[u8])> {
    let (head, _) = bytes.split_first_chunk::<HEAD>()?;
    let number = |at: usize| u32::from_le_bytes([head[at], head[at + 1], head[at + 2], head[at + 3]]) as usize;
    let (node, rest) = bytes.split_at_checked(number(12))?;
    let (payload, children) = node.get(HEAD..)?.split_at_checked(number(8))?;
    let rows = number(4);
    if rows > MAX_ROWS {
        return None;
    }
    let node = Node {
        form: head[0],
        kind: Kind::of(head[1])?,
        cell_bits: u32::from(head[2]),
        masked: head[3] != 0,
        rows,
        payload,
        children,
    };
    Some((node, rest))
}

/// The places are as long as the column.
fn read_node(node: &Node<'_>, levels: u32, cells: &mut [u64], words: &mut [u64]) -> Option<()> {
    match node.form {
        PLAIN => read_plain(node, cells, words),
        CONSTANT => read_constant(node, cells, words),
        BLANK => {
            cells.fill(0);
            words.fill(0);
            Some(())
        }
        16 => read_dict(node, levels.checked_sub(1)?, cells, words),
        17 => read_runs(node, levels.checked_sub(1)?, cells, words),
        18 => read_frame(node, cells, words),
        _ => None,
    }
}

fn read_child(bytes: &[u8], levels: u32) -> Option<(Child, &[u8])> {
    let (node, rest) = cut(bytes)?;
    let mut child = Child { cells: vec![0; node.rows], words: vec![0; node.rows.div_ceil(64)] };
    read_node(&node, levels, &mut child.cells, &mut child.words)?;
    Some((child, rest))
}

fn read_plain(node: &Node<'_>, cells: &mut [u64], words: &mut [u64]) -> Option<()> {
    let (body, mask) = node.payload.split_at_checked(packed_len(node.kind.width(), node.rows))?;
    unpack(body, node.kind.width(), cells);
    extend_signs(node.kind, cells);
    read_mask(node, mask, words)
}

fn read_constant(node: &Node<'_>, cells: &mut [u64], words: &mut [u64]) -> Option<()> {
    let (value, mask) = read_value(node)?;
    read_mask(node, mask, words)?;
    if node.masked {
        fill_present(cells, words, || value);
    } else {
        cells.fill(value);
    }
    Some(())
}

fn read_frame(node: &Node<'_>, cells: &mut [u64], words: &mut [u64]) -> Option<()> {
    if node.cell_bits > 64 {
        return None;
    }
    let (least, rest) = read_value(node)?;
    let (body, mask) = rest.split_at_checked(packed_len(node.cell_bits, node.rows))?;
    unpack(body, node.cell_bits, cells);
    read_mask(node, mask, words)?;
    if node.masked {
        for (cells, word) in cells.chunks_mut(64).zip(words) {
            for (i, cell) in cells.iter_mut().enumerate() {
                *cell = cell.wrapping_add(least) & (*word >> i & 1).wrapping_neg();
            }
        }
    } else {
        cells.iter_mut().for_each(|cell| *cell = cell.wrapping_add(least));
    }
    Some(())
}

fn read_dict(node: &Node<'_>, levels: u32, cells: &mut [u64], words: &mut [u64]) -> Option<()> {
    let (values, rest) = read_child(node.children, levels)?;
    let (codes, _) = cut(rest)?;
    if codes.rows != node.rows {
        return None;
    }
    read_node(&codes, levels, cells, words)?;
    // The codes stand where their values belong, and 0 under blanks.
    let value = |code: u64| values.cells.get(code as usize).copied();
    for (cells, word) in cells.chunks_mut(64).zip(words) {
        if *word == u64::MAX {
            for cell in cells {
                *cell = value(*cell)?;
            }
        } else {
            for i in bits(*word) {
                cells[i] = value(cells[i])?;
            }
        }
    }
    Some(())
}

fn read_runs(node: &Node<'_>, levels: u32, cells: &mut [u64], words: &mut [u64]) -> Option<()> {
    let (firsts, rest) = read_child(node.children, levels)?;
    let (ends, _) = read_child(rest, levels)?;
    read_mask(node, node.payload, words)?;
    if !node.masked {
        write_runs(&firsts.cells, &ends.cells, cells);
        return Some(());
    }
    let mut values = vec![0; cells.len()];
    write_runs(&firsts.cells, &ends.cells, &mut values);
    let mut at = 0;
    fill_present(cells, words, || {
        at += 1;
        values[at - 1]
    });
    Some(())
}

/// Each first value up to its end, as far as there is room.
fn write_runs(firsts: &[u64], ends: &[u64], out: &mut [u64]) {
    let mut start = 0;
    for (first, end) in firsts.iter().zip(ends) {
        let end = (*end as usize).clamp(start, out.len());
        out[start..end].fill(*first);
        start = end;
    }
}

/// The first value of the payload, at the width, and the bytes after it.
fn read_value<'a>(node: &Node<'a>) -> Option<(u64, &'a [u8])> {
    let (body, rest) = node.payload.split_at_checked(packed_len(node.kind.width(), 1))?;
    let mut value = [0];
    unpack(body, node.kind.width(), &mut value);
    extend_signs(node.kind, &mut value);
    Some((value[0], rest))
}

fn extend_signs(kind: Kind, cells: &mut [u64]) {
    if kind.is_signed() {
        let shift = 64 - kind.width();
        cells.iter_mut().for_each(|cell| *cell = ((*cell << shift) as i64 >> shift) as u64);
    }
}

/// Presence words from a mask, all rows present without one.
fn read_mask(node: &Node<'_>, bytes: &[u8], words: &mut [u64]) -> Option<()> {
    if node.masked {
        let mask = bytes.get(..packed_len(1, node.rows))?;
        let (whole, rest) = mask.as_chunks::<8>();
        let mut last = [0; 8];
        last[..rest.len()].copy_from_slice(rest);
        words.iter_mut().zip(whole.iter().chain([&last])).for_each(|(w, b)| *w = u64::from_le_bytes(*b));
    } else {
        words.fill(u64::MAX);
    }
    if node.rows % 64 != 0
        && let Some(last) = words.last_mut()
    {
        *last &= (1 << (node.rows % 64)) - 1;
    }
    Some(())
}

/// Puts a value at each row that has one and 0 at the others.
fn fill_present(cells: &mut [u64], words: &[u64], mut value: impl FnMut() -> u64) {
    cells.fill(0);
    for (cells, word) in cells.chunks_mut(64).zip(words) {
        bits(*word).for_each(|i| cells[i] = value());
    }
}
