//! The schemes of the house bank.

use std::cell::OnceCell;

use crate::column::{Column, bits};
use crate::engine::{Place, bind_node};
use crate::kind::Kind;
use crate::node::{Head, Writer};
use crate::packing::pack;
use crate::stats::Stats;

/// A column with its statistics, made when they are first asked for.
pub struct Data<'a> {
    pub column: Column<'a>,
    pub count_distinct: bool,
    stats: OnceCell<Stats>,
}

impl<'a> Data<'a> {
    pub fn new(column: Column<'a>, count_distinct: bool) -> Data<'a> {
        Data { column, count_distinct, stats: OnceCell::new() }
    }

    pub fn stats(&self) -> &Stats {
        self.stats.get_or_init(|| Stats::of(self.column, self.count_distinct))
    }
}

#[derive(Clone, Copy, PartialEq, Eq)]
pub enum Scheme {
    Dict,
    Runs,
    Frame,
}

/// In bank order.
pub const HOUSE: [Scheme; 3] = [Scheme::Dict, Scheme::Runs, Scheme::Frame];

pub enum Answer {
    Skip,
    Ratio(f64),
    /// A sample is to be bound.
    Sample,
    /// The ratio is asked for after the immediate answers.
    Callback,
}

impl Scheme {
    pub fn form(self) -> u8 {
        match self {
            Scheme::Dict => 16,
            Scheme::Runs => 17,
            Scheme::Frame => 18,
        }
    }

    pub fn wants_distinct(self) -> bool {
        self == Scheme::Dict
    }

    /// Whether it shuts another scheme out below its child.
    pub fn excludes(self, other: Scheme, child: usize) -> bool {
        self == Scheme::Runs && other == Scheme::Dict && child == 1
    }

    pub fn answer(self, data: &Data<'_>) -> Answer {
        match self {
            Scheme::Dict => dict_ratio(data).map_or(Answer::Skip, Answer::Ratio),
            Scheme::Runs if data.stats().average_run_length < 4 => Answer::Skip,
            Scheme::Runs => Answer::Sample,
            Scheme::Frame => Answer::Callback,
        }
    }

    /// Appends the node and gives its weight.
    pub fn bind(self, data: &Data<'_>, place: &Place<'_>, out: &mut Vec<u8>) -> usize {
        match self {
            Scheme::Dict => bind_dict(data, place, out),
            Scheme::Runs => bind_runs(data.column, place, out),
            Scheme::Frame => bind_frame(data, out),
        }
    }
}

/// How many times smaller a dictionary makes the column, by its statistics.
fn dict_ratio(data: &Data<'_>) -> Option<f64> {
    let stats = data.stats();
    let values = stats.value_count;
    let distinct = stats.distinct.as_ref()?.values.len();
    if values == 0 || distinct > values / 2 {
        return None;
    }
    let width = data.column.kind.width() as usize;
    let bits = (usize::BITS - distinct.leading_zeros()) as usize;
    let runs = values / stats.average_run_length;
    let codes = (bits * values).min((bits + 32) * runs);
    Some((values * width) as f64 / (distinct * width + codes) as f64)
}

/// The width over the bits of the greatest distance, unless that cannot help.
pub fn frame_ratio(data: &Data<'_>) -> Option<f64> {
    let (width, bits) = (data.column.kind.width(), data.stats().span_bits());
    (bits != 0 && bits != width).then(|| f64::from(width) / f64::from(bits))
}

/// The place of each row's value among the distinct ones, 0 under blanks.
pub fn codes(column: Column<'_>, distinct: &[u64]) -> Vec<u64> {
    let kind = column.kind;
    let code = |cell: u64| distinct.partition_point(|v| kind.key(*v) < kind.key(cell)) as u64;
    if column.words.is_none() {
        return column.cells.iter().map(|cell| code(*cell)).collect();
    }
    let mut codes = vec![0; column.rows()];
    for (out, (cells, word)) in codes.chunks_mut(64).zip(column.blocks()) {
        bits(word).for_each(|i| out[i] = code(cells[i]));
    }
    codes
}

fn bind_dict(data: &Data<'_>, place: &Place<'_>, out: &mut Vec<u8>) -> usize {
    let column = data.column;
    let none = Vec::new();
    let distinct = data.stats().distinct.as_ref().map_or(&none, |d| &d.values);
    let codes = codes(column, distinct);
    let codes_kind = Kind::narrowest(distinct.len().saturating_sub(1));
    let node = Writer::new(out);
    let weight0 = bind_node(Column::full(column.kind, distinct), &place.below(Scheme::Dict, 0), node.out);
    let child1 = Column { kind: codes_kind, cells: &codes, words: column.words };
    let weight1 = bind_node(child1, &place.below(Scheme::Dict, 1), node.out);
    node.finish(Head { form: Scheme::Dict.form(), cell_bits: 0, masked: false }, column, 0);
    weight0 + weight1
}

/// The first value of each run, and how many values stand up to its end.
pub fn split_runs(values: &[u64]) -> (Vec<u64>, Vec<u64>) {
    let (mut firsts, mut ends) = (Vec::new(), Vec::new());
    let mut end = 0;
    for run in values.chunk_by(|a, b| a == b) {
        end += run.len();
        firsts.push(run[0]);
        ends.push(end as u64);
    }
    (firsts, ends)
}

fn bind_runs(column: Column<'_>, place: &Place<'_>, out: &mut Vec<u8>) -> usize {
    let values = column.values();
    let (firsts, ends) = split_runs(&values);
    let mut node = Writer::new(out);
    node.put_mask(column);
    let payload = node.len();
    let weight0 = bind_node(Column::full(column.kind, &firsts), &place.below(Scheme::Runs, 0), node.out);
    let ends_kind = Kind::narrowest(values.len());
    let weight1 = bind_node(Column::full(ends_kind, &ends), &place.below(Scheme::Runs, 1), node.out);
    let head = Head { form: Scheme::Runs.form(), cell_bits: 0, masked: column.words.is_some() };
    node.finish(head, column, payload);
    payload + weight0 + weight1
}

fn bind_frame(data: &Data<'_>, out: &mut Vec<u8>) -> usize {
    let column = data.column;
    let least = data.stats().ends.map_or(0, |(least, _)| least);
    let bits = data.stats().span_bits();
    let mut node = Writer::new(out);
    pack([least].into_iter(), column.kind.width(), node.out);
    put_distances(column, least, bits, node.out);
    node.put_mask(column);
    let payload = node.len();
    let head = Head { form: Scheme::Frame.form(), cell_bits: bits, masked: column.words.is_some() };
    node.finish(head, column, payload);
    payload
}

/// Each row's distance from the least value, 0 under blanks, packed.
pub fn put_distances(column: Column<'_>, least: u64, k: u32, out: &mut Vec<u8>) {
    if column.words.is_none() {
        return pack(column.cells.iter().map(|cell| cell.wrapping_sub(least)), k, out);
    }
    let mut distances = vec![0; column.rows()];
    for (out, (cells, word)) in distances.chunks_mut(64).zip(column.blocks()) {
        bits(word).for_each(|i| out[i] = cells[i].wrapping_sub(least));
    }
    pack(distances.into_iter(), k, out);
}
