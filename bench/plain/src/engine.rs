//! The choice among the schemes, and the levels.

use crate::LEVELS;
use crate::column::{Column, cleaned, is_refused};
use crate::kind::Kind;
use crate::node::{put_blank, put_constant, put_plain};
use crate::sample::sample;
use crate::schemes::{Answer, Data, HOUSE, Scheme, frame_ratio};

/// Where a column stands in its tree.
pub struct Place<'a> {
    levels: u32,
    is_sample: bool,
    above: Option<(&'a Place<'a>, Scheme, usize)>,
}

impl Place<'_> {
    /// The place of a scheme's child.
    pub fn below(&self, scheme: Scheme, child: usize) -> Place<'_> {
        let levels = self.levels - 1;
        Place { levels, is_sample: self.is_sample, above: Some((self, scheme, child)) }
    }

    fn is_excluded(&self, candidate: Scheme) -> bool {
        self.above.is_some_and(|(place, scheme, child)| {
            scheme == candidate || scheme.excludes(candidate, child) || place.is_excluded(candidate)
        })
    }
}

/// Appends the node of a column, or refuses it.
pub fn bind(kind: Kind, cells: &[u64], words: &[u64], out: &mut Vec<u8>) -> Option<()> {
    if is_refused(kind, cells, words) {
        return None;
    }
    let blank = words.iter().map(|w| w.count_ones() as usize).sum::<usize>() < cells.len();
    let cells = cleaned(cells, words);
    let column = Column { kind, cells: &cells, words: blank.then_some(words) };
    bind_node(column, &Place { levels: LEVELS, is_sample: false, above: None }, out);
    Some(())
}

/// Appends the node of a clean column and gives its weight.
pub fn bind_node(column: Column<'_>, place: &Place<'_>, out: &mut Vec<u8>) -> usize {
    if place.levels == 0 || column.rows() == 0 {
        return put_plain(column, out);
    }
    if column.value_count() == 0 {
        return put_blank(column, out);
    }
    if !place.is_sample
        && let Some(value) = column.constant()
    {
        return lightest(column, out, |out| put_constant(column, value, out));
    }
    let eligible: Vec<Scheme> = HOUSE.into_iter().filter(|s| !place.is_excluded(*s)).collect();
    let data = Data::new(column, eligible.iter().any(|s| s.wants_distinct()));
    match choose(&eligible, &data, place) {
        Some(winner) => lightest(column, out, |out| winner.bind(&data, place, out)),
        None => put_plain(column, out),
    }
}

/// Appends the node that `put` appends, or the plain one unless that one is heavier.
fn lightest(column: Column<'_>, out: &mut Vec<u8>, put: impl FnOnce(&mut Vec<u8>) -> usize) -> usize {
    let start = out.len();
    let weight = put(out);
    if weight < column.plain_weight() {
        return weight;
    }
    out.truncate(start);
    put_plain(column, out)
}

/// The scheme with the greatest ratio: immediate answers first, then the deferred, each in bank order.
fn choose(eligible: &[Scheme], data: &Data<'_>, place: &Place<'_>) -> Option<Scheme> {
    let mut best: Option<(Scheme, f64)> = None;
    let mut offer = |scheme, ratio: f64| {
        let is_valid = ratio.is_finite() && ratio > 1.0;
        if is_valid && best.is_none_or(|(_, most)| ratio > most) {
            best = Some((scheme, ratio));
        }
    };
    let mut deferred = Vec::new();
    for scheme in eligible {
        match scheme.answer(data) {
            Answer::Skip => {}
            Answer::Ratio(ratio) => offer(*scheme, ratio),
            later => deferred.push((*scheme, later)),
        }
    }
    for (scheme, answer) in deferred {
        let ratio = match answer {
            Answer::Sample => score(scheme, data.column, place),
            _ => frame_ratio(data),
        };
        if let Some(ratio) = ratio {
            offer(scheme, ratio);
        }
    }
    best.map(|(scheme, _)| scheme)
}

/// The plain weight of a sample over its weight; none where nothing is left.
fn score(scheme: Scheme, column: Column<'_>, place: &Place<'_>) -> Option<f64> {
    let drawn = if place.is_sample { None } else { sample(column) };
    let column = match &drawn {
        None => column,
        Some(drawn) => {
            let has_blank = drawn.words.iter().any(|word| *word != u64::MAX);
            let words = has_blank.then_some(&drawn.words[..]);
            Column { kind: column.kind, cells: &drawn.cells, words }
        }
    };
    let place = Place { is_sample: true, ..*place };
    let data = Data::new(column, scheme.wants_distinct());
    let weight = scheme.bind(&data, &place, &mut Vec::new());
    (weight != 0).then(|| column.plain_weight() as f64 / weight as f64)
}
