//! Statistics of a column.

use crate::column::Column;
use crate::kind::Kind;

pub struct Stats {
    pub value_count: usize,
    pub average_run_length: usize,
    /// The least and the greatest value as cells; none without a value.
    pub ends: Option<(u64, u64)>,
    /// Present where it was wished for.
    pub distinct: Option<Distinct>,
}

/// The distinct values ascending, with their counts, and the commonest, the least among equals.
pub struct Distinct {
    pub values: Vec<u64>,
    pub counts: Vec<u32>,
    pub commonest: (u64, u32),
}

impl Stats {
    pub fn of(column: Column<'_>, count_distinct: bool) -> Stats {
        let kind = column.kind;
        let values = column.values();
        let runs = match values.len() {
            0 => 0,
            _ => 1 + values.array_windows().filter(|[a, b]| a != b).count(),
        };
        let least = values.iter().map(|v| kind.key(*v)).min();
        let greatest = values.iter().map(|v| kind.key(*v)).max();
        Stats {
            value_count: values.len(),
            average_run_length: values.len().checked_div(runs).unwrap_or(0),
            ends: least.zip(greatest).map(|(a, b)| (kind.key(a), kind.key(b))),
            distinct: count_distinct.then(|| Distinct::of(kind, &values)),
        }
    }

    /// The bits that the distance of the ends needs.
    pub fn span_bits(&self) -> u32 {
        let (least, greatest) = self.ends.unwrap_or((0, 0));
        64 - greatest.wrapping_sub(least).leading_zeros()
    }
}

impl Distinct {
    fn of(kind: Kind, values: &[u64]) -> Distinct {
        let mut keys: Vec<u64> = values.iter().map(|v| kind.key(*v)).collect();
        keys.sort_unstable();
        let (values, counts): (Vec<u64>, Vec<u32>) =
            keys.chunk_by(|a, b| a == b).map(|run| (kind.key(run[0]), run.len() as u32)).unzip();
        let mut commonest = (0, 0);
        for (value, count) in values.iter().zip(&counts) {
            if *count > commonest.1 {
                commonest = (*value, *count);
            }
        }
        Distinct { values, counts, commonest }
    }
}
