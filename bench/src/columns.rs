//! Columns as a ticket service has them, from a fixed seed.

use plain::Kind;

pub const ROWS: usize = 131_072;

const SEED: u64 = 20_261_127;

pub struct Column {
    pub name: &'static str,
    pub kind: Kind,
    pub cells: Vec<u64>,
    pub words: Vec<u64>,
}

impl Column {
    /// The cells, 0 under blanks.
    pub fn clean(&self) -> Vec<u64> {
        let is_set = |row: usize| self.words[row / 64] >> (row % 64) & 1 == 1;
        self.cells.iter().enumerate().map(|(row, cell)| if is_set(row) { *cell } else { 0 }).collect()
    }
}

/// Random numbers by splitmix64.
struct Random(u64);

impl Random {
    fn next(&mut self) -> u64 {
        self.0 = self.0.wrapping_add(0x9e37_79b9_7f4a_7c15);
        let z = (self.0 ^ self.0 >> 30).wrapping_mul(0xbf58_476d_1ce4_e5b9);
        let z = (z ^ z >> 27).wrapping_mul(0x94d0_49bb_1331_11eb);
        z ^ z >> 31
    }

    /// A number below `n`.
    fn below(&mut self, n: u64) -> u64 {
        self.next() % n
    }
}

/// Six classes, in runs of 1 to 60 rows.
fn price_class(random: &mut Random) -> Vec<u64> {
    let mut cells = Vec::with_capacity(ROWS);
    while cells.len() < ROWS {
        let len = 1 + random.below(60) as usize;
        cells.extend(std::iter::repeat_n(1 + random.below(6), len));
    }
    cells.truncate(ROWS);
    cells
}

/// Twelve gates at random.
fn gate(random: &mut Random) -> Vec<u64> {
    (0..ROWS).map(|_| 100 + 10 * random.below(12)).collect()
}

/// Minutes since 1970, 0 to 2 tickets a second.
fn minute(random: &mut Random) -> Vec<u64> {
    let mut second = 29_000_000 * 60;
    let mut next = || {
        second += random.below(3);
        second / 60
    };
    (0..ROWS).map(|_| next()).collect()
}

/// Multiples of 50 cents, from -50.00 to 450.00.
fn amount(random: &mut Random) -> Vec<u64> {
    (0..ROWS).map(|_| (random.below(1001) as i64 * 50 - 5000) as u64).collect()
}

/// Presence words: one row in `blanks` is blank, none for 0.
fn presence(random: &mut Random, blanks: u64) -> Vec<u64> {
    let mut words = vec![0; ROWS.div_ceil(64)];
    for row in 0..ROWS {
        let is_present = blanks == 0 || random.below(blanks) != 0;
        words[row / 64] |= u64::from(is_present) << (row % 64);
    }
    words
}

/// Each column without blanks and with one row in ten blank, where a cell stands under the blank all the same.
pub fn all() -> Vec<Column> {
    let mut random = Random(SEED);
    let mut columns = Vec::new();
    let makers: [(&'static str, &'static str, Kind, fn(&mut Random) -> Vec<u64>); 4] = [
        ("price class", "price class, blanks", Kind::U8, price_class),
        ("gate", "gate, blanks", Kind::U16, gate),
        ("minute", "minute, blanks", Kind::U32, minute),
        ("amount", "amount, blanks", Kind::I64, amount),
    ];
    for (name, with_blanks, kind, cells) in makers {
        for (name, blanks) in [(name, 0), (with_blanks, 10)] {
            let (cells, words) = (cells(&mut random), presence(&mut random, blanks));
            columns.push(Column { name, kind, cells, words });
        }
    }
    columns
}
