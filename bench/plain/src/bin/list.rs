//! Answers lines `bind house mill KIND cells` with the nodes of the tree, in the manner of the oracle, after reading them back.

use std::io::BufRead;

use plain::{Kind, bind, read};

fn main() {
    for line in std::io::stdin().lock().lines() {
        let line = line.expect("a line of text");
        let words: Vec<&str> = line.split(' ').collect();
        let ["bind", "house", "mill", kind, cells @ ..] = &words[..] else { panic!("{line}") };
        let kind = Kind::ALL.into_iter().find(|k| k.name() == *kind).expect("a kind");
        let (cells, words) = column(cells.first().copied());
        let mut out = Vec::new();
        bind(kind, &cells, &words, &mut out).expect("the column is bound");
        check_back(kind, &cells, &words, &out);
        let mut nodes = Vec::new();
        list(&out, 0, &mut nodes);
        println!("ok {}", nodes.join(";"));
    }
}

/// Fields between commas: a cell, `_` a blank, `?cell` a blank with a cell under it, `*n` repeats.
fn column(text: Option<&str>) -> (Vec<u64>, Vec<u64>) {
    let (mut cells, mut words) = (Vec::new(), Vec::new());
    for field in text.into_iter().flat_map(|text| text.split(',')) {
        let (field, count) = field.split_once('*').unwrap_or((field, "1"));
        let hidden = field.strip_prefix('?');
        let is_value = field != "_" && hidden.is_none();
        let cell = hidden.unwrap_or(if is_value { field } else { "0" });
        let cell: i128 = cell.parse().expect("a cell");
        for _ in 0..count.parse::<usize>().expect("a count") {
            if cells.len() % 64 == 0 {
                words.push(0);
            }
            if is_value {
                *words.last_mut().unwrap() |= 1u64 << (cells.len() % 64);
            }
            cells.push(cell as u64);
        }
    }
    (cells, words)
}

fn check_back(kind: Kind, cells: &[u64], words: &[u64], bytes: &[u8]) {
    let mut back = (vec![7; cells.len() + 1], vec![7; words.len() + 1]);
    assert_eq!(read(bytes, &mut back.0, &mut back.1), Some((kind, cells.len())));
    let is_set = |i: usize| words[i / 64] >> (i % 64) & 1 == 1;
    for (i, cell) in cells.iter().enumerate() {
        assert_eq!(back.0[i], if is_set(i) { *cell } else { 0 });
    }
    assert_eq!((back.0[cells.len()], back.1[words.len()]), (7, 7));
    assert_eq!(&back.1[..words.len()], words);
}

fn number(bytes: &[u8], at: usize) -> usize {
    u32::from_le_bytes(bytes[at..at + 4].try_into().unwrap()) as usize
}

/// The node's line and those of its children; how many bytes it takes, and its weight.
fn list(bytes: &[u8], level: usize, nodes: &mut Vec<String>) -> (usize, usize) {
    let (payload, whole) = (number(bytes, 8), number(bytes, 12));
    let at = nodes.len();
    nodes.push(String::new());
    let (mut start, mut weight) = (16 + payload, payload);
    while start < whole {
        let (len, light) = list(&bytes[start..whole], level + 1, nodes);
        start += len;
        weight += light;
    }
    assert_eq!(start, whole);
    let kind = Kind::of(bytes[1]).expect("a kind").name();
    let crc = crc32(&bytes[16..16 + payload]);
    let (form, bits, flag, rows) = (bytes[0], bytes[2], bytes[3], number(bytes, 4));
    nodes[at] = format!("{level},{form},{kind},{rows},{bits},{flag},{payload},{weight},{whole},{crc:08x}");
    (whole, weight)
}

fn crc32(bytes: &[u8]) -> u32 {
    !bytes
        .iter()
        .fold(!0u32, |crc, b| (0..8).fold(crc ^ u32::from(*b), |c, _| (c >> 1) ^ (0xedb88320 & (c & 1).wrapping_neg())))
}
