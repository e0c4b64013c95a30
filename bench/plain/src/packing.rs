//! Cells packed at k bits, lowest bit first.

/// Bytes that n cells of k bits take.
pub fn packed_len(k: u32, n: usize) -> usize {
    (n * k as usize).div_ceil(8)
}

/// Appends the low k bits of each cell.
pub fn pack(cells: impl Iterator<Item = u64>, k: u32, out: &mut Vec<u8>) {
    match k {
        0 => {}
        8 => out.extend(cells.map(|c| c as u8)),
        16 => cells.for_each(|c| out.extend_from_slice(&(c as u16).to_le_bytes())),
        32 => cells.for_each(|c| out.extend_from_slice(&(c as u32).to_le_bytes())),
        64 => cells.for_each(|c| out.extend_from_slice(&c.to_le_bytes())),
        _ => pack_odd(cells, k, out),
    }
}

fn pack_odd(cells: impl Iterator<Item = u64>, k: u32, out: &mut Vec<u8>) {
    let low = u64::MAX >> (64 - k);
    let (mut word, mut fill) = (0u64, 0);
    for cell in cells {
        let cell = cell & low;
        word |= cell << fill;
        fill += k;
        if fill >= 64 {
            out.extend_from_slice(&word.to_le_bytes());
            fill -= 64;
            word = if fill == 0 { 0 } else { cell >> (k - fill) };
        }
    }
    out.extend_from_slice(&word.to_le_bytes()[..fill.div_ceil(8) as usize]);
}

/// Fills `cells` with cells of k bits. The bytes must suffice.
pub fn unpack(bytes: &[u8], k: u32, cells: &mut [u64]) {
    match k {
        0 => cells.fill(0),
        8 => cells.iter_mut().zip(bytes).for_each(|(c, b)| *c = u64::from(*b)),
        16 => unpack_as(bytes, cells, |b| u64::from(u16::from_le_bytes(b))),
        32 => unpack_as(bytes, cells, |b| u64::from(u32::from_le_bytes(b))),
        64 => unpack_as(bytes, cells, u64::from_le_bytes),
        _ => unpack_odd(bytes, k, cells),
    }
}

fn unpack_as<const N: usize>(bytes: &[u8], cells: &mut [u64], cell: impl Fn([u8; N]) -> u64) {
    for (c, b) in cells.iter_mut().zip(bytes.as_chunks::<N>().0) {
        *c = cell(*b);
    }
}

fn unpack_odd(bytes: &[u8], k: u32, cells: &mut [u64]) {
    let low = u64::MAX >> (64 - k);
    let (words, rest) = bytes.as_chunks::<8>();
    let mut last = [0; 8];
    last[..rest.len()].copy_from_slice(rest);
    let mut words = words.iter().chain([&last]).map(|word| u64::from_le_bytes(*word));
    // `ready` bits that no cell has yet
    let (mut word, mut ready) = (0u64, 0);
    for cell in cells {
        if ready >= k {
            *cell = word & low;
            word >>= k;
            ready -= k;
        } else {
            let next = words.next().unwrap_or(0);
            *cell = (word | next << ready) & low;
            word = if k - ready == 64 { 0 } else { next >> (k - ready) };
            ready += 64 - k;
        }
    }
}
