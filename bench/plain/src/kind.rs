//! The eight kinds of whole numbers.

#[derive(Clone, Copy, PartialEq, Eq, Debug)]
pub enum Kind {
    U8,
    U16,
    U32,
    U64,
    I8,
    I16,
    I32,
    I64,
}

impl Kind {
    pub const ALL: [Kind; 8] = [Kind::U8, Kind::U16, Kind::U32, Kind::U64, Kind::I8, Kind::I16, Kind::I32, Kind::I64];

    pub fn of(number: u8) -> Option<Kind> {
        Kind::ALL.get(usize::from(number)).copied()
    }

    pub fn number(self) -> u8 {
        self as u8
    }

    pub fn name(self) -> &'static str {
        ["u8", "u16", "u32", "u64", "i8", "i16", "i32", "i64"][usize::from(self.number())]
    }

    /// Bits of a cell.
    pub fn width(self) -> u32 {
        8 << (self.number() % 4)
    }

    pub fn is_signed(self) -> bool {
        self.number() >= 4
    }

    /// The cell's place in the kind's order, and back.
    pub fn key(self, cell: u64) -> u64 {
        if self.is_signed() { cell ^ (1 << 63) } else { cell }
    }

    /// The keys of the least and of the greatest value.
    pub fn range(self) -> (u64, u64) {
        let width = self.width();
        if self.is_signed() {
            let half = 1u64 << (width - 1);
            ((1 << 63) - half, (1 << 63) + (half - 1))
        } else {
            (0, u64::MAX >> (64 - width))
        }
    }

    /// The narrowest of u8, u16 and u32 that holds `n`.
    pub fn narrowest(n: usize) -> Kind {
        match n {
            0..256 => Kind::U8,
            256..65_536 => Kind::U16,
            _ => Kind::U32,
        }
    }
}
