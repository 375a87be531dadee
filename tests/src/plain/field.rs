//! Bytes as a field by shift and add, and maps by trace-dual bytes.

/// The modulus without its top bit.
const LOW_MODULUS: u8 = 0x1b;
/// The trace-dual bytes of 01, 02, .. 80.
const DUAL: [u8; 8] = [0x29, 0xb0, 0x58, 0x05, 0xa6, 0x53, 0xa4, 0x52];

/// The product, bit by bit.
pub fn times(a: u8, b: u8) -> u8 {
    let (mut sum, mut x, mut y) = (0, a, b);
    for _ in 0..8 {
        if y & 1 == 1 {
            sum ^= x;
        }
        x = if x < 128 {
            x << 1
        } else {
            x << 1 ^ LOW_MODULUS
        };
        y >>= 1;
    }
    sum
}

/// The powers 0 to 255 of a.
pub fn power_table(a: u8) -> [u8; 256] {
    let mut table = [0; 256];
    let mut x = 1;
    for entry in &mut table {
        *entry = x;
        x = times(a, x);
    }
    table
}

/// A map: its constant and its eight columns.
#[derive(Clone, Copy, Default)]
pub struct AffineMap {
    pub constant: u8,
    pub columns: [u8; 8],
}

impl AffineMap {
    /// The value at x.
    pub fn apply(&self, x: u8) -> u8 {
        let mut sum = self.constant;
        for bit in 0..8 {
            if x >> bit & 1 == 1 {
                sum ^= self.columns[bit];
            }
        }
        sum
    }

    /// The eight coefficients.
    pub fn coefficients(&self) -> [u8; 8] {
        let mut list = [0; 8];
        let mut duals = DUAL;
        for l in &mut list {
            for (column, dual) in self.columns.iter().zip(&mut duals) {
                *l ^= times(*column, *dual);
                *dual = times(*dual, *dual);
            }
        }
        list
    }
}
