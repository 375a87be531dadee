//! Affine maps, and their coefficients by elimination.

use crate::field::{inverse, power, product};

/// A map: its constant and the images of 01, 02, 04, .. 80 before the constant is added.
#[derive(Clone, Copy, Debug, PartialEq, Eq)]
pub struct Map {
    pub constant: u8,
    pub columns: [u8; 8],
}

/// The constant and columns of the S-box of FIPS 197.
pub const FIPS: Map = Map {
    constant: 0x63,
    columns: [0x1f, 0x3e, 0x7c, 0xf8, 0xf1, 0xe3, 0xc7, 0x8f],
};

/// Squaring as a map.
pub const SQUARING: Map = Map {
    constant: 0x00,
    columns: [0x01, 0x04, 0x10, 0x40, 0x1b, 0x6c, 0xab, 0x9a],
};

impl Map {
    /// The map's value at x: the constant XOR the columns of x's set bits.
    pub fn value(&self, x: u8) -> u8 {
        let mut sum = self.constant;
        for (bit, column) in self.columns.iter().enumerate() {
            if x >> bit & 1 == 1 {
                sum ^= column;
            }
        }
        sum
    }

    /// The map with this constant and these coefficients.
    pub fn of_coefficients(constant: u8, list: &[u8; 8]) -> Self {
        let mut columns = [0; 8];
        for (bit, column) in columns.iter_mut().enumerate() {
            for (j, l) in list.iter().enumerate() {
                *column ^= product(*l, power(1 << bit, 1 << j));
            }
        }
        Map { constant, columns }
    }

    /// The eight bytes l_j for which the columns are the sums of l_j·x^(2^j) at 01, 02, .. 80.
    pub fn coefficients(&self) -> [u8; 8] {
        let mut rows = [[0; 9]; 8];
        for (bit, row) in rows.iter_mut().enumerate() {
            for (j, entry) in row.iter_mut().take(8).enumerate() {
                *entry = power(1 << bit, 1 << j);
            }
            row[8] = self.columns[bit];
        }
        eliminate(&mut rows);
        rows.map(|row| row[8])
    }
}

/// Brings eight equations to the form in which row j gives unknown j.
fn eliminate(rows: &mut [[u8; 9]; 8]) {
    for j in 0..8 {
        let pivot = (j..8).find(|&i| rows[i][j] != 0);
        rows.swap(j, pivot.expect("the powers of a basis are independent"));
        let scale = inverse(rows[j][j]);
        rows[j] = rows[j].map(|entry| product(scale, entry));
        let chosen = rows[j];
        for (i, row) in rows.iter_mut().enumerate() {
            let factor = row[j];
            if i != j && factor != 0 {
                for (entry, part) in row.iter_mut().zip(chosen) {
                    *entry ^= product(factor, part);
                }
            }
        }
    }
}

/// Coefficients of a list of nine bytes, constant first; None is refusal 12.
pub fn coefficients(list: &[u8]) -> Option<[u8; 8]> {
    let bytes: [u8; 9] = list.try_into().ok()?;
    let mut columns = [0; 8];
    columns.copy_from_slice(&bytes[1..]);
    let constant = bytes[0];
    Some(Map { constant, columns }.coefficients())
}

#[cfg(test)]
mod tests {
    use super::*;

    #[test]
    fn the_stated_coefficients() {
        let fips = [0x05, 0x09, 0xf9, 0x25, 0xf4, 0x01, 0xb5, 0x8f];
        assert_eq!(FIPS.coefficients(), fips);
        assert_eq!(SQUARING.coefficients(), [0, 1, 0, 0, 0, 0, 0, 0]);
        assert_eq!(coefficients(&[0; 8]), None);
        assert_eq!(coefficients(&[0; 10]), None);
    }

    #[test]
    fn coefficients_give_the_map() {
        let l = FIPS.coefficients();
        for x in 0..=255 {
            let sum = (0..8).fold(FIPS.constant, |s, j| s ^ product(l[j], power(x, 1 << j)));
            assert_eq!(sum, FIPS.value(x));
        }
        assert_eq!(Map::of_coefficients(0x63, &l), FIPS);
    }
}
