//! Reduced polynomials: maps from powers to nonzero coefficients.

use crate::field::{power, product};
use crate::limits::MOST_VARIABLES;
use std::collections::btree_map::{BTreeMap, Entry};

/// The power of each variable in a term, 0 to 255.
pub type Powers = [u8; MOST_VARIABLES];

/// A set of terms, no two of which have the same powers.
#[derive(Clone, Debug, Default, PartialEq, Eq)]
pub struct Polynomial {
    terms: BTreeMap<Powers, u8>,
}

impl Polynomial {
    /// A constant: no term for 00, one for every other byte.
    pub fn constant(byte: u8) -> Self {
        let mut p = Self::default();
        p.add_term([0; MOST_VARIABLES], byte);
        p
    }

    /// One variable.
    pub fn variable(at: usize) -> Self {
        let mut powers = [0; MOST_VARIABLES];
        powers[at] = 1;
        let mut p = Self::default();
        p.add_term(powers, 1);
        p
    }

    /// The number of terms.
    pub fn size(&self) -> usize {
        self.terms.len()
    }

    /// Adds one term; what cancels is taken out.
    fn add_term(&mut self, powers: Powers, coefficient: u8) {
        if coefficient == 0 {
            return;
        }
        match self.terms.entry(powers) {
            Entry::Vacant(place) => {
                place.insert(coefficient);
            }
            Entry::Occupied(mut place) => {
                *place.get_mut() ^= coefficient;
                if *place.get() == 0 {
                    place.remove();
                }
            }
        }
    }

    /// The sum.
    pub fn sum(&self, other: &Self) -> Self {
        let mut p = self.clone();
        for (powers, coefficient) in &other.terms {
            p.add_term(*powers, *coefficient);
        }
        p
    }

    /// The product.
    pub fn product(&self, other: &Self) -> Self {
        let mut p = Self::default();
        for (e, c) in &self.terms {
            for (f, d) in &other.terms {
                let mut powers = [0; MOST_VARIABLES];
                for v in 0..MOST_VARIABLES {
                    powers[v] = reduced(e[v] as usize + f[v] as usize);
                }
                p.add_term(powers, product(*c, *d));
            }
        }
        p
    }

    /// The image under the map with these coefficients and this constant.
    pub fn image(&self, coefficients: &[u8; 8], constant: u8) -> Self {
        let mut p = Self::constant(constant);
        for (j, l) in coefficients.iter().enumerate() {
            for (e, c) in &self.terms {
                let powers = e.map(|e| reduced((e as usize) << j));
                p.add_term(powers, product(*l, power(*c, 1 << j)));
            }
        }
        p
    }

    /// The polynomial with a byte put in for one variable.
    pub fn put(&self, variable: usize, byte: u8) -> Self {
        let mut p = Self::default();
        for (e, c) in &self.terms {
            let mut powers = *e;
            powers[variable] = 0;
            p.add_term(powers, product(*c, power(byte, e[variable] as usize)));
        }
        p
    }
}

/// A power above 255 loses 255, again if needed.
fn reduced(mut e: usize) -> u8 {
    while e > 255 {
        e -= 255;
    }
    e as u8
}
