//! The first bytes for which a polynomial still has a term, put in in place.

use super::field::{power_table, times};
use super::terms::compare_powers;
use std::cmp::Ordering;

/// Puts the byte a in for variable i of k terms whose powers before i are zero, in one pass over
/// neighbours; answers how many terms are left, and where none is left b is as it was.
fn put(b: &mut [u8], k: usize, w: usize, i: usize, a: u8) -> usize {
    let table = power_table(a);
    let (mut terms, mut sum) = (0, 0);
    for j in 0..k {
        let at = j * w;
        sum ^= times(b[at], table[b[at + 1 + i] as usize]);
        if sum == 0 || same_group(b, k, w, i, j) {
            continue;
        }
        let to = terms * w;
        b.copy_within(at..at + w, to);
        b[to] = sum;
        b[to + 1 + i] = 0;
        terms += 1;
        sum = 0;
    }
    terms
}

/// Whether a term stands behind term j that differs from it in the powers up to variable i alone.
fn same_group(b: &[u8], k: usize, w: usize, i: usize, j: usize) -> bool {
    if j + 1 == k {
        return false;
    }
    let (at, next) = (j * w, (j + 1) * w);
    let (this, that) = (&b[at + 2 + i..next], &b[next + 2 + i..next + w]);
    compare_powers(this, that) == Ordering::Equal
}

/// For each variable in order the smallest byte for which a term is left, written to bytes; the
/// terms are used up. Answers how many bytes were tried.
pub fn search(b: &mut [u8], k: usize, w: usize, bytes: &mut [u8]) -> usize {
    let (mut left, mut tried) = (k, 0);
    for (i, byte) in bytes.iter_mut().enumerate() {
        let mut a = 0;
        *byte = loop {
            tried += 1;
            let terms = put(b, left, w, i, a);
            if terms > 0 {
                left = terms;
                break a;
            }
            a += 1;
        };
    }
    tried
}
