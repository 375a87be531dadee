//! Terms in a buffer: w bytes each, the coefficient first, strictly ascending with the last
//! variable compared first.

use super::field::times;
use super::{moves, Plain};
use std::cell::Cell;
use std::cmp::Ordering;

/// The bytes of the widest term.
pub const WIDEST: usize = 17;

/// Which of two lists of powers comes first, the last power compared first.
pub fn compare_powers(a: &[u8], b: &[u8]) -> Ordering {
    for (x, y) in a.iter().zip(b).rev() {
        if x != y {
            return x.cmp(y);
        }
    }
    Ordering::Equal
}

/// How many of k sorted terms come before t, by halving.
fn find_place(b: &[u8], k: usize, t: &[u8]) -> usize {
    let w = t.len();
    let (mut low, mut high) = (0, k);
    while low < high {
        let middle = low + (high - low) / 2;
        let at = middle * w;
        match compare_powers(&t[1..], &b[at + 1..at + w]) {
            Ordering::Greater => low = middle + 1,
            _ => high = middle,
        }
    }
    low
}

/// Moves the bytes from..to up by `by`, the last one first.
pub fn move_up(b: &mut [u8], from: usize, to: usize, by: usize) {
    let bytes = Cell::from_mut(&mut b[from..to + by]).as_slice_of_cells();
    for (new, old) in bytes[by..].iter().zip(bytes).rev() {
        new.set(old.get());
    }
}

/// Moves the bytes from..to down by `by`, the first one first.
pub fn move_down(b: &mut [u8], from: usize, to: usize, by: usize) {
    let bytes = Cell::from_mut(&mut b[from - by..to]).as_slice_of_cells();
    for (new, old) in bytes.iter().zip(&bytes[by..]) {
        new.set(old.get());
    }
}

/// Inserts the term t among k sorted terms; answers how many there are now.
pub fn insert_term(b: &mut [u8], k: usize, t: &[u8]) -> usize {
    let w = t.len();
    let place = find_place(b, k, t);
    let (at, end) = (place * w, k * w);
    if place < k && b[at + 1..at + w] == t[1..] {
        b[at] ^= t[0];
        if b[at] != 0 {
            return k;
        }
        move_down(b, at + w, end, w);
        moves::count(k - 1 - place);
        return k - 1;
    }
    if t[0] == 0 {
        return k;
    }
    move_up(b, at, end, w);
    b[at..at + w].copy_from_slice(t);
    moves::count(k + 1 - place);
    k + 1
}

/// Inserts all terms of src, the last first, among k sorted terms.
pub fn add_terms(b: &mut [u8], mut k: usize, src: &[u8], w: usize) -> usize {
    for t in src.chunks_exact(w).rev() {
        k = insert_term(b, k, t);
    }
    k
}

/// The power of a variable in a product: above 255 it loses 255.
fn power_sum(a: u8, b: u8) -> u8 {
    if 255 - a < b {
        a - (255 - b)
    } else {
        a + b
    }
}

/// The product of the terms p and q, written to t.
pub fn term_product(p: &[u8], q: &[u8], t: &mut [u8]) {
    t[0] = times(p[0], q[0]);
    for ((sum, e), f) in t[1..].iter_mut().zip(&p[1..]).zip(&q[1..]) {
        *sum = power_sum(*e, *f);
    }
}

/// A map: its coefficients and its constant.
pub type Image<'a> = (&'a [u8; 8], u8);

/// The map applied to src, written to the front of b; src is squared on and on.
pub fn apply(b: &mut [u8], map: Image, src: &mut [u8], w: usize, way: Plain) -> usize {
    let (list, constant) = map;
    let mut room = [0; WIDEST];
    let t = &mut room[..w];
    let mut k = 0;
    if constant != 0 {
        b[..w].fill(0);
        b[0] = constant;
        k = 1;
    }
    for l in list {
        if *l != 0 {
            for j in 0..src.len() / w {
                let at = match way {
                    Plain::MergedRows => j * w,
                    Plain::InsertOnly => src.len() - (j + 1) * w,
                };
                t.copy_from_slice(&src[at..at + w]);
                t[0] = times(*l, t[0]);
                k = insert_term(b, k, t);
            }
        }
        for p in src.chunks_exact_mut(w).rev() {
            term_product(p, p, t);
            p.copy_from_slice(t);
        }
    }
    k
}
