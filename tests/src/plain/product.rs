//! The product of two polynomials: the rows of the shorter factor merged one after another, or
//! every product of two terms inserted by itself.

use super::moves;
use super::terms::{compare_powers, insert_term, move_down, move_up, term_product, WIDEST};
use super::Plain;
use std::cmp::Ordering;

/// The product of p and q, written to the front of b.
pub fn product(b: &mut [u8], p: &[u8], q: &[u8], w: usize, way: Plain) -> usize {
    match way {
        Plain::InsertOnly => inserted(b, p, q, w),
        Plain::MergedRows => {
            let b = &mut b[..p.len() / w * q.len()];
            let (short, long) = if q.len() < p.len() { (q, p) } else { (p, q) };
            let rows = short.chunks_exact(w).rev();
            rows.fold(0, |n, f| add_row(b, n, f, long))
        }
    }
}

/// Inserts the products of all terms one at a time, row by row, the last first.
fn inserted(b: &mut [u8], p: &[u8], q: &[u8], w: usize) -> usize {
    let mut room = [0; WIDEST];
    let t = &mut room[..w];
    let mut k = 0;
    for f in p.chunks_exact(w).rev() {
        for g in q.chunks_exact(w).rev() {
            term_product(f, g, t);
            k = insert_term(b, k, t);
        }
    }
    k
}

/// Adds the products of f and the terms of src to n sorted terms, in pieces, the last first.
fn add_row(b: &mut [u8], mut n: usize, f: &[u8], src: &[u8]) -> usize {
    let w = f.len();
    let mut j = src.len() / w;
    while 0 < j {
        let half = (b.len() - n * w) / 2 / w;
        let c = half.max(1).min(j);
        j -= c;
        n = add_piece(b, n, f, &src[j * w..(j + c) * w]);
    }
    n
}

/// Adds one piece: as a row of its own behind room for as many terms, merged then; or inserted,
/// where there is no room for that.
fn add_piece(b: &mut [u8], n: usize, f: &[u8], src: &[u8]) -> usize {
    let w = f.len();
    let at = n * w + src.len();
    if b.len() - at < src.len() {
        return insert_row(b, n, f, src);
    }
    let r = insert_row(&mut b[at..at + src.len()], 0, f, src);
    merge_terms(b, n, at / w, r, w)
}

/// Inserts the products of f and the terms of src among n sorted terms, the first first.
fn insert_row(b: &mut [u8], n: usize, f: &[u8], src: &[u8]) -> usize {
    let mut room = [0; WIDEST];
    let t = &mut room[..f.len()];
    src.chunks_exact(f.len()).fold(n, |n, g| {
        term_product(f, g, t);
        insert_term(b, n, t)
    })
}

/// Merges the r terms from term `at` on with the n at the front, by way of the room between them.
fn merge_terms(b: &mut [u8], n: usize, at: usize, r: usize, w: usize) -> usize {
    move_up(b, 0, n * w, (at - n) * w);
    let (mut k, mut i, mut j) = (0, at - n, at);
    while j < at + r {
        let (x, y) = (i * w, j * w);
        let order = match i == at {
            true => Ordering::Less,
            false => compare_powers(&b[y + 1..y + w], &b[x + 1..x + w]),
        };
        let mut from = x;
        match order {
            Ordering::Less => from = y,
            Ordering::Greater => {}
            Ordering::Equal => b[x] ^= b[y],
        }
        if b[from] != 0 {
            move_down(b, from, from + w, from - k * w);
            moves::count(1);
            k += 1;
        }
        i += (order != Ordering::Less) as usize;
        j += (order != Ordering::Greater) as usize;
    }
    move_down(b, i * w, at * w, (i - k) * w);
    moves::count(n + at - i);
    k + at - i
}
