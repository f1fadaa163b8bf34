//! The elimination, in doubles, in the paper's operation order.
//!
//! Rust never fuses `a - f * b`, so each operation below is rounded once. No step is left out for a zero
//! factor: were a pivot zero, the infinities and not-a-numbers must spread as the order says.

use crate::limits::Whole;

/// A whole number as a double: x = q·2^32 + r with 0 ≤ r < 2^32 becomes double(q)·2^32 + double(r).
/// q and r are exact, the product is exact, so only the addition rounds.
pub fn double_of(whole: Whole) -> f64 {
    let high = whole.div_euclid(1 << 32);
    let low = whole.rem_euclid(1 << 32);
    (high as f64) * 4_294_967_296.0 + (low as f64)
}

/// Solves `matrix` times voltages = `right` by elimination without exchange of rows.
pub fn solve(matrix: &[Vec<Whole>], right: &[Whole]) -> Vec<f64> {
    let mut a: Vec<Vec<f64>> =
        matrix.iter().map(|row| row.iter().map(|entry| double_of(*entry)).collect()).collect();
    let mut b: Vec<f64> = right.iter().map(|entry| double_of(*entry)).collect();
    eliminate(&mut a, &mut b);
    substitute_back(&a, &b)
}

// Plain indexes, so that each line can be held against the paper's.
#[allow(clippy::needless_range_loop)]
fn eliminate(a: &mut [Vec<f64>], b: &mut [f64]) {
    let size = b.len();
    for p in 0..size {
        for q in p + 1..size {
            let f = a[q][p] / a[p][p];
            for c in p + 1..size {
                let taken = f * a[p][c];
                a[q][c] -= taken;
            }
            let taken = f * b[p];
            b[q] -= taken;
        }
    }
}

#[allow(clippy::needless_range_loop)]
fn substitute_back(a: &[Vec<f64>], b: &[f64]) -> Vec<f64> {
    let size = b.len();
    let mut x = vec![0.0; size];
    for p in (0..size).rev() {
        let mut t = b[p];
        for c in p + 1..size {
            let taken = a[p][c] * x[c];
            t -= taken;
        }
        x[p] = t / a[p][p];
    }
    x
}
