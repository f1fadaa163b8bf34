//! The cosine of a power-frequency source, in 2^30ths.
//!
//! The quarter table is worked out from the cosine's series in whole numbers, so that no printed table and no
//! library's cosine stands behind it.

use crate::limits::Whole;
use std::sync::OnceLock;

/// A cosine of 1.
pub const ONE: Whole = 1 << 30;
/// Steps of the table to a whole turn.
pub const TURN: Whole = 1_024;
const QUARTER: usize = 256;

/// The series goes by 2^60ths, and π is known to 18 places.
const FINE: Whole = 1 << 60;
const PI: Whole = 3_141_592_653_589_793_238;
const PI_ONE: Whole = 1_000_000_000_000_000_000;

/// The cosine at an index of 0 to 1,023. What is past half a turn is as far from the whole turn as what is short of
/// it from none; past a quarter it is below zero by as much as it is above before.
pub fn cosine(index: Whole) -> Whole {
    let from_none = index.min(TURN - index) as usize;
    if from_none <= QUARTER {
        quarter_table()[from_none]
    } else {
        -quarter_table()[2 * QUARTER - from_none]
    }
}

/// Each entry is the whole number nearest to 2^30 · cos(π·j / 512), j from 0 to 256.
pub fn quarter_table() -> &'static [Whole] {
    static TABLE: OnceLock<Vec<Whole>> = OnceLock::new();
    TABLE.get_or_init(|| {
        let nearest = |fine: Whole| (fine + FINE / ONE / 2).div_euclid(FINE / ONE);
        (0..=QUARTER).map(|j| nearest(fine_cosine(j as Whole))).collect()
    })
}

/// 2^60 · cos(π·j / 512) by 1 - x²/2! + x⁴/4! - ..., each term made of the one before, until there is no more of it.
/// What is cut off each time, and of π, is some 2^60ths altogether.
pub fn fine_cosine(j: Whole) -> Whole {
    let angle = PI * j * (FINE / 512) / PI_ONE;
    let square = angle * angle / FINE;
    let (mut sum, mut term, mut factor) = (0, FINE, 1);
    while term != 0 {
        sum += term;
        term = -(term * square / FINE) / (factor * (factor + 1));
        factor += 2;
    }
    sum
}
