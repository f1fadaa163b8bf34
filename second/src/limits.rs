//! The ends of every quantity, each named once, in the paper's units:
//! voltage 0.1 V, conductance nS, current 0.1 nA, time ns.

use std::ops::RangeInclusive;

/// Whole numbers are wide here so that no sum or product of in-range values can run over.
pub type Whole = i128;

const THOUSAND: Whole = 1_000;
const MILLION: Whole = 1_000_000;
const MILLIARD: Whole = 1_000_000_000;

pub const HIGHEST_VOLTAGE: Whole = 20 * MILLION;
pub const VOLTAGE: RangeInclusive<Whole> = -HIGHEST_VOLTAGE..=HIGHEST_VOLTAGE;
/// A magnitude of voltages.
pub const PEAK: RangeInclusive<Whole> = 0..=HIGHEST_VOLTAGE;
pub const CONDUCTANCE: RangeInclusive<Whole> = 1..=MILLIARD;

/// A history, or a value that a line end sends.
pub const HIGHEST_HISTORY: Whole = 100 * MILLION * MILLIARD;
pub const HISTORY: RangeInclusive<Whole> = -HIGHEST_HISTORY..=HIGHEST_HISTORY;

/// A current kept in the records: g·u at its ends (4·10^16) and a history (10^17) together.
pub const HIGHEST_CURRENT: Whole = 140 * MILLION * MILLIARD;
pub const CURRENT: RangeInclusive<Whole> = -HIGHEST_CURRENT..=HIGHEST_CURRENT;

pub const HIGHEST_NODE: Whole = 32;
pub const MOST_BRANCHES: usize = 64;
pub const MOST_SOURCES: usize = 16;
pub const MOST_SLOTS: Whole = 4_096;
pub const LONGEST_TEXT: usize = 65_536;

pub const STEP_LENGTH: RangeInclusive<Whole> = 1..=MILLION;
pub const STEPS: RangeInclusive<Whole> = 1..=MILLION;
pub const BALANCE_LIMIT: RangeInclusive<Whole> = 0..=MILLION * MILLIARD;

pub const MILLIOHM: RangeInclusive<Whole> = THOUSAND..=THOUSAND * MILLIARD;
pub const NANOHENRY: RangeInclusive<Whole> = 1..=THOUSAND * MILLIARD;
pub const PICOFARAD: RangeInclusive<Whole> = 1..=MILLIARD;
pub const TRAVEL: RangeInclusive<Whole> = 1..=MILLIARD;
pub const SWITCH_STEP: RangeInclusive<Whole> = 1..=MILLION + 1;
pub const SOURCE_START: RangeInclusive<Whole> = 1..=MILLION;
pub const SOURCE_RISE: RangeInclusive<Whole> = 0..=THOUSAND;
/// In mHz.
pub const FREQUENCY: RangeInclusive<Whole> = 1..=100 * THOUSAND;

pub const HIGHEST_INJECTION: Whole = 2 * MILLION * MILLIARD;
pub const INJECTION: RangeInclusive<Whole> = -HIGHEST_INJECTION..=HIGHEST_INJECTION;
