//! The lent state: where each value stands, and when the records are well formed.

use crate::limits::{self, Whole};
use crate::network::{Network, Travel};
use std::ops::RangeInclusive;

pub const RECORD_WORDS: usize = 1_024;
pub const STORE_WORDS: usize = 4_096;

/// Counts by area from 1; voltages, peaks and the steps of peaks by node from 1; the rest by row from 0, sources
/// counted.
const COUNTS: usize = 0;
const VOLTAGES: usize = 32;
const FROM_CURRENTS: usize = 64;
const TO_CURRENTS: usize = 144;
const HISTORIES: usize = 224;
const PEAKS: usize = 304;
const PEAK_STEPS: usize = 336;
const LATCHES: usize = 368;

pub fn count_place(area: usize) -> usize {
    COUNTS + area - 1
}

pub fn voltage_place(node: usize) -> usize {
    VOLTAGES + node - 1
}

pub fn from_current_place(row: usize) -> usize {
    FROM_CURRENTS + row
}

pub fn to_current_place(row: usize) -> usize {
    TO_CURRENTS + row
}

pub fn history_place(row: usize) -> usize {
    HISTORIES + row
}

pub fn peak_place(node: usize) -> usize {
    PEAKS + node - 1
}

pub fn peak_step_place(node: usize) -> usize {
    PEAK_STEPS + node - 1
}

pub fn latch_place(row: usize) -> usize {
    LATCHES + row
}

/// By branch, the first of a line's slots, the same in both stores: slots stand in table order.
pub fn first_slots(network: &Network) -> Vec<usize> {
    let mut next = 0;
    let mut first = Vec::new();
    for branch in &network.branches {
        first.push(next);
        next += branch.travel().map_or(0, |travel| travel.slots() as usize);
    }
    first
}

/// Step s of a line end is in place s mod n of that line's n slots.
pub fn slot_of_step(first_slot: usize, travel: Travel, step: Whole) -> usize {
    first_slot + step.rem_euclid(travel.slots()) as usize
}

/// What each word of the records may hold by itself; a word that nothing uses may hold 0 only.
pub fn record_ranges(network: &Network) -> Vec<RangeInclusive<Whole>> {
    let mut ranges = vec![0..=0; RECORD_WORDS];
    for area in 1..=network.area_count {
        ranges[count_place(area)] = 0..=network.steps;
    }
    for node in 1..=network.node_count {
        ranges[voltage_place(node)] = limits::VOLTAGE;
        ranges[peak_place(node)] = limits::PEAK;
        ranges[peak_step_place(node)] = 0..=network.steps;
    }
    for branch in &network.branches {
        ranges[from_current_place(branch.row)] = limits::CURRENT;
        if branch.is_line() {
            ranges[to_current_place(branch.row)] = limits::CURRENT;
        }
        if branch.keeps_history() {
            ranges[history_place(branch.row)] = limits::HISTORY;
        }
        if branch.breaker().is_some() {
            ranges[latch_place(branch.row)] = 0..=network.steps;
        }
    }
    ranges
}

/// How many words of each store the lines use; their slots count as used before they are sent.
pub fn used_slots(network: &Network) -> usize {
    network.branches.iter().filter_map(|branch| branch.travel()).map(|travel| travel.slots() as usize).sum()
}

/// Whether records and stores are well formed for the network.
pub fn well_formed(network: &Network, records: &[i64], froms: &[i64], tos: &[i64]) -> bool {
    let used = used_slots(network);
    let store_fits = |store: &[i64]| {
        let (slots, rest) = store.split_at(used);
        slots.iter().all(|word| limits::HISTORY.contains(&Whole::from(*word)))
            && rest.iter().all(|word| *word == 0)
    };
    records_well_formed(network, records) && store_fits(froms) && store_fits(tos)
}

/// Whether the records by themselves are: each word in its range, peaks beside their voltages and counts, latches
/// beside their switch's steps and counts, and the counts at a line's two ends.
pub fn records_well_formed(network: &Network, records: &[i64]) -> bool {
    let ranges = record_ranges(network);
    let words_fit = records.iter().zip(&ranges).all(|(word, range)| range.contains(&Whole::from(*word)));
    words_fit
        && peaks_fit(network, records)
        && latches_fit(network, records)
        && counts_close(network, records)
}

/// No peak is below the voltage's magnitude, none came at a step past the count. Step 0 beside a count passes.
fn peaks_fit(network: &Network, records: &[i64]) -> bool {
    let word = |place: usize| Whole::from(records[place]);
    (1..=network.node_count).all(|node| {
        let count = word(count_place(network.area_of[node]));
        word(voltage_place(node)).abs() <= word(peak_place(node)) && word(peak_step_place(node)) <= count
    })
}

/// A latch that is set is no earlier than the breaker's first chance and not past the count of its area. One that is
/// not set passes at any count: so a breaker goes on that has found no zero.
fn latches_fit(network: &Network, records: &[i64]) -> bool {
    network.branches.iter().all(|branch| {
        let Some(breaker) = branch.breaker() else { return true };
        let count = Whole::from(records[count_place(network.area_of_branch(branch))]);
        let latch = Whole::from(records[latch_place(branch.row)]);
        latch == 0 || (breaker.first_chance()..=count).contains(&latch)
    })
}

/// The areas at a line's two ends differ by at most q in count.
fn counts_close(network: &Network, records: &[i64]) -> bool {
    network.branches.iter().all(|branch| {
        let Some(travel) = branch.travel() else { return true };
        let count_at = |node: usize| Whole::from(records[count_place(network.area_of[node])]);
        (count_at(branch.from) - count_at(branch.to)).abs() <= travel.whole_steps
    })
}
