//! The longest lines of one step that we found: a network, and the state from which its millionth step, the
//! last, lists them.

use super::exact::row;
use super::lent::Lent;
use super::studies::HIGHEST_LIMIT;
use crate::limits;
use crate::network::{Kind, Network, Study};
use crate::record;
use crate::state;

/// An accepted line current has 18 digits only where it is 10^17 at a voltage of 0: so most line ends are at
/// nodes 1 and 2, held at 0. All other nodes are at the lowest voltage; the 16 of them that no source can hold
/// have two line ends each.
pub fn text() -> Vec<u8> {
    let mut study =
        Study { step_length: 1, steps: *limits::STEPS.end(), limit: HIGHEST_LIMIT, rows: Vec::new() };
    for node in 1..=16 {
        let peak = if node <= 2 { 0 } else { -limits::HIGHEST_VOLTAGE };
        study.rows.push(row(Kind::VoltageSource, &[node, peak, 1, 0]));
    }
    for line in 0..64 {
        let far = if line < 32 { 2 } else { 1 + line / 2 };
        study.rows.push(row(Kind::Line, &[1, far, *limits::MILLIOHM.end(), 1]));
    }
    record::text_of(&study).into_bytes()
}

/// One step before the end, with what the line ends sent: -10^17 to each end at nodes 1 and 2. At the lowest
/// voltage two lines of 1 nS draw -4·10^7, so there one history is 10^17 and the other as much below zero but
/// for 4·10^7.
pub fn state(study: &Study) -> Lent {
    let network = Network::of_study(study);
    let mut lent = Lent::at_rest(&record::record_of(study));
    for area in 1..=network.area_count {
        lent.records[state::count_place(area)] = study.steps as i64 - 1;
    }
    let highest = limits::HIGHEST_HISTORY as i64;
    let drawn = 2 * limits::HIGHEST_VOLTAGE as i64;
    for place in 0..state::used_slots(&network) {
        let line = place / 2;
        lent.tos[place] = -highest;
        lent.froms[place] = match line % 2 {
            _ if line < 32 => -highest,
            0 => drawn - highest,
            _ => highest,
        };
    }
    lent
}
