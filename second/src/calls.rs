//! The paper's three calls over lent memory (the listing by pieces is in list.rs, the writer in write.rs, the
//! questions for a node in node.rs and for a network's layout in layout.rs): each answers its number and what the number carries, and every refusal leaves all lent memory unchanged.

use crate::limits::Whole;
use crate::network::{Network, Travel};
use crate::peaks::Peak;
use crate::reader;
use crate::record::{self, NETWORK_WORDS};
use crate::refusal::{Refusal, Stop};
use crate::state::{self, RECORD_WORDS, STORE_WORDS};
use crate::step::{self, AreaStep, Past};

/// Answers the number and the line (0 where none); an accepted reading writes all 1,024 words.
pub fn read(text: &[u8], network: &mut [i64]) -> (u64, u64) {
    if network.len() != NETWORK_WORDS {
        return (Refusal::Store.number(), 0);
    }
    match reader::read_study(text) {
        Err(bad) => (bad.refusal.number(), bad.line),
        Ok(study) => {
            network.copy_from_slice(&record::record_of(&study));
            (0, 0)
        }
    }
}

/// Answers 9 or 8, or writes records and both line stores all zero and answers 0.
pub fn reset(network: &[i64], records: &mut [i64], froms: &mut [i64], tos: &mut [i64]) -> u64 {
    match lent_network(network, records, froms, tos) {
        Err(stop) => stop.refusal.number(),
        Ok(_) => {
            records.fill(0);
            froms.fill(0);
            tos.fill(0);
            0
        }
    }
}

/// Answers 0 and the area's new count, or the refusal's number and its place.
pub fn advance(
    network: &[i64],
    records: &mut [i64],
    froms: &mut [i64],
    tos: &mut [i64],
    area: u64,
) -> (u64, u64) {
    advance_by(Travel::received, network, records, froms, tos, area)
}

/// What a line's end receives at a step, of the values that the far end's slots hold by step.
pub type Received = fn(&Travel, Whole, &dyn Fn(Whole) -> Whole) -> Whole;

/// The advance by this rule of what an end receives; the comparison plants wrong ones.
pub fn advance_by(
    received: Received,
    network: &[i64],
    records: &mut [i64],
    froms: &mut [i64],
    tos: &mut [i64],
    area: u64,
) -> (u64, u64) {
    match checked_step(received, network, records, froms, tos, area) {
        Err(stop) => (stop.refusal.number(), stop.place as u64),
        Ok((network, area, taken)) => {
            let count = write_step(&network, area, &taken, records, froms, tos);
            (0, count as u64)
        }
    }
}

/// 9 for a wrong length, then 8 for a record that the reader could not write.
pub fn lent_network(words: &[i64], records: &[i64], froms: &[i64], tos: &[i64]) -> Result<Network, Stop> {
    let lengths = [words.len(), records.len(), froms.len(), tos.len()];
    if lengths != [NETWORK_WORDS, RECORD_WORDS, STORE_WORDS, STORE_WORDS] {
        return Err(Stop::nowhere(Refusal::Store));
    }
    let study = record::study_of_record(words).ok_or(Stop::nowhere(Refusal::Network))?;
    Ok(Network::of_study(&study))
}

/// Everything an advance judges, in the paper's order 9, 8, 10 to 17; it only reads.
fn checked_step(
    received: Received,
    words: &[i64],
    records: &[i64],
    froms: &[i64],
    tos: &[i64],
    area: u64,
) -> Result<(Network, usize, AreaStep), Stop> {
    let network = lent_network(words, records, froms, tos)?;
    if !state::well_formed(&network, records, froms, tos) {
        return Err(Stop::nowhere(Refusal::State));
    }
    if area == 0 || area > network.area_count as u64 {
        return Err(Stop::nowhere(Refusal::Area));
    }
    let area = area as usize;
    let count_of = |any: usize| Whole::from(records[state::count_place(any)]);
    if count_of(area) == network.steps {
        return Err(Stop::nowhere(Refusal::Done));
    }
    let step = count_of(area) + 1;
    if let Some(branch) = step::first_waiting_line(&network, area, step, &count_of) {
        return Err(Stop::at(Refusal::Wait, branch));
    }
    let past = lent_past(received, &network, step, records, froms, tos);
    let taken = step::take_step(&network, area, step, &past)?;
    Ok((network, area, taken))
}

/// L and C keep theirs in the records. A line's from end receives what the to end sent, and the other way
/// about; a value before step 1 is 0, whatever its slot holds.
fn lent_past(
    received: Received,
    network: &Network,
    step: Whole,
    records: &[i64],
    froms: &[i64],
    tos: &[i64],
) -> Past {
    let first = state::first_slots(network);
    let mut past = Past { at_from: Vec::new(), at_to: Vec::new(), latches: Vec::new() };
    for (index, branch) in network.branches.iter().enumerate() {
        let (at_from, at_to) = match branch.travel() {
            None => (Whole::from(records[state::history_place(branch.row)]), 0),
            Some(travel) => {
                let slot = |sent: Whole| state::slot_of_step(first[index], travel, sent);
                let heard = |store: &[i64]| received(&travel, step, &|sent| Whole::from(store[slot(sent)]));
                (heard(tos), heard(froms))
            }
        };
        past.at_from.push(at_from);
        past.at_to.push(at_to);
        past.latches.push(records[state::latch_place(branch.row)].into());
    }
    past
}

/// Writes the area's own words only, and answers its new count.
fn write_step(
    network: &Network,
    area: usize,
    taken: &AreaStep,
    records: &mut [i64],
    froms: &mut [i64],
    tos: &mut [i64],
) -> i64 {
    records[state::count_place(area)] += 1;
    let count = records[state::count_place(area)];
    for (node, voltage) in &taken.voltages {
        records[state::voltage_place(*node)] = *voltage as i64;
        let peak = lent_peak(records, *node).after(Whole::from(count), *voltage);
        records[state::peak_place(*node)] = peak.magnitude as i64;
        records[state::peak_step_place(*node)] = peak.step as i64;
    }
    let first = state::first_slots(network);
    for done in &taken.branches {
        let branch = &network.branches[done.branch];
        if let (Some(breaker), Some(now)) = (branch.breaker(), done.from_current) {
            let word = |place: usize| Whole::from(records[place]);
            let (latch, before) =
                (word(state::latch_place(branch.row)), word(state::from_current_place(branch.row)));
            let latch = breaker.latch_after(latch, count.into(), now, before);
            records[state::latch_place(branch.row)] = latch as i64;
        }
        put(records, state::from_current_place(branch.row), done.from_current);
        put(records, state::to_current_place(branch.row), done.to_current);
        put(records, state::history_place(branch.row), done.next_history);
        if let Some(travel) = branch.travel() {
            let slot = state::slot_of_step(first[done.branch], travel, Whole::from(count));
            put(froms, slot, done.from_sent);
            put(tos, slot, done.to_sent);
        }
    }
    count
}

pub fn lent_peak(records: &[i64], node: usize) -> Peak {
    let word = |place: usize| Whole::from(records[place]);
    Peak { magnitude: word(state::peak_place(node)), step: word(state::peak_step_place(node)) }
}

fn put(words: &mut [i64], place: usize, value: Option<Whole>) {
    if let Some(value) = value {
        words[place] = value as i64;
    }
}
