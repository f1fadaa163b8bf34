//! Calls with planted slips, to see that the comparison finds them: the versions that the paper wants shut
//! out and the slips it lists, as far as they can be planted around calls that are right.

use super::foreign::Calls;
use crate::calls;
use crate::layout;
use crate::limits::Whole;
use crate::list;
use crate::network::{Network, Travel};
use crate::node;
use crate::record;
use crate::state;
use crate::write;

pub fn own_calls() -> Calls {
    Calls {
        read: calls::read,
        reset: Some(calls::reset),
        advance: Some(calls::advance),
        list: Some(list::list),
        write: Some(write::write),
        node: Some(node::node),
        layout: Some(layout::layout),
    }
}

/// Name, calls, and whether the slip is in the reader.
pub fn planted() -> Vec<(&'static str, Calls, bool)> {
    let own = own_calls();
    let read = |read| Calls { read, ..own };
    let reset = |reset| Calls { reset: Some(reset), ..own };
    let advance = |advance| Calls { advance: Some(advance), ..own };
    vec![
        ("reader keeps unused words", read(read_keeping_unused), true),
        ("reader writes on refusal", read(read_writing_on_refusal), true),
        ("reader counts lines from 0", read(read_from_line_zero), true),
        ("reader takes a text without its last line feed", read(read_without_last_feed), true),
        ("reset leaves the last slot", reset(reset_leaving_a_slot), false),
        ("reset refuses damaged records", reset(reset_judging_records), false),
        ("advance refuses everything", advance(advance_refusing), false),
        ("advance gives one fixed voltage", advance(advance_fixed_voltage), false),
        ("advance writes nothing", advance(advance_writing_nothing), false),
        ("advance raises a count unearned", advance(advance_unearned), false),
        ("advance repeats step 1", advance(advance_repeating), false),
        ("near end's value used as history", advance(advance_near_end), false),
        ("store of q slots only", advance(advance_short_store), false),
        ("unsent slot must be zero", advance(advance_unsent_zero), false),
        ("area beyond 32 bits cut short", advance(advance_short_area), false),
        ("place left out of refusals", advance(advance_without_place), false),
        ("limit passed by one", advance(advance_loose_limit), false),
    ]
}

fn read_keeping_unused(text: &[u8], network: &mut [i64]) -> (u64, u64) {
    let old = network.to_vec();
    let answer = calls::read(text, network);
    if answer.0 == 0 {
        network[1023] = old[1023];
    }
    answer
}

fn read_writing_on_refusal(text: &[u8], network: &mut [i64]) -> (u64, u64) {
    let answer = calls::read(text, network);
    if answer.0 == 6 {
        network[0] = 0;
    }
    answer
}

fn read_from_line_zero(text: &[u8], network: &mut [i64]) -> (u64, u64) {
    let (number, line) = calls::read(text, network);
    (number, line.saturating_sub(1))
}

fn read_without_last_feed(text: &[u8], network: &mut [i64]) -> (u64, u64) {
    match text.last() {
        Some(byte) if *byte != b'\n' => calls::read(&[text, b"\n"].concat(), network),
        _ => calls::read(text, network),
    }
}

fn reset_leaving_a_slot(network: &[i64], records: &mut [i64], froms: &mut [i64], tos: &mut [i64]) -> u64 {
    let old = tos.last().copied();
    let number = calls::reset(network, records, froms, tos);
    if let (0, Some(last)) = (number, old) {
        tos[4_095] = last;
    }
    number
}

fn reset_judging_records(network: &[i64], records: &mut [i64], froms: &mut [i64], tos: &mut [i64]) -> u64 {
    if records.last().is_some_and(|word| *word != 0) {
        return 10;
    }
    calls::reset(network, records, froms, tos)
}

type Words<'a> = &'a mut [i64];

fn advance_refusing(_: &[i64], _: Words, _: Words, _: Words, _: u64) -> (u64, u64) {
    (10, 0)
}

fn advance_fixed_voltage(network: &[i64], records: Words, froms: Words, tos: Words, area: u64) -> (u64, u64) {
    let answer = calls::advance(network, records, froms, tos, area);
    if answer.0 == 0 {
        records[32] = 1000;
    }
    answer
}

fn advance_writing_nothing(
    network: &[i64],
    records: Words,
    froms: Words,
    tos: Words,
    area: u64,
) -> (u64, u64) {
    calls::advance(network, &mut records.to_vec(), &mut froms.to_vec(), &mut tos.to_vec(), area)
}

fn advance_unearned(network: &[i64], records: Words, froms: Words, tos: Words, area: u64) -> (u64, u64) {
    let answer = calls::advance(network, records, froms, tos, area);
    if answer.0 == 13 {
        records[area as usize - 1] += 1;
        return (0, records[area as usize - 1] as u64);
    }
    answer
}

/// Right at the first step; from then on it solves step 1 again and only counts on.
fn advance_repeating(network: &[i64], records: Words, froms: Words, tos: Words, area: u64) -> (u64, u64) {
    let (before, old_froms, old_tos) = (records.to_vec(), froms.to_vec(), tos.to_vec());
    let answer = calls::advance(network, records, froms, tos, area);
    if answer.0 == 0 && answer.1 > 1 {
        records.copy_from_slice(&before);
        froms.copy_from_slice(&old_froms);
        tos.copy_from_slice(&old_tos);
        records[area as usize - 1] += 1;
    }
    answer
}

fn advance_near_end(network: &[i64], records: Words, froms: Words, tos: Words, area: u64) -> (u64, u64) {
    let (mut swapped_froms, mut swapped_tos) = (tos.to_vec(), froms.to_vec());
    let answer = calls::advance(network, records, &mut swapped_froms, &mut swapped_tos, area);
    if answer.0 == 0 {
        // What was sent goes where it belongs; only the reading was from the wrong store.
        for place in 0..froms.len() {
            let sent_from = swapped_froms[place];
            let sent_to = swapped_tos[place];
            let (old_from, old_to) = (froms[place], tos[place]);
            froms[place] = if sent_from == old_to { old_from } else { sent_from };
            tos[place] = if sent_to == old_from { old_to } else { sent_to };
        }
    }
    answer
}

/// Each value sent stands in the lower half of the line's slots too, as if there were only q of them.
pub fn advance_short_store(
    network: &[i64],
    records: Words,
    froms: Words,
    tos: Words,
    area: u64,
) -> (u64, u64) {
    advance_storing(|travel| travel.whole_steps, network, records, froms, tos, area)
}

/// Each value that a from end sends stands also where it would with so many slots.
pub fn advance_storing(
    slots: fn(Travel) -> Whole,
    network: &[i64],
    records: Words,
    froms: Words,
    tos: Words,
    area: u64,
) -> (u64, u64) {
    let answer = calls::advance(network, records, froms, tos, area);
    if answer.0 != 0 {
        return answer;
    }
    let study = record::study_of_record(network).expect("an accepted advance had a good network");
    let network = Network::of_study(&study);
    let first = state::first_slots(&network);
    for (index, branch) in network.branches.iter().enumerate() {
        if let Some(travel) = branch.travel().filter(|_| network.area_of[branch.from] == area as usize) {
            let right = state::slot_of_step(first[index], travel, answer.1.into());
            let short = first[index] + (answer.1 % slots(travel) as u64) as usize;
            froms[short] = froms[right];
        }
    }
    answer
}

/// Refuses a state whose slots hold something before anything was sent.
fn advance_unsent_zero(network: &[i64], records: Words, froms: Words, tos: Words, area: u64) -> (u64, u64) {
    let at_rest = records.iter().take(32).all(|count| *count == 0);
    let copy = (records.to_vec(), froms.to_vec(), tos.to_vec());
    let answer = calls::advance(network, records, froms, tos, area);
    if answer.0 == 0 && at_rest && copy.1.iter().chain(&copy.2).any(|word| *word != 0) {
        records.copy_from_slice(&copy.0);
        froms.copy_from_slice(&copy.1);
        tos.copy_from_slice(&copy.2);
        return (10, 0);
    }
    answer
}

fn advance_short_area(network: &[i64], records: Words, froms: Words, tos: Words, area: u64) -> (u64, u64) {
    calls::advance(network, records, froms, tos, area & 0xFFFF_FFFF)
}

fn advance_without_place(network: &[i64], records: Words, froms: Words, tos: Words, area: u64) -> (u64, u64) {
    match calls::advance(network, records, froms, tos, area) {
        (0, count) => (0, count),
        (number, _) => (number, 0),
    }
}

/// Accepts an imbalance one above the limit.
fn advance_loose_limit(network: &[i64], records: Words, froms: Words, tos: Words, area: u64) -> (u64, u64) {
    let answer = calls::advance(network, records, froms, tos, area);
    if answer.0 != 16 || network[2] >= 1_000_000_000_000_000 {
        return answer;
    }
    let mut wider = network.to_vec();
    wider[2] += 1;
    calls::advance(&wider, records, froms, tos, area)
}
