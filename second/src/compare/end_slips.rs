//! Advances with planted slips that show where a run ends: the comparison of ends must find each.

use super::ends_mode::Found;
use super::foreign::Calls;
use super::latch_slips;
use super::peak_slips;
use super::slips;
use super::travel_slips;
use crate::calls;
use crate::limits::Whole;
use crate::network::Network;
use crate::record;
use crate::refusal::Refusal;
use crate::state;
use crate::step;

/// Shows in one study of some thirty, where a breaker parts at the last step; each other in one of ten or more often.
pub const RARE: &str = "latch of the last step left out";

/// Name, calls, and what must find the slip.
pub fn planted() -> Vec<(&'static str, Calls, Found)> {
    let advance = |advance| Calls { advance: Some(advance), ..slips::own_calls() };
    vec![
        ("area goes on past a stop", advance(advance_past_stop), Found::AgainstSecond),
        ("area takes its last step for none", advance(advance_done_early), Found::TooShort),
        ("wait judged one step early", advance(advance_waiting_early), Found::TooShort),
        ("area waits for one that no line ties to it", advance(advance_waiting_apart), Found::TooShort),
        ("wait judged one step late", advance(advance_waiting_late), Found::StrangeAnswer),
        ("store of q slots only", advance(slips::advance_short_store), Found::TwoOrders),
        (
            "store of 2q slots where a rest is left",
            advance(travel_slips::advance_even_store),
            Found::TwoOrders,
        ),
        (
            "far value of the last step sent, not of one travel time before",
            advance(advance_newest),
            Found::TwoOrders,
        ),
        (
            "peak moves to a later step of the same magnitude",
            advance(peak_slips::advance_last_place),
            Found::WrongPeak,
        ),
        ("peak told at the step before", advance(peak_slips::advance_step_before), Found::WrongPeak),
        ("peak of 0 at step 1 not told", advance(peak_slips::advance_keeping), Found::WrongPeak),
        (
            "breaker does not part where its current is 0",
            advance(latch_slips::advance_turning),
            Found::WrongLatch,
        ),
        (RARE, advance(latch_slips::advance_but_last), Found::WrongLatch),
        ("latch a step late", advance(latch_slips::advance_step_late), Found::StrangeAnswer),
        ("parted breaker closes again", advance(latch_slips::advance_closing_again), Found::AgainstSecond),
    ]
}

type Words<'a> = &'a mut [i64];

fn network_of(words: &[i64]) -> Network {
    Network::of_study(&record::study_of_record(words).expect("the ends are asked over good networks"))
}

fn is_area(network: &Network, area: u64) -> bool {
    (1..=network.area_count as u64).contains(&area)
}

/// What stops an area is passed over: the step counts, and nothing else of it is written.
fn advance_past_stop(network: &[i64], records: Words, froms: Words, tos: Words, area: u64) -> (u64, u64) {
    let answer = calls::advance(network, records, froms, tos, area);
    if answer.0 < Refusal::Floating.number() {
        return answer;
    }
    let place = state::count_place(area as usize);
    records[place] += 1;
    (0, records[place] as u64)
}

fn advance_done_early(network: &[i64], records: Words, froms: Words, tos: Words, area: u64) -> (u64, u64) {
    let answer = calls::advance(network, &mut records.to_vec(), &mut froms.to_vec(), &mut tos.to_vec(), area);
    if answer == (0, network[1] as u64) {
        return (Refusal::Done.number(), 0);
    }
    calls::advance(network, records, froms, tos, area)
}

/// Waits for the far count k - q + 1.
fn advance_waiting_early(words: &[i64], records: Words, froms: Words, tos: Words, area: u64) -> (u64, u64) {
    let network = network_of(words);
    if records.len() == state::RECORD_WORDS && is_area(&network, area) {
        let count_of = |any: usize| Whole::from(records[state::count_place(any)]);
        let step = count_of(area as usize) + 1;
        let late = step::first_waiting_line(&network, area as usize, step + 1, &count_of);
        if let Some(branch) = late.filter(|_| step <= network.steps) {
            return (Refusal::Wait.number(), branch as u64);
        }
    }
    calls::advance(words, records, froms, tos, area)
}

/// No area may lead another by more than five steps, lines or none.
fn advance_waiting_apart(words: &[i64], records: Words, froms: Words, tos: Words, area: u64) -> (u64, u64) {
    let network = network_of(words);
    if records.len() == state::RECORD_WORDS && is_area(&network, area) {
        let counts = &records[state::count_place(1)..][..network.area_count];
        let count = counts[area as usize - 1];
        if Whole::from(count) < network.steps && counts.iter().any(|other| other + 5 < count) {
            return (Refusal::Wait.number(), 1);
        }
    }
    calls::advance(words, records, froms, tos, area)
}

/// Takes a step whose far value is not sent yet, and reads what the slot holds.
fn advance_waiting_late(words: &[i64], records: Words, froms: Words, tos: Words, area: u64) -> (u64, u64) {
    let answer = calls::advance(words, records, froms, tos, area);
    if answer.0 != Refusal::Wait.number() {
        return answer;
    }
    let network = network_of(words);
    let before = records.to_vec();
    for branch in network.branches.iter().filter(|branch| branch.is_line()) {
        for (near, far) in [(branch.from, branch.to), (branch.to, branch.from)] {
            let (near, far) = (network.area_of[near], network.area_of[far]);
            let whole_steps = branch.travel().map_or(0, |travel| travel.whole_steps as i64);
            let needed = before[area as usize - 1] + 1 - whole_steps;
            if near as u64 == area && before[state::count_place(far)] == needed - 1 {
                records[state::count_place(far)] = needed;
            }
        }
    }
    let answer = calls::advance(words, records, froms, tos, area);
    for other in (1..=network.area_count).filter(|other| *other as u64 != area) {
        records[state::count_place(other)] = before[state::count_place(other)];
    }
    answer
}

/// Each line end hears the last value that the far end has sent.
fn advance_newest(words: &[i64], records: Words, froms: Words, tos: Words, area: u64) -> (u64, u64) {
    let network = network_of(words);
    if records.len() != state::RECORD_WORDS || !is_area(&network, area) {
        return calls::advance(words, records, froms, tos, area);
    }
    let first = state::first_slots(&network);
    let (mut heard_froms, mut heard_tos) = (froms.to_vec(), tos.to_vec());
    let count_of = |node: usize| Whole::from(records[state::count_place(network.area_of[node])]);
    for (index, branch) in network.branches.iter().enumerate() {
        let Some(travel) = branch.travel() else { continue };
        let slot = |step: Whole| state::slot_of_step(first[index], travel, step);
        // Both values that the received one is made of.
        for late in [travel.whole_steps, travel.whole_steps + 1] {
            heard_tos[slot(count_of(branch.from) + 1 - late)] = tos[slot(count_of(branch.to))];
            heard_froms[slot(count_of(branch.to) + 1 - late)] = froms[slot(count_of(branch.from))];
        }
    }
    let answer = calls::advance(words, records, &mut heard_froms, &mut heard_tos, area);
    if answer.0 == 0 {
        keep_sent(&network, area as usize, answer.1.into(), [&heard_froms, &heard_tos], [froms, tos]);
    }
    answer
}

/// Of the stores that were read, what the area has sent at this step goes into the right ones.
fn keep_sent(network: &Network, area: usize, step: Whole, sent: [&[i64]; 2], stores: [Words; 2]) {
    let first = state::first_slots(network);
    let [froms, tos] = stores;
    for (index, branch) in network.branches.iter().enumerate() {
        let Some(travel) = branch.travel() else { continue };
        let slot = state::slot_of_step(first[index], travel, step);
        if network.area_of[branch.from] == area {
            froms[slot] = sent[0][slot];
        }
        if network.area_of[branch.to] == area {
            tos[slot] = sent[1][slot];
        }
    }
}
