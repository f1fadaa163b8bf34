//! Planted slips about peaks and the call for a node, to see that the comparison finds them.

use super::foreign::Calls;
use super::slips::own_calls;
use crate::calls;
use crate::limits::{self, Whole};
use crate::network::Network;
use crate::node::{self, Asked};
use crate::peaks::Peak;
use crate::record;
use crate::refusal::Refusal;
use crate::state::{self, RECORD_WORDS};

/// Name, calls, and whether the slip is in the reader: never here.
pub fn planted() -> Vec<(&'static str, Calls, bool)> {
    let advance = |advance| Calls { advance: Some(advance), ..own_calls() };
    let node = |node| Calls { node: Some(node), ..own_calls() };
    vec![
        ("peak moves to a later step of the same magnitude", advance(advance_last_place), false),
        ("peak by voltages with their sign", advance(advance_signed), false),
        ("peak told at the step before", advance(advance_step_before), false),
        ("peak of step 1 only where it is greater than what stood there", advance(advance_keeping), false),
        ("peak of the voltage before the step", advance(advance_voltage_before), false),
        ("peak of a fixed node left out", advance(advance_free_only), false),
        ("peaks of other areas told at this step", advance(advance_all_areas), false),
        ("peak of a refused step", advance(advance_refused_step), false),
        ("peak below the voltage taken for well formed", advance(advance_low_peak), false),
        ("peak above the range taken for well formed", advance(advance_high_peak), false),
        ("peak past the count taken for well formed", advance(advance_late_peak), false),
        ("peak at step 0 beside a count refused", advance(advance_wanting_a_step), false),
        ("node 0 taken for ground", node(node_ground), false),
        ("node past the last told as 0", node(node_past_the_last), false),
        ("node beyond 32 bits cut short", node(node_short), false),
        ("node judged before the records", node(node_first), false),
        ("node of records that are not judged", node(node_unjudged), false),
        ("node told where it is refused", node(node_telling), false),
        ("node told by its magnitude", node(node_magnitude), false),
        ("node of records of 512 words", node(node_short_records), false),
    ]
}

type Words<'a> = &'a mut [i64];

fn network_of(words: &[i64]) -> Network {
    Network::of_study(&record::study_of_record(words).expect("records are judged after the network"))
}

fn put_peak(records: Words, node: usize, peak: Peak) {
    records[state::peak_place(node)] = peak.magnitude as i64;
    records[state::peak_step_place(node)] = peak.step as i64;
}

/// What a slip has to go by: step, node, voltage before and after, and the peak before.
struct Seen<'a> {
    network: &'a Network,
    step: Whole,
    node: usize,
    before: Whole,
    after: Whole,
    peak: Peak,
}

/// Right but for the peaks of the area's nodes, which this rule gives.
fn advance_by(
    rule: fn(Seen) -> Peak,
    words: &[i64],
    records: Words,
    froms: Words,
    tos: Words,
    area: u64,
) -> (u64, u64) {
    let old = records.to_vec();
    let answer = calls::advance(words, records, froms, tos, area);
    if answer.0 == 0 {
        let network = network_of(words);
        for node in network.nodes_of_area(area as usize) {
            let voltage = |records: &[i64]| Whole::from(records[state::voltage_place(node)]);
            let (before, after, step) = (voltage(&old), voltage(records), Whole::from(answer.1));
            let peak = calls::lent_peak(&old, node);
            put_peak(records, node, rule(Seen { network: &network, step, node, before, after, peak }));
        }
    }
    answer
}

pub fn advance_last_place(words: &[i64], records: Words, froms: Words, tos: Words, area: u64) -> (u64, u64) {
    let rule = |seen: Seen| {
        let magnitude = seen.after.abs();
        if seen.step == 1 || seen.peak.magnitude <= magnitude {
            Peak { magnitude, step: seen.step }
        } else {
            seen.peak
        }
    };
    advance_by(rule, words, records, froms, tos, area)
}

fn advance_signed(words: &[i64], records: Words, froms: Words, tos: Words, area: u64) -> (u64, u64) {
    let rule = |seen: Seen| {
        if seen.step == 1 || seen.peak.magnitude < seen.after {
            Peak { magnitude: seen.after.abs(), step: seen.step }
        } else {
            seen.peak
        }
    };
    advance_by(rule, words, records, froms, tos, area)
}

pub fn advance_step_before(words: &[i64], records: Words, froms: Words, tos: Words, area: u64) -> (u64, u64) {
    let rule = |seen: Seen| {
        let peak = seen.peak.after(seen.step, seen.after);
        if peak == seen.peak {
            peak
        } else {
            Peak { step: seen.step - 1, ..peak }
        }
    };
    advance_by(rule, words, records, froms, tos, area)
}

pub fn advance_keeping(words: &[i64], records: Words, froms: Words, tos: Words, area: u64) -> (u64, u64) {
    let rule = |seen: Seen| {
        if seen.peak.magnitude < seen.after.abs() {
            Peak { magnitude: seen.after.abs(), step: seen.step }
        } else {
            seen.peak
        }
    };
    advance_by(rule, words, records, froms, tos, area)
}

fn advance_voltage_before(words: &[i64], records: Words, froms: Words, tos: Words, area: u64) -> (u64, u64) {
    advance_by(|seen| seen.peak.after(seen.step, seen.before), words, records, froms, tos, area)
}

fn advance_free_only(words: &[i64], records: Words, froms: Words, tos: Words, area: u64) -> (u64, u64) {
    let rule = |seen: Seen| {
        if seen.network.is_fixed(seen.node) {
            seen.peak
        } else {
            seen.peak.after(seen.step, seen.after)
        }
    };
    advance_by(rule, words, records, froms, tos, area)
}

/// Nodes of every area as if they had taken the step too.
fn advance_all_areas(words: &[i64], records: Words, froms: Words, tos: Words, area: u64) -> (u64, u64) {
    let answer = calls::advance(words, records, froms, tos, area);
    if answer.0 == 0 {
        let network = network_of(words);
        for node in (1..=network.node_count).filter(|node| network.area_of[*node] != area as usize) {
            let voltage = records[state::voltage_place(node)].into();
            put_peak(records, node, calls::lent_peak(records, node).after(answer.1.into(), voltage));
        }
    }
    answer
}

/// A step that is out of balance has told its peaks before it was judged.
fn advance_refused_step(words: &[i64], records: Words, froms: Words, tos: Words, area: u64) -> (u64, u64) {
    let answer = calls::advance(words, records, froms, tos, area);
    if answer.0 == Refusal::Unbalanced.number() {
        let mut wider = words.to_vec();
        wider[2] = *limits::BALANCE_LIMIT.end() as i64;
        let mut taken = records.to_vec();
        calls::advance(&wider, &mut taken, &mut froms.to_vec(), &mut tos.to_vec(), area);
        for node in network_of(words).nodes_of_area(area as usize) {
            put_peak(records, node, calls::lent_peak(&taken, node));
        }
    }
    answer
}

/// Goes on with records that are refused by 10, once this has mended them.
fn advance_mending(
    mend: fn(&Network, Words, usize),
    words: &[i64],
    records: Words,
    froms: Words,
    tos: Words,
    area: u64,
) -> (u64, u64) {
    let answer = calls::advance(words, records, froms, tos, area);
    if answer.0 == Refusal::State.number() {
        let (network, mut mended) = (network_of(words), records.to_vec());
        for node in 1..=network.node_count {
            mend(&network, &mut mended, node);
        }
        if state::well_formed(&network, &mended, froms, tos) {
            records.copy_from_slice(&mended);
            return calls::advance(words, records, froms, tos, area);
        }
    }
    answer
}

fn advance_low_peak(words: &[i64], records: Words, froms: Words, tos: Words, area: u64) -> (u64, u64) {
    let mend = |_: &Network, records: Words, node: usize| {
        let magnitude = records[state::voltage_place(node)].saturating_abs();
        let peak = &mut records[state::peak_place(node)];
        *peak = magnitude.max(*peak);
    };
    advance_mending(mend, words, records, froms, tos, area)
}

fn advance_high_peak(words: &[i64], records: Words, froms: Words, tos: Words, area: u64) -> (u64, u64) {
    let mend = |_: &Network, records: Words, node: usize| {
        let peak = &mut records[state::peak_place(node)];
        *peak = (*peak).min(limits::HIGHEST_VOLTAGE as i64);
    };
    advance_mending(mend, words, records, froms, tos, area)
}

fn advance_late_peak(words: &[i64], records: Words, froms: Words, tos: Words, area: u64) -> (u64, u64) {
    let mend = |network: &Network, records: Words, node: usize| {
        let count = records[state::count_place(network.area_of[node])];
        let step = &mut records[state::peak_step_place(node)];
        *step = (*step).min(count);
    };
    advance_mending(mend, words, records, froms, tos, area)
}

fn advance_wanting_a_step(words: &[i64], records: Words, froms: Words, tos: Words, area: u64) -> (u64, u64) {
    let old = (records.to_vec(), froms.to_vec(), tos.to_vec());
    let answer = calls::advance(words, records, froms, tos, area);
    if answer.0 != 0 {
        return answer;
    }
    let network = network_of(words);
    let wanting = |node: usize| {
        old.0[state::count_place(network.area_of[node])] > 0 && old.0[state::peak_step_place(node)] == 0
    };
    if (1..=network.node_count).any(wanting) {
        records.copy_from_slice(&old.0);
        froms.copy_from_slice(&old.1);
        tos.copy_from_slice(&old.2);
        return (Refusal::State.number(), 0);
    }
    answer
}

const NOTHING: Asked = Asked { number: 0, voltage: 0, peak: 0, step: 0 };

fn node_ground(network: &[i64], records: &[i64], number: u64) -> Asked {
    match node::node(network, records, number) {
        Asked { number: 2, .. } if number == 0 => NOTHING,
        asked => asked,
    }
}

fn node_past_the_last(network: &[i64], records: &[i64], number: u64) -> Asked {
    match node::node(network, records, number) {
        Asked { number: 2, .. } if (1..=32).contains(&number) => NOTHING,
        asked => asked,
    }
}

fn node_short(network: &[i64], records: &[i64], number: u64) -> Asked {
    node::node(network, records, number & 0xFFFF_FFFF)
}

fn node_first(network: &[i64], records: &[i64], number: u64) -> Asked {
    let asked = node::node(network, records, number);
    let none = || !(1..=network_of(network).node_count as u64).contains(&number);
    if asked.number == Refusal::State.number() && none() {
        return Asked { number: Refusal::Node.number(), ..asked };
    }
    asked
}

fn node_unjudged(network: &[i64], records: &[i64], number: u64) -> Asked {
    let asked = node::node(network, records, number);
    if asked.number != Refusal::State.number() {
        return asked;
    }
    let at_rest = [0; RECORD_WORDS];
    if node::node(network, &at_rest, number).number != 0 {
        return Asked { number: Refusal::Node.number(), ..asked };
    }
    told(records, number)
}

fn told(records: &[i64], node: u64) -> Asked {
    let node = node as usize;
    Asked {
        number: 0,
        voltage: records[state::voltage_place(node)],
        peak: records[state::peak_place(node)] as u64,
        step: records[state::peak_step_place(node)] as u64,
    }
}

fn node_telling(network: &[i64], records: &[i64], number: u64) -> Asked {
    let asked = node::node(network, records, number);
    if asked.number == Refusal::State.number() && (1..=32).contains(&number) {
        return Asked { number: asked.number, ..told(records, number) };
    }
    asked
}

fn node_magnitude(network: &[i64], records: &[i64], number: u64) -> Asked {
    let asked = node::node(network, records, number);
    Asked { voltage: asked.voltage.abs(), ..asked }
}

fn node_short_records(network: &[i64], records: &[i64], number: u64) -> Asked {
    let mut longer = records.to_vec();
    if longer.len() == RECORD_WORDS / 2 {
        longer.resize(RECORD_WORDS, 0);
    }
    node::node(network, &longer, number)
}
