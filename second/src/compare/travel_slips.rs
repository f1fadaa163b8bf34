//! Planted slips about travel times between steps, to see that the comparison finds them.

use super::foreign::Calls;
use super::slips::{advance_storing, own_calls};
use crate::calls;
use crate::limits::{self, Whole};
use crate::network::{Branch, Kind, Network, Row, Study, Travel};
use crate::reader;
use crate::record;
use crate::refusal::Refusal;
use crate::state;

/// Name, calls, and whether the slip is in the reader.
pub fn planted() -> Vec<(&'static str, Calls, bool)> {
    let read = |read| Calls { read, ..own_calls() };
    let advance = |advance| Calls { advance: Some(advance), ..own_calls() };
    vec![
        ("reader refuses a travel time that is no multiple of the step", read(read_multiples), true),
        ("reader refuses a travel time of one step", read(read_longer), true),
        ("reader counts 2q slots where a rest is left", read(read_even_slots), true),
        ("reader counts 2q + 1 slots where none is left", read(read_odd_slots), true),
        ("received value rounded toward zero", advance(advance_toward_zero), false),
        ("received value rounded before it is multiplied", advance(advance_dividing_first), false),
        ("weights of the two values exchanged", advance(advance_exchanged), false),
        ("rest of the travel time left out", advance(advance_without_rest), false),
        ("value of step k - q + 1 in place of k - q - 1", advance(advance_newer), false),
        ("slot of step 0 read", advance(advance_unsent), false),
        ("store of 2q slots where a rest is left", advance(advance_even_store), false),
        ("counts may differ by q + 1 where a rest is left", advance(advance_wide_counts), false),
    ]
}

type Words<'a> = &'a mut [i64];

/// Reads, but refuses by this number the first line that `refused` finds among the rows so far.
pub fn read_refusing(
    text: &[u8],
    network: &mut [i64],
    number: Refusal,
    refused: impl Fn(&Study, &[Row]) -> bool,
) -> (u64, u64) {
    if let (Ok(study), record::NETWORK_WORDS) = (reader::read_study(text), network.len()) {
        let bad = (1..=study.rows.len()).find(|rows| refused(&study, &study.rows[..*rows]));
        if let Some(row) = bad {
            return (number.number(), row as u64 + 1);
        }
    }
    calls::read(text, network)
}

fn last_travel(study: &Study, rows: &[Row]) -> Option<Travel> {
    rows.last().and_then(|row| row.travel(study.step_length))
}

fn read_multiples(text: &[u8], network: &mut [i64]) -> (u64, u64) {
    let odd = |study: &Study, rows: &[Row]| last_travel(study, rows).is_some_and(|travel| travel.rest != 0);
    read_refusing(text, network, Refusal::Travel, odd)
}

fn read_longer(text: &[u8], network: &mut [i64]) -> (u64, u64) {
    let one_step = |study: &Study, rows: &[Row]| {
        last_travel(study, rows).is_some_and(|travel| travel.whole_steps == 1 && travel.rest == 0)
    };
    read_refusing(text, network, Refusal::Travel, one_step)
}

fn read_odd_slots(text: &[u8], network: &mut [i64]) -> (u64, u64) {
    let full = |study: &Study, rows: &[Row]| {
        let lines = rows.iter().filter_map(|row| row.travel(study.step_length));
        lines.map(|travel| 2 * travel.whole_steps + 1).sum::<Whole>() > limits::MOST_SLOTS
    };
    read_refusing(text, network, Refusal::Full, full)
}

fn read_even_slots(text: &[u8], network: &mut [i64]) -> (u64, u64) {
    let without_rests = |study: &mut Study| {
        let step_length = study.step_length;
        for row in study.rows.iter_mut().filter(|row| row.kind == Kind::Line) {
            row.fields[3] -= row.fields[3] % step_length;
        }
    };
    read_taking(text, network, Refusal::Full, &[&without_rests])
}

/// Reads, but takes a text that is refused by this number where it passes with each of these changes.
pub fn read_taking(
    text: &[u8],
    network: &mut [i64],
    number: Refusal,
    changes: &[&dyn Fn(&mut Study)],
) -> (u64, u64) {
    let answer = calls::read(text, network);
    if answer.0 != number.number() {
        return answer;
    }
    let Some(study) = unjudged_study(text) else { return answer };
    let passes = |change: &&dyn Fn(&mut Study)| {
        let mut changed = study.clone();
        change(&mut changed);
        reader::read_study(record::text_of(&changed).as_bytes()).is_ok()
    };
    if !changes.iter().all(passes) {
        return answer;
    }
    network.copy_from_slice(&record::record_of(&study));
    (0, 0)
}

/// A well-spelt text line by line, each row read by itself under the first line.
fn unjudged_study(text: &[u8]) -> Option<Study> {
    let lines: Vec<&[u8]> = text.split_inclusive(|byte| *byte == b'\n').collect();
    let mut study = reader::read_study(lines.first()?).ok()?;
    for line in &lines[1..] {
        let alone = reader::read_study(&[lines[0], line].concat()).ok()?;
        study.rows.extend(alone.rows);
    }
    Some(study)
}

fn value_of(step: Whole, sent: &dyn Fn(Whole) -> Whole) -> Whole {
    if step < 1 {
        0
    } else {
        sent(step)
    }
}

/// The values of steps k - q and k - q - 1.
fn newer_and_older(travel: &Travel, step: Whole, sent: &dyn Fn(Whole) -> Whole) -> (Whole, Whole) {
    let newest = step - travel.whole_steps;
    (value_of(newest, sent), value_of(newest - 1, sent))
}

fn advance_toward_zero(network: &[i64], records: Words, froms: Words, tos: Words, area: u64) -> (u64, u64) {
    let received: calls::Received = |travel, step, sent| {
        let (newer, older) = newer_and_older(travel, step, sent);
        newer + (older - newer) * travel.rest / travel.step_length
    };
    calls::advance_by(received, network, records, froms, tos, area)
}

fn advance_dividing_first(
    network: &[i64],
    records: Words,
    froms: Words,
    tos: Words,
    area: u64,
) -> (u64, u64) {
    let received: calls::Received = |travel, step, sent| {
        let (newer, older) = newer_and_older(travel, step, sent);
        newer + (older - newer).div_euclid(travel.step_length) * travel.rest
    };
    calls::advance_by(received, network, records, froms, tos, area)
}

fn advance_exchanged(network: &[i64], records: Words, froms: Words, tos: Words, area: u64) -> (u64, u64) {
    let received: calls::Received = |travel, step, sent| {
        let (newer, older) = newer_and_older(travel, step, sent);
        let rest = if travel.rest == 0 { 0 } else { travel.step_length - travel.rest };
        newer + ((older - newer) * rest).div_euclid(travel.step_length)
    };
    calls::advance_by(received, network, records, froms, tos, area)
}

fn advance_without_rest(network: &[i64], records: Words, froms: Words, tos: Words, area: u64) -> (u64, u64) {
    let received: calls::Received = |travel, step, sent| newer_and_older(travel, step, sent).0;
    calls::advance_by(received, network, records, froms, tos, area)
}

/// Toward the later value, as if the travel time were q steps less r; where q is 1 that step is not taken yet.
fn advance_newer(network: &[i64], records: Words, froms: Words, tos: Words, area: u64) -> (u64, u64) {
    let received: calls::Received = |travel, step, sent| {
        let (newer, _) = newer_and_older(travel, step, sent);
        let later = value_of(step - travel.whole_steps + 1, sent);
        newer + ((later - newer) * travel.rest).div_euclid(travel.step_length)
    };
    calls::advance_by(received, network, records, froms, tos, area)
}

/// Where k - q is 1 the older value comes from the slot of step 0, which nobody has sent.
fn advance_unsent(network: &[i64], records: Words, froms: Words, tos: Words, area: u64) -> (u64, u64) {
    let received: calls::Received = |travel, step, sent| {
        if step - travel.whole_steps != 1 {
            return travel.received(step, sent);
        }
        let (newer, older) = (sent(1), sent(0));
        newer + ((older - newer) * travel.rest).div_euclid(travel.step_length)
    };
    calls::advance_by(received, network, records, froms, tos, area)
}

pub fn advance_even_store(
    network: &[i64],
    records: Words,
    froms: Words,
    tos: Words,
    area: u64,
) -> (u64, u64) {
    advance_storing(|travel| 2 * travel.whole_steps, network, records, froms, tos, area)
}

/// Takes areas one step further apart than q for well formed; the leading one then waits for the other.
fn advance_wide_counts(words: &[i64], records: Words, froms: Words, tos: Words, area: u64) -> (u64, u64) {
    let answer = calls::advance(words, records, froms, tos, area);
    if answer.0 != Refusal::State.number() {
        return answer;
    }
    let study = record::study_of_record(words).expect("records are judged after the network");
    let network = Network::of_study(&study);
    let count_of = |node: usize| records[state::count_place(network.area_of[node])];
    let too_far = |line: &Branch| {
        let travel = line.travel()?;
        let apart = Whole::from(count_of(line.from).abs_diff(count_of(line.to)) as i64);
        (travel.rest != 0 && apart == travel.whole_steps + 1).then_some(line.from)
    };
    let Some(node) = network.branches.iter().find_map(too_far) else { return answer };
    let mut nearer = records.to_vec();
    let (one, all) = (network.area_of[node], 0..=study.steps as i64);
    for moved in [-1, 1] {
        nearer[state::count_place(one)] = records[state::count_place(one)].wrapping_add(moved);
        let counted = all.contains(&records[state::count_place(one)]);
        if counted && state::well_formed(&network, &nearer, froms, tos) {
            return (Refusal::Wait.number(), 1);
        }
    }
    answer
}
