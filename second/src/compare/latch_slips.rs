//! Planted slips about breakers and their latches, to see that the comparison finds them.

use super::foreign::Calls;
use super::slips::own_calls;
use super::travel_slips::read_refusing;
use super::write_slips::write_as;
use crate::calls;
use crate::latch::{is_current_zero, Breaker};
use crate::limits::{self, Whole};
use crate::network::{Branch, Element, Kind, Network, Row, Study};
use crate::record;
use crate::refusal::Refusal;
use crate::state;

/// Name, calls, and whether the slip is in the reader.
pub fn planted() -> Vec<(&'static str, Calls, bool)> {
    let read = |read| Calls { read, ..own_calls() };
    let advance = |advance| Calls { advance: Some(advance), ..own_calls() };
    let write = |write| Calls { write: Some(write), ..own_calls() };
    vec![
        ("reader knows no SWT", read(read_no_swt), true),
        ("reader takes an SWT for an SW", read(read_as_breaker), true),
        ("writer puts an SW for an SWT", write(write_as_breaker), false),
        ("breaker parts at its closing step, told to open after it", advance(advance_at_closing), false),
        ("breaker parts where a current follows on 0", advance(advance_from_zero), false),
        ("breaker does not part where its current is 0", advance(advance_turning), false),
        ("breaker parts only where its current is 0", advance(advance_touching), false),
        ("breaker parts where the current before has the same sign", advance(advance_to_side), false),
        ("signs by a product of 64 bits", advance(advance_product), false),
        ("breaker parts at its first chance, whatever its current", advance(advance_chopping), false),
        ("breaker parts before its first chance", advance(advance_early), false),
        ("first chance at open, not at open - 1", advance(advance_from_open), false),
        ("latch a step late", advance(advance_step_late), false),
        ("latch moves on with each zero", advance(advance_moving), false),
        ("latch of the last step left out", advance(advance_but_last), false),
        ("latch of a refused step", advance(advance_refused_step), false),
        ("latches of other areas set", advance(advance_all_areas), false),
        ("latch of an SWT set", advance(advance_timed_latch), false),
        ("parted breaker closes again", advance(advance_closing_again), false),
        ("floating judged by the clock", advance(advance_floating_by_clock), false),
        ("latch below open - 1 taken for well formed", advance(advance_low_latch), false),
        ("latch at the closing step taken for well formed", advance(advance_closing_latch), false),
        ("latch past the count taken for well formed", advance(advance_late_latch), false),
        ("latch below zero taken for well formed", advance(advance_negative_latch), false),
        ("latch on an SWT taken for well formed", advance(advance_latched_swt), false),
        ("latch on any branch taken for well formed", advance(advance_latched_branch), false),
        ("latch on a row that is no branch taken for well formed", advance(advance_latched_row), false),
        ("latch at its first chance refused", advance(advance_wanting_later), false),
        ("latch at the count refused", advance(advance_wanting_earlier), false),
        ("latch not set past its first chance refused", advance(advance_wanting_a_latch), false),
    ]
}

type Words<'a> = &'a mut [i64];

fn network_of(words: &[i64]) -> Network {
    Network::of_study(&record::study_of_record(words).expect("records are judged after the network"))
}

fn latch_of(records: &[i64], branch: &Branch) -> Whole {
    records[state::latch_place(branch.row)].into()
}

fn current_of(records: &[i64], branch: &Branch) -> Whole {
    records[state::from_current_place(branch.row)].into()
}

fn count_of(network: &Network, records: &[i64], branch: &Branch) -> Whole {
    records[state::count_place(network.area_of_branch(branch))].into()
}

fn read_no_swt(text: &[u8], network: &mut [i64]) -> (u64, u64) {
    let timed = |_: &Study, rows: &[Row]| rows.last().is_some_and(|row| row.kind == Kind::TimedSwitch);
    read_refusing(text, network, Refusal::Form, timed)
}

fn read_as_breaker(text: &[u8], network: &mut [i64]) -> (u64, u64) {
    let answer = calls::read(text, network);
    if answer.0 == 0 {
        for row in network[8..].chunks_exact_mut(8).filter(|row| row[0] == Kind::TimedSwitch.number()) {
            row[0] = Kind::Switch.number();
        }
    }
    answer
}

fn write_as_breaker(network: &[i64], out: &mut [u8]) -> (u64, u64) {
    write_as(network, out, |study| record::text_of(&study).replace("SWT", "SW"))
}

/// What a slip has to go by: a breaker of the area, the study's steps and the one just taken, its currents at that step
/// and before, and its latch before.
struct Seen {
    breaker: Breaker,
    steps: Whole,
    step: Whole,
    now: Whole,
    before: Whole,
    latch: Whole,
}

impl Seen {
    /// The right rule.
    fn right(&self) -> Whole {
        self.breaker.latch_after(self.latch, self.step, self.now, self.before)
    }

    /// The latch where it may part from this step on, and where this is a zero.
    fn with(&self, first_chance: Whole, is_zero: bool) -> Whole {
        if self.latch == 0 && self.step >= first_chance && is_zero {
            self.step
        } else {
            self.latch
        }
    }

    fn at_chance(&self, is_zero: bool) -> Whole {
        self.with(self.breaker.first_chance(), is_zero)
    }

    fn is_zero(&self) -> bool {
        is_current_zero(self.now, self.before)
    }
}

/// Right but for the latches of the area's breakers, which this rule gives.
fn advance_by(
    rule: fn(&Seen) -> Whole,
    words: &[i64],
    records: Words,
    froms: Words,
    tos: Words,
    area: u64,
) -> (u64, u64) {
    let old = records.to_vec();
    let answer = calls::advance(words, records, froms, tos, area);
    if answer.0 == 0 {
        let network = network_of(words);
        for branch in network.branches.iter().filter(|branch| !branch.is_line()) {
            let Some(breaker) = branch.breaker() else { continue };
            if network.area_of_branch(branch) == area as usize {
                let seen = Seen {
                    breaker,
                    steps: network.steps,
                    step: answer.1.into(),
                    now: current_of(records, branch),
                    before: current_of(&old, branch),
                    latch: latch_of(&old, branch),
                };
                records[state::latch_place(branch.row)] = rule(&seen) as i64;
            }
        }
    }
    answer
}

fn advance_at_closing(words: &[i64], records: Words, froms: Words, tos: Words, area: u64) -> (u64, u64) {
    let rule = |seen: &Seen| {
        let closed = seen.step >= seen.breaker.close;
        seen.with(seen.breaker.open - 1, closed && seen.is_zero())
    };
    advance_by(rule, words, records, froms, tos, area)
}

fn advance_from_zero(words: &[i64], records: Words, froms: Words, tos: Words, area: u64) -> (u64, u64) {
    let rule = |seen: &Seen| seen.at_chance(seen.now == 0 || seen.now.signum() != seen.before.signum());
    advance_by(rule, words, records, froms, tos, area)
}

pub fn advance_turning(words: &[i64], records: Words, froms: Words, tos: Words, area: u64) -> (u64, u64) {
    let rule = |seen: &Seen| seen.at_chance(seen.now != 0 && seen.is_zero());
    advance_by(rule, words, records, froms, tos, area)
}

fn advance_touching(words: &[i64], records: Words, froms: Words, tos: Words, area: u64) -> (u64, u64) {
    advance_by(|seen| seen.at_chance(seen.now == 0), words, records, froms, tos, area)
}

/// The current of the step before as it leaves the to node.
fn advance_to_side(words: &[i64], records: Words, froms: Words, tos: Words, area: u64) -> (u64, u64) {
    let rule = |seen: &Seen| seen.at_chance(is_current_zero(seen.now, -seen.before));
    advance_by(rule, words, records, froms, tos, area)
}

fn advance_product(words: &[i64], records: Words, froms: Words, tos: Words, area: u64) -> (u64, u64) {
    let rule = |seen: &Seen| {
        let product = (seen.now as i64).wrapping_mul(seen.before as i64);
        seen.at_chance(seen.now == 0 || product < 0)
    };
    advance_by(rule, words, records, froms, tos, area)
}

fn advance_chopping(words: &[i64], records: Words, froms: Words, tos: Words, area: u64) -> (u64, u64) {
    advance_by(|seen| seen.at_chance(true), words, records, froms, tos, area)
}

fn advance_early(words: &[i64], records: Words, froms: Words, tos: Words, area: u64) -> (u64, u64) {
    let rule = |seen: &Seen| seen.with(seen.breaker.close + 1, seen.is_zero());
    advance_by(rule, words, records, froms, tos, area)
}

fn advance_from_open(words: &[i64], records: Words, froms: Words, tos: Words, area: u64) -> (u64, u64) {
    let rule = |seen: &Seen| seen.with(seen.breaker.open.max(seen.breaker.close + 1), seen.is_zero());
    advance_by(rule, words, records, froms, tos, area)
}

pub fn advance_step_late(words: &[i64], records: Words, froms: Words, tos: Words, area: u64) -> (u64, u64) {
    let rule = |seen: &Seen| match seen.right() {
        latch if latch == seen.latch => latch,
        latch => latch + 1,
    };
    advance_by(rule, words, records, froms, tos, area)
}

fn advance_moving(words: &[i64], records: Words, froms: Words, tos: Words, area: u64) -> (u64, u64) {
    let rule = |seen: &Seen| {
        if seen.step >= seen.breaker.first_chance() && seen.is_zero() {
            seen.step
        } else {
            seen.latch
        }
    };
    advance_by(rule, words, records, froms, tos, area)
}

pub fn advance_but_last(words: &[i64], records: Words, froms: Words, tos: Words, area: u64) -> (u64, u64) {
    let rule = |seen: &Seen| if seen.step == seen.steps { seen.latch } else { seen.right() };
    advance_by(rule, words, records, froms, tos, area)
}

/// A step that is out of balance has set its latches before it was judged.
fn advance_refused_step(words: &[i64], records: Words, froms: Words, tos: Words, area: u64) -> (u64, u64) {
    let answer = calls::advance(words, records, froms, tos, area);
    if answer.0 == Refusal::Unbalanced.number() {
        let mut wider = words.to_vec();
        wider[2] = *limits::BALANCE_LIMIT.end() as i64;
        let mut taken = records.to_vec();
        calls::advance(&wider, &mut taken, &mut froms.to_vec(), &mut tos.to_vec(), area);
        let latches = state::latch_place(0)..state::latch_place(80);
        records[latches.clone()].copy_from_slice(&taken[latches]);
    }
    answer
}

/// Breakers of every area as if they had taken the step too.
fn advance_all_areas(words: &[i64], records: Words, froms: Words, tos: Words, area: u64) -> (u64, u64) {
    let answer = calls::advance(words, records, froms, tos, area);
    if answer.0 == 0 {
        let network = network_of(words);
        for branch in network.branches.iter().filter(|branch| !branch.is_line()) {
            let Some(breaker) = branch.breaker() else { continue };
            if network.area_of_branch(branch) != area as usize {
                let current = current_of(records, branch);
                let latch = breaker.latch_after(latch_of(records, branch), answer.1.into(), current, current);
                records[state::latch_place(branch.row)] = latch as i64;
            }
        }
    }
    answer
}

/// At the last step of a switch by the clock.
fn advance_timed_latch(words: &[i64], records: Words, froms: Words, tos: Words, area: u64) -> (u64, u64) {
    let answer = calls::advance(words, records, froms, tos, area);
    if answer.0 == 0 {
        let network = network_of(words);
        for branch in &network.branches {
            let Element::TimedSwitch { open, .. } = branch.element else { continue };
            if network.area_of_branch(branch) == area as usize && open - 1 == Whole::from(answer.1) {
                records[state::latch_place(branch.row)] = answer.1 as i64;
            }
        }
    }
    answer
}

/// The latches that are set are kept, but what conducts does not go by them.
pub fn advance_closing_again(
    words: &[i64],
    records: Words,
    froms: Words,
    tos: Words,
    area: u64,
) -> (u64, u64) {
    let old = records.to_vec();
    let answer = calls::advance(words, &mut records.to_vec(), &mut froms.to_vec(), &mut tos.to_vec(), area);
    let judged = [Refusal::Store, Refusal::Network, Refusal::State].map(Refusal::number);
    if judged.contains(&answer.0) {
        return answer;
    }
    let latches = state::latch_place(0)..state::latch_place(80);
    records[latches.clone()].fill(0);
    let answer = calls::advance(words, records, froms, tos, area);
    for place in latches.filter(|place| old[*place] != 0 || answer.0 != 0) {
        records[place] = old[place];
    }
    answer
}

/// A node floats where it would with every breaker a switch by the clock.
fn advance_floating_by_clock(
    words: &[i64],
    records: Words,
    froms: Words,
    tos: Words,
    area: u64,
) -> (u64, u64) {
    let answer = calls::advance(words, &mut records.to_vec(), &mut froms.to_vec(), &mut tos.to_vec(), area);
    if answer.0 == 0 {
        let (mut timed, mut latchless) = (words.to_vec(), records.to_vec());
        for row in timed[8..].chunks_exact_mut(8).filter(|row| row[0] == Kind::Switch.number()) {
            row[0] = Kind::TimedSwitch.number();
        }
        latchless[state::latch_place(0)..state::latch_place(80)].fill(0);
        let by_clock = calls::advance(&timed, &mut latchless, &mut froms.to_vec(), &mut tos.to_vec(), area);
        if by_clock.0 == Refusal::Floating.number() {
            return by_clock;
        }
    }
    calls::advance(words, records, froms, tos, area)
}

/// Goes on with records that are refused by 10, once this has mended their latches.
fn advance_mending(
    mend: fn(&Network, Words),
    words: &[i64],
    records: Words,
    froms: Words,
    tos: Words,
    area: u64,
) -> (u64, u64) {
    let answer = calls::advance(words, records, froms, tos, area);
    if answer.0 == Refusal::State.number() {
        let (network, mut mended) = (network_of(words), records.to_vec());
        mend(&network, &mut mended);
        if state::well_formed(&network, &mended, froms, tos) {
            records.copy_from_slice(&mended);
            return calls::advance(words, records, froms, tos, area);
        }
    }
    answer
}

/// Puts out the latches of breakers for which this holds, of breaker, latch and count.
fn clear_latches(network: &Network, records: Words, wrong: fn(Breaker, Whole, Whole) -> bool) {
    for branch in network.branches.iter().filter(|branch| !branch.is_line()) {
        let Some(breaker) = branch.breaker() else { continue };
        if wrong(breaker, latch_of(records, branch), count_of(network, records, branch)) {
            records[state::latch_place(branch.row)] = 0;
        }
    }
}

fn advance_low_latch(words: &[i64], records: Words, froms: Words, tos: Words, area: u64) -> (u64, u64) {
    let mend = |network: &Network, records: Words| {
        let low = |breaker: Breaker, latch, _| latch > breaker.close && latch < breaker.open - 1;
        clear_latches(network, records, low);
    };
    advance_mending(mend, words, records, froms, tos, area)
}

fn advance_closing_latch(words: &[i64], records: Words, froms: Words, tos: Words, area: u64) -> (u64, u64) {
    let mend = |network: &Network, records: Words| {
        let closing = |breaker: Breaker, latch, _| latch == breaker.close && latch >= breaker.open - 1;
        clear_latches(network, records, closing);
    };
    advance_mending(mend, words, records, froms, tos, area)
}

fn advance_late_latch(words: &[i64], records: Words, froms: Words, tos: Words, area: u64) -> (u64, u64) {
    let mend = |network: &Network, records: Words| {
        let late = |breaker: Breaker, latch, count| latch > count && latch >= breaker.first_chance();
        clear_latches(network, records, late);
    };
    advance_mending(mend, words, records, froms, tos, area)
}

fn advance_negative_latch(words: &[i64], records: Words, froms: Words, tos: Words, area: u64) -> (u64, u64) {
    let mend = |network: &Network, records: Words| clear_latches(network, records, |_, latch, _| latch < 0);
    advance_mending(mend, words, records, froms, tos, area)
}

fn advance_latched_swt(words: &[i64], records: Words, froms: Words, tos: Words, area: u64) -> (u64, u64) {
    let mend = |network: &Network, records: Words| {
        let timed = |branch: &&Branch| matches!(branch.element, Element::TimedSwitch { .. });
        for branch in network.branches.iter().filter(timed) {
            records[state::latch_place(branch.row)] = 0;
        }
    };
    advance_mending(mend, words, records, froms, tos, area)
}

fn advance_latched_branch(words: &[i64], records: Words, froms: Words, tos: Words, area: u64) -> (u64, u64) {
    let mend = |network: &Network, records: Words| {
        let other =
            |branch: &&Branch| !matches!(branch.element, Element::Switch(_) | Element::TimedSwitch { .. });
        for branch in network.branches.iter().filter(other) {
            records[state::latch_place(branch.row)] = 0;
        }
    };
    advance_mending(mend, words, records, froms, tos, area)
}

fn advance_latched_row(words: &[i64], records: Words, froms: Words, tos: Words, area: u64) -> (u64, u64) {
    let mend = |network: &Network, records: Words| {
        let is_branch = |row: &usize| network.branches.iter().any(|branch| branch.row == *row);
        for row in (0..80).filter(|row| !is_branch(row)) {
            records[state::latch_place(row)] = 0;
        }
    };
    advance_mending(mend, words, records, froms, tos, area)
}

/// Refuses records by 10 that hold a breaker for which this holds, of breaker, latch and count.
fn advance_wanting(
    unwanted: fn(Breaker, Whole, Whole) -> bool,
    words: &[i64],
    records: Words,
    froms: Words,
    tos: Words,
    area: u64,
) -> (u64, u64) {
    let answer = calls::advance(words, &mut records.to_vec(), &mut froms.to_vec(), &mut tos.to_vec(), area);
    if answer.0 == 0 {
        let network = network_of(words);
        let any = network.branches.iter().any(|branch| {
            let Some(breaker) = branch.breaker() else { return false };
            unwanted(breaker, latch_of(records, branch), count_of(&network, records, branch))
        });
        if any {
            return (Refusal::State.number(), 0);
        }
    }
    calls::advance(words, records, froms, tos, area)
}

fn advance_wanting_later(words: &[i64], records: Words, froms: Words, tos: Words, area: u64) -> (u64, u64) {
    let first = |breaker: Breaker, latch, _| latch == breaker.first_chance();
    advance_wanting(first, words, records, froms, tos, area)
}

fn advance_wanting_earlier(words: &[i64], records: Words, froms: Words, tos: Words, area: u64) -> (u64, u64) {
    advance_wanting(|_, latch, count| latch != 0 && latch == count, words, records, froms, tos, area)
}

fn advance_wanting_a_latch(words: &[i64], records: Words, froms: Words, tos: Words, area: u64) -> (u64, u64) {
    let unset = |breaker: Breaker, latch, count| latch == 0 && count > breaker.first_chance();
    advance_wanting(unset, words, records, froms, tos, area)
}
