//! Orders in which a scheduler may call areas, and a run over lent memory taken by one of them to its end.

use super::dice::Dice;
use super::ends_mode::Found;
use super::foreign::AdvanceCall;
use super::latches::PastCurrents;
use super::lent::Lent;
use super::nodes::PastVoltages;
use super::tally::Difference;
use crate::calls;
use crate::ends::{self, AreaEnd};
use crate::limits::Whole;
use crate::network::Network;
use crate::peaks::Peak;
use crate::refusal::Refusal;
use crate::state;

#[derive(Clone, Copy, PartialEq, Eq, Debug)]
pub enum Order {
    /// Round after round, as `emtrun` goes.
    Rising,
    Falling,
    Uniform,
    /// One area until it is refused, then any other.
    Bursts,
    /// One area is called only where all others have been refused.
    OneStarved,
    /// Any area, and every other call one that must be refused: no area's number, a length one short.
    Disturbed,
}

pub const ORDERS: [Order; 6] =
    [Order::Rising, Order::Falling, Order::Uniform, Order::Bursts, Order::OneStarved, Order::Disturbed];

/// What one order came to: every lent word, each area's end, and what each area's accepted calls answered.
#[derive(Clone, PartialEq, Debug)]
pub struct Ended {
    pub lent: Lent,
    pub ends: Vec<AreaEnd>,
    pub accepted: Vec<Vec<u64>>,
}

/// Calls areas of a network at rest until in one unchanged state every area has answered DONE, WAIT or one of
/// 14 to 17. An answer that no run gets, a step past the last, a peak at the end that is not the largest of the
/// voltages that the records held after each step, or a latch that is not the first zero of the currents, is an error.
pub fn take_to_end(
    advance: AdvanceCall,
    network: &Network,
    mut lent: Lent,
    order: Order,
    dice: &mut Dice,
) -> Result<Ended, Difference> {
    let mut scheduler = Scheduler::new(order, network.area_count, dice);
    let mut accepted = vec![Vec::new(); network.area_count];
    let mut past = PastVoltages::at_rest(network);
    let mut currents = PastCurrents::at_rest(network);
    while let Some(area) = scheduler.next_area() {
        scheduler.disturb(advance, &mut lent)?;
        let (number, place) =
            advance(&lent.network, &mut lent.records, &mut lent.froms, &mut lent.tos, area as u64);
        let answers: &mut Vec<u64> = &mut accepted[area - 1];
        if number == 0 && (answers.len() as Whole) < network.steps {
            answers.push(place);
            past.note(network, area, &lent.records);
            currents.note(network, area, &lent.records);
            scheduler.answers.fill(None);
        } else if ends::may_rest(number) {
            scheduler.answers[area - 1] = Some((number, place));
        } else {
            return Err(no_such_answer(order, area as u64, number));
        }
        scheduler.last_refused = number != 0;
    }
    if let Some(node) = past.first_other(&lent.records) {
        return Err(wrong_peak(order, node, past.peak(node), calls::lent_peak(&lent.records, node)));
    }
    if let Some(index) = currents.first_other(network, &lent.records) {
        let recorded = lent.records[state::latch_place(network.branches[index].row)];
        return Err(wrong_latch(order, index + 1, currents.latch(network, index), recorded));
    }
    let count = |index: usize| Whole::from(lent.records[state::count_place(index + 1)]);
    let end = |(index, answer): (usize, &Option<(u64, u64)>)| {
        let (number, place) = answer.expect("every area has answered");
        AreaEnd { count: count(index), number, place }
    };
    let ends = scheduler.answers.iter().enumerate().map(end).collect();
    Ok(Ended { lent, ends, accepted })
}

fn no_such_answer(order: Order, area: u64, number: u64) -> Difference {
    Difference {
        question: format!("{}: {order:?}, area {area}", Found::StrangeAnswer.question()),
        ours: "an acceptance for each of the steps; else 12 to 17, 11 for no area, 9 for a length"
            .to_string(),
        theirs: format!("number {number}"),
    }
}

fn wrong_peak(order: Order, node: usize, ours: Peak, theirs: Peak) -> Difference {
    let shown = |peak: Peak| format!("{} at step {}", peak.magnitude, peak.step);
    Difference {
        question: format!("{}: {order:?}, node {node}", Found::WrongPeak.question()),
        ours: shown(ours),
        theirs: shown(theirs),
    }
}

fn wrong_latch(order: Order, branch: usize, ours: Whole, theirs: i64) -> Difference {
    Difference {
        question: format!("{}: {order:?}, branch {branch}", Found::WrongLatch.question()),
        ours: ours.to_string(),
        theirs: theirs.to_string(),
    }
}

struct Scheduler<'a> {
    order: Order,
    dice: &'a mut Dice,
    /// By area, its answer in this very state; none where it has not been asked since the last step.
    answers: Vec<Option<(u64, u64)>>,
    area: usize,
    starved: usize,
    last_refused: bool,
}

impl Scheduler<'_> {
    fn new(order: Order, areas: usize, dice: &mut Dice) -> Scheduler<'_> {
        let starved = 1 + dice.below(areas.max(1));
        let area = if order == Order::Falling { 1 } else { areas };
        Scheduler { order, dice, answers: vec![None; areas], area, starved, last_refused: true }
    }

    /// The area to be called next; none where all have answered in this state.
    fn next_area(&mut self) -> Option<usize> {
        if self.answers.iter().all(Option::is_some) {
            return None;
        }
        let areas = self.answers.len();
        self.area = match self.order {
            Order::Rising => self.area % areas + 1,
            Order::Falling => (self.area + areas - 2) % areas + 1,
            Order::Bursts if !self.last_refused => self.area,
            Order::OneStarved => self.any_but_the_starved(),
            Order::Uniform | Order::Bursts | Order::Disturbed => 1 + self.dice.below(areas),
        };
        Some(self.area)
    }

    fn any_but_the_starved(&mut self) -> usize {
        let open = |area: &usize| *area != self.starved && self.answers[area - 1].is_none();
        let others: Vec<usize> = (1..=self.answers.len()).filter(open).collect();
        if others.is_empty() {
            self.starved
        } else {
            self.dice.pick(&others)
        }
    }

    /// Every other time a call that must be refused, before the call that is due.
    fn disturb(&mut self, advance: AdvanceCall, lent: &mut Lent) -> Result<(), Difference> {
        if self.order != Order::Disturbed || self.dice.one_in(2) {
            return Ok(());
        }
        let areas = self.answers.len() as u64;
        let strange = self.dice.pick(&[0, areas + 1, areas + 33, 1 << 32, u64::MAX]);
        let short = usize::from(self.dice.one_in(3));
        let area = if short == 1 { self.area as u64 } else { strange };
        let wanted = if short == 1 { Refusal::Store } else { Refusal::Area };
        let length = lent.records.len() - short;
        let records = &mut lent.records[..length];
        let (number, _) = advance(&lent.network, records, &mut lent.froms, &mut lent.tos, area);
        if number == wanted.number() {
            Ok(())
        } else {
            Err(no_such_answer(self.order, area, number))
        }
    }
}
