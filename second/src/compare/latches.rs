//! What is asked of breakers and their latches. After any order of advances a latch must be the first step that has its
//! chance and a current zero, by the currents that the records held after each accepted step. Everything follows from
//! the text and a seed, so that a difference can be shown again on a smaller text.

use super::dice::Dice;
use super::foreign::{AdvanceCall, Calls, NodeCall};
use super::lent::{same_advance, same_node, Lent};
use super::moves::{self, Depth};
use super::tally::{Difference, Tally};
use crate::latch::{is_current_zero, Breaker};
use crate::limits::Whole;
use crate::network::{Element, Network, Study};
use crate::reader;
use crate::record;
use crate::refusal::Refusal;
use crate::state;

const DAMAGES: usize = 4;
/// Longer runs are not taken to their end.
const LONGEST_RUN: Whole = 100;

const REFUSED: [&str; 7] = [
    "below open - 1",
    "not above close",
    "past the count",
    "below zero",
    "on an SWT",
    "on a branch that is no switch",
    "on a row that is no branch",
];
const PASSING: [&str; 3] = ["at its first chance", "at the count", "not set past its first chance"];

/// What breakers went through in runs from rest.
const MET: [&str; 9] = [
    "breaker: parts where its current is 0",
    "breaker: parts where its current has turned about",
    "breaker: parts a step after it closed, told to open then",
    "breaker: parts after the last step",
    "breaker: a zero before its first chance",
    "breaker: a zero at its closing step, told to open after it",
    "breaker: 0 and then a current at its chance",
    "breaker: equal currents at its chance",
    "breaker: never a zero",
];

/// By branch, the currents that the records held of a breaker after each accepted step of its area.
pub struct PastCurrents(Vec<Vec<Whole>>);

impl PastCurrents {
    pub fn at_rest(network: &Network) -> PastCurrents {
        PastCurrents(vec![Vec::new(); network.branches.len()])
    }

    /// Notes what an accepted advance of this area has left.
    pub fn note(&mut self, network: &Network, area: usize, records: &[i64]) {
        for (branch, currents) in network.branches.iter().zip(&mut self.0) {
            if branch.breaker().is_some() && network.area_of_branch(branch) == area {
                currents.push(records[state::from_current_place(branch.row)].into());
            }
        }
    }

    pub fn latch(&self, network: &Network, index: usize) -> Whole {
        network.branches[index].breaker().map_or(0, |breaker| breaker.latch_of_all(&self.0[index]))
    }

    /// The first branch whose latch in the records is another.
    pub fn first_other(&self, network: &Network, records: &[i64]) -> Option<usize> {
        let recorded = |index: usize| records[state::latch_place(network.branches[index].row)];
        (0..self.0.len()).find(|index| Whole::from(recorded(*index)) != self.latch(network, *index))
    }

    fn count(&self, network: &Network, tally: &mut Tally) {
        for (branch, currents) in network.branches.iter().zip(&self.0) {
            let Some(breaker) = branch.breaker() else { continue };
            for kind in MET.into_iter().zip(met(breaker, network.steps, currents)).filter(|(_, met)| *met) {
                tally.count(kind.0);
            }
        }
    }
}

/// Which of the kinds above the currents of a breaker have come to.
fn met(breaker: Breaker, steps: Whole, currents: &[Whole]) -> [bool; 9] {
    let current_of = |step: Whole| currents[step as usize - 1];
    let count = currents.len() as Whole;
    let latch = breaker.latch_of_all(currents);
    let last_closed = if latch > 0 { latch } else { count };
    let chances = || breaker.first_chance()..=last_closed;
    let at_once = breaker.open == breaker.close + 1;
    let mut early = breaker.close + 1..=(breaker.first_chance() - 1).min(count);
    [
        latch > 0 && current_of(latch) == 0,
        latch > 0 && current_of(latch) != 0,
        at_once && latch == breaker.close + 1,
        latch > 0 && latch == steps,
        early.any(|step| is_current_zero(current_of(step), current_of(step - 1))),
        at_once && breaker.close <= count && current_of(breaker.close) == 0,
        chances().any(|step| current_of(step - 1) == 0 && current_of(step) != 0),
        chances().any(|step| current_of(step - 1) == current_of(step) && current_of(step) != 0),
        latch == 0 && breaker.first_chance() < count,
    ]
}

/// A comparison that never met one of these, or a kind of odd latch, has compared less than it says.
pub fn miss_nothing(tally: &mut Tally) {
    let kinds = REFUSED.map(|kind| judged(kind, true)).into_iter();
    let kinds = kinds.chain(PASSING.map(|kind| judged(kind, false)));
    for kind in kinds.chain(MET.map(str::to_string)) {
        if tally.counted(&kind) == 0 {
            println!("NOT MET {kind}");
            tally.failed += 1;
        }
    }
}

fn judged(kind: &str, refused: bool) -> String {
    format!("latch {kind}: {}", if refused { "refused by 10" } else { "passes" })
}

/// A latch at an end of what may stand there, or one beyond, and what it is then.
#[derive(Clone, Copy, PartialEq, Eq, Debug)]
pub struct OddLatch {
    pub kind: &'static str,
    pub place: usize,
    pub word: i64,
}

/// All such words of well-formed records.
pub fn odd_latches(network: &Network, records: &[i64]) -> Vec<OddLatch> {
    let mut odd = Vec::new();
    for branch in &network.branches {
        let mut put = |kind, word| odd.push(OddLatch { kind, place: state::latch_place(branch.row), word });
        let count = match branch.is_line() {
            true => records[state::count_place(network.area_of[branch.from])],
            false => records[state::count_place(network.area_of_branch(branch))],
        };
        match branch.element {
            Element::Switch(breaker) => {
                let (close, open) = (breaker.close as i64, breaker.open as i64);
                let chance = breaker.first_chance() as i64;
                put(REFUSED[3], -1);
                put(REFUSED[2], count.max(chance - 1) + 1);
                if open - 2 > 0 {
                    put(REFUSED[0], open - 2);
                }
                if open - 1 == close {
                    put(REFUSED[1], close);
                }
                if chance <= count {
                    put(PASSING[0], chance);
                    put(PASSING[1], count);
                    put(PASSING[2], 0);
                }
            }
            Element::TimedSwitch { open, .. } => put(REFUSED[4], open as i64),
            _ => put(REFUSED[5], count.max(1)),
        }
    }
    let is_branch = |row: &usize| network.branches.iter().any(|branch| branch.row == *row);
    for row in (0..80).filter(|row| !is_branch(row)) {
        odd.push(OddLatch { kind: REFUSED[6], place: state::latch_place(row), word: 1 });
    }
    odd
}

/// Asks all about the breakers of a text; a text that is no study, or one without switches, asks nothing.
pub fn ask_latches(
    calls: &Calls,
    text: &[u8],
    seed: u64,
    depth: Depth,
    tally: &mut Tally,
) -> Result<(), Difference> {
    let (Some(node), Some(advance), Ok(study)) = (calls.node, calls.advance, reader::read_study(text)) else {
        return Ok(());
    };
    let network = Network::of_study(&study);
    let is_switch = |element: &Element| matches!(element, Element::Switch(_) | Element::TimedSwitch { .. });
    if !network.branches.iter().any(|branch| is_switch(&branch.element)) {
        return Ok(());
    }
    let lent = Lent::at_rest(&record::record_of(&study));
    let mut asker = LatchAsker { node, advance, tally, lent, dice: Dice::new(seed), network };
    asker.run()?;
    asker.damage(depth)?;
    asker.jump(study)?;
    asker.damage(Depth::Usual)
}

struct LatchAsker<'a> {
    node: NodeCall,
    advance: AdvanceCall,
    tally: &'a mut Tally,
    lent: Lent,
    dice: Dice,
    network: Network,
}

impl LatchAsker<'_> {
    fn ask_advance(&mut self, area: usize) -> Result<u64, Difference> {
        let (number, _) = same_advance(self.advance, &mut self.lent, area as u64)?;
        self.tally.passed += 1;
        self.tally.count(format!("advance: {number:2}"));
        Ok(number)
    }

    /// From rest to the end, areas in rising order, round after round until a whole round is refused.
    fn run(&mut self) -> Result<(), Difference> {
        let mut past = PastCurrents::at_rest(&self.network);
        let mut moving = self.network.steps <= LONGEST_RUN;
        while moving {
            moving = false;
            for area in 1..=self.network.area_count {
                if self.ask_advance(area)? == 0 {
                    past.note(&self.network, area, &self.lent.records);
                    moving = true;
                }
            }
        }
        if let Some(index) = past.first_other(&self.network, &self.lent.records) {
            return Err(self.wrong_latch(index, past.latch(&self.network, index)));
        }
        past.count(&self.network, self.tally);
        self.tally.passed += 1;
        self.tally.count("breaker: runs with latches by all currents");
        Ok(())
    }

    fn wrong_latch(&self, index: usize, latch: Whole) -> Difference {
        let recorded = self.lent.records[state::latch_place(self.network.branches[index].row)];
        Difference {
            question: format!("in the latch of branch {} by its currents after each step", index + 1),
            ours: latch.to_string(),
            theirs: recorded.to_string(),
        }
    }

    /// Odd latches, one at a time, each with an advance of any area and a node asked for.
    fn damage(&mut self, depth: Depth) -> Result<(), Difference> {
        let kept = self.lent.clone();
        let mut odd = odd_latches(&self.network, &kept.records);
        self.dice.shuffle(&mut odd);
        // Rows that are no branch are many, and those of switches few.
        odd.sort_by_key(|odd| odd.kind == REFUSED[6] || odd.kind == REFUSED[5]);
        let rare = odd.len().min(DAMAGES - 1);
        let tail = odd.split_off(rare);
        let more = if depth == Depth::EveryWord { usize::MAX } else { 1 };
        for OddLatch { kind, place, word } in odd.into_iter().chain(tail.into_iter().rev().take(more)) {
            self.lent.records[place] = word;
            let node = 1 + self.dice.below(self.network.node_count) as u64;
            let asked = same_node(self.node, &self.lent.network, &self.lent.records, node)?;
            self.tally.count(format!("node: {:2}", asked.number));
            let area = 1 + self.dice.below(self.network.area_count);
            let number = self.ask_advance(area)?;
            self.tally.passed += 1;
            self.tally.count(judged(kind, number == Refusal::State.number()));
            self.lent.clone_from(&kept);
        }
        Ok(())
    }

    /// A well-formed state that no run need reach, and some advances on it: what parts then goes by the current that
    /// stands in the records.
    fn jump(&mut self, mut study: Study) -> Result<(), Difference> {
        if self.dice.one_in(2) {
            study.steps = Whole::from(self.dice.spread(1, 1_000_000));
        }
        self.network = Network::of_study(&study);
        self.lent = moves::random_state(&mut self.dice, &self.network, &record::record_of(&study));
        for _ in 0..3 {
            let area = 1 + self.dice.below(self.network.area_count);
            self.ask_advance(area)?;
        }
        Ok(())
    }
}
