//! What is asked of peaks and of the call for a node. After any order of advances a node's peak must be the largest
//! magnitude of the voltages that the records held after each accepted step, at its first place. Everything
//! follows from the text and a seed, so that a difference can be shown again on a smaller text.

use super::dice::Dice;
use super::foreign::{AdvanceCall, Calls, NodeCall};
use super::lent::{same_advance, same_node, Lent};
use super::moves::{self, Depth};
use super::tally::{Difference, Tally};
use crate::calls;
use crate::limits::{self, Whole};
use crate::network::{Network, Study};
use crate::node::Asked;
use crate::peaks::Peak;
use crate::reader;
use crate::record;
use crate::refusal::Refusal;
use crate::state;

const ADVANCES: usize = 16;
const DAMAGES: usize = 4;

const REFUSED: [&str; 5] =
    ["below the voltage", "of the voltage's sign", "above the range", "past the count", "before step 0"];
const PASSING: [&str; 4] =
    ["just the voltage", "the highest voltage", "at the count", "at step 0 beside a count"];

/// By node, the voltages that the records held after each accepted step of its area.
pub struct PastVoltages(Vec<Vec<Whole>>);

impl PastVoltages {
    pub fn at_rest(network: &Network) -> PastVoltages {
        PastVoltages(vec![Vec::new(); network.node_count + 1])
    }

    /// Notes what an accepted advance of this area has left.
    pub fn note(&mut self, network: &Network, area: usize, records: &[i64]) {
        for node in network.nodes_of_area(area) {
            self.0[node].push(records[state::voltage_place(node)].into());
        }
    }

    pub fn peak(&self, node: usize) -> Peak {
        Peak::of_all(&self.0[node])
    }

    /// The first node whose peak in the records is another.
    pub fn first_other(&self, records: &[i64]) -> Option<usize> {
        (1..self.0.len()).find(|node| calls::lent_peak(records, *node) != self.peak(*node))
    }
}

/// A word of a node's peak at an end of what may stand there, or one beyond, and what it is then.
#[derive(Clone, Copy, PartialEq, Eq, Debug)]
pub struct OddPeak {
    pub kind: &'static str,
    pub place: usize,
    pub word: i64,
}

/// All such words of a node of well-formed records.
pub fn odd_peaks(network: &Network, records: &[i64], node: usize) -> Vec<OddPeak> {
    let magnitude = records[state::voltage_place(node)].abs();
    let count = records[state::count_place(network.area_of[node])];
    let highest = limits::HIGHEST_VOLTAGE as i64;
    let peak = |kind, word| OddPeak { kind, place: state::peak_place(node), word };
    let step = |kind, word| OddPeak { kind, place: state::peak_step_place(node), word };
    let mut odd = vec![
        peak(PASSING[0], magnitude),
        peak(PASSING[1], highest),
        peak(REFUSED[2], highest + 1),
        step(PASSING[2], count),
        step(REFUSED[3], count + 1),
        step(REFUSED[4], -1),
    ];
    if magnitude > 0 {
        odd.extend([peak(REFUSED[0], magnitude - 1), peak(REFUSED[1], -magnitude)]);
    }
    if count > 0 {
        odd.push(step(PASSING[3], 0));
    }
    odd
}

/// A comparison that never met an answer of the call, or a kind of odd peak, has compared less than it says.
pub fn miss_nothing(tally: &mut Tally) {
    let kinds = REFUSED.map(|kind| judged(kind, true)).into_iter();
    let kinds = kinds.chain(PASSING.map(|kind| judged(kind, false)));
    for kind in kinds.chain([0, 2, 8, 9, 10].map(answered)) {
        if tally.counted(&kind) == 0 {
            println!("NOT MET {kind}");
            tally.failed += 1;
        }
    }
}

fn answered(number: u64) -> String {
    format!("node: {number:2}")
}

fn judged(kind: &str, refused: bool) -> String {
    format!("peak {kind}: {}", if refused { "refused by 10" } else { "passes" })
}

/// Asks all about the nodes of a text; a text that is no study asks nothing.
pub fn ask_nodes(
    calls: &Calls,
    text: &[u8],
    seed: u64,
    depth: Depth,
    tally: &mut Tally,
) -> Result<(), Difference> {
    let (Some(node), Some(advance), Ok(study)) = (calls.node, calls.advance, reader::read_study(text)) else {
        return Ok(());
    };
    let network = Network::of_study(&study);
    let lent = Lent::at_rest(&record::record_of(&study));
    let mut asker = NodeAsker { node, advance, tally, lent, dice: Dice::new(seed), network };
    asker.walk()?;
    asker.wrong_lengths()?;
    asker.damage(depth)?;
    if depth == Depth::EveryWord {
        asker.change_every_word()?;
    }
    asker.jump(study)?;
    asker.damage(Depth::Usual)
}

struct NodeAsker<'a> {
    node: NodeCall,
    advance: AdvanceCall,
    tally: &'a mut Tally,
    lent: Lent,
    dice: Dice,
    network: Network,
}

impl NodeAsker<'_> {
    fn ask(&mut self, node: u64) -> Result<Asked, Difference> {
        let asked = same_node(self.node, &self.lent.network, &self.lent.records, node)?;
        self.tally.passed += 1;
        self.tally.count(answered(asked.number));
        Ok(asked)
    }

    fn ask_advance(&mut self, area: usize) -> Result<u64, Difference> {
        let (number, _) = same_advance(self.advance, &mut self.lent, area as u64)?;
        self.tally.passed += 1;
        self.tally.count(format!("advance: {number:2}"));
        Ok(number)
    }

    /// A node of the study, now and then a number that is none.
    fn some_node(&mut self) -> u64 {
        let nodes = self.network.node_count as u64;
        if nodes == 0 || self.dice.one_in(4) {
            return self.dice.pick(&[0, nodes + 1, 32, 33, 1 << 32, (1 << 32) + 1, 1 << 63, u64::MAX]);
        }
        1 + self.dice.below(nodes as usize) as u64
    }

    /// From rest, areas in random order, numbers that are none among them; a node is asked for after each call,
    /// all of them before the first and after the last.
    fn walk(&mut self) -> Result<(), Difference> {
        let mut past = PastVoltages::at_rest(&self.network);
        self.ask_all(&past)?;
        for _ in 0..ADVANCES {
            let area = self.dice.below(self.network.area_count + 2);
            if self.ask_advance(area)? == 0 {
                past.note(&self.network, area, &self.lent.records);
            }
            let node = self.some_node();
            self.ask(node)?;
        }
        self.ask_all(&past)
    }

    fn ask_all(&mut self, past: &PastVoltages) -> Result<(), Difference> {
        for node in 1..=self.network.node_count {
            let Asked { number, peak, step, .. } = self.ask(node as u64)?;
            let Peak { magnitude, step: first } = past.peak(node);
            if (number, Whole::from(peak), Whole::from(step)) != (0, magnitude, first) {
                return Err(Difference {
                    question: format!("in the peak of node {node} by its voltages after each step"),
                    ours: format!("{magnitude} at step {first}"),
                    theirs: format!("number {number}, {peak} at step {step}"),
                });
            }
            self.tally.passed += 1;
            self.tally.count("node: peaks by all voltages");
        }
        Ok(())
    }

    /// Each length wrong by itself, sometimes with a network that would be refused by 8; records of half the length,
    /// as they were saved before there were peaks; the two exchanged.
    fn wrong_lengths(&mut self) -> Result<(), Difference> {
        let kept = self.lent.clone();
        for slice in [0, 1] {
            if self.dice.one_in(2) {
                self.lent.network[4] = 1;
            }
            let words = self.lent.slice(slice);
            let right = words.len();
            words.resize(self.dice.pick(&[0, 1, right / 2, right - 1, right + 1, 2 * right]), 0);
            let node = self.some_node();
            self.ask(node)?;
            self.lent.clone_from(&kept);
        }
        let Lent { network, records, .. } = &mut self.lent;
        std::mem::swap(network, records);
        let node = self.some_node();
        self.ask(node)?;
        self.lent = kept;
        Ok(())
    }

    /// Odd peaks, one at a time, each with an advance of any area and any node asked for; then any word of network
    /// and records.
    fn damage(&mut self, depth: Depth) -> Result<(), Difference> {
        let kept = self.lent.clone();
        let mut odd: Vec<OddPeak> = (1..=self.network.node_count)
            .flat_map(|node| odd_peaks(&self.network, &kept.records, node))
            .collect();
        self.dice.shuffle(&mut odd);
        for OddPeak { kind, place, word } in
            odd.into_iter().take(if depth == Depth::EveryWord { usize::MAX } else { DAMAGES })
        {
            self.lent.records[place] = word;
            let node = self.some_node();
            self.ask(node)?;
            let area = 1 + self.dice.below(self.network.area_count);
            let number = self.ask_advance(area)?;
            self.tally.count(judged(kind, number == Refusal::State.number()));
            self.lent.clone_from(&kept);
        }
        for _ in 0..DAMAGES {
            let slice = self.dice.below(2);
            let in_use = [8 + 8 * kept.network[3] as usize + 8, moves::RECORDS_IN_USE + 8][slice];
            let end = if self.dice.one_in(4) { self.lent.slice(slice).len() } else { in_use };
            let place = self.dice.below(end);
            self.ask_changed(slice, place)?;
            self.lent.clone_from(&kept);
        }
        Ok(())
    }

    fn ask_changed(&mut self, slice: usize, place: usize) -> Result<(), Difference> {
        let old = self.lent.slice(slice)[place];
        let small = self.dice.between(0, 9);
        let odd = moves::odd_word(&mut self.dice, old);
        self.lent.slice(slice)[place] = if self.dice.one_in(3) { small } else { odd };
        let node = self.some_node();
        self.ask(node).map(|_| ())
    }

    /// Every single word of network and records changed for one question.
    fn change_every_word(&mut self) -> Result<(), Difference> {
        let mut kept = self.lent.clone();
        for slice in [0, 1] {
            for place in 0..kept.slice(slice).len() {
                self.ask_changed(slice, place)?;
                self.lent.clone_from(&kept);
            }
        }
        Ok(())
    }

    /// A well-formed state that no run need reach.
    fn jump(&mut self, mut study: Study) -> Result<(), Difference> {
        if self.dice.one_in(2) {
            study.steps = Whole::from(self.dice.spread(1, 1_000_000));
        }
        self.network = Network::of_study(&study);
        self.lent = moves::random_state(&mut self.dice, &self.network, &record::record_of(&study));
        for node in 1..=self.network.node_count {
            self.ask(node as u64)?;
        }
        Ok(())
    }
}
