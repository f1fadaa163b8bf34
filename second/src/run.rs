//! A whole run from rest. Every value that a line end ever sent is kept, so that no ring, no slot and no
//! remainder stands between a reading and the step it asks for. So is every voltage, and every step at which a breaker's
//! current was zero or had turned: a peak, or the step after which a breaker parted, is looked for among them when it
//! is asked for.

use crate::latch::is_current_zero;
use crate::limits::Whole;
use crate::network::Network;
use crate::peaks::Peak;
use crate::refusal::{Refusal, Stop};
use crate::step::{self, AreaStep, Past};

#[derive(Clone, Debug)]
pub struct Run {
    pub network: Network,
    /// Accepted steps by area; place 0 is unused.
    pub counts: Vec<Whole>,
    /// By node; place 0 is ground.
    pub voltages: Vec<Whole>,
    pub from_currents: Vec<Whole>,
    pub to_currents: Vec<Whole>,
    histories: Vec<Whole>,
    /// By branch, then by step: the value sent at step s stands in place s - 1.
    sent_from: Vec<Vec<Whole>>,
    sent_to: Vec<Vec<Whole>>,
    /// By node, then by step; place 0 is ground's.
    past_voltages: Vec<Vec<Whole>>,
    /// By branch, the steps at which its current was zero or had turned, whatever its latch; none but of breakers.
    current_zeros: Vec<Vec<Whole>>,
    pub largest_imbalance: Whole,
}

impl Run {
    pub fn at_rest(network: Network) -> Run {
        let branches = network.branches.len();
        Run {
            counts: vec![0; network.area_count + 1],
            voltages: vec![0; network.node_count + 1],
            from_currents: vec![0; branches],
            to_currents: vec![0; branches],
            histories: vec![0; branches],
            sent_from: vec![Vec::new(); branches],
            sent_to: vec![Vec::new(); branches],
            past_voltages: vec![Vec::new(); network.node_count + 1],
            current_zeros: vec![Vec::new(); branches],
            largest_imbalance: 0,
            network,
        }
    }

    /// Advances one area by one step and answers its new count.
    pub fn advance(&mut self, area: usize) -> Result<Whole, Stop> {
        if area == 0 || area > self.network.area_count {
            return Err(Stop::nowhere(Refusal::Area));
        }
        if self.counts[area] == self.network.steps {
            return Err(Stop::nowhere(Refusal::Done));
        }
        let step = self.counts[area] + 1;
        let count_of = |any: usize| self.counts[any];
        if let Some(branch) = step::first_waiting_line(&self.network, area, step, &count_of) {
            return Err(Stop::at(Refusal::Wait, branch));
        }
        let past = self.past_of(area, step);
        let taken = step::take_step(&self.network, area, step, &past)?;
        self.keep(area, &taken);
        Ok(step)
    }

    pub fn peak(&self, node: usize) -> Peak {
        Peak::of_all(&self.past_voltages[node])
    }

    /// The step after which a breaker parted; 0 where it has not, and for every other branch.
    pub fn latch(&self, index: usize) -> Whole {
        let breaker = self.network.branches[index].breaker();
        breaker.map_or(0, |breaker| breaker.latch_among(&self.current_zeros[index]))
    }

    /// A line end's history is what it receives of the values that the far end sent.
    fn past_of(&self, area: usize, step: Whole) -> Past {
        let latches = (0..self.network.branches.len()).map(|index| self.latch(index)).collect();
        let mut past = Past { at_from: self.histories.clone(), at_to: self.histories.clone(), latches };
        for (index, branch) in self.network.branches.iter().enumerate() {
            let Some(travel) = branch.travel() else { continue };
            if self.network.area_of[branch.from] == area {
                let sent = &self.sent_to[index];
                past.at_from[index] = travel.received(step, &|at| sent[at as usize - 1]);
            }
            if self.network.area_of[branch.to] == area {
                let sent = &self.sent_from[index];
                past.at_to[index] = travel.received(step, &|at| sent[at as usize - 1]);
            }
        }
        past
    }

    fn keep(&mut self, area: usize, taken: &AreaStep) {
        self.counts[area] += 1;
        for (node, voltage) in &taken.voltages {
            self.voltages[*node] = *voltage;
            self.past_voltages[*node].push(*voltage);
        }
        for done in &taken.branches {
            let index = done.branch;
            let before = self.from_currents[index];
            self.from_currents[index] = done.from_current.unwrap_or(before);
            self.to_currents[index] = done.to_current.unwrap_or(self.to_currents[index]);
            self.histories[index] = done.next_history.unwrap_or(self.histories[index]);
            if self.network.branches[index].breaker().is_some() {
                let zero = done.from_current.filter(|now| is_current_zero(*now, before));
                self.current_zeros[index].extend(zero.map(|_| self.counts[area]));
            }
            self.sent_from[index].extend(done.from_sent);
            self.sent_to[index].extend(done.to_sent);
        }
        self.largest_imbalance = self.largest_imbalance.max(taken.largest_imbalance);
    }
}
