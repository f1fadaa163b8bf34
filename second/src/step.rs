//! One step of one area, from the histories it reads to the values it leaves, or the refusal 13 to 17.

use crate::areas;
use crate::limits::{self, Whole};
use crate::network::{Branch, Element, Network};
use crate::refusal::{Refusal, Stop};
use crate::solve;

/// What a step reads of those before it, by branch. Of the histories L and C use `at_from` alone; a line has one at
/// each end. A latch is 0 but where a breaker has parted.
#[derive(Clone, Debug)]
pub struct Past {
    pub at_from: Vec<Whole>,
    pub at_to: Vec<Whole>,
    pub latches: Vec<Whole>,
}

/// What an accepted step leaves for one branch; `None` where the area has nothing to leave.
#[derive(Clone, Debug)]
pub struct BranchStep {
    pub branch: usize,
    pub from_current: Option<Whole>,
    pub to_current: Option<Whole>,
    pub next_history: Option<Whole>,
    pub from_sent: Option<Whole>,
    pub to_sent: Option<Whole>,
}

#[derive(Clone, Debug)]
pub struct AreaStep {
    /// Node and voltage, fixed nodes too.
    pub voltages: Vec<(usize, Whole)>,
    pub branches: Vec<BranchStep>,
    /// For the comparison tool, which sets limits that are met exactly.
    pub largest_imbalance: Whole,
}

/// The first line, in table order, with an end here whose far area's count is below k - q.
/// `count_of` gives the count of an area.
pub fn first_waiting_line(
    network: &Network,
    area: usize,
    step: Whole,
    count_of: &dyn Fn(usize) -> Whole,
) -> Option<usize> {
    let waits = |branch: &Branch| {
        let Some(travel) = branch.travel() else { return false };
        let ends = [(branch.from, branch.to), (branch.to, branch.from)];
        ends.iter().any(|(near, far)| {
            network.area_of[*near] == area && count_of(network.area_of[*far]) < step - travel.whole_steps
        })
    };
    network.branches.iter().position(waits).map(|index| index + 1)
}

/// Judges 14, then 15, then 16, then 17, each over the whole area.
pub fn take_step(network: &Network, area: usize, step: Whole, past: &Past) -> Result<AreaStep, Stop> {
    if let Some(node) = areas::lowest_floating_node(network, area, step, &past.latches) {
        return Err(Stop::at(Refusal::Floating, node));
    }
    let view = View { network, step, past };
    let voltages = view.solved_voltages(area)?;
    let largest_imbalance = view.checked_balance(area, &voltages)?;
    let branches = view.branch_steps(area, &voltages);
    let beyond = |value: &Option<Whole>| value.is_some_and(|size| !limits::HISTORY.contains(&size));
    let bad = branches
        .iter()
        .find(|done| beyond(&done.next_history) || beyond(&done.from_sent) || beyond(&done.to_sent));
    if let Some(done) = bad {
        return Err(Stop::at(Refusal::History, done.branch + 1));
    }
    let nodes = network.nodes_of_area(area);
    let voltages = nodes.iter().map(|node| (*node, voltages[*node])).collect();
    Ok(AreaStep { voltages, branches, largest_imbalance })
}

/// The network at one step, with what that step reads of those before.
struct View<'a> {
    network: &'a Network,
    step: Whole,
    past: &'a Past,
}

impl View<'_> {
    fn conductance(&self, index: usize) -> Whole {
        let branch = &self.network.branches[index];
        if branch.conducts_at(self.step, self.past.latches[index]) {
            branch.conductance
        } else {
            0
        }
    }

    /// Voltages by node: ground and all other areas 0, fixed nodes at their source, free nodes solved.
    fn solved_voltages(&self, area: usize) -> Result<Vec<Whole>, Stop> {
        let network = self.network;
        let mut voltages = vec![0; network.node_count + 1];
        let nodes = network.nodes_of_area(area);
        for node in &nodes {
            voltages[*node] = network.fixed_voltage(*node, self.step).unwrap_or(0);
        }
        let free: Vec<usize> = nodes.into_iter().filter(|node| !network.is_fixed(*node)).collect();
        let matrix: Vec<Vec<Whole>> = free
            .iter()
            .map(|row| free.iter().map(|column| self.matrix_entry(*row, *column)).collect())
            .collect();
        let right: Vec<Whole> = free.iter().map(|node| self.right_side(*node, &voltages)).collect();
        let proposed = solve::solve(&matrix, &right);
        for (node, voltage) in free.iter().zip(&proposed) {
            voltages[*node] = whole_voltage(*voltage).ok_or(Stop::at(Refusal::Range, *node))?;
        }
        Ok(voltages)
    }

    /// On the diagonal the node's sum of conductances, lines included; elsewhere minus the sum of the
    /// conductances that join the two nodes. A line joins no neighbours.
    fn matrix_entry(&self, row: usize, column: usize) -> Whole {
        let here = self.network.branches.iter().enumerate().filter(|(_, branch)| branch.touches(row));
        if row == column {
            return here.map(|(index, _)| self.conductance(index)).sum();
        }
        let joining = here.filter(|(_, branch)| !branch.is_line() && branch.touches(column));
        -joining.map(|(index, _)| self.conductance(index)).sum::<Whole>()
    }

    /// Injection minus histories as they leave the node, plus conductance times fixed neighbour voltage.
    /// `known` holds the fixed voltages and 0 for ground and for every free node.
    fn right_side(&self, node: usize, known: &[Whole]) -> Whole {
        let mut sum = self.network.injection(node, self.step);
        for (index, branch) in self.network.branches.iter().enumerate() {
            if branch.touches(node) {
                sum -= self.history_leaving(index, node);
            }
            if branch.touches(node) && !branch.is_line() {
                let neighbour = if branch.from == node { branch.to } else { branch.from };
                sum += self.conductance(index) * known[neighbour];
            }
        }
        sum
    }

    /// A branch's history with the sign its current has in leaving the node. At each end of a line that
    /// end's own history leaves; what leaves the from end of an L or C enters its to end.
    fn history_leaving(&self, index: usize, node: usize) -> Whole {
        let branch = &self.network.branches[index];
        match branch.element {
            Element::Line { .. } if branch.from == node => self.past.at_from[index],
            Element::Line { .. } => self.past.at_to[index],
            Element::Inductor | Element::Capacitor if branch.from == node => self.past.at_from[index],
            Element::Inductor | Element::Capacitor => -self.past.at_from[index],
            Element::Resistor | Element::Switch(_) | Element::TimedSwitch { .. } => 0,
        }
    }

    /// The current that leaves the node into the branch: g·u (for a line g·v of this end) plus history.
    fn current_leaving(&self, index: usize, node: usize, voltages: &[Whole]) -> Whole {
        let branch = &self.network.branches[index];
        let neighbour = if branch.from == node { branch.to } else { branch.from };
        let across = if branch.is_line() { voltages[node] } else { voltages[node] - voltages[neighbour] };
        self.conductance(index) * across + self.history_leaving(index, node)
    }

    /// At each free node the exact sum of currents leaving, minus injection, must keep the limit.
    fn checked_balance(&self, area: usize, voltages: &[Whole]) -> Result<Whole, Stop> {
        let network = self.network;
        let mut largest = 0;
        for node in network.nodes_of_area(area).into_iter().filter(|node| !network.is_fixed(*node)) {
            let here = (0..network.branches.len()).filter(|index| network.branches[*index].touches(node));
            let leaving: Whole = here.map(|index| self.current_leaving(index, node, voltages)).sum();
            let imbalance = (leaving - network.injection(node, self.step)).abs();
            if imbalance > network.limit {
                return Err(Stop::at(Refusal::Unbalanced, node));
            }
            largest = largest.max(imbalance);
        }
        Ok(largest)
    }

    fn branch_steps(&self, area: usize, voltages: &[Whole]) -> Vec<BranchStep> {
        let indexes = self.network.branches_of_area(area);
        indexes.into_iter().map(|index| self.branch_step(area, index, voltages)).collect()
    }

    fn branch_step(&self, area: usize, index: usize, voltages: &[Whole]) -> BranchStep {
        let branch = &self.network.branches[index];
        let mut done = BranchStep {
            branch: index,
            from_current: None,
            to_current: None,
            next_history: None,
            from_sent: None,
            to_sent: None,
        };
        if branch.is_line() {
            if self.network.area_of[branch.from] == area {
                let current = self.current_leaving(index, branch.from, voltages);
                done.from_current = Some(current);
                done.from_sent = Some(-(branch.conductance * voltages[branch.from] + current));
            }
            if self.network.area_of[branch.to] == area {
                let current = self.current_leaving(index, branch.to, voltages);
                done.to_current = Some(current);
                done.to_sent = Some(-(branch.conductance * voltages[branch.to] + current));
            }
            return done;
        }
        let current = self.current_leaving(index, branch.from, voltages);
        let driven = branch.conductance * (voltages[branch.from] - voltages[branch.to]);
        done.from_current = Some(current);
        done.next_history = match branch.element {
            Element::Inductor => Some(current + driven),
            Element::Capacitor => Some(-current - driven),
            _ => None,
        };
        done
    }
}

/// The nearest whole number, halves away from zero; none where the double itself is not within the
/// voltage range, not-a-number included.
pub fn whole_voltage(voltage: f64) -> Option<Whole> {
    let end = limits::HIGHEST_VOLTAGE as f64;
    if voltage >= -end && voltage <= end {
        Some(voltage.round() as Whole)
    } else {
        None
    }
}
