//! Random studies that the reader accepts: several areas joined by lines, rings of many lengths, and runs
//! that end in each way a run can end.

use super::breaking;
use super::dice::Dice;
use super::exact::{self, row};
use crate::limits::{self, Whole};
use crate::network::{Kind, Network, Row, Study, Travel};
use crate::record;
use crate::run::Run;

pub const HIGHEST_LIMIT: Whole = 1_000_000_000_000_000;

/// What a study is made for. Only weights differ: every ending can come from nearly every temper.
#[derive(Clone, Copy, PartialEq, Eq, Debug)]
enum Temper {
    /// Middling conductances and small injections: runs to its end.
    Calm,
    /// The whole range of conductances, injections up to their end: often RANGE.
    Wild,
    /// High conductances at high voltage: often HISTORY.
    Heavy,
    /// Few ties to ground and many switches: often FLOATING.
    Loose,
    /// Strong joins over weak ties to ground, no fixed node: the rounding of the elimination shows in the
    /// voltages, so that another order of operations is seen.
    Stiff,
}

pub fn random_text(dice: &mut Dice) -> Vec<u8> {
    record::text_of(&random_study(dice)).into_bytes()
}

pub fn random_study(dice: &mut Dice) -> Study {
    if dice.one_in(6) {
        return exact::exact_study(dice);
    }
    if dice.one_in(10) {
        return breaking::breaking_study(dice);
    }
    let temper = match dice.below(12) {
        0..=3 => Temper::Calm,
        4 | 5 => Temper::Wild,
        6 | 7 => Temper::Heavy,
        8 | 9 => Temper::Loose,
        _ => Temper::Stiff,
    };
    let mut study = Maker::new(dice, temper).study();
    choose_limit(dice, &mut study);
    study
}

/// Most studies keep the widest limit. The others take the largest imbalance of their own run, met exactly
/// or missed by one, or a limit below it, so that UNBALANCED comes at the first step or at a late one.
fn choose_limit(dice: &mut Dice, study: &mut Study) {
    if !dice.one_in(3) {
        return;
    }
    let largest = largest_imbalance(study);
    study.limit = match dice.below(4) {
        0 => largest,
        1 => (largest - 1).max(0),
        2 => Whole::from(dice.between(0, largest as i64)),
        _ => 0,
    };
}

fn largest_imbalance(study: &Study) -> Whole {
    let mut run = Run::at_rest(Network::of_study(study));
    for _ in 1..=study.steps {
        for area in 1..=run.network.area_count {
            if run.advance(area).is_err() {
                return run.largest_imbalance;
            }
        }
    }
    run.largest_imbalance
}

/// What a travel time may have beside its whole steps: nothing, a bit, all but a bit, half a step, anything.
pub fn rest_of_a_step(dice: &mut Dice, step_length: Whole) -> Whole {
    let anything = Whole::from(dice.between(0, step_length as i64 - 1));
    dice.pick(&[0, 0, 0, 1, step_length - 1, step_length / 2, anything, anything]).min(step_length - 1)
}

/// The longest travel time that has just so many slots, of a step length over 1 where their number is odd; 0
/// where there is none.
pub fn travel_with_slots(slots: Whole, step_length: Whole) -> Whole {
    match slots {
        ..=1 => 0,
        _ if slots % 2 == 0 => slots / 2 * step_length,
        _ => (slots / 2 + 1) * step_length - 1,
    }
}

struct Maker<'a> {
    dice: &'a mut Dice,
    temper: Temper,
    study: Study,
    nodes: usize,
    /// Nodes of one group are joined by branches, so a group is an area unless it falls apart.
    group_of: Vec<usize>,
    groups: usize,
    free_slots: Whole,
}

impl Maker<'_> {
    fn new(dice: &mut Dice, temper: Temper) -> Maker<'_> {
        let random_length = dice.spread(1, 1_000_000);
        // The longest are those in which a power-frequency source gets around.
        let step_length =
            dice.pick(&[1, 2, 50, 256, 999, 1000, 1000, 1000, 15_625, 1_000_000, 1_000_000, random_length]);
        let steps = match dice.below(12) {
            0 => 1,
            1 => dice.between(13, 40),
            2 => dice.between(20, 90),
            _ => dice.between(2, 12),
        };
        let nodes = match dice.below(8) {
            0 => dice.between(7, 32),
            _ if temper == Temper::Stiff => dice.between(3, 12),
            _ => dice.between(1, 6),
        } as usize;
        let most_groups = if temper == Temper::Stiff { 2 } else { 5 };
        let groups = dice.between(1, nodes.min(most_groups) as i64) as usize;
        let rows = Vec::new();
        let study =
            Study { step_length: step_length.into(), steps: steps.into(), limit: HIGHEST_LIMIT, rows };
        let group_of = (0..=nodes).map(|_| dice.below(groups)).collect();
        Maker { dice, temper, study, nodes, group_of, groups, free_slots: limits::MOST_SLOTS }
    }

    fn study(mut self) -> Study {
        self.join_groups();
        self.ground_groups();
        self.add_extra_branches();
        self.add_lines();
        self.add_sources();
        if self.dice.one_in(25) {
            self.fill_the_table();
        }
        self.shuffle_rows();
        self.study
    }

    fn node(&mut self) -> usize {
        1 + self.dice.below(self.nodes)
    }

    /// Every node is joined to an earlier node of its group, if there is one.
    fn join_groups(&mut self) {
        for node in 2..=self.nodes {
            let earlier: Vec<usize> =
                (1..node).filter(|other| self.group_of[*other] == self.group_of[node]).collect();
            if !earlier.is_empty() {
                let other = self.dice.pick(&earlier);
                self.add_branch(node, other);
            }
        }
    }

    fn ground_groups(&mut self) {
        for group in 0..self.groups {
            let members: Vec<usize> = (1..=self.nodes).filter(|node| self.group_of[*node] == group).collect();
            let left_out = self.dice.one_in(if self.temper == Temper::Loose { 2 } else { 12 });
            if !members.is_empty() && !left_out {
                let node = self.dice.pick(&members);
                self.add_branch(node, 0);
            }
        }
    }

    fn add_extra_branches(&mut self) {
        for _ in 0..self.dice.below(self.nodes + 2) {
            let from = self.node();
            let group = self.group_of[from];
            let others: Vec<usize> =
                (0..=self.nodes).filter(|n| *n != from && (*n == 0 || self.group_of[*n] == group)).collect();
            let to = self.dice.pick(&others);
            self.add_branch(from, to);
        }
    }

    /// R, L, C or a switch between two nodes, either way round.
    fn add_branch(&mut self, one: usize, other: usize) {
        let (one, other) = (one as Whole, other as Whole);
        let (from, to) = if self.dice.one_in(2) { (one, other) } else { (other, one) };
        let switches = if self.temper == Temper::Loose { 3 } else { 9 };
        let kinds = match self.temper {
            Temper::Stiff => [Kind::Resistor; 3],
            _ => [Kind::Resistor, Kind::Inductor, Kind::Capacitor],
        };
        let is_switch = self.dice.one_in(switches);
        let switch = self.dice.pick(&[Kind::Switch, Kind::Switch, Kind::TimedSwitch]);
        let kind = if is_switch { switch } else { self.dice.pick(&kinds) };
        let mut fields = vec![from, to, self.element_value(kind, one == 0 || other == 0)];
        if is_switch {
            fields.extend(self.switch_times());
        }
        let made = Row { kind, fields };
        // Rounded away conductances are left to the damaged texts; here a resistor takes the place.
        let fits = made.conductance(self.study.step_length).is_some_and(|g| limits::CONDUCTANCE.contains(&g));
        let resistor = row(Kind::Resistor, &[from, to, 1_000_000]);
        self.study.rows.push(if fits { made } else { resistor });
    }

    /// A value of the kind with a conductance somewhere in the temper's window.
    fn element_value(&mut self, kind: Kind, to_ground: bool) -> Whole {
        let (low, high) = match self.temper {
            Temper::Stiff if to_ground => (1, 6),
            Temper::Stiff => (100_000_000, 1_000_000_000),
            Temper::Calm | Temper::Loose => (10_000, 100_000_000),
            Temper::Wild => (1, 1_000_000_000),
            Temper::Heavy => (300_000_000, 1_000_000_000),
        };
        let step_length = self.study.step_length;
        if self.dice.one_in(10) && self.temper != Temper::Stiff {
            return exact::half_conductance_value(self.dice, kind, step_length);
        }
        let conductance = Whole::from(self.dice.spread(low, high));
        match kind {
            Kind::Inductor => (500_000_000 * step_length / conductance).clamp(1, 1_000_000_000_000),
            Kind::Capacitor => (conductance * step_length / 2_000_000).clamp(1, 1_000_000_000),
            _ => 1_000_000_000_000 / conductance,
        }
    }

    fn switch_times(&mut self) -> [Whole; 2] {
        let steps = self.study.steps as i64;
        let close = if self.dice.one_in(2) { 1 } else { self.dice.between(1, steps + 1) };
        let open = match self.dice.below(3) {
            0 => self.dice.between(close + 1, close + steps),
            1 => close + 1,
            _ => 1_000_001,
        };
        [close.into(), open.into()]
    }

    fn add_lines(&mut self) {
        if self.nodes < 2 {
            return;
        }
        for _ in 0..self.dice.below(self.groups + 2) {
            let from = self.node();
            let others: Vec<usize> = (1..=self.nodes).filter(|node| *node != from).collect();
            let to = self.dice.pick(&others);
            if let Some(travel) = self.travel_time() {
                let impedance = self.element_value(Kind::Line, self.temper == Temper::Stiff);
                self.add_line(&[from as Whole, to as Whole, impedance, travel]);
            }
        }
    }

    fn add_line(&mut self, fields: &[Whole; 4]) {
        self.free_slots -= Travel::of(fields[3], self.study.step_length).slots();
        self.study.rows.push(row(Kind::Line, fields));
    }

    /// Some whole steps and a rest, as far as slots are left; none where not even one step has any.
    fn travel_time(&mut self) -> Option<Whole> {
        let step_length = self.study.step_length;
        let widest = (self.free_slots / 2).min(limits::TRAVEL.end() / step_length);
        let steps = match self.dice.below(10) {
            0 => self.dice.between(1, 2048),
            1 | 2 => self.dice.between(1, 20),
            3 | 4 => 1,
            _ => self.dice.between(1, 4),
        };
        let whole = Whole::from(steps).min(widest) * step_length;
        let travel = whole + rest_of_a_step(self.dice, step_length);
        let fits =
            Travel::of(travel, step_length).slots() <= self.free_slots && limits::TRAVEL.contains(&travel);
        (widest > 0).then_some(if fits { travel } else { whole })
    }

    fn add_sources(&mut self) {
        for node in 1..=self.nodes.min(limits::MOST_SOURCES / 2) {
            let wanted = node == 1 || self.dice.one_in(4);
            if wanted && self.temper != Temper::Stiff {
                let peak = self.voltage_peak();
                let kind = if self.dice.one_in(3) { Kind::CosineSource } else { Kind::VoltageSource };
                self.add_source(kind, node, peak);
            }
        }
        let injections =
            if self.temper == Temper::Stiff { 1 + self.dice.below(4) } else { self.dice.below(3) };
        for _ in 0..injections {
            let node = self.node();
            let peak = self.injection_peak();
            self.add_source(Kind::CurrentSource, node, peak);
        }
    }

    fn voltage_peak(&mut self) -> i64 {
        let size = match self.temper {
            Temper::Heavy => self.dice.spread(10_000_000, 20_000_000),
            _ => self.dice.spread(1, 20_000_000),
        };
        self.dice.pick(&[0, size, size, size, -size, -size])
    }

    fn injection_peak(&mut self) -> i64 {
        let size = match self.temper {
            Temper::Wild => self.dice.spread(1, 2_000_000_000_000_000),
            Temper::Stiff => self.dice.spread(1_000_000, 30_000_000),
            _ => self.dice.spread(1, 10_000_000_000),
        };
        self.dice.pick(&[size, -size])
    }

    fn add_source(&mut self, kind: Kind, node: usize, peak: i64) {
        let start = if self.dice.one_in(2) { 1 } else { self.dice.between(1, self.study.steps as i64 + 1) };
        let last = if kind == Kind::CosineSource { self.frequency() } else { self.rise() };
        self.study.rows.push(row(kind, &[node as Whole, peak.into(), start.into(), last.into()]));
    }

    fn rise(&mut self) -> i64 {
        match self.dice.below(5) {
            0 => self.dice.between(1, 8),
            1 => self.dice.between(1, 1000),
            _ => 0,
        }
    }

    /// Mostly one that gets around in a few steps, as far as their length allows; else one of those in use, or any.
    fn frequency(&mut self) -> i64 {
        let (steps, anything) = (self.dice.between(2, 48), self.dice.spread(1, 100_000));
        let around = (1_000_000_000_000 / self.study.step_length as i64 / steps).clamp(1, 100_000);
        self.dice.pick(&[around, around, around, 50_000, 60_000, 16_667, 62_500, anything])
    }

    fn row_count(&self, sources: bool) -> usize {
        self.study.rows.iter().filter(|row| row.kind.is_source() == sources).count()
    }

    /// 64 branches, 16 sources and, where two nodes and a long enough travel allow it, all 4,096 slots.
    fn fill_the_table(&mut self) {
        let step_length = self.study.step_length;
        if self.nodes > 1 && step_length > 1 && self.free_slots > 4 && self.dice.one_in(2) {
            // A step and a bit has three slots, so that an odd number of them is left more often.
            self.add_line(&[2, 1, 1_000_000, 2 * step_length - 1]);
        }
        let travel = travel_with_slots(self.free_slots, step_length);
        if self.nodes > 1 && limits::TRAVEL.contains(&travel) && self.row_count(false) < limits::MOST_BRANCHES
        {
            self.add_line(&[1, 2, 1_000_000, travel]);
        }
        while self.row_count(false) < limits::MOST_BRANCHES {
            let (node, other) = (self.node(), self.node());
            self.add_branch(node, if node == other { 0 } else { other });
        }
        while self.row_count(true) < limits::MOST_SOURCES {
            let (node, peak) = (self.node(), self.injection_peak());
            self.add_source(Kind::CurrentSource, node, peak);
        }
    }

    fn shuffle_rows(&mut self) {
        while self.row_count(false) > limits::MOST_BRANCHES {
            let place = self.study.rows.iter().position(|row| !row.kind.is_source());
            self.study.rows.remove(place.expect("there are too many branches"));
        }
        self.dice.shuffle(&mut self.study.rows);
    }
}
