//! Studies with areas that stop for good, by each of 14 to 17 and at any step; lines tie some of the others to
//! them, directly or over further areas, and leave some apart.

use super::dice::Dice;
use super::exact::row;
use super::studies::{rest_of_a_step, HIGHEST_LIMIT};
use crate::limits::{self, Whole};
use crate::network::{Kind, Study};

const STEP_LENGTH: Whole = 1_000;
/// Above what the rounding of voltages leaves over at a node of the sound areas, whose conductances sum to
/// less; below what it leaves over at 3·10^9 nS.
const LIMIT: Whole = 20_000_000;
const NEVER_OPEN: Whole = 1_000_001;

pub fn stopping_study(dice: &mut Dice) -> Study {
    let steps = if dice.one_in(6) { dice.between(17, 40) } else { dice.between(2, 16) };
    let limit = if dice.one_in(4) { HIGHEST_LIMIT } else { LIMIT };
    let study = Study { step_length: STEP_LENGTH, steps: steps.into(), limit, rows: Vec::new() };
    let mut maker = Maker { dice, study, nodes: 0 };
    let areas = maker.dice.between(2, 6) as usize;
    let ports: Vec<Whole> = (0..areas).map(|_| maker.add_area()).collect();
    maker.tie(&ports);
    maker.shuffle();
    maker.study
}

struct Maker<'a> {
    dice: &'a mut Dice,
    study: Study,
    nodes: Whole,
}

impl Maker<'_> {
    fn node(&mut self) -> Whole {
        self.nodes += 1;
        self.nodes
    }

    fn add(&mut self, kind: Kind, fields: &[Whole]) {
        self.study.rows.push(row(kind, fields));
    }

    /// 10^5 to 2.5·10^6 nS.
    fn resistance(&mut self) -> Whole {
        self.dice.between(400_000, 10_000_000).into()
    }

    /// A new area; answers the node where its lines end.
    fn add_area(&mut self) -> Whole {
        let port = self.node();
        match self.dice.below(3) {
            0 => self.add_stop(port),
            _ => self.add_sound(port),
        }
        port
    }

    /// Held by a source, loaded, fed, or nothing but its lines: without any it floats.
    fn add_sound(&mut self, port: Whole) {
        let resistance = self.resistance();
        match self.dice.below(7) {
            0 | 1 => self.add_supply(port),
            2 => self.add(Kind::Resistor, &[port, 0, resistance]),
            3 | 4 => {
                let picofarad = self.dice.between(1, 1_000).into();
                self.add(Kind::Resistor, &[0, port, resistance]);
                self.add(Kind::Capacitor, &[port, 0, picofarad]);
            }
            5 => {
                let supply = self.node();
                let nanohenry = self.dice.between(400_000, 10_000_000).into();
                self.add_supply(supply);
                self.add(Kind::Inductor, &[supply, port, nanohenry]);
                self.add(Kind::Resistor, &[port, 0, resistance]);
            }
            _ => {}
        }
    }

    fn add_supply(&mut self, node: Whole) {
        let peak = self.dice.between(-1_000_000, 1_000_000).into();
        let start = self.dice.between(1, 3).into();
        let rise = self.dice.pick(&[0, 0, 1, 7]);
        if self.dice.one_in(4) {
            self.add(Kind::CosineSource, &[node, peak, start, 100_000]);
        } else {
            self.add(Kind::VoltageSource, &[node, peak, start, rise]);
        }
    }

    /// An area that one of 14 to 17 stops before a step chosen at random; one past the last never comes.
    fn add_stop(&mut self, port: Whole) {
        let step = Whole::from(self.dice.between(1, self.study.steps as i64 + 1));
        match self.dice.below(5) {
            0 | 1 => self.add_floating(port, step),
            2 => self.add_range(port, step),
            3 => self.add_unbalanced(port, step),
            _ => self.add_history(port, step),
        }
    }

    /// A switch opens, or is not closed yet, and nothing else leads to its far node. Nothing flows through it, so that a
    /// breaker opens then too, but not right after it closed.
    fn add_floating(&mut self, port: Whole, step: Whole) {
        let (hanging, resistance) = (self.node(), self.resistance());
        let times = if step == 1 { [2, NEVER_OPEN] } else { [1, step] };
        let kind = self.dice.pick(&[Kind::Switch, Kind::TimedSwitch]);
        self.add(kind, &[port, hanging, resistance, times[0], times[1]]);
        if self.dice.one_in(2) {
            self.add_supply(port);
        } else {
            self.add(Kind::Resistor, &[port, 0, resistance]);
        }
    }

    /// An injection starts into 2 nS that would need 5·10^8 of voltage.
    fn add_range(&mut self, port: Whole, step: Whole) {
        let (node, resistance) = (self.node(), self.resistance());
        self.add(Kind::Resistor, &[port, 0, resistance]);
        self.add(Kind::Resistor, &[port, node, 1_000_000_000_000]);
        self.add(Kind::Resistor, &[node, 0, 1_000_000_000_000]);
        self.add(Kind::CurrentSource, &[node, 1_000_000_000, step, 0]);
    }

    /// Half of the voltage is whole; a switch closes, and a third of it is not.
    fn add_unbalanced(&mut self, port: Whole, step: Whole) {
        let (supply, node, resistance) = (self.node(), self.node(), self.resistance());
        let peak = 2 * (3 * Whole::from(self.dice.between(1, 100_000)) + 1);
        self.add(Kind::VoltageSource, &[supply, peak, 1, 0]);
        self.add(Kind::Resistor, &[supply, node, 1_000]);
        self.add(Kind::Resistor, &[node, 0, 1_000]);
        self.add(Kind::Switch, &[0, node, 1_000, step, NEVER_OPEN]);
        self.add(Kind::Resistor, &[supply, port, resistance]);
    }

    /// With 2.5·10^9 / n nS at the highest voltage the history of an L is 10^17 after n steps.
    fn add_history(&mut self, port: Whole, step: Whole) {
        let (supply, resistance) = (self.node(), self.resistance());
        self.add(Kind::VoltageSource, &[supply, limits::HIGHEST_VOLTAGE, 1, 0]);
        self.add(Kind::Inductor, &[supply, 0, 200 * (step - 1).max(3)]);
        self.add(Kind::Resistor, &[supply, port, 1_000_000_000]);
        self.add(Kind::Resistor, &[port, 0, resistance]);
    }

    /// Each area but the first is tied to an earlier one or left apart; then some lines more, which may close a
    /// ring or lie beside another.
    fn tie(&mut self, ports: &[Whole]) {
        for place in 1..ports.len() {
            if !self.dice.one_in(3) {
                let other = self.dice.below(place);
                self.add_line(ports[place], ports[other]);
            }
        }
        for _ in 0..self.dice.below(3) {
            let (one, other) = (self.dice.pick(ports), self.dice.pick(ports));
            if one != other {
                self.add_line(one, other);
            }
        }
    }

    fn add_line(&mut self, one: Whole, other: Whole) {
        let (from, to) = if self.dice.one_in(2) { (one, other) } else { (other, one) };
        let whole = self.dice.pick(&[1, 1, 1, 2, 3, 7]) * STEP_LENGTH;
        let travel = whole + rest_of_a_step(self.dice, STEP_LENGTH);
        let impedance = self.resistance();
        self.add(Kind::Line, &[from, to, impedance, travel]);
    }

    /// Rows and nodes change places, so that any area may be the first and any line the first of the table.
    fn shuffle(&mut self) {
        self.dice.shuffle(&mut self.study.rows);
        let mut names: Vec<Whole> = (1..=self.nodes).collect();
        self.dice.shuffle(&mut names);
        names.insert(0, 0);
        for row in &mut self.study.rows {
            let nodes = row.nodes().len();
            for node in &mut row.fields[..nodes] {
                *node = names[*node as usize];
            }
        }
    }
}
