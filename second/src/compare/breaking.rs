//! Studies whose switches carry currents made to measure: currents that touch zero and go on, turn about, stay as they
//! are or never come to zero, beside switches told to open at every step, the one after closing and the last among them.

use super::dice::Dice;
use super::exact::row;
use super::studies::HIGHEST_LIMIT;
use crate::latch::Breaker;
use crate::limits::{self, Whole};
use crate::network::{Kind, Study};

const NEVER_OPEN: Whole = 1_000_001;
/// Of the switch and of the resistor beside it: both take the same current.
const MILLIOHM: Whole = 1_000;
const CONDUCTANCE: Whole = 1_000_000_000;

/// Node 1 has current sources, a resistor to ground and a switch to ground; with both closed its voltage is the one
/// wanted, with the switch open twice as much. Every change of the voltage is a source of its own.
pub fn breaking_study(dice: &mut Dice) -> Study {
    let steps = Whole::from(dice.between(3, 20));
    let scale = dice.pick(&[1, 1, 1, 250_000]);
    let voltages = course(dice, steps);
    let (close, open) = times(dice, steps);
    let mut study = Study { step_length: 1_000, steps, limit: HIGHEST_LIMIT, rows: Vec::new() };
    let ends = dice.pick(&[[1, 0], [0, 1]]);
    let kind = if dice.one_in(4) { Kind::TimedSwitch } else { Kind::Switch };
    study.rows.push(row(kind, &[ends[0], ends[1], MILLIOHM, close, open]));
    study.rows.push(row(Kind::Resistor, &[1, 0, MILLIOHM]));
    let mut before = 0;
    for (voltage, step) in voltages.iter().zip(1..) {
        if *voltage != before {
            let change = 2 * CONDUCTANCE * scale * (voltage - before);
            study.rows.push(row(Kind::CurrentSource, &[1, change, step, 0]));
        }
        before = *voltage;
    }
    let currents = closed_currents(&voltages, close);
    let latch = Breaker { close, open }.latch_of_all(&currents);
    if latch > 0 && dice.one_in(4) {
        study.steps = latch;
    }
    if dice.one_in(6) {
        unbalance(dice, &mut study, latch);
    }
    add_beside(dice, &mut study, close, open);
    dice.shuffle(&mut study.rows);
    study
}

/// Small whole numbers, many of them 0 or as before, with as many changes as there are sources at most.
fn course(dice: &mut Dice, steps: Whole) -> Vec<Whole> {
    let mut voltage = dice.pick(&[0, 1, -1, 2]);
    let mut changes = 1;
    let mut voltages = Vec::new();
    for _ in 0..steps {
        voltages.push(voltage);
        let next = dice.pick(&[voltage, voltage, 0, -voltage, 1, -1, 2]);
        if next != voltage && changes < limits::MOST_SOURCES - 2 {
            voltage = next;
            changes += 1;
        }
    }
    voltages
}

/// Closed early; told to open a step later, at any step or never.
fn times(dice: &mut Dice, steps: Whole) -> (Whole, Whole) {
    let anywhere = Whole::from(dice.between(1, steps as i64));
    let close = dice.pick(&[1, 1, 2, 3, anywhere]);
    let later = close + Whole::from(dice.between(1, steps as i64));
    (close, dice.pick(&[close + 1, close + 1, later, later, later, NEVER_OPEN]))
}

/// The currents of a switch that stays closed, in its direction and in units of its conductance.
fn closed_currents(voltages: &[Whole], close: Whole) -> Vec<Whole> {
    (1..).zip(voltages).map(|(step, voltage)| if step < close { 0 } else { *voltage }).collect()
}

/// A current too small for any voltage starts, at limit 0: the step where the switch would part, or any, is refused.
fn unbalance(dice: &mut Dice, study: &mut Study, latch: Whole) {
    let anywhere = Whole::from(dice.between(1, study.steps as i64));
    let step = if latch > 0 { dice.pick(&[latch, latch, anywhere]) } else { anywhere };
    study.limit = 0;
    study.rows.push(row(Kind::CurrentSource, &[1, 1, step, 0]));
}

/// Some further switch with the same steps: one that nothing flows through, in the same area or in one of its own; or
/// one under a power-frequency source.
fn add_beside(dice: &mut Dice, study: &mut Study, close: Whole, open: Whole) {
    let kind = if dice.one_in(2) { Kind::TimedSwitch } else { Kind::Switch };
    match dice.below(6) {
        0 if close == 1 => study.rows.push(row(kind, &[1, 2, MILLIOHM, close, open])),
        1 => {
            study.rows.push(row(kind, &[2, 0, MILLIOHM, close, open]));
            study.rows.push(row(Kind::Capacitor, &[2, 0, 1_000]));
        }
        2 => {
            study.step_length = 1_000_000;
            study
                .rows
                .push(row(Kind::CosineSource, &[2, 1_000, close, dice.pick(&[62_500, 50_000, 100_000])]));
            study.rows.push(row(kind, &[2, 0, MILLIOHM, close, open]));
        }
        _ => {}
    }
}
