//! Studies in which something comes exactly to its end, one past it, or exactly to a half.

use super::dice::Dice;
use super::studies::HIGHEST_LIMIT;
use crate::limits::{self, Whole};
use crate::network::{Kind, Row, Study};

pub fn row(kind: Kind, fields: &[Whole]) -> Row {
    Row { kind, fields: fields.to_vec() }
}

pub fn exact_study(dice: &mut Dice) -> Study {
    let mut study = Study { step_length: 1000, steps: 8, limit: HIGHEST_LIMIT, rows: Vec::new() };
    let sign = dice.pick(&[1, -1]);
    match dice.below(12) {
        0 => voltage_at_its_end(dice, sign, &mut study),
        1 => branch_history_at_its_end(dice, sign, &mut study),
        2 => line_value_at_its_end(dice, sign, &mut study),
        3 | 4 => half_voltages(dice, sign, &mut study),
        5 | 6 => refusals_at_one_step(dice, sign, &mut study),
        7 | 8 => cosine_at_its_quarters(dice, sign, &mut study),
        _ => half_voltages_in_a_mesh(dice, sign, &mut study),
    }
    study
}

/// g·20,000,000 injected into g nS proposes the highest voltage; 3 nS allow a third past it.
fn voltage_at_its_end(dice: &mut Dice, sign: Whole, study: &mut Study) {
    let conductance = dice.pick(&[1, 2, 3, 4, 1_000, 100_000_000]);
    let past = Whole::from(dice.between(-1, 1));
    let size = (conductance * limits::HIGHEST_VOLTAGE + past).min(limits::HIGHEST_INJECTION);
    study.rows.push(row(Kind::Resistor, &[1, 0, 1_000_000_000_000 / conductance]));
    study.rows.push(row(Kind::CurrentSource, &[1, sign * size, 1, 0]));
}

/// The history of an L grows by 2·g·u a step: with 200·n nH (2.5·10^9 / n nS) it is 10^17 after n steps.
fn branch_history_at_its_end(dice: &mut Dice, sign: Whole, study: &mut Study) {
    let steps = dice.pick(&[4, 5, 8]);
    let short = dice.pick(&[0, 0, 1]);
    study.rows.push(row(Kind::Inductor, &[1, 0, 200 * steps]));
    study.rows.push(row(Kind::VoltageSource, &[1, sign * (limits::HIGHEST_VOLTAGE - short), 1, 0]));
    study.steps = steps + Whole::from(dice.between(0, 1));
}

/// Between opposite fixed voltages each value a line sends is larger than the one a travel time before. With
/// 2.5·10^8 nS the growth is 10^16 a travel time, so the tenth is 10^17. Either end may come first.
fn line_value_at_its_end(dice: &mut Dice, sign: Whole, study: &mut Study) {
    let delay = dice.pick(&[1, 1, 2]);
    let (from, to) = dice.pick(&[(1, 2), (2, 1)]);
    let short = dice.pick(&[0, 0, 1]);
    study.rows.push(row(Kind::Line, &[from, to, 4_000, 1000 * delay]));
    study.rows.push(row(Kind::VoltageSource, &[1, sign * (limits::HIGHEST_VOLTAGE - short), 1, 0]));
    study.rows.push(row(Kind::VoltageSource, &[2, -sign * limits::HIGHEST_VOLTAGE, 1, 0]));
    study.steps = delay * 10 + Whole::from(dice.between(0, 2));
}

/// A ladder of equal resistors: voltages fall on halves, quarters and thirds.
fn half_voltages(dice: &mut Dice, sign: Whole, study: &mut Study) {
    let last = Whole::from(dice.between(2, 5));
    let milliohm = dice.pick(&[1_000, 1_000_000, 500_000_000]);
    let peak = sign * Whole::from(dice.between(1, 999));
    study.rows.push(row(Kind::VoltageSource, &[1, peak, 1, dice.between(0, 9).into()]));
    for node in 2..=last {
        study.rows.push(row(Kind::Resistor, &[node - 1, node, milliohm]));
    }
    study.rows.push(row(Kind::Resistor, &[last, 0, milliohm]));
    if dice.one_in(2) {
        study.rows.push(row(Kind::Resistor, &[0, last, milliohm / dice.pick(&[1, 2])]));
    }
    study.rows.retain(|row| row.fields[2] >= 1_000 || row.kind == Kind::VoltageSource);
}

/// Some of 14 to 17 come at the same step of the same area, each at a place of its own: a switch opens and
/// leaves a node floating (14), an injection starts that no voltage carries (15), a switch closes and a third
/// of the voltage has to be rounded at limit 0 (16), a history passes its end (17).
fn refusals_at_one_step(dice: &mut Dice, sign: Whole, study: &mut Study) {
    let before = dice.pick(&[4, 5, 8]);
    let step = before + 1;
    let mut nodes =
        dice.pick(&[[2, 3, 4], [2, 4, 3], [3, 2, 4], [3, 4, 2], [4, 2, 3], [4, 3, 2]]).into_iter();
    let mut next_node = || nodes.next().expect("three nodes for three places");
    study.steps = step + 1;
    study.rows.push(row(Kind::VoltageSource, &[1, sign * limits::HIGHEST_VOLTAGE, 1, 0]));
    if dice.one_in(2) {
        // Nothing flows through it, so that either kind opens then.
        let kind = dice.pick(&[Kind::Switch, Kind::TimedSwitch]);
        study.rows.push(row(kind, &[1, next_node(), 1_000, 1, step]));
    }
    if dice.one_in(2) {
        let node = next_node();
        study.rows.push(row(Kind::Resistor, &[1, node, 1_000_000_000_000]));
        study.rows.push(row(Kind::CurrentSource, &[node, sign * 1_000_000, step, 0]));
    }
    if dice.one_in(2) {
        let node = next_node();
        study.limit = 0;
        study.rows.push(row(Kind::Resistor, &[1, node, 1_000]));
        study.rows.push(row(Kind::Resistor, &[node, 0, 1_000]));
        study.rows.push(row(Kind::Switch, &[0, node, 1_000, step, 1_000_001]));
    }
    if !dice.one_in(4) {
        study.rows.push(row(Kind::Inductor, &[1, 0, 200 * before]));
    }
    // A node that was left out would float from the first step on.
    let highest = study.rows.iter().flat_map(|row| row.nodes()).max().copied().unwrap_or(0);
    for node in 2..highest {
        if !study.rows.iter().any(|row| row.nodes().contains(&node)) {
            study.rows.push(row(Kind::Resistor, &[node, 0, 1_000]));
        }
    }
}

/// Every free node has the same resistor to a source of odd peak as to ground, so that all of them lie at
/// half the peak however they are joined. In doubles they lie a hair to either side of the half, by the
/// order of operations alone, and the whole voltages show which.
fn half_voltages_in_a_mesh(dice: &mut Dice, sign: Whole, study: &mut Study) {
    let last = Whole::from(dice.between(4, 9));
    let peak = sign * Whole::from(2 * dice.between(1_000_000, 9_999_999) + 1);
    study.steps = Whole::from(dice.between(1, 4));
    study.rows.push(row(Kind::VoltageSource, &[1, peak, 1, 0]));
    for node in 2..=last {
        let milliohm = Whole::from(dice.spread(1_000, 1_000_000));
        study.rows.push(row(Kind::Resistor, &[1, node, milliohm]));
        study.rows.push(row(Kind::Resistor, &[node, 0, milliohm]));
        for other in 2..node {
            if !dice.one_in(3) {
                let milliohm = Whole::from(dice.spread(1_000, 1_000_000));
                study.rows.push(row(Kind::Resistor, &[other, node, milliohm]));
            }
        }
    }
}

/// With 1 ms at 62.5 Hz sixteen steps are a turn, so that steps fall on the ends of its quarters; with a bit less or
/// more they come just before or just behind. A small peak is rounded to few values, all of them toward zero.
fn cosine_at_its_quarters(dice: &mut Dice, sign: Whole, study: &mut Study) {
    let (step_length, frequency) = dice.pick(&[
        (1_000_000, 62_500),
        (500_000, 62_500),
        (1_000_000, 31_250),
        (999_999, 62_500),
        (1_000_000, 62_499),
        (1_000_000, 62_501),
        (1_000_000, 50_000),
        (1_000_000, 100_000),
    ]);
    let (small, any) = (dice.between(1, 99), dice.spread(1, 20_000_000));
    let peak = sign * Whole::from(dice.pick(&[small, any, 20_000_000, 19_999_999]));
    let start = Whole::from(dice.between(1, 4));
    study.step_length = step_length;
    study.steps = Whole::from(dice.between(10, 40));
    study.rows.push(row(Kind::Resistor, &[1, 2, 1_000_000]));
    study.rows.push(row(Kind::CosineSource, &[1, peak, start, frequency]));
    study.rows.push(row(Kind::Resistor, &[2, 0, 1_000_000]));
}

/// A value whose unrounded conductance ends in a half (for a C only at some step lengths).
pub fn half_conductance_value(dice: &mut Dice, kind: Kind, step_length: Whole) -> Whole {
    let odd = Whole::pow(5, dice.between(3, 8) as u32);
    match kind {
        // 10^9·step / (2·nH) = odd / 2
        Kind::Inductor => (1_000_000_000 * step_length / odd).clamp(1, 1_000_000_000_000),
        // 2·10^6 / 256 = 7812.5
        Kind::Capacitor => Whole::from(2 * dice.between(0, 20) + 1),
        // 10^12 / mΩ = odd / 2
        _ => 2_000_000_000_000 / odd,
    }
}
