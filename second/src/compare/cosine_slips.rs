//! Planted slips about power-frequency sources, to see that the comparison finds them.

use super::foreign::Calls;
use super::slips::own_calls;
use super::travel_slips::{read_refusing, read_taking};
use super::write_slips::write_as;
use crate::calls;
use crate::cosine::{cosine, quarter_table, ONE, TURN};
use crate::limits::{self, Whole};
use crate::network::{cosine_index, Kind, Row, Study};
use crate::record::{self, NETWORK_WORDS};
use crate::refusal::Refusal;

/// Name, calls, and whether the slip is in the reader.
pub fn planted() -> Vec<(&'static str, Calls, bool)> {
    let read = |read| Calls { read, ..own_calls() };
    let advance = |advance| Calls { advance: Some(advance), ..own_calls() };
    let write = |write| Calls { write: Some(write), ..own_calls() };
    vec![
        ("reader takes a VC beside a VS on one node", read(read_apart), true),
        ("reader takes any VC on a node that is fixed", read(read_unheeded), true),
        ("reader counts no VC as a source", read(read_uncounted), true),
        ("reader takes a frequency of 100,001 mHz", read(read_high_frequency), true),
        ("reader takes a frequency of 0", read(read_no_frequency), true),
        ("reader holds a frequency to the range of a rise", read(read_as_rise), true),
        ("entry 100 of the cosine table 40 too high", advance(advance_high_entry), false),
        ("entry 200 of the cosine table 1 too low", advance(advance_low_entry), false),
        ("place in the turn rounded to the nearest", advance(advance_nearest), false),
        ("phase without its whole turns left out", advance(advance_without_modulo), false),
        ("second quarter with the sign of the first", advance(advance_second_sign), false),
        ("third quarter with the sign of the fourth", advance(advance_third_sign), false),
        ("third quarter in the order of the second", advance(advance_third_order), false),
        ("fourth quarter in the order of the third", advance(advance_fourth_order), false),
        ("cosine rounded down", advance(advance_rounded_down), false),
        ("cosine rounded to the nearest", advance(advance_rounded_nearest), false),
        ("cosine a step late", advance(advance_late), false),
        ("cosine by the steps since step 1", advance(advance_from_step_1), false),
        ("cosine on before its start", advance(advance_before), false),
        ("sine in place of the cosine", advance(advance_sine), false),
        ("node of a VC free before its start", advance(advance_free), false),
        ("VC taken beside a VS in a lent network", advance(advance_doubled), false),
        ("network with a VC refused", advance(advance_refusing), false),
        ("writer puts a VS for a VC", write(write_as_ramp), false),
    ]
}

type Words<'a> = &'a mut [i64];

/// A VC turned into a source that fixes nothing.
fn unfixed(row: &mut Row) {
    if row.kind == Kind::CosineSource {
        *row = Row { kind: Kind::CurrentSource, fields: vec![row.fields[0], 0, row.fields[2], 0] };
    }
}

fn read_unheeded(text: &[u8], network: &mut [i64]) -> (u64, u64) {
    let without = |study: &mut Study| study.rows.iter_mut().for_each(unfixed);
    read_taking(text, network, Refusal::Double, &[&without])
}

/// Two VS on a node are refused, and two VC are, each looked at without the others.
fn read_apart(text: &[u8], network: &mut [i64]) -> (u64, u64) {
    let without = |study: &mut Study| study.rows.iter_mut().for_each(unfixed);
    let alone = |study: &mut Study| {
        for row in study.rows.iter_mut().filter(|row| row.kind == Kind::VoltageSource) {
            row.kind = Kind::CurrentSource;
        }
    };
    read_taking(text, network, Refusal::Double, &[&without, &alone])
}

fn read_uncounted(text: &[u8], network: &mut [i64]) -> (u64, u64) {
    let without = |study: &mut Study| study.rows.retain(|row| row.kind != Kind::CosineSource);
    read_taking(text, network, Refusal::Full, &[&without])
}

/// Reads a text that is refused by 3 with another frequency in its VC lines, and puts the one of the text back.
fn read_with_frequency(text: &[u8], network: &mut [i64], other: i64, taken: i64) -> (u64, u64) {
    let answer = calls::read(text, network);
    let Ok(lines) = std::str::from_utf8(text) else { return answer };
    if answer.0 != Refusal::Value.number() {
        return answer;
    }
    let with_other = |line: &str| match line.strip_suffix(&format!("\t{other}\n")) {
        Some(fields) if fields.starts_with("VC\t") => format!("{fields}\t{taken}\n"),
        _ => line.to_string(),
    };
    let changed: Vec<String> = lines.split_inclusive('\n').map(with_other).collect();
    if calls::read(changed.concat().as_bytes(), network) != (0, 0) {
        return answer;
    }
    for (row, (line, changed)) in lines.split_inclusive('\n').zip(&changed).enumerate().skip(1) {
        if line != changed {
            network[8 * row + 4] = other;
        }
    }
    (0, 0)
}

fn read_high_frequency(text: &[u8], network: &mut [i64]) -> (u64, u64) {
    read_with_frequency(text, network, 100_001, 100_000)
}

fn read_no_frequency(text: &[u8], network: &mut [i64]) -> (u64, u64) {
    read_with_frequency(text, network, 0, 1)
}

fn read_as_rise(text: &[u8], network: &mut [i64]) -> (u64, u64) {
    let beyond = |_: &Study, rows: &[Row]| {
        let last = rows.last().filter(|row| row.kind == Kind::CosineSource);
        last.is_some_and(|row| !limits::SOURCE_RISE.contains(&row.fields[3]))
    };
    read_refusing(text, network, Refusal::Value, beyond)
}

/// A power-frequency source at a step.
struct Wave {
    peak: Whole,
    since_start: Whole,
    start: Whole,
    /// Places of the turn are 10^12 / 1,024 apart.
    step_length: Whole,
    frequency: Whole,
}

impl Wave {
    fn index(&self) -> Whole {
        cosine_index(self.since_start, self.step_length, self.frequency)
    }

    /// The value by this cosine, from the start on.
    fn by(&self, cosine: Whole) -> Whole {
        if self.since_start < 0 {
            0
        } else {
            self.peak * cosine / ONE
        }
    }
}

/// Right but for the values of power-frequency sources: each VC is lent on as a VS that has the rule's value at the
/// step that the area is to take.
fn advance_by(
    rule: fn(&Wave) -> Whole,
    words: &[i64],
    records: Words,
    froms: Words,
    tos: Words,
    area: u64,
) -> (u64, u64) {
    let changed = changed_network(words, records, area, |study, step, row| {
        let wave = Wave {
            peak: row.fields[1],
            since_start: step - row.fields[2],
            start: row.fields[2],
            step_length: study.step_length,
            frequency: row.fields[3],
        };
        *row = Row { kind: Kind::VoltageSource, fields: vec![row.fields[0], rule(&wave), 1, 0] };
    });
    calls::advance(&changed.unwrap_or(words.to_vec()), records, froms, tos, area)
}

/// A good network with its VC rows changed; it goes by the step that the area is to take.
fn changed_network(
    words: &[i64],
    records: &[i64],
    area: u64,
    change: impl Fn(&Study, Whole, &mut Row),
) -> Option<Vec<i64>> {
    let count = records.get(usize::try_from(area.checked_sub(1)?).ok()?).filter(|_| area <= 32)?;
    let study = (words.len() == NETWORK_WORDS).then(|| record::study_of_record(words))??;
    let mut changed = study.clone();
    for row in changed.rows.iter_mut().filter(|row| row.kind == Kind::CosineSource) {
        change(&study, Whole::from(*count) + 1, row);
    }
    Some(record::record_of(&changed))
}

/// With one entry of the quarter table off by so much, wherever the turn comes by it.
fn with_entry_off(index: Whole, entry: Whole, off: Whole) -> Whole {
    let right = cosine(index);
    let from_none = index.min(TURN - index);
    if from_none == entry {
        right + off
    } else if 512 - from_none == entry {
        right - off
    } else {
        right
    }
}

fn advance_high_entry(words: &[i64], records: Words, froms: Words, tos: Words, area: u64) -> (u64, u64) {
    advance_by(|wave| wave.by(with_entry_off(wave.index(), 100, 40)), words, records, froms, tos, area)
}

fn advance_low_entry(words: &[i64], records: Words, froms: Words, tos: Words, area: u64) -> (u64, u64) {
    advance_by(|wave| wave.by(with_entry_off(wave.index(), 200, -1)), words, records, froms, tos, area)
}

fn advance_nearest(words: &[i64], records: Words, froms: Words, tos: Words, area: u64) -> (u64, u64) {
    let rule = |wave: &Wave| {
        let turns = wave.since_start * wave.step_length * wave.frequency * TURN;
        wave.by(cosine((turns + 500_000_000_000).div_euclid(1_000_000_000_000).rem_euclid(TURN)))
    };
    advance_by(rule, words, records, froms, tos, area)
}

/// Past the first turn the place is held at the last of the table.
fn advance_without_modulo(words: &[i64], records: Words, froms: Words, tos: Words, area: u64) -> (u64, u64) {
    let rule = |wave: &Wave| {
        let index = wave.since_start * wave.step_length * wave.frequency * TURN / 1_000_000_000_000;
        wave.by(cosine(index.clamp(0, TURN - 1)))
    };
    advance_by(rule, words, records, froms, tos, area)
}

fn advance_second_sign(words: &[i64], records: Words, froms: Words, tos: Words, area: u64) -> (u64, u64) {
    let rule = |wave: &Wave| {
        let sign = if (257..=512).contains(&wave.index()) { -1 } else { 1 };
        wave.by(sign * cosine(wave.index()))
    };
    advance_by(rule, words, records, froms, tos, area)
}

fn advance_third_sign(words: &[i64], records: Words, froms: Words, tos: Words, area: u64) -> (u64, u64) {
    let rule = |wave: &Wave| {
        let sign = if (513..=768).contains(&wave.index()) { -1 } else { 1 };
        wave.by(sign * cosine(wave.index()))
    };
    advance_by(rule, words, records, froms, tos, area)
}

fn advance_third_order(words: &[i64], records: Words, froms: Words, tos: Words, area: u64) -> (u64, u64) {
    let rule = |wave: &Wave| match wave.index() {
        index @ 513..=768 => wave.by(-quarter_table()[(768 - index) as usize]),
        index => wave.by(cosine(index)),
    };
    advance_by(rule, words, records, froms, tos, area)
}

fn advance_fourth_order(words: &[i64], records: Words, froms: Words, tos: Words, area: u64) -> (u64, u64) {
    let rule = |wave: &Wave| match wave.index() {
        index @ 769..=1023 => wave.by(quarter_table()[(index - 768) as usize]),
        index => wave.by(cosine(index)),
    };
    advance_by(rule, words, records, froms, tos, area)
}

fn advance_rounded_down(words: &[i64], records: Words, froms: Words, tos: Words, area: u64) -> (u64, u64) {
    let rule = |wave: &Wave| match wave.since_start {
        ..0 => 0,
        _ => (wave.peak * cosine(wave.index())).div_euclid(ONE),
    };
    advance_by(rule, words, records, froms, tos, area)
}

fn advance_rounded_nearest(words: &[i64], records: Words, froms: Words, tos: Words, area: u64) -> (u64, u64) {
    let rule = |wave: &Wave| match wave.since_start {
        ..0 => 0,
        _ => (wave.peak * cosine(wave.index()) + ONE / 2).div_euclid(ONE),
    };
    advance_by(rule, words, records, froms, tos, area)
}

fn advance_late(words: &[i64], records: Words, froms: Words, tos: Words, area: u64) -> (u64, u64) {
    let rule = |wave: &Wave| {
        let earlier = Wave { since_start: (wave.since_start - 1).max(0), ..*wave };
        wave.by(cosine(earlier.index()))
    };
    advance_by(rule, words, records, froms, tos, area)
}

fn advance_from_step_1(words: &[i64], records: Words, froms: Words, tos: Words, area: u64) -> (u64, u64) {
    let rule = |wave: &Wave| {
        let earlier = Wave { since_start: wave.since_start + wave.start - 1, ..*wave };
        wave.by(cosine(earlier.index()))
    };
    advance_by(rule, words, records, froms, tos, area)
}

fn advance_before(words: &[i64], records: Words, froms: Words, tos: Words, area: u64) -> (u64, u64) {
    advance_by(|wave| wave.peak * cosine(wave.index()) / ONE, words, records, froms, tos, area)
}

fn advance_sine(words: &[i64], records: Words, froms: Words, tos: Words, area: u64) -> (u64, u64) {
    let rule = |wave: &Wave| wave.by(cosine((wave.index() + 768) % TURN));
    advance_by(rule, words, records, froms, tos, area)
}

fn advance_free(words: &[i64], records: Words, froms: Words, tos: Words, area: u64) -> (u64, u64) {
    let changed = changed_network(words, records, area, |_, step, row| {
        if step < row.fields[2] {
            unfixed(row);
        }
    });
    calls::advance(&changed.unwrap_or(words.to_vec()), records, froms, tos, area)
}

/// A network that is refused by 8 goes on with its VC rows as current sources, where it passes so.
fn advance_doubled(words: &[i64], records: Words, froms: Words, tos: Words, area: u64) -> (u64, u64) {
    let answer = calls::advance(words, records, froms, tos, area);
    if answer.0 != Refusal::Network.number() {
        return answer;
    }
    let mut changed = words.to_vec();
    for row in changed[8..].chunks_exact_mut(8).filter(|row| row[0] == Kind::CosineSource.number()) {
        if limits::FREQUENCY.contains(&row[4].into()) && limits::VOLTAGE.contains(&row[2].into()) {
            row[0] = Kind::CurrentSource.number();
            row[4] = 0;
        }
    }
    calls::advance(&changed, records, froms, tos, area)
}

fn advance_refusing(words: &[i64], records: Words, froms: Words, tos: Words, area: u64) -> (u64, u64) {
    let answer = calls::advance(words, &mut records.to_vec(), &mut froms.to_vec(), &mut tos.to_vec(), area);
    if answer.0 != Refusal::Store.number() && words[8..].chunks_exact(8).any(|row| row[0] == 8) {
        return (Refusal::Network.number(), 0);
    }
    calls::advance(words, records, froms, tos, area)
}

fn write_as_ramp(network: &[i64], out: &mut [u8]) -> (u64, u64) {
    write_as(network, out, |study| record::text_of(&study).replace("VC", "VS"))
}
