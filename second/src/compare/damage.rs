//! Damage to good texts: bytes, fields, lines, and tables filled past their ends.

use super::dice::Dice;
use super::edges;
use super::studies;
use crate::limits::{self, Whole};
use crate::reader;

/// Bytes that a reader may mistake for something else.
pub const TELLING_BYTES: [u8; 24] = [
    b'0', b'1', b'2', b'5', b'9', b'-', b'+', b'.', b' ', b'\t', b'\n', b'\r', 0, 0x0b, 0x7f, 0x80, 0xff,
    b'R', b'L', b'S', b'V', b's', b'/', b':',
];

pub fn damaged(dice: &mut Dice, text: &[u8]) -> Vec<u8> {
    let mut damaged = text.to_vec();
    for _ in 0..dice.pick(&[1, 1, 1, 2, 3]) {
        damaged = match dice.below(20) {
            0 | 1 => with_byte_damage(dice, &damaged),
            2..=9 => with_field_damage(dice, &damaged),
            10 => with_line_damage(dice, &damaged),
            11..=13 => with_second_fixing_source(dice, &damaged),
            14..=16 => overfilled(dice, &damaged),
            17 | 18 => with_some_travel(dice, &damaged),
            _ => with_end_damage(dice, &damaged),
        };
    }
    damaged
}

fn with_byte_damage(dice: &mut Dice, text: &[u8]) -> Vec<u8> {
    let mut bytes = text.to_vec();
    let random = dice.roll() as u8;
    let telling = dice.pick(&TELLING_BYTES);
    let byte = dice.pick(&[telling, telling, random]);
    let place = dice.below(bytes.len() + 1);
    match dice.below(3) {
        0 => bytes.insert(place, byte),
        1 if place < bytes.len() => bytes[place] = byte,
        _ if place < bytes.len() => {
            bytes.remove(place);
        }
        _ => bytes.push(byte),
    }
    bytes
}

fn lines_of(text: &[u8]) -> Vec<Vec<u8>> {
    text.split_inclusive(|byte| *byte == b'\n').map(<[u8]>::to_vec).collect()
}

fn with_field_damage(dice: &mut Dice, text: &[u8]) -> Vec<u8> {
    let mut lines = lines_of(text);
    if lines.is_empty() {
        return text.to_vec();
    }
    let place = dice.below(lines.len());
    let bare = lines[place].strip_suffix(b"\n").unwrap_or(&lines[place]).to_vec();
    let mut fields: Vec<Vec<u8>> = bare.split(|byte| *byte == b'\t').map(<[u8]>::to_vec).collect();
    // The word itself is changed seldom: that only ever gives FORM.
    let last = fields.len() - 1;
    let field = if last == 0 || dice.one_in(10) { 0 } else { 1 + dice.below(last) };
    match dice.below(16) {
        0 => {
            fields.remove(field);
        }
        1 => fields.insert(field, b"1".to_vec()),
        2 => fields.swap(0, field),
        3 => fields[field] = dice.pick(&edges::ill_spelt()).into_bytes(),
        4 => fields[field] = dice.between(0, 40).to_string().into_bytes(),
        5 | 6 => fields[field] = dice.between(0, 2_000).to_string().into_bytes(),
        _ => fields[field] = dice.pick(&edges::well_spelt()).trim_start_matches('-').as_bytes().to_vec(),
    }
    lines[place] = [fields.join(&b'\t'), b"\n".to_vec()].concat();
    lines.concat()
}

fn with_line_damage(dice: &mut Dice, text: &[u8]) -> Vec<u8> {
    let mut lines = lines_of(text);
    if lines.is_empty() {
        return b"\n".to_vec();
    }
    let (one, other) = (dice.below(lines.len()), dice.below(lines.len()));
    match dice.below(4) {
        0 => {
            lines.remove(one);
        }
        1 => lines.swap(one, other),
        2 => lines.insert(one, b"\n".to_vec()),
        _ => lines.insert(one, lines[other].clone()),
    }
    lines.concat()
}

fn with_second_fixing_source(dice: &mut Dice, text: &[u8]) -> Vec<u8> {
    let mut lines = lines_of(text);
    let node = dice.between(1, 3);
    let (word, last) = dice.pick(&[("VS", 0), ("VC", 50_000)]);
    lines.push(format!("{word}\t{node}\t5\t1\t{last}\n").into_bytes());
    lines.concat()
}

/// One kind of row repeated to just below, to or past what a table holds.
fn overfilled(dice: &mut Dice, text: &[u8]) -> Vec<u8> {
    let (line, most) = dice.pick(&[
        ("R\t1\t0\t1000000\n", 64),
        ("C\t1\t0\t1\n", 64),
        ("IS\t1\t1\t1\t0\n", 16),
        ("", 0),
        ("", 0),
    ]);
    if most == 0 {
        return with_line_for_all_slots(dice, text);
    }
    let times = dice.between(most - 8, most + 1).max(1) as usize;
    let last = dice.pick(&["", "VC\t32\t5\t1\t50000\n"]);
    [text.to_vec(), line.repeat(times).into_bytes(), last.as_bytes().to_vec()].concat()
}

/// A further line that takes all slots left, or one more or less.
fn with_line_for_all_slots(dice: &mut Dice, text: &[u8]) -> Vec<u8> {
    let Ok(study) = reader::read_study(text) else { return text.to_vec() };
    let lines = study.rows.iter().filter_map(|row| row.travel(study.step_length));
    let left = limits::MOST_SLOTS - lines.map(|travel| travel.slots()).sum::<Whole>();
    let travel = studies::travel_with_slots(left + dice.pick(&[-1, 0, 0, 1, 1]), study.step_length);
    [text.to_vec(), format!("LINE\t1\t2\t1000000\t{travel}\n").into_bytes()].concat()
}

/// A further line of any travel time, most of them about one step long.
fn with_some_travel(dice: &mut Dice, text: &[u8]) -> Vec<u8> {
    let step_length = reader::read_study(text).map_or(1_000, |study| study.step_length as i64);
    let (anything, shorter) = (dice.spread(1, 1_000_000_000), dice.spread(1, step_length));
    let travel = dice.pick(&[anything, shorter, shorter, step_length - 1, step_length, step_length + 1]);
    [text.to_vec(), format!("LINE\t1\t2\t1000000\t{travel}\n").into_bytes()].concat()
}

fn with_end_damage(dice: &mut Dice, text: &[u8]) -> Vec<u8> {
    let mut bytes = text.to_vec();
    match dice.below(8) {
        0 => bytes.push(b'\n'),
        1 => bytes = lines_of(text).concat().replace_all(b"\n", b"\r\n"),
        2 => bytes.clear(),
        3 | 4 => bytes.extend(vec![b'9'; 65_530]),
        5 => bytes.truncate(dice.below(text.len() + 1)),
        _ => {
            bytes.pop();
        }
    }
    bytes
}

trait ReplaceAll {
    fn replace_all(&self, old: &[u8], new: &[u8]) -> Vec<u8>;
}

impl ReplaceAll for Vec<u8> {
    fn replace_all(&self, old: &[u8], new: &[u8]) -> Vec<u8> {
        self.iter().flat_map(|byte| if old == [*byte] { new.to_vec() } else { vec![*byte] }).collect()
    }
}

/// Every text one byte away: each byte dropped, replaced by, or preceded by each of the given bytes.
pub fn one_byte_edits(text: &[u8], bytes: &[u8]) -> Vec<Vec<u8>> {
    let mut edits = Vec::new();
    for place in 0..=text.len() {
        let (before, after) = text.split_at(place);
        if let Some((_, rest)) = after.split_first() {
            edits.push([before, rest].concat());
        }
        for byte in bytes {
            edits.push([before, &[*byte], after].concat());
            if let Some((old, rest)) = after.split_first() {
                if old != byte {
                    edits.push([before, &[*byte], rest].concat());
                }
            }
        }
    }
    edits
}
