//! The reader: study text to study, or the first fault with its line.

use crate::limits::{self, Whole};
use crate::network::{Kind, Row, Study};
use crate::refusal::Refusal;
use std::ops::RangeInclusive;

const LINE_FEED: u8 = b'\n';
const TAB: u8 = b'\t';

/// A refused text: the first faulty line from 1 and the lowest number that applies to it; line 0 for SIZE.
#[derive(Clone, Copy, PartialEq, Eq, Debug)]
pub struct BadText {
    pub line: u64,
    pub refusal: Refusal,
}

pub fn read_study(text: &[u8]) -> Result<Study, BadText> {
    if text.len() > limits::LONGEST_TEXT {
        return Err(BadText { line: 0, refusal: Refusal::Size });
    }
    let lines = text_lines(text);
    let at_line = |index: usize| move |refusal| BadText { line: index as u64 + 1, refusal };
    let mut study = study_line(&lines[0]).map_err(at_line(0))?;
    for (index, line) in lines.iter().enumerate().skip(1) {
        let row = table_line(line, &study).map_err(at_line(index))?;
        study.rows.push(row);
    }
    Ok(study)
}

struct TextLine<'a> {
    bytes: &'a [u8],
    /// Whether a line feed ends it; only the last line can lack one.
    ended: bool,
}

/// What follows the last LF is an unfinished line of its own unless it is empty. The empty text is taken as
/// one unfinished line, so that its fault is at line 1.
fn text_lines(text: &[u8]) -> Vec<TextLine<'_>> {
    let mut lines: Vec<TextLine> =
        text.split(|byte| *byte == LINE_FEED).map(|bytes| TextLine { bytes, ended: true }).collect();
    if let Some(last) = lines.last_mut() {
        last.ended = false;
    }
    if text.last() == Some(&LINE_FEED) {
        lines.pop();
    }
    lines
}

/// The first line, and only it, is `study`. It has no nodes, so it can only be at fault by 1 or 3.
fn study_line(line: &TextLine) -> Result<Study, Refusal> {
    let (word, fields) = word_and_fields(line).ok_or(Refusal::Form)?;
    if word != b"study" || fields.len() != 3 {
        return Err(Refusal::Form);
    }
    let spelt: Option<Vec<Whole>> = fields.iter().map(|field| spelt_number(field, false)).collect();
    let numbers = spelt.ok_or(Refusal::Form)?;
    let in_range = limits::STEP_LENGTH.contains(&numbers[0])
        && limits::STEPS.contains(&numbers[1])
        && limits::BALANCE_LIMIT.contains(&numbers[2]);
    if !in_range {
        return Err(Refusal::Value);
    }
    Ok(Study { step_length: numbers[0], steps: numbers[1], limit: numbers[2], rows: Vec::new() })
}

/// A later line, judged by 1 to 6 in turn, each over the whole line.
fn table_line(line: &TextLine, study: &Study) -> Result<Row, Refusal> {
    let row = spelt_row(line).ok_or(Refusal::Form)?;
    if node_fault(&row) {
        return Err(Refusal::Node);
    }
    if value_fault(&row, study.step_length) {
        return Err(Refusal::Value);
    }
    if row.kind == Kind::Line && row.fields[3] < study.step_length {
        return Err(Refusal::Travel);
    }
    if second_fixing_source(&row, study) {
        return Err(Refusal::Double);
    }
    if overfills(&row, study) {
        return Err(Refusal::Full);
    }
    Ok(row)
}

fn word_and_fields<'a>(line: &TextLine<'a>) -> Option<(&'a [u8], Vec<&'a [u8]>)> {
    if !line.ended {
        return None;
    }
    let mut parts = line.bytes.split(|byte| *byte == TAB);
    let word = parts.next()?;
    Some((word, parts.collect()))
}

/// FORM of a table line: a known word, its number of fields, every field well spelt.
fn spelt_row(line: &TextLine) -> Option<Row> {
    let (word, parts) = word_and_fields(line)?;
    let kind = Kind::of_word(word)?;
    if parts.len() != kind.field_count() {
        return None;
    }
    let is_peak = |index: usize| kind.is_source() && index == 1;
    let spelt = parts.iter().enumerate().map(|(index, part)| spelt_number(part, is_peak(index)));
    let fields: Option<Vec<Whole>> = spelt.collect();
    Some(Row { kind, fields: fields? })
}

/// A decimal number without leading zeros; a minus stands only before a nonzero peak.
fn spelt_number(field: &[u8], may_be_negative: bool) -> Option<Whole> {
    match field.strip_prefix(b"-") {
        None => spelt_digits(field),
        Some(digits) if may_be_negative => spelt_digits(digits).filter(|size| *size != 0).map(|size| -size),
        Some(_) => None,
    }
}

/// A number however long is well spelt. No limit is anywhere near 10^30, so a longer number is taken as
/// 10^30: out of every range, and equal to no node.
fn spelt_digits(digits: &[u8]) -> Option<Whole> {
    const FAR_TOO_LARGE: Whole = 1_000_000_000_000_000_000_000_000_000_000;
    let leading_zero = digits.len() > 1 && digits[0] == b'0';
    if digits.is_empty() || leading_zero || !digits.iter().all(u8::is_ascii_digit) {
        return None;
    }
    if digits.len() > 30 {
        return Some(FAR_TOO_LARGE);
    }
    Some(digits.iter().fold(0, |number, digit| number * 10 + Whole::from(digit - b'0')))
}

/// NODE: over 32, both ends equal, a source or a line end on ground.
fn node_fault(row: &Row) -> bool {
    let nodes = row.nodes();
    let too_high = nodes.iter().any(|node| *node > limits::HIGHEST_NODE);
    let ends_equal = nodes.len() == 2 && nodes[0] == nodes[1];
    let needs_a_node = row.kind.is_source() || row.kind == Kind::Line;
    too_high || ends_equal || (needs_a_node && nodes.contains(&0))
}

/// VALUE: a field out of range, or else its rounded conductance.
fn value_fault(row: &Row, step_length: Whole) -> bool {
    let fields = &row.fields;
    let in_range = match row.kind {
        Kind::Resistor => limits::MILLIOHM.contains(&fields[2]),
        Kind::Inductor => limits::NANOHENRY.contains(&fields[2]),
        Kind::Capacitor => limits::PICOFARAD.contains(&fields[2]),
        Kind::Line => limits::MILLIOHM.contains(&fields[2]) && limits::TRAVEL.contains(&fields[3]),
        Kind::Switch | Kind::TimedSwitch => {
            limits::MILLIOHM.contains(&fields[2])
                && limits::SWITCH_STEP.contains(&fields[3])
                && limits::SWITCH_STEP.contains(&fields[4])
                && fields[3] < fields[4]
        }
        Kind::VoltageSource => source_fits(fields, limits::VOLTAGE, limits::SOURCE_RISE),
        Kind::CurrentSource => source_fits(fields, limits::INJECTION, limits::SOURCE_RISE),
        Kind::CosineSource => source_fits(fields, limits::VOLTAGE, limits::FREQUENCY),
    };
    // The conductance is asked for only when the value is in range, so nothing is divided by zero.
    !in_range || row.conductance(step_length).is_some_and(|size| !limits::CONDUCTANCE.contains(&size))
}

/// Peak, start and the last field, which is a rise or a frequency.
fn source_fits(fields: &[Whole], peaks: RangeInclusive<Whole>, last: RangeInclusive<Whole>) -> bool {
    peaks.contains(&fields[1]) && limits::SOURCE_START.contains(&fields[2]) && last.contains(&fields[3])
}

/// DOUBLE: any two of VS and VC on one node.
fn second_fixing_source(row: &Row, study: &Study) -> bool {
    let same = |earlier: &Row| earlier.kind.fixes_voltage() && earlier.fields[0] == row.fields[0];
    row.kind.fixes_voltage() && study.rows.iter().any(same)
}

/// FULL: the 65th branch, the 17th source, or line slots past 4,096.
fn overfills(row: &Row, study: &Study) -> bool {
    let alike = study.rows.iter().filter(|earlier| earlier.kind.is_source() == row.kind.is_source()).count();
    let most = if row.kind.is_source() { limits::MOST_SOURCES } else { limits::MOST_BRANCHES };
    let all_rows = study.rows.iter().chain(std::iter::once(row));
    let slots: Whole =
        all_rows.filter_map(|any| any.travel(study.step_length)).map(|travel| travel.slots()).sum();
    alike >= most || slots > limits::MOST_SLOTS
}
