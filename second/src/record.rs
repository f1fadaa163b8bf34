//! The network record of 1,024 words: a study into it, and out of it by way of the study text.

use crate::network::{Kind, Row, Study};
use crate::reader;
use std::fmt::Write;

pub const NETWORK_WORDS: usize = 1_024;
const MOST_ROWS: i64 = 80;
const FIRST_ROW: usize = 8;
const ROW_WORDS: usize = 8;

/// Step length, steps, limit, number of rows, four zeros; then eight words a row: kind, fields, zeros.
pub fn record_of(study: &Study) -> Vec<i64> {
    let mut record = vec![0; NETWORK_WORDS];
    record[0] = study.step_length as i64;
    record[1] = study.steps as i64;
    record[2] = study.limit as i64;
    record[3] = study.rows.len() as i64;
    for (index, row) in study.rows.iter().enumerate() {
        let start = FIRST_ROW + ROW_WORDS * index;
        record[start] = row.kind.number();
        for (place, field) in row.fields.iter().enumerate() {
            record[start + 1 + place] = *field as i64;
        }
    }
    record
}

/// The text of a study. The reader accepts one spelling only, so a study has one text.
pub fn text_of(study: &Study) -> String {
    let mut text = format!("study\t{}\t{}\t{}\n", study.step_length, study.steps, study.limit);
    for row in &study.rows {
        text.push_str(row.kind.word());
        for field in &row.fields {
            write!(text, "\t{field}").expect("a string takes any field");
        }
        text.push('\n');
    }
    text
}

/// Writes a record's words out as they stand, fit or unfit; none where a row's kind has no word.
fn unjudged_study(record: &[i64]) -> Option<Study> {
    if !(0..=MOST_ROWS).contains(&record[3]) {
        return None;
    }
    let mut rows = Vec::new();
    for index in 0..record[3] as usize {
        let words = &record[FIRST_ROW + ROW_WORDS * index..][..ROW_WORDS];
        let kind = Kind::of_number(words[0])?;
        let fields = words[1..=kind.field_count()].iter().map(|word| i128::from(*word)).collect();
        rows.push(Row { kind, fields });
    }
    let header = |place: usize| i128::from(record[place]);
    Some(Study { step_length: header(0), steps: header(1), limit: header(2), rows })
}

/// The study of a record that the reader could write. The record is written back as study text, that text
/// is read again, and the record it gives must be the same in all words.
pub fn study_of_record(record: &[i64]) -> Option<Study> {
    let text = text_of(&unjudged_study(record)?);
    let study = reader::read_study(text.as_bytes()).ok()?;
    (record_of(&study) == record).then_some(study)
}
