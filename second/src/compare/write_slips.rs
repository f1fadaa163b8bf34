//! Writers with planted slips, to see that the comparison finds them.

use super::foreign::Calls;
use super::slips::own_calls;
use crate::network::{Kind, Study};
use crate::record;
use crate::write::{self, TEXT_ROOM};

/// Name, calls, and whether the slip is in the reader: never here.
pub fn planted() -> Vec<(&'static str, Calls, bool)> {
    let write = |write| Calls { write: Some(write), ..own_calls() };
    vec![
        ("writer puts the sources last", write(write_sources_last), false),
        ("writer takes the magnitude for the number", write(write_magnitudes), false),
        ("writer leaves a switch's last field out", write(write_switch_short), false),
        ("writer leaves the last row out", write(write_row_short), false),
        ("writer leaves the last line feed out", write(write_unended), false),
        ("writer takes an area of 8,191 bytes", write(write_into_less), false),
        ("writer takes no area over 8,192 bytes", write(write_into_no_more), false),
        ("writer takes a network with unused words", write(write_unjudged), false),
        ("writer judges the network before the lengths", write(write_network_first), false),
        ("writer clears the area behind its text", write(write_clearing), false),
        ("writer writes before it refuses", write(write_then_refuse), false),
        ("writer tells bytes where it refuses", write(write_telling_bytes), false),
    ]
}

/// Right but for the text of an accepted network.
pub fn write_as(network: &[i64], out: &mut [u8], text_of: impl Fn(Study) -> String) -> (u64, u64) {
    let answer = write::write(network, &mut out.to_vec());
    if answer.0 != 0 {
        return answer;
    }
    let text = text_of(record::study_of_record(network).expect("an accepted network is good"));
    out[..text.len()].copy_from_slice(text.as_bytes());
    (0, text.len() as u64)
}

fn write_sources_last(network: &[i64], out: &mut [u8]) -> (u64, u64) {
    write_as(network, out, |mut study| {
        study.rows.sort_by_key(|row| row.kind.is_source());
        record::text_of(&study)
    })
}

fn write_magnitudes(network: &[i64], out: &mut [u8]) -> (u64, u64) {
    write_as(network, out, |study| record::text_of(&study).replace('-', ""))
}

fn write_switch_short(network: &[i64], out: &mut [u8]) -> (u64, u64) {
    write_as(network, out, |mut study| {
        for row in study.rows.iter_mut().filter(|row| row.kind == Kind::Switch) {
            row.fields.pop();
        }
        record::text_of(&study)
    })
}

fn write_row_short(network: &[i64], out: &mut [u8]) -> (u64, u64) {
    write_as(network, out, |mut study| {
        study.rows.pop();
        record::text_of(&study)
    })
}

fn write_unended(network: &[i64], out: &mut [u8]) -> (u64, u64) {
    write_as(network, out, |study| record::text_of(&study).trim_end().to_string())
}

fn write_into_less(network: &[i64], out: &mut [u8]) -> (u64, u64) {
    if out.len() != TEXT_ROOM - 1 {
        return write::write(network, out);
    }
    let mut longer = [&*out, &[0]].concat();
    let answer = write::write(network, &mut longer);
    out.copy_from_slice(&longer[..TEXT_ROOM - 1]);
    answer
}

fn write_into_no_more(network: &[i64], out: &mut [u8]) -> (u64, u64) {
    if out.len() > TEXT_ROOM {
        return (9, 0);
    }
    write::write(network, out)
}

/// Words 4 to 7 of the head and whatever stands behind the last row are not looked at.
fn write_unjudged(network: &[i64], out: &mut [u8]) -> (u64, u64) {
    let mut cleared = network.to_vec();
    if cleared.len() == record::NETWORK_WORDS {
        cleared[4..8].fill(0);
        let end = (8 + 8 * cleared[3].clamp(0, 80)) as usize;
        cleared[end..].fill(0);
    }
    write::write(&cleared, out)
}

fn write_network_first(network: &[i64], out: &mut [u8]) -> (u64, u64) {
    let is_damaged =
        network.len() == record::NETWORK_WORDS && write::write(network, &mut [0; TEXT_ROOM]).0 == 8;
    if is_damaged {
        return (8, 0);
    }
    write::write(network, out)
}

fn write_clearing(network: &[i64], out: &mut [u8]) -> (u64, u64) {
    let answer = write::write(network, out);
    if answer.0 == 0 {
        out[answer.1 as usize..].fill(0);
    }
    answer
}

fn write_then_refuse(network: &[i64], out: &mut [u8]) -> (u64, u64) {
    let answer = write::write(network, out);
    if answer.0 == 8 {
        out[..5].copy_from_slice(b"study");
    }
    answer
}

fn write_telling_bytes(network: &[i64], out: &mut [u8]) -> (u64, u64) {
    match write::write(network, out) {
        (0, bytes) => (0, bytes),
        (number, _) => (number, out.len() as u64),
    }
}
