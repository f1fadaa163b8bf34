//! Listings by pieces with planted slips, to see that the comparison finds them.

use super::foreign::Calls;
use super::slips::own_calls;
use crate::calls;
use crate::limits::Whole;
use crate::list::{self, Listed, MORE, STEP_ROOM, STOPPED};
use crate::network::Network;
use crate::record;

/// Name, calls, and whether the slip is in the reader: never here.
pub fn planted() -> Vec<(&'static str, Calls, bool)> {
    let list = |list| Calls { list: Some(list), ..own_calls() };
    vec![
        ("list takes a step more where its lines happen to fit", list(list_step_more), false),
        ("list wants a byte more before a step", list(list_wanting_a_byte), false),
        ("list tells an unfinished step before its stop", list(list_unfinished_step), false),
        ("list does not roll the memory on", list(list_writing_nothing), false),
        ("list takes back the unfinished step", list(list_taking_back), false),
        ("list clears the buffer behind its lines", list(list_clearing), false),
        ("list takes areas at different steps", list(list_uneven), false),
        ("list keeps done for a call of its own", list(list_done_alone), false),
        ("list tells the area before the refused one", list(list_area_before), false),
        ("list tells a place where none is refused", list(list_place_unrefused), false),
        ("list does not tell why it stops once more", list(list_stop_once), false),
    ]
}

type Words<'a> = &'a mut [i64];

/// Fewer than the bytes that a step asks for are left, but this step's lines are shorter.
fn list_step_more(network: &[i64], records: Words, froms: Words, tos: Words, out: &mut [u8]) -> Listed {
    let first = list::list(network, records, froms, tos, out);
    if first.number != MORE {
        return first;
    }
    let copy = (records.to_vec(), froms.to_vec(), tos.to_vec());
    let mut step = vec![0; STEP_ROOM];
    let next = list::list(network, records, froms, tos, &mut step);
    let more = next.written as usize;
    let rest = &mut out[first.written as usize..];
    if more > rest.len() {
        records.copy_from_slice(&copy.0);
        froms.copy_from_slice(&copy.1);
        tos.copy_from_slice(&copy.2);
        return first;
    }
    rest[..more].copy_from_slice(&step[..more]);
    Listed { written: first.written + next.written, ..next }
}

/// Right for the buffer as a whole; the test before each later step asks for 4,161 bytes.
fn list_wanting_a_byte(network: &[i64], records: Words, froms: Words, tos: Words, out: &mut [u8]) -> Listed {
    let short = out.len() - usize::from(out.len() > STEP_ROOM);
    list::list(network, records, froms, tos, &mut out[..short])
}

fn list_unfinished_step(network: &[i64], records: Words, froms: Words, tos: Words, out: &mut [u8]) -> Listed {
    let answer = list::list(network, records, froms, tos, out);
    if answer.number != STOPPED {
        return answer;
    }
    let written = answer.written as usize;
    let listed = &out[..written - 1];
    let start = listed.iter().rposition(|byte| *byte == b'\n').map_or(0, |place| place + 1);
    let stop = out[start..written].to_vec();
    let step = stop.split(|byte| *byte == b'\t').nth(1).and_then(|field| std::str::from_utf8(field).ok());
    let step: Whole = step.and_then(|field| field.parse().ok()).expect("a stop line has its step");
    let study = record::study_of_record(network).expect("a listed network is good");
    let lines = list::lent_step_lines(&Network::of_study(&study), step, records);
    let told = [lines.as_bytes(), &stop].concat();
    out[start..][..told.len()].copy_from_slice(&told);
    Listed { written: (start + told.len()) as u64, ..answer }
}

fn list_writing_nothing(network: &[i64], records: Words, froms: Words, tos: Words, out: &mut [u8]) -> Listed {
    list::list(network, &mut records.to_vec(), &mut froms.to_vec(), &mut tos.to_vec(), out)
}

/// A refused area takes the count of those before it back with it.
fn list_taking_back(network: &[i64], records: Words, froms: Words, tos: Words, out: &mut [u8]) -> Listed {
    let answer = list::list(network, records, froms, tos, out);
    if answer.number == STOPPED {
        let study = record::study_of_record(network).expect("a listed network is good");
        let counts = &mut records[..Network::of_study(&study).area_count];
        let full = counts.iter().copied().min().unwrap_or(0);
        counts.fill(full);
    }
    answer
}

fn list_clearing(network: &[i64], records: Words, froms: Words, tos: Words, out: &mut [u8]) -> Listed {
    let answer = list::list(network, records, froms, tos, out);
    if answer.number == 0 {
        out[answer.written as usize..].fill(0);
    }
    answer
}

/// Areas behind the foremost are brought up to it first.
fn list_uneven(network: &[i64], records: Words, froms: Words, tos: Words, out: &mut [u8]) -> Listed {
    let foremost = records.iter().take(32).copied().max().unwrap_or(0);
    for area in 1..=32 {
        while out.len() >= STEP_ROOM && records.get(area - 1).is_some_and(|count| *count < foremost) {
            if calls::advance(network, records, froms, tos, area as u64).0 != 0 {
                break;
            }
        }
    }
    list::list(network, records, froms, tos, out)
}

/// Full where the last step's lines leave less than a step asks for, as if `done` were a step.
fn list_done_alone(network: &[i64], records: Words, froms: Words, tos: Words, out: &mut [u8]) -> Listed {
    let kept = out.to_vec();
    let answer = list::list(network, records, froms, tos, out);
    let listed = &out[..answer.written as usize];
    let done = listed.windows(5).rposition(|word| word == b"done\t");
    match done {
        Some(start) if answer.number == 0 && start > 0 && out.len() - start < STEP_ROOM => {
            out[start..].copy_from_slice(&kept[start..]);
            Listed { number: MORE, written: start as u64, ..answer }
        }
        _ => answer,
    }
}

fn list_area_before(network: &[i64], records: Words, froms: Words, tos: Words, out: &mut [u8]) -> Listed {
    let mut answer = list::list(network, records, froms, tos, out);
    answer.stop[0] = answer.stop[0].saturating_sub(1);
    answer
}

/// The count of area 1, as an accepted advance tells it.
fn list_place_unrefused(network: &[i64], records: Words, froms: Words, tos: Words, out: &mut [u8]) -> Listed {
    let mut answer = list::list(network, records, froms, tos, out);
    if answer.number == MORE {
        answer.stop[2] = records[0] as u64;
    }
    answer
}

/// Where the stop line stands alone, as in a call that comes after a stop.
fn list_stop_once(network: &[i64], records: Words, froms: Words, tos: Words, out: &mut [u8]) -> Listed {
    let mut answer = list::list(network, records, froms, tos, out);
    if answer.number == STOPPED && out.starts_with(b"stop") {
        answer.stop = [0; 3];
    }
    answer
}
