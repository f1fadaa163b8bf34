//! The listing by pieces. All areas advance over lent memory, full step after full step, and
//! each full step is listed into a lent buffer as long as it has room.

use crate::calls;
use crate::limits::Whole;
use crate::listing;
use crate::network::Network;
use crate::refusal::{Refusal, Stop};
use crate::state;

/// The room that must be left before a step is begun, whatever its lines will need.
pub const STEP_ROOM: usize = 4_160;
/// Answered where the buffer is full and steps are left.
pub const MORE: u64 = 100;
/// Answered where an area refused its step; the last line listed tells which and why.
pub const STOPPED: u64 = 101;

/// What a call answers: its number, how many bytes are listed and, of an area that refused its step, the area,
/// the refusal's number and its place, each 0 where none did.
#[derive(Clone, Copy, PartialEq, Debug)]
pub struct Listed {
    pub number: u64,
    pub written: u64,
    pub stop: [u64; 3],
}

/// The bytes behind those that are listed stay as they were.
pub fn list(
    words: &[i64],
    records: &mut [i64],
    froms: &mut [i64],
    tos: &mut [i64],
    out: &mut [u8],
) -> Listed {
    let (network, mut taken) = match listable(words, records, froms, tos, out) {
        Err(stop) => return Listed { number: stop.refusal.number(), written: 0, stop: [0; 3] },
        Ok(judged) => judged,
    };
    let mut piece = Piece { out, written: 0 };
    while taken < network.steps {
        if piece.room() < STEP_ROOM {
            return piece.answer(MORE);
        }
        taken += 1;
        for area in 1..=network.area_count {
            let (number, place) = calls::advance(words, records, froms, tos, area as u64);
            if number != 0 {
                piece.put(&listing::stop_line(taken, area, number, place));
                return Listed { stop: [area as u64, number, place], ..piece.answer(STOPPED) };
            }
        }
        piece.put(&lent_step_lines(&network, taken, records));
    }
    piece.put(&listing::done_line(network.steps));
    piece.answer(0)
}

/// 9 for a wrong length, the buffer's too, then 8, then 10; else the network and the steps taken so far.
fn listable(
    words: &[i64],
    records: &[i64],
    froms: &[i64],
    tos: &[i64],
    out: &[u8],
) -> Result<(Network, Whole), Stop> {
    if out.len() < STEP_ROOM {
        return Err(Stop::nowhere(Refusal::Store));
    }
    let network = calls::lent_network(words, records, froms, tos)?;
    if !state::well_formed(&network, records, froms, tos) {
        return Err(Stop::nowhere(Refusal::State));
    }
    let taken = full_steps(&network, records).ok_or(Stop::nowhere(Refusal::State))?;
    Ok((network, taken))
}

/// The steps that all areas have taken; none where they have not all taken as many. Without areas no step
/// has anything to do, so all of them count as taken.
fn full_steps(network: &Network, records: &[i64]) -> Option<Whole> {
    let counts = &records[state::count_place(1)..][..network.area_count];
    let Some(first) = counts.first() else { return Some(network.steps) };
    counts.iter().all(|count| count == first).then_some(Whole::from(*first))
}

/// The lines of a step from the records that it left.
pub fn lent_step_lines(network: &Network, step: Whole, records: &[i64]) -> String {
    let word = |place: usize| Whole::from(records[place]);
    let mut voltages = vec![0];
    voltages.extend((1..=network.node_count).map(|node| word(state::voltage_place(node))));
    let rows = || network.branches.iter().map(|branch| branch.row);
    let from_currents: Vec<Whole> = rows().map(|row| word(state::from_current_place(row))).collect();
    let to_currents: Vec<Whole> = rows().map(|row| word(state::to_current_place(row))).collect();
    listing::step_lines(network, step, &voltages, &from_currents, &to_currents)
}

/// The lent buffer and how far it is written.
struct Piece<'a> {
    out: &'a mut [u8],
    written: usize,
}

impl Piece<'_> {
    fn room(&self) -> usize {
        self.out.len() - self.written
    }

    fn put(&mut self, lines: &str) {
        self.out[self.written..][..lines.len()].copy_from_slice(lines.as_bytes());
        self.written += lines.len();
    }

    fn answer(&self, number: u64) -> Listed {
        Listed { number, written: self.written as u64, stop: [0; 3] }
    }
}
