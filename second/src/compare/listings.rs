//! What is asked of the listing by pieces for one study. Everything follows from the text and a seed, so that
//! a difference can be shown again on a smaller text.

use super::dice::Dice;
use super::foreign::{AdvanceCall, Calls, ListCall};
use super::lent::{rubbish_bytes, same_advance, same_list, Lent};
use super::moves::{self, Depth};
use super::tally::{Difference, Tally};
use super::widest;
use crate::limits::Whole;
use crate::list::{Listed, MORE, STEP_ROOM};
use crate::listing;
use crate::network::{Network, Study};
use crate::reader;
use crate::record;
use crate::state;

/// Runs up to this length are listed to their end, step by step where the buffer is short; random studies
/// stay below it.
const LONGEST_RUN: Whole = 100;
const TURNS: usize = 10;
const JUMPS: usize = 3;

/// Asks all about the listing of a text; a text that is no study asks nothing.
pub fn ask_listings(
    calls: &Calls,
    text: &[u8],
    seed: u64,
    depth: Depth,
    tally: &mut Tally,
) -> Result<(), Difference> {
    let Some((mut asker, study)) = ListAsker::of(calls, text, seed, tally) else { return Ok(()) };
    asker.whole_run(text, &study)?;
    asker.interrupted_run()?;
    for _ in 0..JUMPS {
        asker.jump(study.clone())?;
    }
    asker.start_again(&study)?;
    asker.wrong_lengths()?;
    if depth == Depth::EveryWord {
        asker.change_every_word()?;
    } else {
        for _ in 0..TURNS {
            asker.list_with_damage()?;
        }
    }
    Ok(())
}

/// The widest step at the end of a run, and one step before it with the least room.
pub fn ask_widest(calls: &Calls, text: &[u8], tally: &mut Tally) -> Result<(), Difference> {
    let Some((mut asker, study)) = ListAsker::of(calls, text, 0, tally) else { return Ok(()) };
    for early in [0, 1] {
        asker.lent = widest::state(&study);
        for area in 1..=asker.areas {
            asker.lent.records[state::count_place(area)] -= early;
        }
        asker.list_on(STEP_ROOM, 2)?;
    }
    Ok(())
}

struct ListAsker<'a> {
    list: ListCall,
    advance: AdvanceCall,
    tally: &'a mut Tally,
    lent: Lent,
    dice: Dice,
    areas: usize,
}

impl<'a> ListAsker<'a> {
    /// At rest; none where the text is no study or the calls are not compared.
    fn of(calls: &Calls, text: &[u8], seed: u64, tally: &'a mut Tally) -> Option<(ListAsker<'a>, Study)> {
        let study = reader::read_study(text).ok()?;
        let asker = ListAsker {
            list: calls.list?,
            advance: calls.advance?,
            tally,
            lent: Lent::at_rest(&record::record_of(&study)),
            dice: Dice::new(seed),
            areas: Network::of_study(&study).area_count,
        };
        Some((asker, study))
    }

    /// Asks both to list into a buffer of rubbish; answers the number and what is listed.
    fn ask_list(&mut self, room: usize) -> Result<(u64, Vec<u8>), Difference> {
        let mut out = rubbish_bytes(&mut self.dice, room);
        let Listed { number, written, .. } = same_list(self.list, &mut self.lent, &mut out)?;
        self.tally.passed += 1;
        self.tally.count(format!("list: {number:2}"));
        out.truncate(written as usize);
        Ok((number, out))
    }

    /// True where the advance was accepted.
    fn ask_advance(&mut self, area: usize) -> Result<bool, Difference> {
        let (number, _) = same_advance(self.advance, &mut self.lent, area as u64)?;
        self.tally.passed += 1;
        self.tally.count(format!("advance: {number:2}"));
        Ok(number == 0)
    }

    fn count_of(&self, area: usize) -> i64 {
        self.lent.records[state::count_place(area)]
    }

    fn short_room(&mut self) -> usize {
        let anything = self.dice.below(STEP_ROOM);
        self.dice.pick(&[0, 1, STEP_ROOM - 1, anything])
    }

    /// Room for one full step, or for a few.
    fn small_room(&mut self) -> usize {
        self.dice.pick(&[STEP_ROOM, STEP_ROOM, STEP_ROOM + 1, 5_000])
    }

    fn any_room(&mut self) -> usize {
        let anything = self.dice.spread(STEP_ROOM as i64, 90_000) as usize;
        self.dice.pick(&[STEP_ROOM, STEP_ROOM + 1, 5_000, 20_000, 65_536, anything, anything])
    }

    /// Room that leaves just as much as a further step asks for, or a byte more or less, after one of the
    /// next steps.
    fn tight_room(&mut self, step_ends: &[usize], listed: usize) -> usize {
        let next: Vec<usize> = step_ends.iter().copied().filter(|end| *end > listed).take(4).collect();
        if next.is_empty() {
            return STEP_ROOM;
        }
        STEP_ROOM + self.dice.pick(&next) - listed + 1 - self.dice.below(3)
    }

    /// From rest to the end, refused calls among the pieces: put together they are the listing of the text.
    fn whole_run(&mut self, text: &[u8], study: &Study) -> Result<(), Difference> {
        if self.areas > 0 && study.steps > LONGEST_RUN {
            return Ok(());
        }
        let wanted = listing::listing_of(text).into_bytes();
        let ends = step_ends(&wanted);
        let usual = self.any_room();
        let habit = self.dice.below(3);
        let mut listed = Vec::new();
        let mut number = MORE;
        while number == MORE {
            if self.dice.one_in(6) {
                let room = self.short_room();
                self.ask_list(room)?;
            }
            let room = match habit {
                0 => usual,
                1 => self.any_room(),
                _ => self.tight_room(&ends, listed.len()),
            };
            let (answer, piece) = self.ask_list(room)?;
            number = answer;
            listed.extend(piece);
        }
        self.compare_whole(&wanted, &listed)?;
        // Once more after the end: `done` again, `stop` again, or areas that have parted.
        self.ask_list(STEP_ROOM).map(|_| ())
    }

    fn compare_whole(&mut self, wanted: &[u8], listed: &[u8]) -> Result<(), Difference> {
        if wanted != listed {
            let shown = |bytes: &[u8]| String::from_utf8_lossy(bytes).into_owned();
            let question = "in the pieces of a run from rest, put together".to_string();
            return Err(Difference { question, ours: shown(wanted), theirs: shown(listed) });
        }
        self.tally.passed += 1;
        self.tally.count("list: whole runs");
        Ok(())
    }

    /// From rest, small pieces with single advances, refused calls and damage between them, then on to the end.
    fn interrupted_run(&mut self) -> Result<(), Difference> {
        self.lent = Lent::at_rest(&self.lent.network);
        for _ in 0..TURNS {
            match self.dice.below(8) {
                0 | 1 => self.lead_with_one_area()?,
                2 => self.step_by_advances()?,
                3 | 4 => self.list_with_damage()?,
                _ => {
                    let room = self.small_room();
                    self.ask_list(room)?;
                }
            }
        }
        self.catch_up()?;
        let room = self.any_room();
        self.list_on(room, LONGEST_RUN)
    }

    /// Pieces from here on as long as there is more, at most so many.
    fn list_on(&mut self, room: usize, most: Whole) -> Result<(), Difference> {
        for _ in 0..most {
            if self.ask_list(room)?.0 != MORE {
                break;
            }
        }
        Ok(())
    }

    /// One area goes ahead as far as it may within two steps. The others mostly catch up.
    fn lead_with_one_area(&mut self) -> Result<(), Difference> {
        let area = 1 + self.dice.below(self.areas.max(1));
        for _ in 0..self.dice.pick(&[1, 1, 2]) {
            self.ask_advance(area)?;
        }
        let room = self.small_room();
        self.ask_list(room)?;
        if self.dice.one_in(4) {
            return Ok(());
        }
        self.catch_up()
    }

    /// Every area behind the foremost advances until none is left behind or one is refused.
    fn catch_up(&mut self) -> Result<(), Difference> {
        let foremost = (1..=self.areas).map(|area| self.count_of(area)).max().unwrap_or(0);
        let mut moving = true;
        while moving {
            moving = false;
            for area in 1..=self.areas {
                moving |= self.count_of(area) < foremost && self.ask_advance(area)?;
            }
        }
        Ok(())
    }

    /// A full step by single advances, the areas in falling order.
    fn step_by_advances(&mut self) -> Result<(), Difference> {
        for area in (1..=self.areas).rev() {
            self.ask_advance(area)?;
        }
        Ok(())
    }

    /// A well-formed state that no run need reach, all areas at one step up to the millionth or one of them a
    /// step apart, and a few pieces from there on.
    fn jump(&mut self, mut study: Study) -> Result<(), Difference> {
        if self.dice.one_in(2) {
            study.steps = Whole::from(self.dice.spread(1, 1_000_000));
        }
        if self.dice.one_in(4) {
            study.limit = 0;
        }
        let network = Network::of_study(&study);
        self.lent = moves::random_state(&mut self.dice, &network, &record::record_of(&study));
        for area in 2..=self.areas {
            self.lent.records[state::count_place(area)] = self.count_of(1);
        }
        moves::set_peaks_and_latches(&mut self.dice, &network, &mut self.lent.records);
        if self.areas > 0 && self.dice.one_in(6) {
            let area = 1 + self.dice.below(self.areas);
            self.lent.records[state::count_place(area)] += self.dice.pick(&[-1, 1]);
        }
        // The longest buffers take up to two thousand steps of a small network: they come seldom.
        let room = if self.dice.one_in(40) { self.any_room() } else { self.small_room() };
        self.list_on(room, 3)
    }

    /// A good state in the middle of a run: all areas have taken one step, or two, as far as none is refused,
    /// since areas at different steps would hide whatever else a call is refused for.
    fn start_again(&mut self, study: &Study) -> Result<(), Difference> {
        self.lent = Lent::at_rest(&record::record_of(study));
        for _ in 0..self.dice.pick(&[1, 2]) {
            let full_step = self.lent.clone();
            self.step_by_advances()?;
            if (1..=self.areas).any(|area| self.count_of(area) != self.count_of(1)) {
                self.lent = full_step;
            }
        }
        Ok(())
    }

    /// Each of the four lengths wrong by itself, sometimes with damage that would be refused later.
    fn wrong_lengths(&mut self) -> Result<(), Difference> {
        let kept = self.lent.clone();
        for slice in 0..4 {
            if self.dice.one_in(2) {
                self.damage_a_word();
            }
            let wrong = self.dice.below(6);
            let words = self.lent.slice(slice);
            let right = words.len();
            words.resize([0, 1, right / 2, right - 1, right + 1, 2 * right][wrong], 0);
            let room = self.small_room();
            self.ask_list(room)?;
            self.lent.clone_from(&kept);
        }
        Ok(())
    }

    /// One list call, sometimes into too short a buffer, with one or two words damaged for it.
    fn list_with_damage(&mut self) -> Result<(), Difference> {
        let kept = self.lent.clone();
        self.damage_a_word();
        if self.dice.one_in(3) {
            self.damage_a_word();
        }
        let room = if self.dice.one_in(8) { self.short_room() } else { self.small_room() };
        self.ask_list(room)?;
        self.lent = kept;
        Ok(())
    }

    /// A word of any slice, mostly one in use, set to an odd value.
    fn damage_a_word(&mut self) {
        let slice = self.dice.pick(&[0, 0, 1, 1, 1, 2, 3]);
        let in_use =
            [8 + 8 * self.lent.network[3].clamp(0, 80) as usize + 8, moves::RECORDS_IN_USE + 8, 16, 16]
                [slice];
        let length = self.lent.slice(slice).len();
        let end = if self.dice.one_in(4) { length } else { in_use };
        let place = self.dice.below(end);
        self.change_word(slice, place);
    }

    fn change_word(&mut self, slice: usize, place: usize) {
        let old = self.lent.slice(slice)[place];
        let small = self.dice.between(0, 9);
        let odd = moves::odd_word(&mut self.dice, old);
        self.lent.slice(slice)[place] = if self.dice.one_in(3) { small } else { odd };
    }

    /// Every single word of network, records and stores changed for one call.
    fn change_every_word(&mut self) -> Result<(), Difference> {
        let mut kept = self.lent.clone();
        for slice in 0..4 {
            for place in 0..kept.slice(slice).len() {
                self.change_word(slice, place);
                self.ask_list(STEP_ROOM)?;
                self.lent.clone_from(&kept);
            }
        }
        Ok(())
    }
}

/// Where each full step's lines end in a listing: where the next step's begin, or the last line.
fn step_ends(listing: &[u8]) -> Vec<usize> {
    let mut ends = Vec::new();
    let mut place = 0;
    let mut step = Vec::new();
    for line in listing.split_inclusive(|byte| *byte == b'\n') {
        let fields: Vec<&[u8]> = line.split(|byte| *byte == b'\t').collect();
        let is_step = fields[0] == b"v" || fields[0] == b"i";
        if !is_step || fields[1] != step {
            ends.push(place);
            step = fields[1].to_vec();
        }
        place += line.len();
    }
    ends
}
