//! What is asked of reset and advance for one study. Everything follows from the text and a seed, so that a
//! difference can be shown again on a smaller text.

use super::dice::Dice;
use super::foreign::{AdvanceCall, Calls, ResetCall};
use super::lent::{self, same_advance, same_reset, Lent};
use super::tally::{Difference, Tally};
use super::waves;
use super::writings;
use crate::limits::{self, Whole};
use crate::network::{Branch, Network, Study};
use crate::reader;
use crate::record;
use crate::state;

/// Words of the records that some network uses; those behind are 0.
pub const RECORDS_IN_USE: usize = 448;

/// How thoroughly one study is asked.
#[derive(Clone, Copy, PartialEq, Eq, Debug)]
pub enum Depth {
    /// A walk from rest, some states out of the blue, some damage.
    Usual,
    /// Besides, every single word of network, records and stores changed in turn.
    EveryWord,
}

/// Asks all moves for a text; a text that is no study asks nothing.
pub fn ask_moves(
    calls: &Calls,
    text: &[u8],
    seed: u64,
    depth: Depth,
    tally: &mut Tally,
) -> Result<(), Difference> {
    let (Some(reset), Ok(study)) = (calls.reset, reader::read_study(text)) else { return Ok(()) };
    let mut dice = Dice::new(seed);
    let words = record::record_of(&study);
    let areas = Network::of_study(&study).area_count;
    let mut asker = Asker {
        reset,
        advance: calls.advance,
        tally,
        lent: Lent::with_rubbish(&words, &mut dice),
        dice,
        areas,
    };
    asker.reset_with_rubbish()?;
    asker.wrong_lengths()?;
    asker.walk(&Network::of_study(&study))?;
    for _ in 0..3 {
        asker.jump(study.clone())?;
    }
    asker.lent.network = words;
    asker.start_again()?;
    asker.move_a_source(&study)?;
    if depth == Depth::EveryWord {
        asker.change_every_word()?;
    }
    asker.change_network_words(if depth == Depth::EveryWord { usize::MAX } else { 20 })
}

struct Asker<'a> {
    reset: ResetCall,
    advance: Option<AdvanceCall>,
    tally: &'a mut Tally,
    lent: Lent,
    dice: Dice,
    areas: usize,
}

impl Asker<'_> {
    fn ask_reset(&mut self) -> Result<u64, Difference> {
        let number = same_reset(self.reset, &mut self.lent)?;
        self.tally.passed += 1;
        self.tally.count(format!("reset: {number:2}"));
        Ok(number)
    }

    /// True where the advance was accepted.
    fn ask_advance(&mut self, area: u64) -> Result<bool, Difference> {
        let Some(advance) = self.advance else { return Ok(false) };
        let (number, _) = same_advance(advance, &mut self.lent, area)?;
        self.tally.passed += 1;
        self.tally.count(format!("advance: {number:2}"));
        Ok(number == 0)
    }

    fn reset_with_rubbish(&mut self) -> Result<(), Difference> {
        self.ask_advance(1)?;
        self.ask_reset().map(|_| ())
    }

    /// Each of the four lengths wrong by itself, one of them chosen anew each time.
    fn wrong_lengths(&mut self) -> Result<(), Difference> {
        let kept = self.lent.clone();
        for slice in 0..4 {
            let wrong = self.dice.below(6);
            let words = self.lent.slice(slice);
            let right = words.len();
            words.resize([0, 1, right / 2, right - 1, right + 1, 2 * right][wrong], 0);
            self.ask_reset()?;
            self.ask_advance(1)?;
            self.lent = kept.clone();
        }
        Ok(())
    }

    /// From rest, areas in random order, some leading as far as they may; among them calls for areas that
    /// are none and calls on damaged state, each of which must leave everything as it was.
    fn walk(&mut self, network: &Network) -> Result<(), Difference> {
        let areas = network.area_count as u64;
        let favourite = 1 + self.dice.below(network.area_count.max(1)) as u64;
        for _ in 0..24 {
            let random = 1 + self.dice.below(network.area_count.max(1)) as u64;
            let area = match self.dice.below(12) {
                0 => self.dice.pick(&[
                    0,
                    areas + 1,
                    areas + 2,
                    33,
                    64,
                    1 << 32,
                    (1 << 32) + 1,
                    u64::MAX,
                    1 << 63,
                ]),
                1..=4 => favourite,
                _ => random,
            };
            self.ask_advance(area)?;
            if self.dice.one_in(3) {
                self.damage_a_word(network, area)?;
            }
        }
        Ok(())
    }

    /// One random word of records or stores damaged for one call.
    fn damage_a_word(&mut self, network: &Network, area: u64) -> Result<(), Difference> {
        let kept = self.lent.clone();
        let used = state::used_slots(network).max(1);
        let value = odd_word(&mut self.dice, 0);
        match self.dice.below(4) {
            0 => {
                let place = self.dice.below(self.lent.froms.len());
                self.lent.froms[place] = value;
            }
            1 => {
                let place = self.dice.below(used);
                self.lent.tos[place] = value;
            }
            _ => {
                let place = self.dice.below(RECORDS_IN_USE + 8);
                self.lent.records[place] = self.lent.records[place].wrapping_add(value);
            }
        }
        self.ask_advance(area)?;
        self.lent = kept;
        Ok(())
    }

    /// A well-formed state that no run need reach, at any step up to the millionth, and some advances on it.
    fn jump(&mut self, mut study: Study) -> Result<(), Difference> {
        if self.dice.one_in(2) {
            study.steps = Whole::from(self.dice.spread(1, 1_000_000));
        }
        if self.dice.one_in(4) {
            study.limit = 0;
        }
        let network = Network::of_study(&study);
        self.lent = random_state(&mut self.dice, &network, &record::record_of(&study));
        if self.dice.one_in(3) && network.area_count > 0 {
            // One count may be one too far from another's.
            let area = 1 + self.dice.below(network.area_count);
            self.lent.records[state::count_place(area)] += self.dice.pick(&[-1, 1]);
            if self.dice.one_in(2) {
                part_too_far(&mut self.dice, &network, &mut self.lent.records);
            }
            set_peaks_and_latches(&mut self.dice, &network, &mut self.lent.records);
        }
        for _ in 0..6 {
            let area = 1 + self.dice.below(network.area_count.max(1));
            if self.ask_advance(area as u64)? {
                let step = self.lent.records[state::count_place(area)].into();
                waves::count_step(&network, area, step, self.tally);
            }
        }
        Ok(())
    }

    /// From rest, one or two advances of each area: a good state with all of the run before it.
    fn start_again(&mut self) -> Result<(), Difference> {
        self.ask_reset()?;
        for area in 1..=self.areas as u64 {
            self.ask_advance(area)?;
            if self.dice.one_in(2) {
                self.ask_advance(area)?;
            }
        }
        Ok(())
    }

    /// An area of the study, now and then the number after the last.
    fn some_area(&mut self) -> u64 {
        let extra = usize::from(self.dice.one_in(10));
        1 + self.dice.below((self.areas + extra).max(1)) as u64
    }

    /// Every word of records and stores changed, one at a time, twice.
    fn change_every_word(&mut self) -> Result<(), Difference> {
        for slice in 0..3 {
            let kept = self.lent.clone();
            let length = [kept.records.len(), kept.froms.len(), kept.tos.len()][slice];
            for place in 0..2 * length {
                let words = |lent: &mut Lent, value: Option<i64>| {
                    let words = [&mut lent.records, &mut lent.froms, &mut lent.tos];
                    let word = &mut words.into_iter().nth(slice).expect("one of three")[place / 2];
                    *word = value.unwrap_or(*word);
                    *word
                };
                let old = words(&mut self.lent, None);
                let new = odd_word(&mut self.dice, old);
                words(&mut self.lent, Some(new));
                let area = self.some_area();
                if self.ask_advance(area)? {
                    self.lent = kept.clone();
                }
                words(&mut self.lent, Some(old));
            }
        }
        Ok(())
    }

    /// A source moved to another's node, where there are two.
    fn move_a_source(&mut self, study: &Study) -> Result<(), Difference> {
        let is_source = |row: &usize| study.rows[*row].kind.is_source();
        let sources: Vec<usize> = (0..study.rows.len()).filter(is_source).collect();
        if sources.len() < 2 {
            return Ok(());
        }
        let kept = self.lent.clone();
        let node_place = |row: usize| 8 + 8 * row + 1;
        let (one, other) = (self.dice.pick(&sources), self.dice.pick(&sources));
        self.lent.network[node_place(one)] = kept.network[node_place(other)];
        let area = self.some_area();
        self.ask_advance(area)?;
        self.lent = kept;
        Ok(())
    }

    /// Network words changed one at a time: `most` of them, most of those in the rows in use.
    fn change_network_words(&mut self, most: usize) -> Result<(), Difference> {
        let kept = self.lent.clone();
        let in_use = 8 + 8 * kept.network[3] as usize;
        for turn in 0..most.min(2 * kept.network.len()) {
            let place = match most {
                usize::MAX => turn / 2,
                _ if self.dice.one_in(4) => self.dice.below(kept.network.len()),
                _ => self.dice.below(in_use + 8),
            };
            let small = self.dice.between(0, 9);
            let odd = odd_word(&mut self.dice, kept.network[place]);
            self.lent.network[place] = if self.dice.one_in(3) { small } else { odd };
            let area = self.some_area();
            self.ask_advance(area)?;
            self.lent.records.clone_from(&kept.records);
            self.lent.froms.clone_from(&kept.froms);
            self.lent.tos.clone_from(&kept.tos);
            self.ask_reset()?;
            self.lent = kept.clone();
        }
        Ok(())
    }
}

/// A word at or near an end of some range, or near the old word.
pub fn odd_word(dice: &mut Dice, old: i64) -> i64 {
    const ENDS: [i64; 9] = [
        0,
        20_000_000,
        1_000_000,
        100_000_000_000_000_000,
        140_000_000_000_000_000,
        1_000_000_000_000_000,
        i64::MAX,
        i64::MIN + 1,
        1 << 32,
    ];
    let near = dice.between(-1, 1);
    let end = dice.pick(&ENDS);
    match dice.below(4) {
        0 => old.wrapping_add(dice.pick(&[-1, 1])),
        1 => end.wrapping_neg().wrapping_add(near),
        _ => end.wrapping_add(near),
    }
}

/// A state that is well formed for the network: counts within their distances, values of one random size,
/// some states with few values, some of them at their very ends.
pub fn random_state(dice: &mut Dice, network: &Network, words: &[i64]) -> Lent {
    let mut lent = Lent::with_rubbish(words, dice);
    let size = dice.pick(&[1_000, 10_000_000_000, 1_000_000_000_000_000, i64::MAX]);
    let zeros = dice.pick(&[0, 0, 50, 85]);
    let mut value = |low: i64, high: i64| {
        let (low, high) = (low.max(-size), high.min(size));
        let anything = dice.between(low, high);
        if dice.below(100) < zeros {
            0
        } else {
            dice.pick(&[low, high, anything, anything, anything, anything])
        }
    };
    for (word, range) in lent.records.iter_mut().zip(&state::record_ranges(network)) {
        *word = value(*range.start() as i64, *range.end() as i64);
    }
    let used = state::used_slots(network);
    let end = limits::HIGHEST_HISTORY as i64;
    for store in [&mut lent.froms, &mut lent.tos] {
        for (place, word) in store.iter_mut().enumerate() {
            *word = if place < used { value(-end, end) } else { 0 };
        }
    }
    set_counts(dice, network, &mut lent.records);
    set_peaks_and_latches(dice, network, &mut lent.records);
    lent
}

/// Peaks and latches that voltages, steps and counts allow, many of them at their very ends. An area that has taken no
/// step may have a peak too: its step 1 overwrites it.
pub fn set_peaks_and_latches(dice: &mut Dice, network: &Network, records: &mut [i64]) {
    let highest = limits::HIGHEST_VOLTAGE as i64;
    for node in 1..=network.node_count {
        let magnitude = records[state::voltage_place(node)].abs();
        let count = records[state::count_place(network.area_of[node])].max(0);
        let above = dice.between(magnitude, highest);
        let step = dice.between(0, count);
        records[state::peak_place(node)] = dice.pick(&[magnitude, magnitude, highest, above]);
        records[state::peak_step_place(node)] = dice.pick(&[0, count, step]);
    }
    for branch in &network.branches {
        let Some(breaker) = branch.breaker() else { continue };
        let count = records[state::count_place(network.area_of_branch(branch))];
        let chance = breaker.first_chance() as i64;
        let between = dice.between(chance, count.max(chance));
        let latch = dice.pick(&[0, 0, 0, chance, count, between]);
        records[state::latch_place(branch.row)] = if chance <= count { latch } else { 0 };
    }
}

/// All areas at one count first; then single areas are moved as far as their lines allow.
fn set_counts(dice: &mut Dice, network: &Network, records: &mut [i64]) {
    let steps = network.steps as i64;
    let anywhere = dice.between(0, steps);
    let level = dice.pick(&[0, 1, 2, 5, steps - 1, steps, anywhere, anywhere, anywhere]).clamp(0, steps);
    for area in 1..=network.area_count {
        records[state::count_place(area)] = level;
    }
    for _ in 0..2 * network.area_count {
        let area = 1 + dice.below(network.area_count);
        let (mut low, mut high) = (0, steps);
        for branch in &network.branches {
            let Some(travel) = branch.travel() else { continue };
            let (from, to) = (network.area_of[branch.from], network.area_of[branch.to]);
            if from != to && (from == area || to == area) {
                let far = records[state::count_place(if from == area { to } else { from })];
                low = low.max(far - travel.whole_steps as i64);
                high = high.min(far + travel.whole_steps as i64);
            }
        }
        let inside = dice.between(low, high);
        records[state::count_place(area)] = dice.pick(&[low, high, inside]);
    }
}

/// All areas at one count but for one, a step farther from the others than one of its lines allows.
fn part_too_far(dice: &mut Dice, network: &Network, records: &mut [i64]) {
    let areas = |line: &Branch| (network.area_of[line.from], network.area_of[line.to]);
    let parts = |line: &&Branch| line.is_line() && areas(line).0 != areas(line).1;
    let lines: Vec<&Branch> = network.branches.iter().filter(parts).collect();
    if lines.is_empty() {
        return;
    }
    let line = dice.pick(&lines);
    let apart = line.travel().map_or(0, |travel| travel.whole_steps as i64) + 1;
    let highest = network.steps as i64 - apart;
    if highest < 0 {
        return;
    }
    let level = dice.between(0, highest);
    for area in 1..=network.area_count {
        records[state::count_place(area)] = level;
    }
    let leading = dice.pick(&[areas(line).0, areas(line).1]);
    records[state::count_place(leading)] = level + apart;
}

/// The reader asked with a network of the right length and with wrong ones. What it reads is written out again.
pub fn ask_reading(calls: &Calls, text: &[u8], seed: u64, tally: &mut Tally) -> Result<(), Difference> {
    let mut dice = Dice::new(seed);
    let mut lengths = vec![record::NETWORK_WORDS];
    if dice.one_in(8) {
        lengths.extend([
            0,
            1,
            record::NETWORK_WORDS - 1,
            record::NETWORK_WORDS + 1,
            2 * record::NETWORK_WORDS,
        ]);
    }
    for length in lengths {
        let fill = dice.roll() as i64;
        let mut network = vec![fill; length];
        let (number, _) = lent::same_read(calls.read, text, &mut network)?;
        tally.passed += 1;
        tally.count(format!("read: {number:2}"));
        if number == 0 {
            writings::ask_back(calls, text, &network, tally)?;
        }
    }
    Ok(())
}
