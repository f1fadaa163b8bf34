//! What is asked of the writer. A text that was read must come back byte for byte, and what is written of a
//! network must be read as that network again. Everything follows from the text and a seed, so that a
//! difference can be shown again on a smaller text.

use super::dice::Dice;
use super::edges;
use super::exact::row;
use super::foreign::{Calls, ReadCall, WriteCall};
use super::lent::{rubbish_bytes, same_read, same_write};
use super::moves::{self, Depth};
use super::studies::HIGHEST_LIMIT;
use super::tally::{Difference, Tally};
use crate::limits;
use crate::network::{Kind, Study};
use crate::reader;
use crate::record::{self, NETWORK_WORDS};
use crate::write::TEXT_ROOM;

const CHANGES: usize = 8;

/// The network of a text that was read, written out again: the same bytes.
pub fn ask_back(calls: &Calls, text: &[u8], network: &[i64], tally: &mut Tally) -> Result<(), Difference> {
    let Some(write) = calls.write else { return Ok(()) };
    let mut asker = WriteAsker { write, read: calls.read, tally, dice: Dice::new(text.len() as u64) };
    let (_, written) = asker.ask_write(network, TEXT_ROOM)?;
    if written != text {
        let shown = |bytes: &[u8]| bytes.escape_ascii().to_string();
        let question = "in writing what was read".to_string();
        return Err(Difference { question, ours: shown(text), theirs: shown(&written) });
    }
    asker.tally.count("write: texts given back");
    Ok(())
}

/// Asks all about writing the network of a text; a text that is no study asks nothing.
pub fn ask_writings(
    calls: &Calls,
    text: &[u8],
    seed: u64,
    depth: Depth,
    tally: &mut Tally,
) -> Result<(), Difference> {
    let (Some(write), Ok(study)) = (calls.write, reader::read_study(text)) else { return Ok(()) };
    let mut asker = WriteAsker { write, read: calls.read, tally, dice: Dice::new(seed) };
    let words = record::record_of(&study);
    asker.write_and_read(&words)?;
    asker.wrong_lengths(&words)?;
    let places = match depth {
        Depth::EveryWord => (0..words.len()).collect(),
        Depth::Usual => asker.some_places(&words),
    };
    for place in places {
        let mut changed = words.clone();
        changed[place] = asker.other_word(words[place]);
        asker.write_and_read(&changed)?;
    }
    Ok(())
}

/// The longest text there is: the longest line of a branch and of a source, as often as a table holds them.
pub fn longest_text() -> Vec<u8> {
    let switch =
        row(Kind::TimedSwitch, &[31, 32, *limits::MILLIOHM.end(), 1_000_000, *limits::SWITCH_STEP.end()]);
    let source = row(
        Kind::CurrentSource,
        &[32, *limits::INJECTION.start(), *limits::SOURCE_START.end(), *limits::SOURCE_RISE.end()],
    );
    let mut rows = Vec::new();
    for _ in 0..limits::MOST_SOURCES {
        rows.push(source.clone());
        rows.extend(vec![switch.clone(); limits::MOST_BRANCHES / limits::MOST_SOURCES]);
    }
    let (step_length, steps) = (*limits::STEP_LENGTH.end(), *limits::STEPS.end());
    record::text_of(&Study { step_length, steps, limit: HIGHEST_LIMIT, rows }).into_bytes()
}

/// A comparison that never met an acceptance or a refusal of the writer has compared less than it says.
pub fn miss_nothing(tally: &mut Tally) {
    for number in [0, 8, 9] {
        if tally.counted(&answered(number)) == 0 {
            println!("NOT MET {}", answered(number));
            tally.failed += 1;
        }
    }
}

fn answered(number: u64) -> String {
    format!("write: {number:2}")
}

struct WriteAsker<'a> {
    write: WriteCall,
    read: ReadCall,
    tally: &'a mut Tally,
    dice: Dice,
}

impl WriteAsker<'_> {
    /// Asks both to write into an area of rubbish; answers the number and the text.
    fn ask_write(&mut self, network: &[i64], room: usize) -> Result<(u64, Vec<u8>), Difference> {
        let mut out = rubbish_bytes(&mut self.dice, room);
        let (number, written) = same_write(self.write, network, &mut out)?;
        self.tally.passed += 1;
        self.tally.count(answered(number));
        out.truncate(written as usize);
        Ok((number, out))
    }

    /// What is written of a network that is accepted must be read as the same words.
    fn write_and_read(&mut self, network: &[i64]) -> Result<(), Difference> {
        let room = self.room();
        let (0, text) = self.ask_write(network, room)? else { return Ok(()) };
        let mut again = vec![self.dice.roll() as i64; NETWORK_WORDS];
        let answer = same_read(self.read, &text, &mut again)?;
        if answer != (0, 0) || again != network {
            let question = format!("in reading what was written: {}", text.escape_ascii());
            let ours = "the network that was written".to_string();
            return Err(Difference { question, ours, theirs: format!("number {}, {again:?}", answer.0) });
        }
        self.tally.passed += 1;
        self.tally.count("write: networks read again");
        Ok(())
    }

    fn room(&mut self) -> usize {
        let anything = self.dice.between(TEXT_ROOM as i64, 20_000) as usize;
        self.dice.pick(&[TEXT_ROOM, TEXT_ROOM, TEXT_ROOM, TEXT_ROOM, TEXT_ROOM + 1, anything])
    }

    /// An area that is too short, a network of a wrong length, and both; with a network that would be refused
    /// by 8 too.
    fn wrong_lengths(&mut self, words: &[i64]) -> Result<(), Difference> {
        let mut damaged = words.to_vec();
        damaged[4] = 1;
        self.ask_write(&damaged, TEXT_ROOM)?;
        let network = if self.dice.one_in(2) { words.to_vec() } else { damaged };
        let anything = self.dice.below(TEXT_ROOM);
        let short = self.dice.pick(&[0, 1, TEXT_ROOM - 1, TEXT_ROOM - 1, anything]);
        self.ask_write(&network, short)?;
        let right = words.len();
        let mut other = network;
        other.resize(self.dice.pick(&[0, 1, right - 1, right + 1, 2 * right]), 0);
        let room = self.dice.pick(&[short, TEXT_ROOM, TEXT_ROOM, TEXT_ROOM]);
        self.ask_write(&other, room)?;
        Ok(())
    }

    /// Places of words to change, most of them in the rows in use.
    fn some_places(&mut self, words: &[i64]) -> Vec<usize> {
        let in_use = 8 + 8 * words[3] as usize + 8;
        let mut place = || {
            let end = if self.dice.one_in(6) { words.len() } else { in_use.min(words.len()) };
            self.dice.below(end)
        };
        (0..CHANGES).map(|_| place()).collect()
    }

    /// A small number, one of any length, the number of the other sign, or one at an end of some range.
    fn other_word(&mut self, old: i64) -> i64 {
        let long = self.dice.spread(1, 2_000_000_000_000_000);
        match self.dice.below(8) {
            0 | 1 => self.dice.between(0, 9),
            2 => long,
            3 => -long,
            4 => old.wrapping_neg(),
            5 => self.dice.pick(&edges::well_spelt()).parse().unwrap_or(old),
            _ => moves::odd_word(&mut self.dice, old),
        }
    }
}
