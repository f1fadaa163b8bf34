//! Lent memory for one question: our calls work on it directly, the others on a copy between guard words.

use super::dice::Dice;
use super::foreign::{AdvanceCall, LayoutCall, ListCall, NodeCall, ReadCall, ResetCall, WriteCall};
use super::tally::Difference;
use crate::calls;
use crate::layout::{self, Layout};
use crate::list::{self, Listed, STEP_ROOM};
use crate::node::{self, Asked};
use crate::state::{RECORD_WORDS, STORE_WORDS};
use crate::write;
use std::fmt::Display;

/// What is lent in slices, and what stands around them.
pub trait Lendable: Copy + PartialEq + Display {
    const NAME: &'static str;
    const GUARD: Self;
    /// On either side; wide enough that a whole step written too far is seen and does no harm.
    const GUARDS: usize;
}

impl Lendable for i64 {
    const NAME: &'static str = "word";
    const GUARD: i64 = 0x5AFE_6A4D_0BAD_F00D;
    const GUARDS: usize = 64;
}

impl Lendable for u8 {
    const NAME: &'static str = "byte";
    const GUARD: u8 = 0xA5;
    const GUARDS: usize = STEP_ROOM;
}

/// A copy of a lent slice with guards on both sides that nobody may change.
pub struct Guarded<T> {
    all: Vec<T>,
}

impl<T: Lendable> Guarded<T> {
    pub fn around(content: &[T]) -> Guarded<T> {
        let guard = vec![T::GUARD; T::GUARDS];
        Guarded { all: [&guard, content, &guard].concat() }
    }

    pub fn lent(&mut self) -> &mut [T] {
        let end = self.all.len() - T::GUARDS;
        &mut self.all[T::GUARDS..end]
    }

    fn content(&self) -> &[T] {
        &self.all[T::GUARDS..self.all.len() - T::GUARDS]
    }

    fn intact(&self) -> bool {
        let (before, rest) = self.all.split_at(T::GUARDS);
        let after = &rest[rest.len() - T::GUARDS..];
        before.iter().chain(after).all(|guard| *guard == T::GUARD)
    }

    /// Where the copy differs from what is wanted, or a guard was changed; empty if nowhere.
    fn differences(&self, name: &str, wanted: &[T]) -> Vec<String> {
        let content = self.content();
        let mut found = Vec::new();
        if !self.intact() {
            found.push(format!("{}s around the lent {name} were changed", T::NAME));
        }
        if content != wanted {
            let places = (0..wanted.len()).filter(|place| content[*place] != wanted[*place]);
            let shown = places.take(6).map(|place| {
                format!("{name} {} {place}: wanted {}, found {}", T::NAME, wanted[place], content[place])
            });
            found.extend(shown);
        }
        found
    }
}

/// Network, records and both line stores.
#[derive(Clone, PartialEq, Debug)]
pub struct Lent {
    pub network: Vec<i64>,
    pub records: Vec<i64>,
    pub froms: Vec<i64>,
    pub tos: Vec<i64>,
}

impl Lent {
    /// The network given, everything else filled with what must be overwritten or left alone.
    pub fn with_rubbish(network: &[i64], dice: &mut Dice) -> Lent {
        Lent {
            network: network.to_vec(),
            records: rubbish(dice, RECORD_WORDS),
            froms: rubbish(dice, STORE_WORDS),
            tos: rubbish(dice, STORE_WORDS),
        }
    }

    /// The network given, at rest.
    pub fn at_rest(network: &[i64]) -> Lent {
        Lent {
            network: network.to_vec(),
            records: vec![0; RECORD_WORDS],
            froms: vec![0; STORE_WORDS],
            tos: vec![0; STORE_WORDS],
        }
    }

    /// The lent slices by number: network, records, from-end store, to-end store.
    pub fn slice(&mut self, number: usize) -> &mut Vec<i64> {
        match number {
            0 => &mut self.network,
            1 => &mut self.records,
            2 => &mut self.froms,
            _ => &mut self.tos,
        }
    }
}

pub fn rubbish(dice: &mut Dice, length: usize) -> Vec<i64> {
    (0..length).map(|_| dice.roll() as i64).collect()
}

pub fn rubbish_bytes(dice: &mut Dice, length: usize) -> Vec<u8> {
    let mut bytes = vec![0; length];
    for some in bytes.chunks_mut(8) {
        let random = dice.roll().to_le_bytes();
        some.copy_from_slice(&random[..some.len()]);
    }
    bytes
}

fn settle(question: String, ours: String, theirs: String, found: Vec<String>) -> Result<(), Difference> {
    if ours == theirs && found.is_empty() {
        return Ok(());
    }
    let theirs = format!("{theirs}\n{}", found.join("\n"));
    Err(Difference { question, ours, theirs })
}

/// Asks both readers; answers ours where answer, line and every word agree.
pub fn same_read(call: ReadCall, text: &[u8], network: &mut [i64]) -> Result<(u64, u64), Difference> {
    let mut copy = Guarded::around(network);
    let theirs = call(text, copy.lent());
    let ours = calls::read(text, network);
    if ours == theirs && copy.content() == network && copy.intact() {
        return Ok(ours);
    }
    let found = copy.differences("network", network);
    let question = format!("in reading, network of {} words", network.len());
    settle(question, shown_read(ours), shown_read(theirs), found).map(|()| ours)
}

fn shown_read(answer: (u64, u64)) -> String {
    format!("number {}, line {}", answer.0, answer.1)
}

/// The guarded copies of all four lent slices.
struct Copies {
    network: Guarded<i64>,
    records: Guarded<i64>,
    froms: Guarded<i64>,
    tos: Guarded<i64>,
}

impl Copies {
    fn of(lent: &Lent) -> Copies {
        Copies {
            network: Guarded::around(&lent.network),
            records: Guarded::around(&lent.records),
            froms: Guarded::around(&lent.froms),
            tos: Guarded::around(&lent.tos),
        }
    }

    fn differences(&self, wanted: &Lent) -> Vec<String> {
        let mut found = self.network.differences("network", &wanted.network);
        found.extend(self.records.differences("records", &wanted.records));
        found.extend(self.froms.differences("from-end store", &wanted.froms));
        found.extend(self.tos.differences("to-end store", &wanted.tos));
        found
    }
}

pub fn same_reset(call: ResetCall, lent: &mut Lent) -> Result<u64, Difference> {
    let mut copies = Copies::of(lent);
    let theirs = call(copies.network.lent(), copies.records.lent(), copies.froms.lent(), copies.tos.lent());
    let ours = calls::reset(&lent.network, &mut lent.records, &mut lent.froms, &mut lent.tos);
    let found = copies.differences(lent);
    settle("in resetting".to_string(), format!("number {ours}"), format!("number {theirs}"), found)
        .map(|()| ours)
}

/// Asks both for one advance; answers ours, with `lent` as we leave it, where everything agrees.
pub fn same_advance(call: AdvanceCall, lent: &mut Lent, area: u64) -> Result<(u64, u64), Difference> {
    let mut copies = Copies::of(lent);
    let theirs =
        call(copies.network.lent(), copies.records.lent(), copies.froms.lent(), copies.tos.lent(), area);
    let before = lent.records.clone();
    let ours = calls::advance(&lent.network, &mut lent.records, &mut lent.froms, &mut lent.tos, area);
    let found = copies.differences(lent);
    if ours == theirs && found.is_empty() {
        return Ok(ours);
    }
    let question = format!("in advancing area {area}, records before the call: {}", nonzero(&before));
    let shown = |answer: (u64, u64)| format!("number {}, place or count {}", answer.0, answer.1);
    settle(question, shown(ours), shown(theirs), found).map(|()| ours)
}

/// Asks both to list into the buffer; answers ours, with `lent` and `out` as we leave them, where everything
/// agrees, the bytes behind the listing too.
pub fn same_list(call: ListCall, lent: &mut Lent, out: &mut [u8]) -> Result<Listed, Difference> {
    let mut copies = Copies::of(lent);
    let mut buffer = Guarded::around(out);
    let theirs = call(
        copies.network.lent(),
        copies.records.lent(),
        copies.froms.lent(),
        copies.tos.lent(),
        buffer.lent(),
    );
    let before = lent.records.clone();
    let ours = list::list(&lent.network, &mut lent.records, &mut lent.froms, &mut lent.tos, out);
    let mut found = copies.differences(lent);
    found.extend(buffer.differences("buffer", out));
    if ours == theirs && found.is_empty() {
        return Ok(ours);
    }
    let question = format!("in listing into {} bytes, records before: {}", out.len(), nonzero(&before));
    let same = out.iter().zip(buffer.content()).take_while(|(our, their)| our == their).count();
    let ours_shown = shown_list(ours, out, same);
    settle(question, ours_shown, shown_list(theirs, buffer.content(), same), found).map(|()| ours)
}

/// Asks both to write the network's text into the area; answers ours, with `out` as we leave it, where answer,
/// bytes told, network and every byte of the area agree.
pub fn same_write(call: WriteCall, network: &[i64], out: &mut [u8]) -> Result<(u64, u64), Difference> {
    let (mut words, mut area) = (Guarded::around(network), Guarded::around(out));
    let theirs = call(words.lent(), area.lent());
    let ours = write::write(network, out);
    let mut found = words.differences("network", network);
    found.extend(area.differences("area", out));
    if ours == theirs && found.is_empty() {
        return Ok(ours);
    }
    let question = format!("in writing {} words into {} bytes", network.len(), out.len());
    let shown = |answer: (u64, u64), out: &[u8]| {
        let text = &out[..out.len().min(answer.1 as usize)];
        format!("number {}, {} bytes written: {}", answer.0, answer.1, text.escape_ascii())
    };
    let theirs = shown(theirs, area.content());
    settle(question, shown(ours, out), theirs, found).map(|()| ours)
}

/// Asks both for a node; answers ours where number, voltage, peak and step agree and nothing lent has changed.
pub fn same_node(call: NodeCall, network: &[i64], records: &[i64], number: u64) -> Result<Asked, Difference> {
    let (mut words, mut state) = (Guarded::around(network), Guarded::around(records));
    let theirs = call(words.lent(), state.lent(), number);
    let ours = node::node(network, records, number);
    let mut found = words.differences("network", network);
    found.extend(state.differences("records", records));
    if ours == theirs && found.is_empty() {
        return Ok(ours);
    }
    let lengths = format!("{} and {} words", network.len(), records.len());
    let question = format!("in asking for node {number}, {lengths}, records: {}", nonzero(records));
    settle(question, format!("{ours:?}"), format!("{theirs:?}"), found).map(|()| ours)
}

/// Asks both how the network is laid out; answers ours where number and what is told agree and nothing lent has
/// changed.
pub fn same_layout(call: LayoutCall, network: &[i64], asked: Layout) -> Result<(u64, u64), Difference> {
    let mut words = Guarded::around(network);
    let theirs = call(words.lent(), asked);
    let ours = layout::layout(network, asked);
    let found = words.differences("network", network);
    if ours == theirs && found.is_empty() {
        return Ok(ours);
    }
    let question = format!("in asking for {asked:?}, {} words: {}", network.len(), nonzero(network));
    let shown = |answer: (u64, u64)| format!("number {}, told {}", answer.0, answer.1);
    settle(question, shown(ours), shown(theirs), found).map(|()| ours)
}

/// The answer, and what is listed from the line on in which the two part.
fn shown_list(answer: Listed, out: &[u8], same: usize) -> String {
    let listed = &out[..out.len().min(answer.written as usize)];
    let common = &listed[..same.min(listed.len())];
    let start = common.iter().rposition(|byte| *byte == b'\n').map_or(0, |place| place + 1);
    let lines = String::from_utf8_lossy(&listed[start..listed.len().min(start + 300)]).into_owned();
    let Listed { number, written, stop: [area, refusal, place] } = answer;
    format!(
        "number {number}, {written} bytes written, stop {area} {refusal} {place}; from byte {start} on:\n{lines}"
    )
}

/// The words that are not zero, with their places, as far as a reader would follow.
fn nonzero(words: &[i64]) -> String {
    let used = words.iter().enumerate().filter(|(_, word)| **word != 0);
    let shown: Vec<String> = used.take(20).map(|(place, word)| format!("{place}: {word}")).collect();
    if shown.is_empty() {
        "all zero".to_string()
    } else {
        shown.join(", ")
    }
}
