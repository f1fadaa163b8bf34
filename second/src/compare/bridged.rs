//! The proved calls in another process, for a processor that cannot link them. The environment variable
//! `EMT_BRIDGE` names its command; the words that go to and fro are told by tests/callers/bridge.c.

use super::lent::Lendable;
use crate::layout::Layout;
use crate::list::Listed;
use crate::node::Asked;
use std::io::{self, BufWriter, Read, Write};
use std::ops::Range;
use std::process::{Child, ChildStdin, ChildStdout, Command, Stdio};
use std::sync::{Mutex, MutexGuard, OnceLock};

const COMMAND: &str = "EMT_BRIDGE";
/// Answers that no call gives. The first shows a call that leaves one beside its number unwritten; the other
/// stands for the number where a word changed that was not lent for writing.
const UNWRITTEN: u64 = 0xDEAD_BEEF_DEAD_BEEF;
const TRESPASS: u64 = 999_999_999;

/// Call, area, node or branch, second answer and three more (of a stop; a node's are the second and the first two), then
/// place and length of five lent pieces.
const HEAD_WORDS: usize = FIRST_PIECE + 2 * PIECES;
const SECOND: usize = 2;
const STOP: usize = 3;
const FIRST_PIECE: usize = 6;
const PIECES: usize = 5;
const NODE: u64 = 3;
const AREAS: u64 = 4;
const AREA: u64 = 5;
const ROW: u64 = 6;
const LIST: u64 = 7;
const WRITE: u64 = 8;
const LISTING: u64 = 9;
const NETWORK: usize = 0;
const RECORDS: usize = 1;
const BYTES: usize = 4;
/// A request goes in one piece, so that the bridge wakes once.
const REQUEST_BYTES: usize = 1 << 17;

/// Whether a bridge is named.
pub fn named() -> bool {
    std::env::var_os(COMMAND).is_some()
}

pub fn read(text: &[u8], network: &mut [i64]) -> (u64, u64) {
    let mut bridge = bridge();
    bridge.begin(0, 0);
    bridge.lend_words(NETWORK, network);
    bridge.lend_bytes(text);
    bridge.call();
    bridge.take_words(NETWORK, network);
    let told = bridge.answer(0);
    (told.number, told.written)
}

pub fn reset(network: &[i64], records: &mut [i64], froms: &mut [i64], tos: &mut [i64]) -> u64 {
    on_state(1, 0, network, [records, froms, tos], None).number
}

pub fn advance(
    network: &[i64],
    records: &mut [i64],
    froms: &mut [i64],
    tos: &mut [i64],
    area: u64,
) -> (u64, u64) {
    let told = on_state(2, area, network, [records, froms, tos], None);
    (told.number, told.written)
}

pub fn list(
    network: &[i64],
    records: &mut [i64],
    froms: &mut [i64],
    tos: &mut [i64],
    out: &mut [u8],
) -> Listed {
    on_state(LIST, 0, network, [records, froms, tos], Some(out))
}

pub fn write(network: &[i64], out: &mut [u8]) -> (u64, u64) {
    let mut bridge = bridge();
    bridge.begin(WRITE, 0);
    bridge.lend_words(NETWORK, network);
    bridge.lend_bytes(out);
    bridge.call();
    bridge.take_bytes(out);
    let told = bridge.answer(WRITE);
    (told.number, told.written)
}

pub fn node(network: &[i64], records: &[i64], node: u64) -> Asked {
    let mut bridge = bridge();
    bridge.begin(NODE, node);
    bridge.lend_words(NETWORK, network);
    bridge.lend_words(RECORDS, records);
    bridge.call();
    let told = bridge.answer(NODE);
    Asked { number: told.number, voltage: told.written as i64, peak: told.stop[0], step: told.stop[1] }
}

pub fn layout(network: &[i64], asked: Layout) -> (u64, u64) {
    let (call, number) = match asked {
        Layout::Areas => (AREAS, 0),
        Layout::AreaOf(node) => (AREA, node),
        Layout::RowOf(branch) => (ROW, branch),
    };
    let mut bridge = bridge();
    bridge.begin(call, number);
    bridge.lend_words(NETWORK, network);
    bridge.call();
    let told = bridge.answer(call);
    (told.number, told.written)
}

fn on_state(call: u64, area: u64, network: &[i64], state: [&mut [i64]; 3], out: Option<&mut [u8]>) -> Listed {
    let mut bridge = bridge();
    bridge.begin(call, area);
    bridge.lend_words(NETWORK, network);
    for (piece, words) in state.iter().enumerate() {
        bridge.lend_words(RECORDS + piece, words);
    }
    if let Some(out) = &out {
        bridge.lend_bytes(out);
    }
    bridge.call();
    for (piece, words) in state.into_iter().enumerate() {
        bridge.take_words(RECORDS + piece, words);
    }
    if let Some(out) = out {
        bridge.take_bytes(out);
    }
    bridge.answer(call)
}

pub struct Bridge {
    process: Child,
    requests: BufWriter<ChildStdin>,
    answers: ChildStdout,
    /// The block as it was sent; what is taken from the other is written here too, so that all else must be
    /// the same in both.
    sent: Vec<u8>,
    back: Vec<u8>,
}

/// The one bridge of the calls, started when it is first asked.
fn bridge() -> MutexGuard<'static, Bridge> {
    static BRIDGE: OnceLock<Mutex<Bridge>> = OnceLock::new();
    BRIDGE.get_or_init(|| Mutex::new(Bridge::start())).lock().expect("no comparing thread has failed")
}

impl Bridge {
    pub fn start() -> Bridge {
        let command = std::env::var_os(COMMAND).expect("EMT_BRIDGE names the bridge");
        let mut process = Command::new(command)
            .stdin(Stdio::piped())
            .stdout(Stdio::piped())
            .spawn()
            .unwrap_or_else(|error| panic!("the bridge does not start: {error}"));
        let requests = process.stdin.take().expect("the bridge's input is piped");
        let requests = BufWriter::with_capacity(REQUEST_BYTES, requests);
        let answers = process.stdout.take().expect("the bridge's output is piped");
        Bridge { process, requests, answers, sent: Vec::new(), back: Vec::new() }
    }

    /// What emtrun writes for this text; a note where the bridge ends over it, and a new bridge for the next.
    pub fn listing(&mut self, text: &[u8]) -> String {
        self.begin(LISTING, 0);
        self.lend_bytes(text);
        let mut length = [0; 8];
        let listed = self.send().and_then(|()| self.answers.read_exact(&mut length)).and_then(|()| {
            self.back.resize(u64::from_le_bytes(length) as usize, 0);
            self.answers.read_exact(&mut self.back)
        });
        if listed.is_err() {
            let ended = std::mem::replace(self, Bridge::start()).process.wait();
            return format!("(the bridge has ended: {})\n", ended.expect("it was started"));
        }
        String::from_utf8_lossy(&self.back).into_owned()
    }

    fn begin(&mut self, call: u64, area: u64) {
        self.sent.clear();
        self.sent.resize(8 * HEAD_WORDS, 0);
        self.set(0, call);
        self.set(1, area);
        for word in SECOND..FIRST_PIECE {
            self.set(word, UNWRITTEN);
        }
        self.guard(i64::GUARDS * 8);
    }

    fn set(&mut self, word: usize, value: u64) {
        self.sent[8 * word..][..8].copy_from_slice(&value.to_le_bytes());
    }

    fn guard(&mut self, bytes: usize) {
        self.sent.resize(self.sent.len() + bytes, u8::GUARD);
    }

    fn lend_words(&mut self, piece: usize, words: &[i64]) {
        let start = self.place(piece, words.len());
        self.sent.resize(start + 8 * words.len(), 0);
        for (place, word) in self.sent[start..].chunks_exact_mut(8).zip(words) {
            place.copy_from_slice(&word.to_le_bytes());
        }
        self.guard(i64::GUARDS * 8);
    }

    /// The text or the buffer; the last that is lent.
    fn lend_bytes(&mut self, bytes: &[u8]) {
        self.guard(u8::GUARDS);
        self.place(BYTES, bytes.len());
        self.sent.extend_from_slice(bytes);
        self.guard(u8::GUARDS + bytes.len().wrapping_neg() % 8);
    }

    /// Notes a piece of this length at the end of the block; answers with that end.
    fn place(&mut self, piece: usize, length: usize) -> usize {
        let start = self.sent.len();
        self.set(FIRST_PIECE + 2 * piece, (start / 8) as u64);
        self.set(FIRST_PIECE + 2 * piece + 1, length as u64);
        start
    }

    fn send(&mut self) -> io::Result<()> {
        let words = (self.sent.len() / 8) as u64;
        self.requests.write_all(&words.to_le_bytes())?;
        self.requests.write_all(&self.sent)?;
        self.requests.flush()
    }

    fn call(&mut self) {
        self.back.resize(self.sent.len(), 0);
        if self.send().and_then(|()| self.answers.read_exact(&mut self.back)).is_err() {
            panic!("the bridge has ended: {:?}", self.process.wait());
        }
    }

    /// Where a piece whose elements have so many bytes lies in the block.
    fn range(&self, piece: usize, size: usize) -> Range<usize> {
        let start = 8 * word_of(&self.sent, FIRST_PIECE + 2 * piece) as usize;
        start..start + size * word_of(&self.sent, FIRST_PIECE + 2 * piece + 1) as usize
    }

    fn take_words(&mut self, piece: usize, words: &mut [i64]) {
        let range = self.range(piece, 8);
        for (word, place) in words.iter_mut().zip(self.back[range.clone()].chunks_exact(8)) {
            *word = i64::from_le_bytes(place.try_into().expect("eight bytes"));
        }
        self.sent[range.clone()].copy_from_slice(&self.back[range]);
    }

    fn take_bytes(&mut self, bytes: &mut [u8]) {
        let range = self.range(BYTES, 1);
        bytes.copy_from_slice(&self.back[range.clone()]);
        self.sent[range].copy_from_slice(bytes);
    }

    /// All answers, once what was lent for writing is taken; `written` is the second one of any call. Only a
    /// listing writes all three of a stop, and the question for a node two of them.
    fn answer(&mut self, call: u64) -> Listed {
        let told = |word| word_of(&self.back, word);
        let (number, written, stop) = (told(0), told(SECOND), [told(STOP), told(STOP + 1), told(STOP + 2)]);
        self.set(0, number);
        self.set(SECOND, written);
        let more = match call {
            LIST => 3,
            NODE => 2,
            _ => 0,
        };
        for (place, value) in stop.into_iter().enumerate().take(more) {
            self.set(STOP + place, value);
        }
        Listed { number: if self.sent == self.back { number } else { TRESPASS }, written, stop }
    }
}

fn word_of(block: &[u8], word: usize) -> u64 {
    u64::from_le_bytes(block[8 * word..][..8].try_into().expect("eight bytes"))
}
