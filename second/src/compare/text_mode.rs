//! `compare texts`: the listings of the program `emtrun` against ours, by one process for each text or through
//! a bridge for each job.

use super::arguments::Arguments;
use super::bridged::Bridge;
use super::damage;
use super::dice::Dice;
use super::fixed;
use super::shrink;
use super::studies;
use super::tally::{Difference, Tally};
use crate::listing;
use std::io::Write;
use std::process::{Command, Stdio};
use std::sync::atomic::{AtomicUsize, Ordering};
use std::sync::Mutex;

/// A fault in the program would show in every text; a handful of them tells enough.
const MOST_REPORTS: u64 = 10;
const SHRINK_TRIES: usize = 1_500;

/// Who lists for the proved program: itself, started for each text, or a bridge.
enum Proved {
    Started(String),
    Bridged(Bridge),
}

impl Proved {
    fn of(arguments: &Arguments) -> Proved {
        match arguments.text("--emtrun") {
            Some(program) => Proved::Started(program),
            None => Proved::Bridged(Bridge::start()),
        }
    }

    fn listing(&mut self, text: &[u8]) -> String {
        match self {
            Proved::Started(program) => listing_by(program, text),
            Proved::Bridged(bridge) => bridge.listing(text),
        }
    }
}

/// Compares the chosen texts; true where no listing differs.
pub fn compare_texts(arguments: &Arguments) -> bool {
    let seed = arguments.number("--seed", 1);
    let jobs = arguments.number("--jobs", 1).max(1) as usize;
    println!("seed {seed}");
    let texts = chosen_texts(arguments, seed);
    let tally = Mutex::new(Tally::default());
    let next = AtomicUsize::new(0);
    std::thread::scope(|scope| {
        for _ in 0..jobs {
            scope.spawn(|| {
                let mut proved = Proved::of(arguments);
                while let Some(text) = texts.get(next.fetch_add(1, Ordering::Relaxed)) {
                    compare_text(&mut proved, text, &tally);
                }
            });
        }
    });
    let tally = tally.into_inner().expect("no comparing thread has failed");
    tally.finish()
}

/// Every `--fixed`th text of the fixed list (0 for none), every one-byte edit of `--edits` texts, then
/// `--count` random texts from number `--first` on. A random text depends on the seed and its own number
/// alone, so a long comparison can be run in parts.
fn chosen_texts(arguments: &Arguments, seed: u64) -> Vec<Vec<u8>> {
    let mut texts = Vec::new();
    let stride = arguments.number("--fixed", 10) as usize;
    if stride > 0 {
        texts.extend(fixed::bad_inputs().into_iter().step_by(stride).map(|(_, text)| text));
    }
    for example in fixed::examples().iter().rev().take(arguments.number("--edits", 3) as usize) {
        texts.extend(damage::one_byte_edits(example.as_bytes(), &damage::TELLING_BYTES));
    }
    let first = arguments.number("--first", 0);
    for index in first..first + arguments.number("--count", 1000) {
        texts.push(numbered_text(seed, index));
    }
    texts
}

/// Two of three random texts are good studies, the third is damaged.
pub fn numbered_text(seed: u64, index: u64) -> Vec<u8> {
    let mut dice = Dice::new(seed.wrapping_mul(0x0100_0000_01b3).wrapping_add(index));
    let text = studies::random_text(&mut dice);
    if dice.one_in(3) {
        damage::damaged(&mut dice, &text)
    } else {
        text
    }
}

fn compare_text(proved: &mut Proved, text: &[u8], tally: &Mutex<Tally>) {
    let (ours, ending) = listing::listing_and_ending(text);
    let same = proved.listing(text) == ours;
    let mut tally = tally.lock().expect("no comparing thread has failed");
    tally.count_ending(ending);
    if same {
        tally.passed += 1;
    } else if tally.failed >= MOST_REPORTS {
        tally.failed += 1;
    } else {
        let differs = &mut |text: &[u8]| proved.listing(text) != listing::listing_of(text);
        let small = shrink::smallest(text, SHRINK_TRIES, differs);
        tally.report(&small, &first_difference(&listing::listing_of(&small), &proved.listing(&small)));
    }
}

/// Both listings from the first line on where they part.
fn first_difference(ours: &str, theirs: &str) -> Difference {
    let same = ours.lines().zip(theirs.lines()).take_while(|(our, their)| our == their).count();
    let rest = |listing: &str| listing.split_inclusive('\n').skip(same).take(5).collect::<String>();
    let question = format!("in line {} of the listing", same + 1);
    Difference { question, ours: rest(ours), theirs: rest(theirs) }
}

/// What the program writes; with a note where it dies or writes anything beside the listing.
fn listing_by(program: &str, text: &[u8]) -> String {
    let mut child = Command::new(program)
        .stdin(Stdio::piped())
        .stdout(Stdio::piped())
        .stderr(Stdio::piped())
        .spawn()
        .unwrap_or_else(|error| panic!("{program} does not start: {error}"));
    let mut input = child.stdin.take().expect("the child's input is piped");
    // A program may stop reading at once where a text is too long; that is no difference by itself.
    let _ = input.write_all(text);
    drop(input);
    let output = child.wait_with_output().expect("the child's output can be read");
    let mut listing = String::from_utf8_lossy(&output.stdout).into_owned();
    if output.status.code().is_none() || !output.stderr.is_empty() {
        let message = String::from_utf8_lossy(&output.stderr);
        listing.push_str(&format!("({}; message: {message})\n", output.status));
    }
    listing
}

/// `compare endings`: how often each ending comes up in the random texts; nothing is compared.
pub fn count_endings(arguments: &Arguments) -> bool {
    let seed = arguments.number("--seed", 1);
    println!("seed {seed}");
    let mut tally = Tally::default();
    for index in 0..arguments.number("--count", 1000) {
        let text = numbered_text(seed, index);
        tally.count_ending(listing::listing_and_ending(&text).1);
        tally.passed += 1;
    }
    tally.finish()
}
