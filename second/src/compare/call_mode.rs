//! `compare calls`: the proved library's calls against ours, every lent word after every call.

use super::arguments::Arguments;
use super::cosine_slips;
use super::damage;
use super::dice::Dice;
use super::ends_mode;
use super::fixed;
use super::foreign::{self, Calls};
use super::latch_slips;
use super::latches;
use super::layout_slips;
use super::layouts;
use super::list_slips;
use super::listings;
use super::moves::{self, Depth};
use super::nodes;
use super::peak_slips;
use super::shrink;
use super::slips;
use super::studies;
use super::tally::{Difference, Tally};
use super::text_mode;
use super::travel_slips;
use super::travels;
use super::waves;
use super::widest;
use super::write_slips;
use super::writings;

const MOST_REPORTS: u64 = 10;
const SHRINK_TRIES: usize = 3_000;
/// Every how manyth study has each single word changed; that asks some 20,000 questions.
const EVERY_WORD_TURN: u64 = 500;

/// So many studies have travel times, parts of a turn, current zeros, odd peaks and odd latches of every kind.
const ALL_KINDS: u64 = 1_000;

pub type Question<'a> = &'a dyn Fn(&[u8], &mut Tally) -> Result<(), Difference>;

/// Compares the linked library; true where nothing differs.
pub fn compare_calls(arguments: &Arguments) -> bool {
    let Some(calls) = foreign::proved_calls() else {
        println!(
            "built without the proved library: see README.md for the features read, reset, advance, list, write, node, layout"
        );
        return false;
    };
    let seed = arguments.number("--seed", 1);
    println!("seed {seed}");
    let extent = Extent::of(arguments, seed);
    let mut tally = compare_all(&calls, &extent, true);
    if extent.studies >= ALL_KINDS {
        travels::miss_nothing(&mut tally);
        waves::miss_nothing(&mut tally);
    }
    if calls.node.is_some() && extent.studies >= ALL_KINDS {
        nodes::miss_nothing(&mut tally);
        latches::miss_nothing(&mut tally);
    }
    if calls.write.is_some() {
        writings::miss_nothing(&mut tally);
    }
    if calls.layout.is_some() && extent.studies >= ALL_KINDS {
        layouts::miss_nothing(&mut tally);
    }
    tally.finish()
}

/// How much is compared.
struct Extent {
    seed: u64,
    /// Every how manyth text of the fixed list; 0 for none.
    fixed_list: usize,
    edits: usize,
    texts: u64,
    studies: u64,
    first: u64,
}

impl Extent {
    fn of(arguments: &Arguments, seed: u64) -> Extent {
        let studies = arguments.number("--count", 1000);
        Extent {
            seed,
            fixed_list: arguments.number("--fixed", 1) as usize,
            edits: arguments.number("--edits", 3) as usize,
            texts: arguments.number("--texts", 10 * studies),
            studies,
            first: arguments.number("--first", 0),
        }
    }
}

fn compare_all(calls: &Calls, extent: &Extent, aloud: bool) -> Tally {
    let mut tally = Tally::default();
    compare_reading(calls, extent, aloud, &mut tally);
    compare_fixed_studies(calls, aloud, &mut tally);
    for index in extent.first..extent.first + extent.studies {
        if stop_early(&tally, aloud) {
            break;
        }
        let seed = extent.seed.wrapping_mul(0x0100_0000_01b3).wrapping_add(index);
        let text = studies::random_text(&mut Dice::new(seed));
        travels::count_text(&text, &mut tally);
        waves::count_text(&text, &mut tally);
        let depth = if index % EVERY_WORD_TURN == 0 { Depth::EveryWord } else { Depth::Usual };
        let failed = tally.failed;
        ask(&text, aloud, &mut tally, &|text, tally| {
            moves::ask_moves(calls, text, seed, depth, tally)?;
            layouts::ask_layouts(calls, text, seed, depth, tally)?;
            listings::ask_listings(calls, text, seed, depth, tally)?;
            writings::ask_writings(calls, text, seed, depth, tally)?;
            nodes::ask_nodes(calls, text, seed, depth, tally)?;
            latches::ask_latches(calls, text, seed, depth, tally)
        });
        if aloud && tally.failed > failed {
            println!("found at study number {index}: --first {index} --count 1 asks it again\n");
        }
    }
    tally
}

/// The fixed list, every one-byte edit of some examples, then good and damaged random texts.
fn compare_reading(calls: &Calls, extent: &Extent, aloud: bool, tally: &mut Tally) {
    // The seed follows from the text alone, so that a smaller text is asked in a way of its own.
    let seed_of =
        |text: &[u8]| text.iter().fold(0u64, |sum, byte| sum.wrapping_mul(31).wrapping_add((*byte).into()));
    let read = |text: &[u8], tally: &mut Tally| moves::ask_reading(calls, text, seed_of(text), tally);
    if extent.fixed_list > 0 {
        for (part, text) in fixed::bad_inputs().into_iter().step_by(extent.fixed_list) {
            tally.count(format!("fixed list: {part}"));
            ask(&text, aloud, tally, &read);
        }
    }
    let every_byte: Vec<u8> = (0..=255).collect();
    for example in fixed::examples().iter().rev().take(extent.edits) {
        for text in damage::one_byte_edits(example.as_bytes(), &every_byte) {
            ask(&text, aloud, tally, &read);
        }
    }
    for index in extent.first..extent.first + extent.texts {
        ask(&text_mode::numbered_text(extent.seed, index), aloud, tally, &read);
    }
}

/// What random studies do not come to: the widest step, the longest text, a study without areas, and each place of a
/// power-frequency source's turn.
fn compare_fixed_studies(calls: &Calls, aloud: bool, tally: &mut Tally) {
    ask(&widest::text(), aloud, tally, &|text, tally| listings::ask_widest(calls, text, tally));
    for text in ["study\t1000\t1\t0\n", "study\t1\t1000000\t0\n"] {
        ask(text.as_bytes(), aloud, tally, &|text, tally| {
            listings::ask_listings(calls, text, 0, Depth::Usual, tally)?;
            writings::ask_writings(calls, text, 0, Depth::Usual, tally)?;
            nodes::ask_nodes(calls, text, 0, Depth::Usual, tally)?;
            layouts::ask_layouts(calls, text, 0, Depth::Usual, tally)
        });
    }
    ask(&writings::longest_text(), aloud, tally, &|text, tally| {
        writings::ask_writings(calls, text, 0, Depth::Usual, tally)?;
        layouts::ask_layouts(calls, text, 0, Depth::Usual, tally)
    });
    for text in waves::every_place() {
        ask(&text, aloud, tally, &|text, tally| waves::ask_place(calls, text, tally));
    }
}

/// A slip is found by its first difference; the proved library gets a handful of reports.
fn stop_early(tally: &Tally, aloud: bool) -> bool {
    tally.failed >= if aloud { MOST_REPORTS } else { 1 }
}

pub fn ask(text: &[u8], aloud: bool, tally: &mut Tally, question: Question) {
    if stop_early(tally, aloud) {
        return;
    }
    let Err(difference) = question(text, tally) else { return };
    if !aloud {
        tally.failed += 1;
        return;
    }
    let differs = &mut |text: &[u8]| question(text, &mut Tally::default()).is_err();
    let small = shrink::smallest(text, SHRINK_TRIES, differs);
    let shown = question(&small, &mut Tally::default()).err().unwrap_or(difference);
    tally.report(&small, &shown);
}

/// `compare self`: the comparison compared. Our own calls must show no difference, and each set of calls
/// with a planted slip must show one.
pub fn compare_self(arguments: &Arguments) -> bool {
    let seed = arguments.number("--seed", 1);
    println!("seed {seed}");
    let studies = arguments.number("--count", 200);
    let extent = Extent { seed, fixed_list: 1, edits: 1, texts: 2 * studies, studies, first: 0 };
    let mut tally = compare_all(&slips::own_calls(), &extent, true);
    writings::miss_nothing(&mut tally);
    nodes::miss_nothing(&mut tally);
    layouts::miss_nothing(&mut tally);
    // The planted ones need no list of texts but where the slip is the reader's.
    let planted = [
        slips::planted(),
        layout_slips::planted(),
        travel_slips::planted(),
        list_slips::planted(),
        write_slips::planted(),
        peak_slips::planted(),
        cosine_slips::planted(),
        latch_slips::planted(),
    ]
    .concat();
    for (name, calls, in_reader) in planted {
        let extent = Extent { fixed_list: usize::from(in_reader), edits: 0, texts: 50, ..extent };
        let found = compare_all(&calls, &extent, false).failed > 0;
        println!("{} planted slip: {name}", if found { "found" } else { "NOT FOUND" });
        if found {
            tally.passed += 1;
        } else {
            tally.failed += 1;
        }
    }
    ends_mode::find_planted(seed, &mut tally);
    tally.finish()
}
