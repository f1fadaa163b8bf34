//! Power-frequency sources in a comparison: which parts of a turn came up in its studies, and every place of the turn
//! with peaks that tell its cosine.

use super::exact::row;
use super::foreign::Calls;
use super::lent::{same_advance, Lent};
use super::tally::{Difference, Tally};
use crate::cosine;
use crate::limits::{self, Whole};
use crate::network::{self, Course, Kind, Network, Source, Study};
use crate::reader;
use crate::record;
use crate::state;

const KINDS: [&str; 9] = [
    "cosine: before its start",
    "cosine: at its start",
    "cosine: first quarter",
    "cosine: second quarter",
    "cosine: third quarter",
    "cosine: fourth quarter",
    "cosine: at the end of a quarter",
    "cosine: after a whole turn",
    "cosine: below zero and rounded",
];

/// Counts the power-frequency sources of a text's study by what their values go through; a text that is no study
/// counts nothing.
pub fn count_text(text: &[u8], tally: &mut Tally) {
    let Ok(study) = reader::read_study(text) else { return };
    for source in &Network::of_study(&study).sources {
        let met: Vec<[bool; 9]> = (1..=study.steps).filter_map(|step| kinds_at(source, step)).collect();
        for (place, kind) in KINDS.into_iter().enumerate() {
            if met.iter().any(|kinds| kinds[place]) {
                tally.count(kind);
            }
        }
    }
}

/// Counts what the power-frequency sources of an area go through at a step that no run came to.
pub fn count_step(network: &Network, area: usize, step: Whole, tally: &mut Tally) {
    for source in network.sources.iter().filter(|source| network.area_of[source.node] == area) {
        let Some(met) = kinds_at(source, step) else { continue };
        for kind in KINDS.into_iter().zip(met).filter(|(_, met)| *met).map(|(kind, _)| kind) {
            tally.count(kind);
        }
    }
}

/// A comparison that never met some part of a turn has compared less than it says.
pub fn miss_nothing(tally: &mut Tally) {
    for kind in KINDS {
        if tally.counted(kind) == 0 {
            println!("NOT MET {kind}");
            tally.failed += 1;
        }
    }
}

/// What holds of a power-frequency source at a step.
fn kinds_at(source: &Source, step: Whole) -> Option<[bool; 9]> {
    let Course::Cosine { frequency, step_length } = source.course else { return None };
    let since_start = step - source.start;
    if since_start < 0 {
        let mut before = [false; 9];
        before[0] = true;
        return Some(before);
    }
    let index = network::cosine_index(since_start, step_length, frequency);
    let around = since_start * step_length * frequency;
    let exact = source.peak * cosine::cosine(index);
    Some([
        false,
        since_start == 0,
        (1..256).contains(&index),
        (257..512).contains(&index),
        (513..768).contains(&index),
        (769..cosine::TURN).contains(&index),
        index > 0 && index % 256 == 0,
        around >= WHOLE_TURN,
        exact < 0 && exact % cosine::ONE != 0,
    ])
}

/// In ns times mHz.
const WHOLE_TURN: Whole = 1_000_000_000_000;
/// At this step every place of the turn comes up.
const STEP: Whole = 2_000;
/// How many peaks are tried before none is taken to tell two cosines apart: 1 from more, or nothing from next to it.
const TRIES: Whole = 100_000;

/// Studies of sixteen sources. A step is one place of the turn, and each source starts so long before step 2,000 that
/// it is at a place of its own there; its peak is such that the cosine one less, or one more, gives another value.
pub fn every_place() -> Vec<Vec<u8>> {
    let told = |index: Whole| telling_peaks(index).into_iter().flatten().map(move |peak| (index, peak));
    let places: Vec<(Whole, Whole)> = (0..cosine::TURN).flat_map(told).collect();
    places.chunks(limits::MOST_SOURCES).map(|some| record::text_of(&study_of(some)).into_bytes()).collect()
}

/// The sources stand side by side in one area.
fn study_of(places: &[(Whole, Whole)]) -> Study {
    let mut study = Study { step_length: 15_625, steps: STEP, limit: 0, rows: Vec::new() };
    for (node, (index, peak)) in (1..).zip(places) {
        study.rows.push(row(Kind::CosineSource, &[node, *peak, STEP - index, 62_500]));
        if node > 1 {
            study.rows.push(row(Kind::Resistor, &[node - 1, node, 1_000_000]));
        }
    }
    study
}

/// A peak, as high as may be, whose value is another with the cosine one less; and one with the cosine one more.
fn telling_peaks(index: Whole) -> [Option<Whole>; 2] {
    let right = cosine::cosine(index);
    let sign = if index % 2 == 0 { 1 } else { -1 };
    [right - 1, right + 1].map(|wrong| {
        let tells = |peak: &Whole| peak * right / cosine::ONE != peak * wrong / cosine::ONE;
        (0..TRIES).map(|less| sign * (limits::HIGHEST_VOLTAGE - less)).find(tells)
    })
}

/// Advances area 1 of a text to step 2,000, out of the blue; a text that is no such study asks nothing.
pub fn ask_place(calls: &Calls, text: &[u8], tally: &mut Tally) -> Result<(), Difference> {
    let (Some(advance), Ok(study)) = (calls.advance, reader::read_study(text)) else { return Ok(()) };
    if study.steps != STEP || study.rows.is_empty() {
        return Ok(());
    }
    let mut lent = Lent::at_rest(&record::record_of(&study));
    lent.records[state::count_place(1)] = STEP as i64 - 1;
    same_advance(advance, &mut lent, 1)?;
    tally.passed += 1;
    tally.count("cosine: studies of sixteen places of the turn");
    Ok(())
}
