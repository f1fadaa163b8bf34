//! Which kinds of travel times came up in the studies of a comparison.

use super::tally::Tally;
use crate::limits;
use crate::network::{Network, Study, Travel};
use crate::reader;

const KINDS: [&str; 6] = [
    "travel: whole steps",
    "travel: between steps",
    "travel: one step and a rest",
    "travel: 1 ns short of whole steps",
    "travel: between steps, both ends in one area",
    "travel: between steps, with all 4,096 slots in use",
];

/// Counts the lines of a text's study by kind; a text that is no study counts nothing.
pub fn count_text(text: &[u8], tally: &mut Tally) {
    let Ok(study) = reader::read_study(text) else { return };
    for kind in kinds_of(&study) {
        tally.count(kind);
    }
}

/// A comparison that never met some kind has compared less than it says.
pub fn miss_nothing(tally: &mut Tally) {
    for kind in KINDS {
        if tally.counted(kind) == 0 {
            println!("NOT MET {kind}");
            tally.failed += 1;
        }
    }
}

fn kinds_of(study: &Study) -> Vec<&'static str> {
    let network = Network::of_study(study);
    let travels = || network.branches.iter().filter_map(|branch| branch.travel());
    let slots: limits::Whole = travels().map(|travel| travel.slots()).sum();
    let mut met = Vec::new();
    for branch in &network.branches {
        let Some(Travel { whole_steps, rest, step_length }) = branch.travel() else { continue };
        let between = rest != 0;
        let holds = [
            !between,
            between,
            between && whole_steps == 1,
            between && rest == step_length - 1,
            between && network.area_of[branch.from] == network.area_of[branch.to],
            between && slots == limits::MOST_SLOTS,
        ];
        met.extend(KINDS.into_iter().zip(holds).filter(|(_, holds)| *holds).map(|(kind, _)| kind));
    }
    met
}
