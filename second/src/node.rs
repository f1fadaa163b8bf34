//! The call that asks for one node: its voltage, its peak and the step of its peak, without a listing.

use crate::network::Network;
use crate::record::{self, NETWORK_WORDS};
use crate::refusal::Refusal;
use crate::state::{self, RECORD_WORDS};

/// What a call answers; all but the number are 0 where it is refused.
#[derive(Clone, Copy, PartialEq, Eq, Debug)]
pub struct Asked {
    pub number: u64,
    pub voltage: i64,
    pub peak: u64,
    pub step: u64,
}

/// Answers 0 and the node's words; or 9, 8, 10 as far as it speaks of the records, or 2 for no such node. Line
/// stores are not lent, and nothing is written.
pub fn node(network: &[i64], records: &[i64], node: u64) -> Asked {
    match asked_place(network, records, node) {
        Err(refusal) => Asked { number: refusal.number(), voltage: 0, peak: 0, step: 0 },
        Ok(node) => Asked {
            number: 0,
            voltage: records[state::voltage_place(node)],
            peak: records[state::peak_place(node)] as u64,
            step: records[state::peak_step_place(node)] as u64,
        },
    }
}

fn asked_place(words: &[i64], records: &[i64], node: u64) -> Result<usize, Refusal> {
    if words.len() != NETWORK_WORDS || records.len() != RECORD_WORDS {
        return Err(Refusal::Store);
    }
    let study = record::study_of_record(words).ok_or(Refusal::Network)?;
    let network = Network::of_study(&study);
    if !state::records_well_formed(&network, records) {
        return Err(Refusal::State);
    }
    if node == 0 || node > network.node_count as u64 {
        return Err(Refusal::Node);
    }
    Ok(node as usize)
}
