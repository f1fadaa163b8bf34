//! The calls that ask how a network is laid out: how many areas it has, a node's area, a branch's row.

use crate::network::Network;
use crate::record::{self, NETWORK_WORDS};
use crate::refusal::Refusal;

#[derive(Clone, Copy, PartialEq, Eq, Debug)]
pub enum Layout {
    Areas,
    AreaOf(u64),
    RowOf(u64),
}

/// Answers 0 and what is told; or 9, 8, or 2 for no such node or branch, and 0. Areas, nodes, branches and rows are
/// all numbered from 1; rows are those of the table, sources among them. Nothing is written.
pub fn layout(network: &[i64], asked: Layout) -> (u64, u64) {
    match told(network, asked) {
        Err(refusal) => (refusal.number(), 0),
        Ok(told) => (0, told as u64),
    }
}

fn told(words: &[i64], asked: Layout) -> Result<usize, Refusal> {
    if words.len() != NETWORK_WORDS {
        return Err(Refusal::Store);
    }
    let study = record::study_of_record(words).ok_or(Refusal::Network)?;
    let network = Network::of_study(&study);
    match asked {
        Layout::Areas => Ok(network.area_count),
        Layout::AreaOf(node) => Ok(network.area_of[from_1(node, network.node_count)?]),
        Layout::RowOf(branch) => Ok(network.branches[from_1(branch, network.branches.len())? - 1].row + 1),
    }
}

fn from_1(number: u64, last: usize) -> Result<usize, Refusal> {
    if (1..=last as u64).contains(&number) {
        Ok(number as usize)
    } else {
        Err(Refusal::Node)
    }
}
