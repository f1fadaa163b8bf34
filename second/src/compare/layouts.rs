//! What is asked of how a network is laid out. What is told of a branch must also be the line of the text that gave
//! it, and ends that a branch joins must be told one area. Everything follows from the text and a seed, so that
//! a difference can be shown again on a smaller text.

use super::dice::Dice;
use super::foreign::{Calls, LayoutCall};
use super::lent::same_layout;
use super::moves::{self, Depth};
use super::tally::{Difference, Tally};
use crate::layout::Layout;
use crate::network::Network;
use crate::reader;
use crate::record;

const CHANGES: usize = 8;
const SOURCES: [&str; 3] = ["VS", "IS", "VC"];

/// A comparison that never met an answer of a call, a branch behind a source or an area with two nodes has compared
/// less than it says.
pub fn miss_nothing(tally: &mut Tally) {
    let of_any = |asked: Layout| [0, 8, 9].map(|number| answered(asked, number)).into_iter();
    let kinds = of_any(Layout::Areas).chain(of_any(Layout::AreaOf(0))).chain(of_any(Layout::RowOf(0)));
    let nothing = [Layout::AreaOf(0), Layout::RowOf(0)].map(|asked| answered(asked, 2));
    for kind in kinds.chain(nothing).chain([BEHIND_A_SOURCE, OF_A_LOWER_NODE].map(String::from)) {
        if tally.counted(&kind) == 0 {
            println!("NOT MET {kind}");
            tally.failed += 1;
        }
    }
}

const BEHIND_A_SOURCE: &str = "layout: branches behind a source";
const OF_A_LOWER_NODE: &str = "layout: nodes in the area of a lower one";

fn answered(asked: Layout, number: u64) -> String {
    let call = match asked {
        Layout::Areas => "areas",
        Layout::AreaOf(_) => "area",
        Layout::RowOf(_) => "row",
    };
    format!("{call}: {number:2}")
}

/// Asks all about the layout of a text's network; a text that is no study asks nothing.
pub fn ask_layouts(
    calls: &Calls,
    text: &[u8],
    seed: u64,
    depth: Depth,
    tally: &mut Tally,
) -> Result<(), Difference> {
    let (Some(layout), Ok(study)) = (calls.layout, reader::read_study(text)) else { return Ok(()) };
    let network = Network::of_study(&study);
    let (nodes, branches) = (network.node_count as u64, network.branches.len() as u64);
    let words = record::record_of(&study);
    let mut asker = LayoutAsker { layout, tally, dice: Dice::new(seed), nodes, branches };
    asker.every_node(&words, &network)?;
    asker.every_branch(&words, text)?;
    asker.no_such_number(&words)?;
    asker.wrong_lengths(&words)?;
    asker.changed_words(&words, depth)
}

struct LayoutAsker<'a> {
    layout: LayoutCall,
    tally: &'a mut Tally,
    dice: Dice,
    nodes: u64,
    branches: u64,
}

impl LayoutAsker<'_> {
    fn ask(&mut self, network: &[i64], asked: Layout) -> Result<u64, Difference> {
        let (number, told) = same_layout(self.layout, network, asked)?;
        self.tally.passed += 1;
        self.tally.count(answered(asked, number));
        Ok(told)
    }

    /// All three, of a node and a branch of the study, now and then of a number that is none.
    fn ask_three(&mut self, network: &[i64]) -> Result<(), Difference> {
        let node = self.some_number(self.nodes);
        let branch = self.some_number(self.branches);
        for asked in [Layout::Areas, Layout::AreaOf(node), Layout::RowOf(branch)] {
            self.ask(network, asked)?;
        }
        Ok(())
    }

    fn some_number(&mut self, last: u64) -> u64 {
        if last == 0 || self.dice.one_in(4) {
            return self.no_number(last);
        }
        1 + self.dice.below(last as usize) as u64
    }

    fn no_number(&mut self, last: u64) -> u64 {
        let beyond = last + 1 + self.dice.below(90) as u64;
        let same_low_bits = self.dice.pick(&[1 << 8, 1 << 16, 1 << 32, 1 << 63]) + 1;
        self.dice.pick(&[0, last + 1, last + 1, beyond, beyond, same_low_bits, 1 << 32, 1 << 63, u64::MAX])
    }

    /// The areas are numbered by their lowest nodes, and the ends that a branch joins are in one.
    fn every_node(&mut self, words: &[i64], network: &Network) -> Result<(), Difference> {
        let mut told = vec![0];
        for node in 1..=self.nodes {
            told.push(self.ask(words, Layout::AreaOf(node))?);
        }
        let most = |before: &[u64]| before.iter().max().map_or(0, |most| *most);
        let in_turn = (1..told.len()).all(|node| (1..=most(&told[..node]) + 1).contains(&told[node]));
        let joins = network.branches.iter().filter(|branch| !branch.is_line() && branch.from * branch.to > 0);
        let joined = joins.into_iter().all(|branch| told[branch.from] == told[branch.to]);
        let areas = self.ask(words, Layout::Areas)?;
        if !in_turn || !joined || areas != most(&told) {
            return Err(Difference {
                question: "in the areas of all nodes".to_string(),
                ours: format!("{:?}", network.area_of),
                theirs: format!("{told:?}, {areas} areas"),
            });
        }
        for node in 1..told.len() {
            if told[1..node].contains(&told[node]) {
                self.tally.count(OF_A_LOWER_NODE);
            }
        }
        self.tally.passed += 1;
        Ok(())
    }

    /// The row that is told of a branch is the line of the text that gave it, but for the first line, by the words at
    /// the lines' beginnings.
    fn every_branch(&mut self, words: &[i64], text: &[u8]) -> Result<(), Difference> {
        let text = String::from_utf8_lossy(text);
        let is_branch = |line: &&str| line.split('\t').next().is_some_and(|word| !SOURCES.contains(&word));
        let rows = (0..).zip(text.lines()).skip(1).filter(|(_, line)| is_branch(line)).map(|(row, _)| row);
        for (branch, row) in (1..).zip(rows) {
            let told = self.ask(words, Layout::RowOf(branch))?;
            if told != row {
                return Err(Difference {
                    question: format!("in the line of branch {branch}"),
                    ours: format!("line {}", row + 1),
                    theirs: format!("line {}", told + 1),
                });
            }
            self.tally.passed += 1;
            if told > branch {
                self.tally.count(BEHIND_A_SOURCE);
            }
        }
        Ok(())
    }

    fn no_such_number(&mut self, words: &[i64]) -> Result<(), Difference> {
        for asked in [0, self.nodes + 1] {
            self.ask(words, Layout::AreaOf(asked))?;
        }
        for asked in [0, self.branches + 1] {
            self.ask(words, Layout::RowOf(asked))?;
        }
        for _ in 0..2 {
            let (node, branch) = (self.no_number(self.nodes), self.no_number(self.branches));
            self.ask(words, Layout::AreaOf(node))?;
            self.ask(words, Layout::RowOf(branch))?;
        }
        Ok(())
    }

    /// Of a wrong length, sometimes with a word that would be refused by 8 too.
    fn wrong_lengths(&mut self, words: &[i64]) -> Result<(), Difference> {
        let mut other = words.to_vec();
        if self.dice.one_in(2) {
            other[4] = 1;
        }
        let right = words.len();
        other.resize(self.dice.pick(&[0, 1, 4, right / 2, right - 1, right + 1, 2 * right]), 0);
        self.ask_three(&other)
    }

    /// Single words changed, to small numbers, to odd ones and to a row's other kinds: some, or all in turn. The first
    /// is always a word that must be 0.
    fn changed_words(&mut self, words: &[i64], depth: Depth) -> Result<(), Difference> {
        let in_use = 8 + 8 * words[3] as usize + 8;
        let mut changed = words.to_vec();
        changed[4] = 1;
        self.ask_three(&changed)?;
        let turns = if depth == Depth::EveryWord { words.len() } else { CHANGES };
        for turn in 0..turns {
            let place = match depth {
                Depth::EveryWord => turn,
                Depth::Usual if self.dice.one_in(8) => self.dice.below(words.len()),
                Depth::Usual => self.dice.below(in_use.min(words.len())),
            };
            let small = self.dice.between(0, 9);
            let odd = moves::odd_word(&mut self.dice, words[place]);
            changed.copy_from_slice(words);
            changed[place] = self.dice.pick(&[small, small, odd]);
            self.ask_three(&changed)?;
        }
        Ok(())
    }
}
