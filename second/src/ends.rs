//! Where a run ends that goes on, in whatever order, until no area can move; and which areas a chain of lines
//! ties together.

use crate::limits::Whole;
use crate::network::Network;
use crate::reader;
use crate::refusal::{Refusal, Stop};
use crate::run::Run;
use std::fmt::Write;

/// How far an area came, and what it answers to a further call.
#[derive(Clone, Copy, PartialEq, Eq, Debug)]
pub struct AreaEnd {
    pub count: Whole,
    pub number: u64,
    pub place: u64,
}

impl AreaEnd {
    /// By one of 14 to 17.
    pub fn is_stopped(&self) -> bool {
        (Refusal::Floating.number()..=Refusal::History.number()).contains(&self.number)
    }
}

/// Whether a run may end with an area that answers so: DONE, WAIT or one of 14 to 17.
pub fn may_rest(number: u64) -> bool {
    (Refusal::Done.number()..=Refusal::History.number()).contains(&number)
}

/// By area, whether a chain of lines ties it to this one; an area is tied to itself. Place 0 is unused.
pub fn tied_areas(network: &Network, area: usize) -> Vec<bool> {
    let mut tied = vec![false; network.area_count + 1];
    let mut to_visit = vec![area];
    while let Some(here) = to_visit.pop() {
        if std::mem::replace(&mut tied[here], true) {
            continue;
        }
        for line in network.branches.iter().filter(|branch| branch.is_line()) {
            let (from, to) = (network.area_of[line.from], network.area_of[line.to]);
            if from == here {
                to_visit.push(to);
            }
            if to == here {
                to_visit.push(from);
            }
        }
    }
    tied
}

/// The first area that is neither stopped nor tied to a stopped one and has not taken all its steps: at the end
/// of a run there is none. `ends` stand by area from 1.
pub fn first_short_area(network: &Network, ends: &[AreaEnd]) -> Option<usize> {
    (1..=network.area_count).find(|area| {
        let tied = tied_areas(network, *area);
        let free = ends.iter().zip(&tied[1..]).all(|(end, tied)| !(*tied && end.is_stopped()));
        free && ends[area - 1].count != network.steps
    })
}

/// Takes a run to its end, areas in rising order, round after round until a whole round is refused.
pub fn take_to_end(run: &mut Run) -> Vec<AreaEnd> {
    loop {
        let areas = 1..=run.network.area_count;
        let answers: Vec<Result<Whole, Stop>> = areas.map(|area| run.advance(area)).collect();
        let stops: Vec<Stop> = answers.iter().filter_map(|answer| answer.err()).collect();
        if stops.len() == answers.len() {
            let end = |(area, stop): (usize, &Stop)| AreaEnd {
                count: run.counts[area],
                number: stop.refusal.number(),
                place: stop.place as u64,
            };
            return (1..).zip(&stops).map(end).collect();
        }
    }
}

/// The listing of an end: `area`, number, count, answer and its place; then the last `v` and `i` lines without
/// their step, which may be another for each area. A refused text gives its `bad` line.
pub fn end_listing(text: &[u8]) -> String {
    match reader::read_study(text) {
        Err(bad) => format!("bad\t{}\t{}\n", bad.line, bad.refusal.number()),
        Ok(study) => {
            let mut run = Run::at_rest(Network::of_study(&study));
            let ends = take_to_end(&mut run);
            end_lines(&run, &ends)
        }
    }
}

pub fn end_lines(run: &Run, ends: &[AreaEnd]) -> String {
    let mut lines = String::new();
    let mut put = |line: String| writeln!(lines, "{line}").expect("a string takes any line");
    for (area, end) in (1..).zip(ends) {
        put(format!("area\t{area}\t{}\t{}\t{}", end.count, end.number, end.place));
    }
    for (node, voltage) in run.voltages.iter().enumerate().skip(1) {
        put(format!("v\t{node}\t{voltage}"));
    }
    for (index, branch) in run.network.branches.iter().enumerate() {
        let (number, current) = (index + 1, run.from_currents[index]);
        if branch.is_line() {
            put(format!("i\t{number}\t{current}\t{}", run.to_currents[index]));
        } else {
            put(format!("i\t{number}\t{current}"));
        }
    }
    lines
}
