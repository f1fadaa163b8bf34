//! The listing of `emtrun`: a study's run, or why its text was refused.

use crate::limits::Whole;
use crate::network::Network;
use crate::reader;
use crate::run::Run;
use std::fmt::Write;

/// How a listing ended, for the comparison tool's counts.
#[derive(Clone, Copy, PartialEq, Eq, Debug)]
pub enum Ending {
    Bad(u64),
    Stop(u64),
    Done,
}

/// The whole listing of a text, each line ended by LF.
pub fn listing_of(text: &[u8]) -> String {
    listing_and_ending(text).0
}

pub fn listing_and_ending(text: &[u8]) -> (String, Ending) {
    match reader::read_study(text) {
        Err(bad) => {
            let number = bad.refusal.number();
            (format!("bad\t{}\t{}\n", bad.line, number), Ending::Bad(number))
        }
        Ok(study) => run_listing(Run::at_rest(Network::of_study(&study))),
    }
}

/// Areas advance in rising order, step by step; nothing of an unfinished step is listed.
fn run_listing(mut run: Run) -> (String, Ending) {
    let mut listing = String::new();
    // Without areas no step changes or lists anything, so only the last line is left.
    let steps = if run.network.area_count == 0 { 0 } else { run.network.steps };
    for step in 1..=steps {
        for area in 1..=run.network.area_count {
            if let Err(stop) = run.advance(area) {
                let number = stop.refusal.number();
                listing.push_str(&stop_line(step, area, number, stop.place as u64));
                return (listing, Ending::Stop(number));
            }
        }
        let (from_currents, to_currents) = (&run.from_currents, &run.to_currents);
        listing.push_str(&step_lines(&run.network, step, &run.voltages, from_currents, to_currents));
    }
    listing.push_str(&done_line(run.network.steps));
    (listing, Ending::Done)
}

/// A full step's lines. Voltages stand by node, ground's in place 0; currents by branch.
pub fn step_lines(
    network: &Network,
    step: Whole,
    voltages: &[Whole],
    from_currents: &[Whole],
    to_currents: &[Whole],
) -> String {
    let mut lines = String::new();
    for (node, voltage) in voltages.iter().enumerate().skip(1) {
        put(&mut lines, &format!("v\t{step}\t{node}\t{voltage}"));
    }
    for (index, branch) in network.branches.iter().enumerate() {
        let (number, current) = (index + 1, from_currents[index]);
        if branch.is_line() {
            put(&mut lines, &format!("i\t{step}\t{number}\t{current}\t{}", to_currents[index]));
        } else {
            put(&mut lines, &format!("i\t{step}\t{number}\t{current}"));
        }
    }
    lines
}

pub fn stop_line(step: Whole, area: usize, number: u64, place: u64) -> String {
    format!("stop\t{step}\t{area}\t{number}\t{place}\n")
}

pub fn done_line(steps: Whole) -> String {
    format!("done\t{steps}\n")
}

fn put(listing: &mut String, line: &str) {
    writeln!(listing, "{line}").expect("a string takes any line");
}
