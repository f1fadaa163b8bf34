//! `compare ends`: schedulers of several kinds taken to their end on one study. By the proved calls alone, any
//! two must end in the same words with the same accepted answers, and each area that is neither stopped nor
//! tied to a stopped one must have taken all its steps. Then the ends must be those of the second program.

use super::arguments::Arguments;
use super::call_mode;
use super::dice::Dice;
use super::end_slips;
use super::foreign::{self, AdvanceCall, Calls, ResetCall};
use super::lent::Lent;
use super::schedulers::{self, Ended, Order, ORDERS};
use super::slips;
use super::stopping;
use super::studies;
use super::tally::{Difference, Tally};
use crate::calls;
use crate::ends::{self, AreaEnd};
use crate::limits::Whole;
use crate::network::Network;
use crate::reader;
use crate::record;
use crate::run::Run;
use crate::state;

/// How many studies are compared where no count is given.
const STUDIES: u64 = 500;
/// How many of them a planted slip is asked before it counts as not found; a rare one is asked all.
const SLIP_STUDIES: u64 = 60;
const MIXED: &str = "ends: studies with a stopped area, one tied to it and one apart";

/// Which of the comparisons a difference was found by.
#[derive(Clone, Copy, PartialEq, Eq, Debug)]
pub enum Found {
    StrangeAnswer,
    WrongPeak,
    WrongLatch,
    TwoOrders,
    TooShort,
    AgainstSecond,
}

impl Found {
    pub fn question(self) -> &'static str {
        match self {
            Found::StrangeAnswer => "an answer that no run gets",
            Found::WrongPeak => "a peak that is not the largest of the voltages after each step",
            Found::WrongLatch => "a latch that is not the first zero of the currents after each step",
            Found::TwoOrders => "two orders end differently",
            Found::TooShort => "an area that nothing stops has steps left",
            Found::AgainstSecond => "an order ends otherwise than by the second program",
        }
    }
}

/// Compares the ends by the proved calls; true where nothing differs, each planted slip is found and every
/// kind of stop was met.
pub fn compare_ends(arguments: &Arguments) -> bool {
    let Some(calls) = foreign::proved_calls() else {
        println!(
            "built without the proved library: see README.md for the features read, reset, advance, list, write, node"
        );
        return false;
    };
    let seed = arguments.number("--seed", 1);
    println!("seed {seed}");
    let first = arguments.number("--first", 0);
    let mut tally = Tally::default();
    find_planted(seed, &mut tally);
    for index in first..first + arguments.number("--count", STUDIES) {
        let failed = tally.failed;
        let (text, seed) = numbered_study(seed, index);
        call_mode::ask(&text, true, &mut tally, &|text, tally| ask_ends(&calls, text, seed, tally));
        if tally.failed > failed {
            println!("found at study number {index}: --first {index} --count 1 asks it again\n");
        }
    }
    if first == 0 {
        miss_nothing(&mut tally);
    }
    tally.finish()
}

/// Three of four studies are made to stop; the others are those of the calls.
fn numbered_study(seed: u64, index: u64) -> (Vec<u8>, u64) {
    let seed = seed.wrapping_mul(0x0100_0000_01b3).wrapping_add(index);
    let mut dice = Dice::new(seed);
    let study =
        if index % 4 == 3 { studies::random_study(&mut dice) } else { stopping::stopping_study(&mut dice) };
    (record::text_of(&study).into_bytes(), seed)
}

/// A comparison that never met a stop has compared less than it says.
fn miss_nothing(tally: &mut Tally) {
    let kinds = (14..=17).map(|number| format!("ends: areas that answer {number}"));
    for kind in kinds.chain([MIXED.to_string()]) {
        if tally.counted(&kind) == 0 {
            println!("NOT MET {kind}");
            tally.failed += 1;
        }
    }
}

/// Our own calls must show nothing; with a slip planted, some study's first difference must be of the kind
/// named beside the slip.
pub fn find_planted(seed: u64, tally: &mut Tally) {
    let shows = |studies: u64, calls: &Calls, wanted: &dyn Fn(&Difference) -> bool| {
        (0..studies).find(|index| {
            let (text, seed) = numbered_study(seed, *index);
            ask_ends(calls, &text, seed, &mut Tally::default()).is_err_and(|difference| wanted(&difference))
        })
    };
    let mut settle = |right: bool, what: String| {
        println!("{what}");
        tally.passed += u64::from(right);
        tally.failed += u64::from(!right);
    };
    let differs = shows(SLIP_STUDIES, &slips::own_calls(), &|_| true).is_some();
    settle(!differs, format!("our own calls end {}", if differs { "DIFFERENTLY" } else { "alike" }));
    for (name, calls, wanted) in end_slips::planted() {
        let question = wanted.question();
        let studies = if name == end_slips::RARE { STUDIES } else { SLIP_STUDIES };
        let found = shows(studies, &calls, &|difference| difference.question.starts_with(question));
        let how = match found {
            Some(index) => format!("found planted slip: {name} ({question}), by study number {index}"),
            None => format!("NOT FOUND planted slip: {name} ({question})"),
        };
        settle(found.is_some(), how);
    }
}

/// Asks for the ends of one text by every order; a text that is no study asks nothing.
pub fn ask_ends(calls: &Calls, text: &[u8], seed: u64, tally: &mut Tally) -> Result<(), Difference> {
    let (Some(reset), Some(advance), Ok(study)) = (calls.reset, calls.advance, reader::read_study(text))
    else {
        return Ok(());
    };
    let network = Network::of_study(&study);
    let words = record::record_of(&study);
    let end_by = |reset: ResetCall, advance: AdvanceCall, order: Order| {
        let mut dice = Dice::new(seed ^ order as u64);
        let mut lent = Lent::with_rubbish(&words, &mut dice);
        reset(&lent.network, &mut lent.records, &mut lent.froms, &mut lent.tos);
        schedulers::take_to_end(advance, &network, lent, order, &mut dice)
    };
    let mut theirs = Vec::new();
    for order in ORDERS {
        theirs.push(end_by(reset, advance, order)?);
        let (first, last) = (&theirs[0], &theirs[theirs.len() - 1]);
        same_end(Found::TwoOrders, [ORDERS[0], order], first, last)?;
        reaches_all(&network, order, &last.ends)?;
    }
    for (order, end) in ORDERS.into_iter().zip(&theirs) {
        let ours = end_by(calls::reset, calls::advance, order)?;
        same_end(Found::AgainstSecond, [order, order], &ours, end)?;
        tally.passed += 1;
    }
    same_as_whole_run(&network, &theirs[0])?;
    count_ends(&network, &theirs[0].ends, tally);
    Ok(())
}

fn differ(found: Found, more: String, ours: String, theirs: String) -> Difference {
    Difference { question: format!("{}: {more}", found.question()), ours, theirs }
}

/// Every word, what each area answers in the end, and what its accepted calls answered.
fn same_end(found: Found, orders: [Order; 2], one: &Ended, other: &Ended) -> Result<(), Difference> {
    if one == other {
        return Ok(());
    }
    let (mut one_shown, mut other_shown) = (shown(orders[0], one), shown(orders[1], other));
    let (mut one_lent, mut other_lent) = (one.lent.clone(), other.lent.clone());
    for (slice, name) in [(1, "records"), (2, "from-end store"), (3, "to-end store")] {
        let (one, other) = (one_lent.slice(slice), other_lent.slice(slice));
        for place in (0..one.len()).filter(|place| one[*place] != other[*place]).take(6) {
            one_shown.push_str(&format!("\n{name} word {place}: {}", one[place]));
            other_shown.push_str(&format!("\n{name} word {place}: {}", other[place]));
        }
    }
    Err(differ(found, format!("{:?} and {:?}", orders[0], orders[1]), one_shown, other_shown))
}

fn shown(order: Order, end: &Ended) -> String {
    let accepted = end.accepted.iter().map(|answers| answers.len());
    let each = end.ends.iter().zip(accepted).zip(1..).map(|((end, accepted), area)| {
        let AreaEnd { count, number, place } = end;
        format!("area {area}: count {count}, {accepted} times accepted, then {number} at {place}")
    });
    [format!("order {order:?}")].into_iter().chain(each).collect::<Vec<String>>().join("\n")
}

fn reaches_all(network: &Network, order: Order, ends: &[AreaEnd]) -> Result<(), Difference> {
    let Some(area) = ends::first_short_area(network, ends) else { return Ok(()) };
    let count = ends[area - 1].count;
    let ours = format!("area {area} takes all {} steps", network.steps);
    Err(differ(Found::TooShort, format!("{order:?}"), ours, format!("it takes {count}")))
}

/// The end of a run that keeps all voltages and all that was ever sent, read against the words of the records.
fn same_as_whole_run(network: &Network, theirs: &Ended) -> Result<(), Difference> {
    let mut run = Run::at_rest(network.clone());
    let ours = ends::take_to_end(&mut run);
    let ours = ends::end_lines(&run, &ours);
    let word = |place: usize| theirs.lent.records[place].into();
    for node in 1..=network.node_count {
        run.voltages[node] = word(state::voltage_place(node));
    }
    for (index, branch) in network.branches.iter().enumerate() {
        run.from_currents[index] = word(state::from_current_place(branch.row));
        run.to_currents[index] = word(state::to_current_place(branch.row));
    }
    let wrong = |node: &usize| calls::lent_peak(&theirs.lent.records, *node) != run.peak(*node);
    if let Some(node) = (1..=network.node_count).find(wrong) {
        let (ours, theirs) = (run.peak(node), calls::lent_peak(&theirs.lent.records, node));
        let more = format!("a whole run, the peak of node {node}");
        return Err(differ(Found::AgainstSecond, more, format!("{ours:?}"), format!("{theirs:?}")));
    }
    let latch =
        |index: usize| Whole::from(theirs.lent.records[state::latch_place(network.branches[index].row)]);
    if let Some(index) = (0..network.branches.len()).find(|index| latch(*index) != run.latch(*index)) {
        let more = format!("a whole run, the latch of branch {}", index + 1);
        let (ours, theirs) = (run.latch(index).to_string(), latch(index).to_string());
        return Err(differ(Found::AgainstSecond, more, ours, theirs));
    }
    let theirs = ends::end_lines(&run, &theirs.ends);
    if ours == theirs {
        return Ok(());
    }
    Err(differ(Found::AgainstSecond, "a whole run".to_string(), ours, theirs))
}

/// The areas at the far ends of an area's lines.
fn lines_to(network: &Network, area: usize) -> impl Iterator<Item = usize> + '_ {
    let lines = network.branches.iter().filter(|branch| branch.is_line());
    let ends = lines.map(|line| (network.area_of[line.from], network.area_of[line.to]));
    ends.flat_map(|(from, to)| [(from, to), (to, from)])
        .filter(move |(near, _)| *near == area)
        .map(|(_, far)| far)
}

/// What came up, by area: stopped, done or waiting; tied to a stopped area or apart from all of them.
fn count_ends(network: &Network, ends: &[AreaEnd], tally: &mut Tally) {
    tally.count("ends: studies");
    let stopped = |area: &usize| ends[area - 1].is_stopped();
    let mut met = [false; 3];
    for (area, end) in (1..).zip(ends) {
        tally.count(format!("ends: areas that answer {}", end.number));
        let tied = ends::tied_areas(network, area);
        let tied_to_stopped = (1..=ends.len()).filter(|other| tied[*other]).any(|other| stopped(&other));
        let kind = if end.is_stopped() { 0 } else { 2 - usize::from(tied_to_stopped) };
        met[kind] = true;
        if kind == 1 {
            let how =
                if lines_to(network, area).any(|far| stopped(&far)) { "by a line" } else { "over others" };
            tally.count(format!("ends: areas tied to a stopped one {how}, answer {}", end.number));
        }
    }
    if met == [true; 3] {
        tally.count(MIXED);
    }
}
