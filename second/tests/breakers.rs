//! Breakers that open at a current zero, and switches that open by the clock: worked studies, the latch by itself, odd
//! states, and what makes a latch fit.

use second::calls;
use second::compare::breaking::breaking_study;
use second::compare::dice::Dice;
use second::compare::latches::{ask_latches, miss_nothing, odd_latches};
use second::compare::lent::Lent;
use second::compare::moves::Depth;
use second::compare::slips::own_calls;
use second::compare::studies;
use second::compare::tally::Tally;
use second::latch::{is_current_zero, Breaker};
use second::listing::listing_of;
use second::network::{Kind, Network};
use second::reader::read_study;
use second::record::{text_of, NETWORK_WORDS};
use second::run::Run;
use second::state;
use second::write::{write, TEXT_ROOM};

/// A closed breaker feeds a line whose reflection turns the current about.
const REFLECTED: &str =
    "study\t1000\t8\t1000000000\nVS\t1\t1000\t1\t0\nSW\t1\t2\t1000\t1\t3\nLINE\t2\t3\t400000\t2000\n";
/// Nothing flows into node 2, which floats once the switch is open.
const HANGING: &str = "study\t1000\t4\t0\nVS\t1\t1000\t1\t0\nSW\t1\t2\t2000\t1\t2\n";

fn timed(text: &str) -> String {
    text.replace("SW\t", "SWT\t")
}

/// A field of each line with this word and this node or branch.
fn column(text: &str, word: &str, place: &str) -> Vec<i64> {
    let listing = listing_of(text.as_bytes());
    let fields = listing.lines().map(|line| line.split('\t').collect::<Vec<_>>());
    let wanted = fields.filter(|fields| fields[0] == word && fields[2] == place);
    wanted.map(|fields| fields[3].parse().expect("a number")).collect()
}

fn last_line(text: &str) -> String {
    listing_of(text.as_bytes()).lines().last().expect("a last line").to_string()
}

fn at_rest(text: &str) -> Lent {
    let mut words = vec![7; NETWORK_WORDS];
    assert_eq!(calls::read(text.as_bytes(), &mut words), (0, 0), "{text}");
    Lent::at_rest(&words)
}

fn advance(lent: &mut Lent, area: u64) -> (u64, u64) {
    calls::advance(&lent.network, &mut lent.records, &mut lent.froms, &mut lent.tos, area)
}

/// The latch of a row after each step of area 1, which is the only one.
fn latches(text: &str, row: usize, steps: usize) -> Vec<i64> {
    let mut lent = at_rest(text);
    let step = |lent: &mut Lent| {
        assert_eq!(advance(lent, 1).0, 0);
        lent.records[state::latch_place(row)]
    };
    (0..steps).map(|_| step(&mut lent)).collect()
}

#[test]
fn a_reflection_turns_the_current_about() {
    let two = 2_000_000_000;
    assert_eq!(column(REFLECTED, "i", "1"), [two, two, two, two, -two, 0, 0, 0]);
    assert_eq!(column(REFLECTED, "v", "2"), [998, 998, 998, 998, 1002, 1996, 1996, 1996]);
    assert_eq!(column(&timed(REFLECTED), "i", "1"), [two, two, 0, 0, 0, 0, 0, 0]);
    let mut lent = at_rest(REFLECTED);
    for step in 1..=8 {
        assert_eq!([advance(&mut lent, 1), advance(&mut lent, 2)], [(0, step), (0, step)]);
        // Row 0 is the source's, row 1 the breaker's.
        let latch = if step < 5 { 0 } else { 5 };
        assert_eq!(lent.records[368..371], [0, latch, 0], "step {step}");
    }
}

#[test]
fn no_current_at_all_is_a_zero() {
    assert_eq!(last_line(HANGING), "stop\t3\t1\t14\t2");
    assert_eq!(latches(HANGING, 1, 2), [0, 2]);
    assert_eq!(last_line(&timed(HANGING)), "stop\t2\t1\t14\t2");
    assert_eq!(latches(&timed(HANGING), 1, 1), [0]);
}

/// Zero at the closing step is no chance, and what comes after it is of no opposite sign.
#[test]
fn a_current_that_rises_from_zero_never_parts() {
    let text = "study\t1000\t6\t1000000000\nVS\t1\t1000\t2\t0\nSW\t1\t2\t1000000\t1\t2\nR\t2\t0\t1000000\n";
    let half = 500_000_000;
    assert_eq!(column(text, "i", "1"), [0, half, half, half, half, half]);
    assert_eq!(latches(text, 1, 6), [0; 6]);
    assert_eq!(column(&timed(text), "i", "1"), [0; 6]);
    let listing = listing_of(timed(text).as_bytes());
    assert!(listing.ends_with("v\t6\t2\t0\ni\t6\t1\t0\ni\t6\t2\t0\ndone\t6\n"), "{listing}");
}

#[test]
fn a_breaker_beside_a_travel_time_between_steps_and_a_cosine() {
    let text =
        "study\t1000\t8\t1000000000\nVS\t1\t1000\t1\t0\nSW\t1\t2\t1000\t1\t3\nLINE\t2\t3\t400000\t1500\n\
        VC\t4\t1000\t2\t50000\nR\t4\t0\t1000000\n";
    let mut run = Run::at_rest(Network::of_study(&read_study(text.as_bytes()).expect("a good text")));
    for step in 1..=8 {
        for area in 1..=3 {
            assert_eq!(run.advance(area), Ok(step));
        }
    }
    assert_eq!([0, 1, 2].map(|branch| run.latch(branch)), [4, 0, 0]);
    assert_eq!(column(text, "i", "1")[4..], [0; 4]);
}

/// A 50 Hz current is cut where it passes zero, a quarter of a turn after its crest, not at its opening step.
#[test]
fn a_50_hz_current_goes_on_to_its_zero() {
    let text =
        "study\t1000000\t12\t1000000000\nVC\t1\t10000\t1\t50000\nSW\t1\t2\t1000\t1\t4\nR\t2\t0\t1000\n";
    let currents = column(text, "i", "1");
    assert!(currents[..5].iter().all(|current| *current > 0), "{currents:?}");
    assert_eq!(currents[5..], [0; 7]);
    assert_eq!(latches(text, 1, 8), [0, 0, 0, 0, 0, 6, 6, 6]);
    assert_eq!(column(&timed(text), "i", "1")[3..], [0; 9]);
    // Exactly at zero it carries nothing; a bit before or after, what is left has the other sign.
    let late = text.replace("50000\n", "49000\n");
    let currents = column(&late, "i", "1");
    assert!(currents[5] > 0 && currents[6] < 0 && currents[7] == 0, "{currents:?}");
    assert_eq!(latches(&late, 1, 8), [0, 0, 0, 0, 0, 0, 7, 7]);
}

#[test]
fn latches_by_themselves() {
    let cases: [(i128, i128, &[i128], i128); 15] = [
        // Told to open at 3: step 2 is the first chance.
        (1, 3, &[5, 5, 5], 0),
        (1, 3, &[5, 0, 5], 2),
        (1, 3, &[5, -5, 5], 2),
        (1, 3, &[-5, 5, 5], 2),
        (1, 3, &[0, 5, 5], 0),
        (1, 3, &[0, 0, 5], 2),
        (1, 3, &[5, 5, -1], 3),
        // An earlier zero is none of its business.
        (1, 5, &[5, 0, 0, 7, 7], 0),
        (1, 5, &[5, -5, 5, -5, 5], 4),
        (1, 5, &[5, -5, 5, 5, 0], 5),
        // Told to open right after closing: the closing step itself is no chance.
        (3, 4, &[0, 0, 0, 5, 5], 0),
        (3, 4, &[0, 0, 5, -5, 5], 4),
        (3, 4, &[0, 0, 0, 0, 5], 4),
        (3, 1_000_001, &[0, 0, 5, -5, 5], 0),
        (3, 4, &[0, 0], 0),
    ];
    for (close, open, currents, latch) in cases {
        let breaker = Breaker { close, open };
        assert_eq!(breaker.latch_of_all(currents), latch, "{breaker:?} {currents:?}");
        let mut kept = 0;
        let mut zeros = Vec::new();
        for (place, now) in currents.iter().enumerate() {
            let before = if place == 0 { 0 } else { currents[place - 1] };
            let step = place as i128 + 1;
            kept = breaker.latch_after(kept, step, *now, before);
            zeros.extend(is_current_zero(*now, before).then_some(step));
        }
        assert_eq!(kept, latch, "{breaker:?} {currents:?}");
        assert_eq!(breaker.latch_among(&zeros), latch, "{breaker:?} {currents:?}");
    }
    assert!(is_current_zero(0, 0) && is_current_zero(0, 7) && !is_current_zero(7, 0));
    let far = 140_000_000_000_000_000;
    assert!(is_current_zero(far, -far) && is_current_zero(-1, far) && !is_current_zero(far, far));
}

#[test]
fn the_last_step_sets_the_latch_too() {
    let text = HANGING.replace("study\t1000\t4", "study\t1000\t2");
    assert_eq!(latches(&text, 1, 2), [0, 2]);
    assert_eq!(last_line(&text), "done\t2");
}

/// Step 3 is out of balance: its current would be zero, but it is not taken.
#[test]
fn a_refused_step_sets_no_latch() {
    let rows = "VS\t1\t8\t1\t0\nSW\t1\t2\t1000\t1\t3\nR\t2\t0\t1000\nIS\t2\t8000000001\t3\t0\n";
    let mut lent = at_rest(&format!("study\t1000\t9\t0\n{rows}"));
    assert_eq!([advance(&mut lent, 1), advance(&mut lent, 1)], [(0, 1), (0, 2)]);
    let before = lent.clone();
    assert_eq!(advance(&mut lent, 1), (16, 2));
    assert_eq!(lent, before);
    assert_eq!(latches(&format!("study\t1000\t9\t1\n{rows}"), 1, 4), [0, 0, 3, 3]);
}

/// What stands in the records is the current of step k - 1, whatever a run would have left there.
#[test]
fn the_recorded_current_decides_in_odd_states() {
    let text = "study\t1000\t9\t1000000000\nVS\t1\t1000\t1\t0\nSW\t1\t2\t1000000\t1\t4\nR\t2\t0\t1000000\n";
    let mut lent = at_rest(text);
    assert_eq!([advance(&mut lent, 1), advance(&mut lent, 1)], [(0, 1), (0, 2)]);
    for (recorded, latch) in [(500_000_000, 0), (0, 0), (1, 0), (-1, 3), (-140_000_000_000_000_000, 3)] {
        let mut odd = lent.clone();
        odd.records[state::from_current_place(1)] = recorded;
        assert_eq!(advance(&mut odd, 1), (0, 3));
        assert_eq!(odd.records[state::latch_place(1)], latch, "{recorded}");
    }
}

/// A breaker past its opening step whose latch is not set goes on closed, as a run does that has found no zero.
#[test]
fn without_a_latch_it_is_closed() {
    let text = "study\t1000\t99\t1000000000\nVS\t1\t1000\t1\t0\nSW\t1\t2\t1000000\t1\t4\nR\t2\t0\t1000000\n";
    let mut lent = at_rest(text);
    lent.records[state::count_place(1)] = 50;
    assert_eq!(advance(&mut lent, 1), (0, 51));
    assert_eq!(lent.records[state::from_current_place(1)], 500_000_000);
    lent.records[state::latch_place(1)] = 3;
    for step in 52..=55 {
        assert_eq!(advance(&mut lent, 1), (0, step));
        assert_eq!(lent.records[state::from_current_place(1)], 0);
        assert_eq!(lent.records[state::latch_place(1)], 3);
    }
}

#[test]
fn latches_that_are_well_formed() {
    // Rows: source, breaker, switch by the clock, resistor. The breaker closes at 3 and is told to open at 4 or at 9.
    let rows = "R\t2\t0\t1000000\n";
    let text = |open: u64| {
        format!("study\t1000\t99\t1000000000\nVS\t1\t1000\t1\t0\nSW\t1\t2\t1000000\t3\t{open}\nSWT\t1\t2\t1000000\t3\t9\n{rows}")
    };
    let number = |open: u64, count: i64, row: usize, latch: i64| {
        let mut lent = at_rest(&text(open));
        lent.records[state::count_place(1)] = count;
        lent.records[state::latch_place(row)] = latch;
        let before = lent.clone();
        let answer = advance(&mut lent, 1).0;
        assert!(answer == 0 || lent == before);
        answer
    };
    for (open, count, latch, answer) in [
        (9, 20, 0, 0),
        (9, 20, 7, 10),
        (9, 20, 8, 0),
        (9, 20, 20, 0),
        (9, 20, 21, 10),
        (9, 20, -8, 10),
        (9, 20, i64::MIN, 10),
        (9, 20, i64::MAX, 10),
        (9, 7, 8, 10),
        (9, 8, 8, 0),
        (9, 0, 8, 10),
        // Told to open right after closing: not above close is refused, although it is open - 1.
        (4, 20, 3, 10),
        (4, 20, 4, 0),
        (4, 20, 1, 10),
        (4, 3, 4, 10),
    ] {
        assert_eq!(number(open, count, 1, latch), answer, "open {open}, count {count}, latch {latch}");
    }
    for row in [0, 2, 3, 4, 79] {
        assert_eq!(number(9, 20, row, 9), 10, "row {row}");
        assert_eq!(number(9, 20, row, 0), 0, "row {row}");
    }
    // Behind the latches nothing is in use.
    assert_eq!((state::latch_place(0), state::latch_place(79)), (368, 447));
    for place in [448, 1023] {
        let mut lent = at_rest(&text(9));
        lent.records[place] = 1;
        assert_eq!(advance(&mut lent, 1), (10, 0));
    }
}

#[test]
fn a_latch_is_held_to_the_count_of_its_own_area() {
    // Area 1 is node 1 with its source; area 2 has the breaker, from ground.
    let text = "study\t1000\t9\t1000000000\nVS\t1\t1000\t1\t0\nLINE\t1\t2\t400000\t3000\nSW\t0\t2\t1000\t1\t2\nR\t2\t0\t1000\n";
    let mut lent = at_rest(text);
    lent.records[..2].copy_from_slice(&[5, 3]);
    lent.records[state::latch_place(2)] = 3;
    assert_eq!(advance(&mut lent.clone(), 2), (0, 4));
    lent.records[state::latch_place(2)] = 4;
    assert_eq!(advance(&mut lent, 2), (10, 0));
}

/// Latches kept step by step, the whole run's looked for among all currents, and the currents after a latch.
#[test]
fn latches_agree_with_the_whole_run() {
    let (mut parted, mut closed) = (0, 0);
    for seed in 0..400 {
        let mut dice = Dice::new(seed);
        let text = studies::random_text(&mut dice);
        let mut lent = at_rest(std::str::from_utf8(&text).expect("plain text"));
        let mut run = Run::at_rest(Network::of_study(&read_study(&text).expect("a good text")));
        for _ in 0..60 {
            let area = dice.below(run.network.area_count + 2);
            let before = lent.records.clone();
            let accepted = advance(&mut lent, area as u64).0 == 0;
            assert_eq!(run.advance(area).is_ok(), accepted, "seed {seed}");
            for branch in run.network.branches.iter().filter(|branch| !branch.is_line()) {
                let place = state::latch_place(branch.row);
                let own = accepted && run.network.area_of_branch(branch) == area;
                assert!(own || lent.records[place] == before[place], "seed {seed}");
                if own && before[place] != 0 {
                    assert_eq!(lent.records[place], before[place], "seed {seed}");
                    assert_eq!(lent.records[state::from_current_place(branch.row)], 0, "seed {seed}");
                }
            }
        }
        for (index, branch) in run.network.branches.iter().enumerate() {
            let latch = run.latch(index);
            assert_eq!(i128::from(lent.records[state::latch_place(branch.row)]), latch, "seed {seed}");
            parted += usize::from(latch > 0);
            closed += usize::from(branch.breaker().is_some() && latch == 0);
        }
    }
    assert!(parted > 50 && closed > 50, "{parted} {closed}");
}

#[test]
fn swt_in_texts_and_records() {
    let text = "study\t1000\t8\t3\nSWT\t0\t1\t1000\t5\t9\nSW\t0\t1\t1000\t5\t9\n";
    let lent = at_rest(text);
    assert_eq!(lent.network[8..24], [9, 0, 1, 1000, 5, 9, 0, 0, 5, 0, 1, 1000, 5, 9, 0, 0]);
    assert_eq!((Kind::TimedSwitch.number(), Kind::of_number(9)), (9, Some(Kind::TimedSwitch)));
    let mut out = vec![b'?'; TEXT_ROOM];
    assert_eq!(write(&lent.network, &mut out), (0, text.len() as u64));
    assert_eq!(&out[..text.len()], text.as_bytes());
    let number = |row: &str| match read_study(format!("study\t1000\t8\t3\n{row}\n").as_bytes()) {
        Ok(_) => 0,
        Err(bad) => bad.refusal.number(),
    };
    for (row, refused) in [
        ("SWT\t1\t2\t1000\t1\t2", 0),
        ("SWT\t1\t2\t1000\t1000000\t1000001", 0),
        ("SWT\t1\t2\t1000\t5\t5", 3),
        ("SWT\t1\t2\t1000\t5\t1000002", 3),
        ("SWT\t1\t2\t1000\t0\t5", 3),
        ("SWT\t1\t2\t999\t1\t5", 3),
        ("SWT\t1\t2\t1000000000000\t1\t5", 0),
        ("SWT\t1\t2\t1000000000001\t1\t5", 3),
        ("SWT\t1\t1\t999\t1\t5", 2),
        ("SWT\t1\t33\t999\t1\t5", 2),
        ("SWT\t1\t2\t1000\t1", 1),
        ("SWT\t1\t2\t1000\t1\t5\t6", 1),
        ("SWT\t1\t2\t1000\t1\t-5", 1),
        ("SWTT\t1\t2\t1000\t1\t5", 1),
        ("SWt\t1\t2\t1000\t1\t5", 1),
        ("ST\t1\t2\t1000\t1\t5", 1),
        ("SWT", 1),
    ] {
        assert_eq!(number(row), refused, "{row}");
    }
    // It counts as a branch, and joins nodes to one area.
    let branches = "SWT\t1\t0\t1000\t1\t5\n".repeat(64);
    assert_eq!(number(branches.trim_end()), 0);
    assert_eq!(number(&format!("{branches}SWT\t1\t0\t1000\t1\t5")), 6);
    let network = Network::of_study(&read_study(b"study\t1\t1\t0\nSWT\t1\t2\t1000\t1\t5\n").expect("good"));
    assert_eq!((network.area_count, network.branches.len()), (1, 1));
}

/// Each odd latch of the comparison is refused or passes as its kind says.
#[test]
fn odd_latches_are_what_they_say() {
    let text = "study\t1000\t99\t1000000000\nVS\t1\t1000\t1\t0\nSW\t1\t2\t1000000\t3\t9\n\
        SW\t1\t2\t1000000\t3\t4\nSWT\t1\t2\t1000000\t3\t9\nR\t2\t0\t1000000\n";
    let network = Network::of_study(&read_study(text.as_bytes()).expect("a good text"));
    let mut lent = at_rest(text);
    lent.records[state::count_place(1)] = 20;
    let odd = odd_latches(&network, &lent.records);
    for odd in &odd {
        let mut changed = lent.clone();
        changed.records[odd.place] = odd.word;
        let passes =
            ["at its first chance", "at the count", "not set past its first chance"].contains(&odd.kind);
        assert_eq!(advance(&mut changed, 1).0, if passes { 0 } else { 10 }, "{odd:?}");
    }
    let of_kind = |kind: &str| odd.iter().filter(|odd| odd.kind == kind).count();
    assert_eq!((of_kind("not above close"), of_kind("below open - 1"), of_kind("on an SWT")), (1, 2, 1));
}

/// Studies with currents made to measure are good ones, and with random ones they meet all that a breaker may come to.
#[test]
fn comparisons_meet_all_that_a_breaker_may_come_to() {
    let mut tally = Tally::default();
    for seed in 0..200 {
        let mut dice = Dice::new(seed);
        let measured = text_of(&breaking_study(&mut dice)).into_bytes();
        assert!(read_study(&measured).is_ok(), "seed {seed}");
        for text in [measured, studies::random_text(&mut dice)] {
            let asked = ask_latches(&own_calls(), &text, seed, Depth::Usual, &mut tally);
            assert!(asked.is_ok(), "seed {seed}: {asked:?}");
        }
    }
    miss_nothing(&mut tally);
    assert_eq!(tally.failed, 0);
}
