//! Travel times between steps: worked studies, the received value by itself, stores, waits and refusals.

use second::calls;
use second::compare::dice::Dice;
use second::compare::lent::Lent;
use second::compare::stopping::stopping_study;
use second::compare::studies;
use second::compare::tally::Tally;
use second::compare::travels;
use second::listing::listing_of;
use second::network::Travel;
use second::record::{text_of, NETWORK_WORDS};
use second::state;

const SOURCE: &str = "VS\t1\t1000\t1\t0\n";

fn listing(text: &str) -> String {
    listing_of(text.as_bytes())
}

fn line_study(step_length: u64, steps: u64, travel: u64) -> String {
    format!("study\t{step_length}\t{steps}\t0\n{SOURCE}LINE\t1\t2\t400000\t{travel}\n")
}

/// A field of each line with this word and this node or branch.
fn column(listing: &str, word: &str, place: &str, field: usize) -> Vec<i64> {
    let fields = listing.lines().map(|line| line.split('\t').collect::<Vec<_>>());
    let wanted = fields.filter(|fields| fields[0] == word && fields[2] == place);
    wanted.map(|fields| fields[field].parse().expect("a number")).collect()
}

fn at_rest(text: &str) -> Lent {
    let mut words = vec![7; NETWORK_WORDS];
    assert_eq!(calls::read(text.as_bytes(), &mut words), (0, 0), "{text}");
    Lent::at_rest(&words)
}

fn advance(lent: &mut Lent, area: u64) -> (u64, u64) {
    calls::advance(&lent.network, &mut lent.records, &mut lent.froms, &mut lent.tos, area)
}

#[test]
fn two_steps_and_a_quarter() {
    assert_eq!(column(&listing(&line_study(1000, 4, 2250)), "v", "2", 3), [0, 0, 1500, 2000]);
}

#[test]
fn whole_travel_times_stay_as_they_were() {
    let voltages = column(&listing(&line_study(1000, 8, 2000)), "v", "2", 3);
    assert_eq!(voltages, [0, 0, 2000, 2000, 2000, 2000, 0, 0]);
}

/// One step and a third, rounded down at negative values too.
#[test]
fn one_step_and_a_bit() {
    let text =
        "study\t3\t6\t1000000000000000\nVS\t1\t-7\t1\t0\nLINE\t1\t2\t999999999\t4\nR\t2\t0\t300000000000\n";
    let got = listing(text);
    assert_eq!(column(&got, "v", "2", 3), [0, -9, -14, -10, -4, -2]);
    assert_eq!(column(&got, "i", "1", 4), [0, 333, 0, 148, -74, 436]);
}

#[test]
fn received_values_by_themselves() {
    let sent = |values: &'static [i128]| move |step: i128| values[step as usize - 1];
    let travel = |nanoseconds| Travel::of(nanoseconds, 1000);
    let values = sent(&[10, -7, 4, 9]);
    // Before step 1 both values are 0; at step 1 only the older one is.
    assert_eq!(travel(2500).received(2, &values), 0);
    assert_eq!(travel(2500).received(3, &values), 5);
    assert_eq!(travel(2500).received(4, &values), 1);
    assert_eq!(travel(2500).received(5, &values), -2);
    assert_eq!(travel(2001).received(4, &values), -7);
    assert_eq!(travel(2999).received(4, &values), 9);
    assert_eq!(travel(1001).received(4, &values), 3);
    assert_eq!(travel(2000).received(4, &values), -7);
    // The ends of the range: the product is some 2·10^23.
    let wide = sent(&[100_000_000_000_000_000, -100_000_000_000_000_000]);
    let longest = Travel::of(1_999_999, 1_000_000);
    assert_eq!(longest.received(3, &wide), 99_999_800_000_000_000);
}

#[test]
fn slots_and_travel_times() {
    for (nanoseconds, whole_steps, rest, slots) in
        [(1000, 1, 0, 2), (1001, 1, 1, 3), (1999, 1, 999, 3), (2000, 2, 0, 4), (2500, 2, 500, 5)]
    {
        let travel = Travel::of(nanoseconds, 1000);
        assert_eq!((travel.whole_steps, travel.rest, travel.slots()), (whole_steps, rest, slots));
    }
}

#[test]
fn the_wait_reads_q_steps_back() {
    let mut lent = at_rest(&line_study(1000, 8, 1500));
    let answers = [1, 1, 2, 2, 1, 1, 2].map(|area| advance(&mut lent, area));
    assert_eq!(answers, [(0, 1), (13, 1), (0, 1), (0, 2), (0, 2), (0, 3), (0, 3)]);
}

#[test]
fn counts_may_differ_by_q() {
    let number = |travel: u64, counts: [i64; 2]| {
        let mut lent = at_rest(&line_study(1000, 8, travel));
        lent.records[..2].copy_from_slice(&counts);
        advance(&mut lent, 2).0
    };
    assert_eq!(number(2500, [4, 2]), 0);
    assert_eq!(number(2500, [2, 4]), 13);
    assert_eq!(number(2500, [5, 2]), 10);
    assert_eq!(number(2999, [2, 5]), 10);
}

/// Five slots, step s in place s mod 5: with its own resistance at the far end a line sends the same value again
/// and again. The sixth word is unused.
#[test]
fn an_odd_store_goes_round() {
    let mut lent = at_rest(&format!("{}R\t2\t0\t400000\n", line_study(1000, 8, 2500)));
    for step in 1..=5 {
        assert_eq!(lent.froms[step as usize % 5], 0);
        assert_eq!((advance(&mut lent, 1), advance(&mut lent, 2)), ((0, step), (0, step)));
        assert_eq!(lent.froms[step as usize % 5], -5_000_000_000);
    }
    for step in 6..=7 {
        assert_eq!((advance(&mut lent, 1), advance(&mut lent, 2)), ((0, step), (0, step)));
        assert_eq!(
            lent.froms[..6],
            [-5_000_000_000, -5_000_000_000, -5_000_000_000, -5_000_000_000, -5_000_000_000, 0]
        );
    }
    lent.froms[5] = 1;
    assert_eq!(advance(&mut lent, 1), (10, 0));
}

/// Where k - q is 1 the value of step 0 is 0, whatever stands in its slot.
#[test]
fn what_stands_in_the_slot_of_step_0_is_not_read() {
    let mut plain = at_rest(&line_study(1000, 8, 1500));
    let mut filled = plain.clone();
    filled.froms[0] = 5_000;
    for lent in [&mut plain, &mut filled] {
        assert_eq!([advance(lent, 1), advance(lent, 2), advance(lent, 2)], [(0, 1), (0, 1), (0, 2)]);
    }
    assert_eq!(plain.records, filled.records);
    assert_ne!(plain.records[state::voltage_place(2)], 0);
}

#[test]
fn shorter_than_a_step_and_too_many_slots() {
    assert_eq!(listing(&line_study(1000, 1, 999)), "bad\t3\t4\n");
    assert_eq!(listing(&line_study(1000, 1, 1)), "bad\t3\t4\n");
    assert!(!listing(&line_study(1000, 1, 1000)).starts_with("bad"));
    assert_eq!(listing(&line_study(2, 1, 4097)), "bad\t3\t6\n");
    for travel in [4095, 4096] {
        assert!(!listing(&line_study(2, 1, travel)).starts_with("bad"));
    }
    // 2·2046 + 1 slots and 3 more are all 4,096; a fourth line's two are too many.
    let full = format!("{}LINE\t1\t2\t400000\t1999\n", line_study(1000, 1, 2_046_001));
    assert!(!listing(&full).starts_with("bad"));
    assert_eq!(listing(&format!("{full}LINE\t3\t4\t400000\t1000\n")), "bad\t5\t6\n");
}

#[test]
fn both_ends_in_one_area() {
    let text = "study\t1000\t9\t1000000000\nR\t1\t2\t1000\nR\t2\t0\t1000000\nLINE\t1\t2\t400000\t1001\n\
        IS\t1\t1000000000\t1\t0\n";
    assert!(listing(text).ends_with("done\t9\n"), "{}", listing(text));
}

/// Random studies have travel times of every kind, and so have those that are made to stop.
#[test]
fn random_studies_meet_all_travel_times() {
    let mut tally = Tally::default();
    for seed in 0..1_000 {
        travels::count_text(&studies::random_text(&mut Dice::new(seed)), &mut tally);
    }
    travels::miss_nothing(&mut tally);
    assert_eq!(tally.failed, 0);
    let mut tally = Tally::default();
    for seed in 0..100 {
        let study = stopping_study(&mut Dice::new(seed));
        travels::count_text(text_of(&study).as_bytes(), &mut tally);
    }
    assert!(tally.counted("travel: between steps") > 50 && tally.counted("travel: whole steps") > 50);
}
