//! Where runs end: a worked study by hand, chains of lines, and every order on random studies by our own calls.

use second::compare::dice::Dice;
use second::compare::ends_mode::ask_ends;
use second::compare::slips::own_calls;
use second::compare::stopping::stopping_study;
use second::compare::tally::Tally;
use second::ends::{end_listing, first_short_area, take_to_end, tied_areas, AreaEnd};
use second::network::Network;
use second::reader::read_study;
use second::record::text_of;
use second::run::Run;

/// Area 1 floats before its step 3, area 2 waits for it, area 3 is apart.
const STOPPED: &str =
    "study\t1000\t6\t0\nVS\t1\t1000\t1\t0\nSW\t1\t2\t2000\t1\t3\nLINE\t1\t3\t400000\t1000\n\
    VS\t4\t7\t1\t0\nR\t4\t0\t1000\n";

fn network(text: &str) -> Network {
    Network::of_study(&read_study(text.as_bytes()).unwrap_or_else(|_| panic!("{text}")))
}

fn ends(text: &str) -> Vec<(i128, u64, u64)> {
    let ends = take_to_end(&mut Run::at_rest(network(text)));
    ends.iter().map(|end| (end.count, end.number, end.place)).collect()
}

#[test]
fn a_stopped_area_a_tied_one_and_one_apart() {
    assert_eq!(ends(STOPPED), [(2, 14, 2), (3, 13, 2), (6, 12, 0)]);
    let listing = end_listing(STOPPED.as_bytes());
    assert_eq!(listing.lines().next(), Some("area\t1\t2\t14\t2"));
    assert_eq!(listing.lines().last(), Some("i\t3\t7000000000"));
}

#[test]
fn without_a_stop_every_area_takes_all_steps() {
    let text = "study\t1000\t3\t0\nVS\t1\t1000\t1\t0\nLINE\t1\t2\t400000\t1000\n";
    assert_eq!(ends(text), [(3, 12, 0), (3, 12, 0)]);
    assert_eq!(ends("study\t1000\t3\t0\n"), []);
    assert_eq!(end_listing(b"study\n"), "bad\t1\t1\n");
}

#[test]
fn a_stop_may_leave_a_tied_area_all_its_steps() {
    let text = STOPPED.replace("400000\t1000", "400000\t4000");
    assert_eq!(ends(&text), [(2, 14, 2), (6, 12, 0), (6, 12, 0)]);
}

#[test]
fn chains_of_lines() {
    let text = "study\t1000\t3\t0\nLINE\t3\t1\t400000\t1000\nLINE\t3\t5\t400000\t1000\nR\t2\t4\t1000\n\
        LINE\t2\t4\t400000\t1000\nVS\t6\t0\t1\t0\n";
    let network = network(text);
    // Nodes 2 and 4 are one area, so areas 1 to 5 begin with nodes 1, 2, 3, 5, 6.
    for area in [1, 3, 4] {
        assert_eq!(tied_areas(&network, area), [false, true, false, true, true, false]);
    }
    assert_eq!(tied_areas(&network, 2), [false, false, true, false, false, false]);
    assert_eq!(tied_areas(&network, 5), [false, false, false, false, false, true]);
}

#[test]
fn an_area_short_of_its_steps_is_told() {
    let network = network(STOPPED);
    let end = |count, number| AreaEnd { count, number, place: 0 };
    assert_eq!(first_short_area(&network, &[end(2, 14), end(3, 13), end(6, 12)]), None);
    assert_eq!(first_short_area(&network, &[end(2, 14), end(3, 13), end(5, 13)]), Some(3));
    assert_eq!(first_short_area(&network, &[end(6, 12), end(5, 13), end(6, 12)]), Some(2));
}

#[test]
fn orders_end_alike() {
    let mut dice = Dice::new(7);
    for seed in 0..60 {
        let text = text_of(&stopping_study(&mut dice));
        let asked = ask_ends(&own_calls(), text.as_bytes(), seed, &mut Tally::default());
        assert!(asked.is_ok(), "{text}{asked:?}");
    }
}
