//! Peaks while running: worked studies, the rings of advances against all voltages kept, what makes peaks well
//! formed, and the call for a node.

use second::calls;
use second::compare::dice::Dice;
use second::compare::lent::Lent;
use second::compare::nodes::odd_peaks;
use second::compare::studies;
use second::network::Network;
use second::node::{node, Asked};
use second::peaks::Peak;
use second::reader::read_study;
use second::record::NETWORK_WORDS;
use second::run::Run;
use second::state;

const E5: &str = "study\t1000\t8\t0\nVS\t1\t1000\t1\t0\nLINE\t1\t2\t400000\t2000\n";
const FALLING: &str = "study\t1000\t4\t0\nVS\t1\t-300\t2\t3\nR\t1\t0\t1000000\n";

fn at_rest(text: &str) -> Lent {
    let mut words = vec![7; NETWORK_WORDS];
    assert_eq!(calls::read(text.as_bytes(), &mut words), (0, 0), "{text}");
    Lent::at_rest(&words)
}

fn advance(lent: &mut Lent, area: u64) -> (u64, u64) {
    calls::advance(&lent.network, &mut lent.records, &mut lent.froms, &mut lent.tos, area)
}

/// So many steps of each area, in rising order.
fn steps(lent: &mut Lent, areas: u64, count: u64) {
    for step in 1..=count {
        for area in 1..=areas {
            assert_eq!(advance(lent, area), (0, step));
        }
    }
}

fn asked(lent: &Lent, number: u64) -> Asked {
    node(&lent.network, &lent.records, number)
}

fn peak(lent: &Lent, number: u64) -> (u64, u64) {
    let Asked { number, peak, step, .. } = asked(lent, number);
    assert_eq!(number, 0);
    (peak, step)
}

fn refused(number: u64) -> Asked {
    Asked { number, voltage: 0, peak: 0, step: 0 }
}

#[test]
fn the_far_end_of_e5_doubles_at_step_3() {
    let mut lent = at_rest(E5);
    steps(&mut lent, 2, 8);
    assert_eq!((peak(&lent, 1), peak(&lent, 2)), ((1000, 1), (2000, 3)));
    assert_eq!(asked(&lent, 2), Asked { number: 0, voltage: 0, peak: 2000, step: 3 });
}

#[test]
fn a_negative_ramp_has_peaks_without_sign() {
    let mut lent = at_rest(FALLING);
    assert_eq!(peak(&lent, 1), (0, 0));
    for (step, wanted) in [(1, (0, 1)), (2, (0, 1)), (3, (100, 3)), (4, (200, 4))] {
        assert_eq!(advance(&mut lent, 1), (0, step));
        assert_eq!(peak(&lent, 1), wanted);
    }
    assert_eq!(asked(&lent, 1).voltage, -200);
}

#[test]
fn a_peak_outlasts_its_voltage() {
    let lines = "LINE\t1\t2\t400000\t1000\nLINE\t2\t3\t400000\t1000\n";
    let mut lent = at_rest(&format!("study\t1000\t6\t0\nVS\t1\t1000\t1\t0\n{lines}"));
    steps(&mut lent, 3, 6);
    assert_eq!([1, 2, 3].map(|node| peak(&lent, node)), [(1000, 1), (2000, 4), (2000, 3)]);
    assert_eq!(asked(&lent, 2).voltage, 1000);
}

#[test]
fn peaks_by_themselves() {
    let after = |voltages: &[i128]| {
        let each = voltages.iter().zip(1..);
        each.fold(Peak { magnitude: 77, step: 9 }, |peak, (voltage, step)| peak.after(step, *voltage))
    };
    for (voltages, magnitude, step) in [
        (&[0][..], 0, 1),
        (&[0, 0, 0], 0, 1),
        (&[5, -5, 5], 5, 1),
        (&[-5, 5, -6, 6], 6, 3),
        (&[3, -20_000_000, 20_000_000], 20_000_000, 2),
    ] {
        assert_eq!(after(voltages), Peak { magnitude, step }, "{voltages:?}");
        assert_eq!(Peak::of_all(voltages), Peak { magnitude, step }, "{voltages:?}");
    }
    assert_eq!(Peak::of_all(&[]), Peak { magnitude: 0, step: 0 });
}

/// Peaks kept step by step against those looked for among all voltages of the whole run, over random orders.
#[test]
fn peaks_agree_with_the_whole_run() {
    let mut past_step_1 = 0;
    for seed in 0..300 {
        let mut dice = Dice::new(seed);
        let text = studies::random_text(&mut dice);
        let mut lent = at_rest(std::str::from_utf8(&text).expect("plain text"));
        let mut run = Run::at_rest(Network::of_study(&read_study(&text).expect("a good text")));
        for _ in 0..60 {
            let area = dice.below(run.network.area_count + 2);
            let before = lent.records.clone();
            let accepted = advance(&mut lent, area as u64).0 == 0;
            assert_eq!(run.advance(area).is_ok(), accepted, "seed {seed}");
            for node in (1..=run.network.node_count).filter(|node| run.network.area_of[*node] != area) {
                let places = [state::peak_place(node), state::peak_step_place(node)];
                assert_eq!(places.map(|place| lent.records[place]), places.map(|place| before[place]));
            }
        }
        for node in 1..=run.network.node_count {
            let peak = run.peak(node);
            assert_eq!(calls::lent_peak(&lent.records, node), peak, "seed {seed}, node {node}");
            past_step_1 += usize::from(peak.step > 1);
        }
    }
    assert!(past_step_1 > 300, "{past_step_1}");
}

#[test]
fn step_1_overwrites_what_stood_there() {
    let mut lent = at_rest(FALLING);
    lent.records[state::peak_place(1)] = 20_000_000;
    assert_eq!(peak(&lent, 1), (20_000_000, 0));
    assert_eq!(advance(&mut lent, 1), (0, 1));
    assert_eq!(peak(&lent, 1), (0, 1));
}

#[test]
fn a_refused_step_changes_no_peak() {
    let mut lent = at_rest("study\t1000\t9\t0\nVS\t1\t8\t1\t2\nSWT\t1\t2\t1000\t1\t2\n");
    assert_eq!(advance(&mut lent, 1), (0, 1));
    assert_eq!(advance(&mut lent, 1), (14, 2));
    assert_eq!((peak(&lent, 1), peak(&lent, 2)), ((0, 1), (0, 1)));
}

#[test]
fn peaks_that_are_well_formed() {
    let mut good = at_rest(FALLING);
    steps(&mut good, 1, 3);
    let answers = |place: usize, word: i64| {
        let mut lent = good.clone();
        lent.records[place] = word;
        let before = lent.clone();
        let answer = (asked(&lent, 1).number, advance(&mut lent, 1).0);
        assert!(answer.1 == 0 || lent == before);
        answer
    };
    for (place, word, number) in [
        (304, 100, 0),
        (304, 99, 10),
        (304, -100, 10),
        (304, 20_000_000, 0),
        (304, 20_000_001, 10),
        (304, i64::MIN, 10),
        (336, 0, 0),
        (336, 3, 0),
        (336, 4, 10),
        (336, -1, 10),
        (336, i64::MAX, 10),
        (305, 1, 10),
        (337, 1, 10),
        (335, 1, 10),
        (367, 1, 10),
        (368, 1, 10),
        (512, 1, 10),
        (1023, 1, 10),
    ] {
        assert_eq!(answers(place, word), (number, number), "word {place} set to {word}");
    }
}

/// Each odd peak of the comparison is refused or passes as its kind says.
#[test]
fn odd_peaks_are_what_they_say() {
    let mut lent = at_rest(FALLING);
    steps(&mut lent, 1, 3);
    let network = Network::of_study(&read_study(FALLING.as_bytes()).expect("a good text"));
    let odd = odd_peaks(&network, &lent.records, 1);
    let refused: Vec<&str> = odd
        .into_iter()
        .filter(|odd| {
            let mut records = lent.records.clone();
            records[odd.place] = odd.word;
            node(&lent.network, &records, 1).number == 10
        })
        .map(|odd| odd.kind)
        .collect();
    assert_eq!(
        refused,
        ["above the range", "past the count", "before step 0", "below the voltage", "of the voltage's sign"]
    );
}

#[test]
fn a_peak_is_held_to_the_count_of_its_own_area() {
    let mut lent = at_rest(E5);
    assert_eq!([advance(&mut lent, 1), advance(&mut lent, 1)], [(0, 1), (0, 2)]);
    lent.records[state::peak_step_place(1)] = 2;
    assert_eq!(asked(&lent, 2).number, 0);
    lent.records[state::peak_step_place(2)] = 1;
    assert_eq!(asked(&lent, 1).number, 10);
}

#[test]
fn refusals_of_the_call_in_their_order() {
    let mut lent = at_rest(E5);
    steps(&mut lent, 2, 3);
    let good = lent.clone();
    for number in [0, 3, 32, 33, 1 << 32, (1 << 32) + 1, u64::MAX] {
        assert_eq!(asked(&lent, number), refused(2));
    }
    lent.records[3] = 1;
    for number in [0, 1, 3] {
        assert_eq!(asked(&lent, number), refused(10));
    }
    lent.network[4] = 1;
    assert_eq!(asked(&lent, 1), refused(8));
    lent.records.truncate(512);
    assert_eq!(asked(&lent, 1), refused(9));
    lent.network.push(0);
    assert_eq!(asked(&lent, 1), refused(9));
    // Network and records have one length: exchanged they are refused by 8.
    assert_eq!(node(&good.records, &good.network, 1), refused(8));
}

/// The line stores are not lent: what stands in them is not judged, counts at a line's ends are.
#[test]
fn the_records_alone_are_judged() {
    let mut lent = at_rest(E5);
    lent.froms[4_000] = 1;
    assert_eq!(asked(&lent, 1).number, 0);
    lent.records[..2].copy_from_slice(&[5, 3]);
    assert_eq!(asked(&lent, 1).number, 0);
    lent.records[..2].copy_from_slice(&[6, 3]);
    assert_eq!(asked(&lent, 1), refused(10));
}

#[test]
fn a_study_without_nodes_has_none_to_ask_for() {
    let lent = at_rest("study\t1000\t7\t0\n");
    assert_eq!([0, 1].map(|number| asked(&lent, number)), [refused(2), refused(2)]);
}
