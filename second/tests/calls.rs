//! The four calls over lent memory: the examples again, the rings against the whole run, what makes lent
//! memory fit, and the listing by pieces against the whole listing.

use second::calls;
use second::compare::dice::Dice;
use second::compare::lent::Lent;
use second::compare::moves::random_state;
use second::compare::studies;
use second::compare::widest;
use second::list::{self, Listed, MORE, STEP_ROOM, STOPPED};
use second::listing::listing_of;
use second::network::Network;
use second::reader::read_study;
use second::record::{record_of, study_of_record, text_of, NETWORK_WORDS};
use second::run::Run;
use second::state;

fn network_words(text: &str) -> Vec<i64> {
    let mut words = vec![7; NETWORK_WORDS];
    assert_eq!(calls::read(text.as_bytes(), &mut words), (0, 0), "{text}");
    words
}

fn at_rest(text: &str) -> Lent {
    Lent::at_rest(&network_words(text))
}

fn advance(lent: &mut Lent, area: u64) -> (u64, u64) {
    calls::advance(&lent.network, &mut lent.records, &mut lent.froms, &mut lent.tos, area)
}

/// The number and the lines listed into so many bytes; the bytes behind the lines must stay as they were.
fn list(lent: &mut Lent, room: usize) -> (u64, String) {
    let (told, lines) = list_told(lent, room);
    (told.number, lines)
}

fn list_told(lent: &mut Lent, room: usize) -> (Listed, String) {
    let mut out = vec![b'?'; room];
    let told = list::list(&lent.network, &mut lent.records, &mut lent.froms, &mut lent.tos, &mut out);
    let (lines, rest) = out.split_at(told.written as usize);
    assert!(rest.iter().all(|byte| *byte == b'?'));
    (told, String::from_utf8(lines.to_vec()).expect("plain text"))
}

fn words(lent: &Lent) -> [&Vec<i64>; 4] {
    [&lent.network, &lent.records, &lent.froms, &lent.tos]
}

const E5: &str = "study\t1000\t8\t0\nVS\t1\t1000\t1\t0\nLINE\t1\t2\t400000\t2000\n";

#[test]
fn record_layout() {
    let words = network_words("study\t1000\t8\t5\nVS\t1\t-10\t1\t0\nSW\t1\t2\t1000\t5\t9\n");
    assert_eq!(words[..8], [1000, 8, 5, 2, 0, 0, 0, 0]);
    assert_eq!(words[8..16], [6, 1, -10, 1, 0, 0, 0, 0]);
    assert_eq!(words[16..24], [5, 1, 2, 1000, 5, 9, 0, 0]);
    assert!(words[24..].iter().all(|word| *word == 0));
}

#[test]
fn refused_reading_writes_nothing() {
    for (text, answer) in
        [("", (1, 1)), ("study\t0\t1\t0\n", (3, 1)), ("study\t1\t1\t0\nR\t1\t1\t1000\n", (2, 2))]
    {
        let mut words = vec![7; NETWORK_WORDS];
        assert_eq!(calls::read(text.as_bytes(), &mut words), answer);
        assert!(words.iter().all(|word| *word == 7));
    }
    for length in [0, 1023, 1025] {
        assert_eq!(calls::read(&[b'9'; 70_000], &mut vec![7; length]), (9, 0));
    }
    assert_eq!(calls::read(&[b'9'; 70_000], &mut vec![7; 1024]), (7, 0));
}

#[test]
fn e5_and_e6_over_lent_memory() {
    let mut lent = at_rest(E5);
    assert_eq!(advance(&mut lent, 1), (0, 1));
    assert_eq!(advance(&mut lent, 1), (0, 2));
    // -(g·v + i) = -2·2,500,000·1000 in places 1 and 2 of four.
    assert_eq!(lent.froms[..5], [0, -5_000_000_000, -5_000_000_000, 0, 0]);
    assert_eq!(advance(&mut lent, 1), (13, 1));
    assert_eq!(advance(&mut lent, 2), (0, 1));
    assert_eq!(advance(&mut lent, 2), (0, 2));
    assert_eq!(advance(&mut lent, 2), (0, 3));
    assert_eq!(lent.records[state::voltage_place(2)], 2000);
    assert_eq!(advance(&mut lent, 2), (0, 4));
    assert_eq!(advance(&mut lent, 2), (13, 1));
    assert_eq!(advance(&mut lent, 3), (11, 0));
    assert_eq!(advance(&mut lent, 0), (11, 0));
    assert_eq!(advance(&mut lent, u64::MAX), (11, 0));
}

#[test]
fn done_after_all_steps() {
    let mut lent = at_rest("study\t1000\t1\t0\nVS\t1\t1000\t1\t0\n");
    assert_eq!(advance(&mut lent, 1), (0, 1));
    assert_eq!(advance(&mut lent, 1), (12, 0));
    assert_eq!(advance(&mut lent, 2), (11, 0));
}

/// The rings of the calls against the run that keeps everything, over random orders of areas.
#[test]
fn rings_agree_with_the_whole_run() {
    for seed in 0..300 {
        let mut dice = Dice::new(seed);
        let text = studies::random_text(&mut dice);
        let mut lent = at_rest(std::str::from_utf8(&text).expect("plain text"));
        let mut run = Run::at_rest(Network::of_study(&read_study(&text).expect("a good text")));
        for _ in 0..60 {
            let area = dice.below(run.network.area_count + 2);
            let before = lent.clone();
            let expected = match run.advance(area) {
                Ok(count) => (0, count as u64),
                Err(stop) => (stop.refusal.number(), stop.place as u64),
            };
            assert_eq!(advance(&mut lent, area as u64), expected, "seed {seed}");
            if expected.0 != 0 {
                assert_eq!(words(&lent), words(&before), "a refusal changes nothing");
            }
        }
        for node in 1..=run.network.node_count {
            assert_eq!(i128::from(lent.records[state::voltage_place(node)]), run.voltages[node]);
        }
        for (index, branch) in run.network.branches.iter().enumerate() {
            assert_eq!(
                i128::from(lent.records[state::from_current_place(branch.row)]),
                run.from_currents[index]
            );
            assert_eq!(i128::from(lent.records[state::to_current_place(branch.row)]), run.to_currents[index]);
        }
    }
}

#[test]
fn records_come_back_from_their_text() {
    for seed in 0..200 {
        let study = studies::random_study(&mut Dice::new(seed));
        assert_eq!(read_study(text_of(&study).as_bytes()).as_ref(), Ok(&study));
        assert_eq!(study_of_record(&record_of(&study)), Some(study));
    }
}

#[test]
fn unfit_networks() {
    let good = network_words(E5);
    assert!(study_of_record(&good).is_some());
    for (place, value) in
        [(3, 81), (3, -1), (3, 3), (3, 1), (4, 1), (7, 1), (8, 0), (8, 10), (13, 1), (24, 1), (1023, 1)]
    {
        let mut words = good.clone();
        words[place] = value;
        assert_eq!(study_of_record(&words), None, "word {place} set to {value}");
    }
}

#[test]
fn unfit_states() {
    let good = at_rest(E5);
    let refused = |change: &dyn Fn(&mut Lent)| {
        let mut lent = good.clone();
        change(&mut lent);
        let before = lent.clone();
        let answer = advance(&mut lent, 1);
        assert!(answer.0 == 0 || words(&lent) == words(&before));
        answer.0
    };
    assert_eq!(refused(&|lent| lent.records[0] = -1), 10);
    assert_eq!(refused(&|lent| lent.records[0] = 3), 10);
    assert_eq!(refused(&|lent| lent.records[0] = 2), 13);
    assert_eq!(refused(&|lent| lent.records[2] = 1), 10);
    // A voltage goes with its peak.
    let set_voltage = |lent: &mut Lent, voltage: i64| {
        lent.records[32] = voltage;
        lent.records[304] = voltage.abs();
    };
    assert_eq!(refused(&|lent| set_voltage(lent, -20_000_000)), 0);
    assert_eq!(refused(&|lent| set_voltage(lent, -20_000_001)), 10);
    assert_eq!(refused(&|lent| lent.records[34] = 1), 10);
    // Row 0 is the source, row 1 the line: the source's words are unused, a line keeps no history.
    assert_eq!(refused(&|lent| lent.records[64] = 1), 10);
    assert_eq!(refused(&|lent| lent.records[65] = 140_000_000_000_000_000), 0);
    assert_eq!(refused(&|lent| lent.records[65] = -140_000_000_000_000_001), 10);
    assert_eq!(refused(&|lent| lent.records[145] = 1), 0);
    assert_eq!(refused(&|lent| lent.records[225] = 1), 10);
    assert_eq!(refused(&|lent| lent.records[511] = 1), 10);
    assert_eq!(refused(&|lent| lent.records[1023] = 1), 10);
    assert_eq!(refused(&|lent| lent.records.truncate(512)), 9);
    assert_eq!(refused(&|lent| lent.froms[3] = 100_000_000_000_000_000), 0);
    assert_eq!(refused(&|lent| lent.froms[3] = 100_000_000_000_000_001), 10);
    assert_eq!(refused(&|lent| lent.tos[4] = 1), 10);
    assert_eq!(refused(&|lent| lent.tos.push(0)), 9);
    assert_eq!(refused(&|lent| lent.network[4] = 1), 8);
}

/// An advance depends on nothing but the network, its own area's records, the far counts and the far values
/// it reads: two random well-formed states that agree in those agree in the answer and in what is written.
#[test]
fn advance_depends_on_its_own_area_only() {
    for seed in 0..200 {
        let mut dice = Dice::new(seed);
        let study = studies::random_study(&mut dice);
        let network = Network::of_study(&study);
        let mut one = random_state(&mut dice, &network, &record_of(&study));
        let mut other = one.clone();
        let area = 1 + dice.below(network.area_count.max(1));
        for node in (1..=network.node_count).filter(|node| network.area_of[*node] != area) {
            other.records[state::voltage_place(node)] = dice.between(-20_000_000, 20_000_000);
            other.records[state::peak_place(node)] = 20_000_000;
            other.records[state::peak_step_place(node)] = 0;
        }
        for branch in &network.branches {
            // Of its own currents an advance reads the breakers'.
            let own = !branch.is_line() && network.area_of_branch(branch) == area;
            if !own || branch.breaker().is_none() {
                other.records[state::from_current_place(branch.row)] = dice.between(-1_000_000, 1_000_000);
            }
            if branch.keeps_history() && !own {
                other.records[state::history_place(branch.row)] = dice.between(-1_000_000, 1_000_000);
            }
            if branch.breaker().is_some() && !own {
                other.records[state::latch_place(branch.row)] = 0;
            }
        }
        let answers = (advance(&mut one, area as u64), advance(&mut other, area as u64));
        assert_eq!(answers.0, answers.1, "seed {seed}");
        let own = (1..=network.node_count).filter(|node| network.area_of[*node] == area);
        for node in own {
            for place in [state::voltage_place(node), state::peak_place(node), state::peak_step_place(node)] {
                assert_eq!(one.records[place], other.records[place], "seed {seed}");
            }
        }
        let own = network.branches.iter().filter(|branch| branch.breaker().is_some());
        for branch in own.filter(|branch| network.area_of_branch(branch) == area) {
            let place = state::latch_place(branch.row);
            assert_eq!(one.records[place], other.records[place], "seed {seed}");
        }
        assert_eq!((one.froms, one.tos), (other.froms, other.tos), "seed {seed}");
    }
}

#[test]
fn e1_in_one_piece() {
    let text = "study\t1000\t1\t0\nVS\t1\t1000\t1\t0\nR\t1\t2\t2000\nR\t2\t0\t2000\n";
    let mut lent = at_rest(text);
    assert_eq!(list(&mut lent, STEP_ROOM), (0, listing_of(text.as_bytes())));
    assert_eq!(lent.records[0], 1);
    assert_eq!(list(&mut lent, STEP_ROOM), (0, "done\t1\n".to_string()));
}

#[test]
fn a_study_without_areas_is_done() {
    let mut lent = at_rest("study\t1000\t7\t0\n");
    assert_eq!(list(&mut lent, STEP_ROOM), (0, "done\t7\n".to_string()));
    assert_eq!(lent, at_rest("study\t1000\t7\t0\n"));
}

#[test]
fn pieces_make_the_whole_listing() {
    for seed in 0..200 {
        let mut dice = Dice::new(seed);
        let text = studies::random_text(&mut dice);
        let mut lent = at_rest(std::str::from_utf8(&text).expect("plain text"));
        let mut listing = String::new();
        let mut number = MORE;
        while number == MORE {
            let room = dice.between(STEP_ROOM as i64, 6_000) as usize;
            let (answer, piece) = list(&mut lent, room);
            number = answer;
            listing.push_str(&piece);
        }
        assert_eq!(listing, listing_of(&text), "seed {seed}");
        assert_eq!(number == STOPPED, listing.contains("stop"), "seed {seed}");
    }
}

/// A step begins only where 4,160 bytes are left, although its lines are far shorter.
#[test]
fn room_before_each_step() {
    let first = "v\t1\t1\t1000\nv\t1\t2\t0\ni\t1\t1\t2500000000\t0\n";
    let second = first.replace("\t1\t1\t", "\t2\t1\t").replace("\t1\t2\t", "\t2\t2\t");
    assert_eq!(list(&mut at_rest(E5), STEP_ROOM), (MORE, first.to_string()));
    assert_eq!(list(&mut at_rest(E5), STEP_ROOM + first.len() - 1), (MORE, first.to_string()));
    assert_eq!(list(&mut at_rest(E5), STEP_ROOM + first.len()), (MORE, format!("{first}{second}")));
    // `done` asks for no such room.
    let whole = listing_of(E5.as_bytes());
    let last_step = whole.find("v\t8\t1\t").expect("step 8 is listed");
    assert_eq!(list(&mut at_rest(E5), STEP_ROOM + last_step), (0, whole));
}

#[test]
fn a_refused_area_stops_the_listing() {
    // Node 2, an area of its own, hangs at a switch that opens at step 2.
    let text = "study\t1000\t5\t0\nVS\t1\t9\t1\t0\nR\t1\t0\t1000\nSWT\t2\t0\t1000\t1\t2\n";
    let mut lent = at_rest(text);
    let (told, lines) = list_told(&mut lent, 65_536);
    assert_eq!((told.number, told.stop), (STOPPED, [2, 14, 2]));
    assert_eq!(lines, listing_of(text.as_bytes()));
    assert!(lines.ends_with("i\t1\t2\t0\nstop\t2\t2\t14\t2\n"), "{lines}");
    // Area 1 keeps the step that it took, so the areas have no full step in common any more.
    assert_eq!(lent.records[..2], [2, 1]);
    assert_eq!(
        list_told(&mut lent, 65_536),
        (Listed { number: 10, written: 0, stop: [0; 3] }, String::new())
    );
    // Where the first area is refused, the next call stops at the same place.
    let mut lent = at_rest("study\t1000\t9\t0\nVS\t1\t1000\t1\t0\nSW\t1\t2\t1000\t5\t10\n");
    for _ in 0..2 {
        let (told, lines) = list_told(&mut lent, STEP_ROOM);
        assert_eq!((told.number, told.stop, lines.as_str()), (STOPPED, [1, 14, 2], "stop\t1\t1\t14\t2\n"));
    }
}

#[test]
fn refused_listings_write_nothing() {
    let refused = |room: usize, change: &dyn Fn(&mut Lent)| {
        let mut lent = at_rest(E5);
        change(&mut lent);
        let before = lent.clone();
        let (number, lines) = list(&mut lent, room);
        assert!(lines.is_empty() && lent == before);
        number
    };
    let damage_network = |lent: &mut Lent| lent.network[4] = 1;
    let damage_state = |lent: &mut Lent| lent.records[511] = 1;
    assert_eq!(refused(0, &|_| ()), 9);
    assert_eq!(refused(STEP_ROOM - 1, &damage_network), 9);
    assert_eq!(refused(STEP_ROOM, &|lent| lent.froms.truncate(4_095)), 9);
    assert_eq!(refused(STEP_ROOM, &|lent| lent.network.push(0)), 9);
    assert_eq!(refused(STEP_ROOM, &damage_network), 8);
    let damage_both = |lent: &mut Lent| {
        damage_network(lent);
        damage_state(lent);
    };
    assert_eq!(refused(STEP_ROOM, &damage_both), 8);
    assert_eq!(refused(STEP_ROOM, &damage_state), 10);
    assert_eq!(refused(STEP_ROOM, &|lent| lent.tos[4] = 1), 10);
    assert_eq!(refused(STEP_ROOM, &|lent| lent.records[1] = 1), 10);
}

/// The longest lines of a step that we could bring about, and `done`, have room in the shortest buffer.
#[test]
fn the_widest_step_has_room() {
    let study = read_study(&widest::text()).expect("a good text");
    let mut lent = widest::state(&study);
    let (number, lines) = list(&mut lent, STEP_ROOM);
    assert_eq!((number, lines.len()), (0, 4_059));
    for line in [
        "v\t1000000\t32\t-20000000\n",
        "i\t1000000\t32\t-100000000000000000\t-100000000000000000\n",
        "i\t1000000\t63\t-100000000000000000\t-99999999980000000\n",
        "i\t1000000\t64\t-100000000000000000\t99999999980000000\ndone\t1000000\n",
    ] {
        assert!(lines.contains(line), "{line}");
    }
}
