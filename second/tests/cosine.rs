//! Power-frequency sources: worked studies, the table by itself, the value by its place in the turn, and refusals.

use second::calls;
use second::compare::dice::Dice;
use second::compare::lent::Lent;
use second::compare::slips::own_calls;
use second::compare::studies;
use second::compare::tally::Tally;
use second::compare::waves;
use second::cosine::{cosine, fine_cosine, quarter_table, ONE, TURN};
use second::listing::listing_of;
use second::network::{cosine_index, Course, Kind, Source};
use second::reader::read_study;
use second::record::NETWORK_WORDS;
use second::state;
use second::write::{write, TEXT_ROOM};

const STUDY: &str = "study\t1000\t4\t1000000000000000\n";

fn listing(text: &str) -> String {
    listing_of(text.as_bytes())
}

/// The voltages of node 1.
fn voltages(text: &str) -> Vec<i64> {
    let listing = listing(text);
    let fields = listing.lines().map(|line| line.split('\t').collect::<Vec<_>>());
    let wanted = fields.filter(|fields| fields[0] == "v" && fields[2] == "1");
    wanted.map(|fields| fields[3].parse().expect("a number")).collect()
}

fn source(peak: i128, start: i128, frequency: i128, step_length: i128) -> Source {
    Source { node: 1, fixes_voltage: true, peak, start, course: Course::Cosine { frequency, step_length } }
}

#[test]
fn a_quarter_of_a_50_hz_turn() {
    let text = "study\t1000000\t7\t0\nVC\t1\t1000\t2\t50000\nR\t1\t0\t1000000\n";
    assert_eq!(voltages(text), [0, 1000, 951, 810, 590, 313, 0]);
}

#[test]
fn the_highest_peak_at_the_highest_frequency() {
    let text = "study\t1000000\t4\t0\nVC\t1\t20000000\t1\t100000\n";
    assert_eq!(voltages(text), [20_000_000, 16_209_143, 6_273_634, -6_156_992]);
    let negative = text.replace("20000000", "-20000000");
    assert_eq!(voltages(&negative), [-20_000_000, -16_209_143, -6_273_634, 6_156_992]);
}

/// As the request asks it of the table: it falls strictly from 2^30 to 0, and the cosine of twice the angle follows.
#[test]
fn the_table_falls_and_doubles() {
    let table = quarter_table();
    assert_eq!((table.len(), table[0], table[256]), (257, 1 << 30, 0));
    assert!(table.windows(2).all(|two| two[1] < two[0]));
    for index in 0..=128 {
        let doubled = 2 * table[index] * table[index] - (1 << 60);
        let off = doubled - (1 << 30) * table[2 * index];
        assert!(off.abs() <= 1 << 32, "{index}: off by {off}");
    }
}

/// No entry lies near a half, where the small error of the series could turn its rounding; and the processor's own
/// cosine gives the same entries.
#[test]
fn the_table_is_nearest() {
    for (index, entry) in quarter_table().iter().enumerate() {
        let rest = fine_cosine(index as i128).rem_euclid(1 << 30);
        assert!((rest - (1 << 29)).abs() > 1 << 20, "{index}");
        let by_double = (std::f64::consts::PI * index as f64 / 512.0).cos() * ONE as f64;
        assert_eq!(by_double.round() as i128, *entry, "{index}");
    }
}

#[test]
fn the_other_quarters_by_symmetry() {
    let table = quarter_table();
    for index in 0..TURN {
        let at = |place: i128| table[place as usize];
        let wanted = match index {
            0..=256 => at(index),
            257..=512 => -at(512 - index),
            513..=768 => -at(index - 512),
            _ => at(1024 - index),
        };
        assert_eq!(cosine(index), wanted, "{index}");
    }
    assert_eq!([0, 256, 512, 768, 1023].map(cosine), [ONE, 0, -ONE, 0, table[1]]);
}

#[test]
fn places_in_the_turn() {
    // 15,625 ns at 62.5 Hz are one place of 1,024.
    for (since_start, index) in [(0, 0), (1, 1), (255, 255), (256, 256), (1023, 1023), (1024, 0), (1025, 1)] {
        assert_eq!(cosine_index(since_start, 15_625, 62_500), index);
    }
    assert_eq!(cosine_index(1, 15_624, 62_500), 0);
    assert_eq!(cosine_index(1023, 15_626, 62_500), 1023);
    assert_eq!(cosine_index(1024, 15_624, 62_500), 1023);
    // The farthest that a study comes: 10^17 but for one step, a whole number of turns but for a tenth.
    assert_eq!(cosine_index(999_999, 1_000_000, 100_000), 921);
    assert_eq!(cosine_index(999_999, 1, 1), 0);
}

#[test]
fn values_before_at_and_after_the_start() {
    let values =
        |peak| (1..=6).map(|step| source(peak, 2, 62_500, 4_000_000).value_at(step)).collect::<Vec<_>>();
    assert_eq!(values(9), [0, 9, 0, -9, 0, 9]);
    assert_eq!(values(-9), [0, -9, 0, 9, 0, -9]);
    // An eighth of a turn: 0.7071 of the peak, toward zero on either side.
    let eighth = |peak, since_start: i128| source(peak, 1, 62_500, 2_000_000).value_at(1 + since_start);
    assert_eq!([1, 3, 5, 7].map(|since_start| eighth(7, since_start)), [4, -4, -4, 4]);
    assert_eq!([1, 3, 5, 7].map(|since_start| eighth(-7, since_start)), [-4, 4, 4, -4]);
    assert_eq!([1, 3].map(|since_start| eighth(1, since_start)), [0, 0]);
}

/// Over random sources the value is within what the table's steps and the rounding leave of the cosine.
#[test]
fn values_near_the_cosine() {
    let mut dice = Dice::new(5);
    for _ in 0..10_000 {
        let (peak, start) = (dice.between(-20_000_000, 20_000_000), dice.between(1, 1_000_000));
        let (frequency, step_length) = (dice.spread(1, 100_000), dice.spread(1, 1_000_000));
        let step = dice.between(start, 1_000_000);
        let value =
            source(peak.into(), start.into(), frequency.into(), step_length.into()).value_at(step.into());
        let turns = ((step - start) as i128 * (step_length * frequency) as i128) % 1_000_000_000_000;
        let exact = peak as f64 * (turns as f64 / 1e12 * std::f64::consts::TAU).cos();
        let allowed = peak.abs() as f64 * std::f64::consts::TAU / 1024.0 + 1.0;
        assert!((value as f64 - exact).abs() <= allowed, "{peak} {start} {frequency} {step_length} {step}");
    }
}

#[test]
fn a_vc_fixes_its_node_before_its_start_too() {
    // Node 2 hangs at node 1, which nothing but the VC holds.
    let text = "study\t1000000\t3\t0\nVC\t1\t1000\t3\t50000\nR\t1\t2\t1000\n";
    assert_eq!(
        listing(text),
        "v\t1\t1\t0\nv\t1\t2\t0\ni\t1\t1\t0\nv\t2\t1\t0\nv\t2\t2\t0\ni\t2\t1\t0\n\
        v\t3\t1\t1000\nv\t3\t2\t1000\ni\t3\t1\t0\ndone\t3\n"
    );
}

#[test]
fn two_of_vs_and_vc_on_one_node() {
    let bad = |rows: &str| listing(&format!("{STUDY}{rows}"));
    let (vs, vc) = ("VS\t1\t5\t1\t0\n", "VC\t1\t7\t1\t50000\n");
    for (first, second) in [(vs, vc), (vc, vs), (vc, vc), (vs, vs)] {
        assert_eq!(bad(&format!("{first}{second}")), "bad\t3\t5\n");
        assert!(
            !bad(&format!("{first}IS\t1\t5\t1\t0\n{}", second.replacen("\t1", "\t2", 1))).starts_with("bad")
        );
    }
    // DOUBLE comes before FULL, and a VC counts as a source.
    let full = format!("{vs}{}", "IS\t1\t5\t1\t0\n".repeat(15));
    assert_eq!(bad(&format!("{full}{vc}")), "bad\t18\t5\n");
    assert_eq!(bad(&format!("{full}VC\t2\t7\t1\t50000\n")), "bad\t18\t6\n");
    let sixteen: String = (1..=16).map(|node| format!("VC\t{node}\t7\t1\t50000\n")).collect();
    assert!(bad(&sixteen).ends_with("done\t4\n"));
    assert_eq!(bad(&format!("{sixteen}VC\t17\t7\t1\t50000\n")), "bad\t18\t6\n");
}

#[test]
fn fields_of_a_vc() {
    let number = |row: &str| match read_study(format!("{STUDY}{row}\n").as_bytes()) {
        Ok(_) => 0,
        Err(bad) => bad.refusal.number(),
    };
    for (row, refused) in [
        ("VC\t1\t1000\t1\t1", 0),
        ("VC\t1\t1000\t1\t100000", 0),
        ("VC\t1\t1000\t1\t0", 3),
        ("VC\t1\t1000\t1\t100001", 3),
        ("VC\t1\t-20000000\t1000000\t50000", 0),
        ("VC\t1\t20000001\t1\t50000", 3),
        ("VC\t1\t1000\t0\t50000", 3),
        ("VC\t1\t1000\t1000001\t50000", 3),
        ("VC\t32\t0\t1\t50000", 0),
        ("VC\t33\t0\t1\t100001", 2),
        ("VC\t0\t0\t1\t50000", 2),
        ("VC\t1\t-0\t1\t50000", 1),
        ("VC\t1\t5\t1\t-50000", 1),
        ("VC\t1\t5\t-1\t50000", 1),
        ("VC\t1\t5\t1\t050000", 1),
        ("VC\t1\t5\t1", 1),
        ("VC\t1\t5\t1\t50000\t0", 1),
        ("V\t1\t5\t1\t50000", 1),
        ("VCS\t1\t5\t1\t50000", 1),
        ("vc\t1\t5\t1\t50000", 1),
    ] {
        assert_eq!(number(row), refused, "{row}");
    }
}

#[test]
fn kind_8_in_the_record_and_back() {
    let text = format!("{STUDY}VC\t3\t-1000\t2\t50000\nR\t3\t0\t1000\n");
    let mut words = vec![7; NETWORK_WORDS];
    assert_eq!(calls::read(text.as_bytes(), &mut words), (0, 0));
    assert_eq!(words[8..16], [8, 3, -1000, 2, 50_000, 0, 0, 0]);
    assert_eq!((Kind::CosineSource.number(), Kind::of_number(8)), (8, Some(Kind::CosineSource)));
    let mut out = vec![b'?'; TEXT_ROOM];
    assert_eq!(write(&words, &mut out), (0, text.len() as u64));
    assert_eq!(&out[..text.len()], text.as_bytes());
    for (place, word) in [(8, 10), (9, 0), (9, 33), (11, 0), (12, 0), (12, 100_001), (13, 1)] {
        let mut unfit = words.clone();
        unfit[place] = word;
        assert_eq!(write(&unfit, &mut out), (8, 0), "word {place} set to {word}");
    }
    // A VS of another node turned into a VC of this one.
    let two = format!("{STUDY}VC\t1\t5\t1\t50000\nVS\t2\t5\t1\t9\n");
    assert_eq!(calls::read(two.as_bytes(), &mut words), (0, 0));
    words[16] = 8;
    assert_eq!(write(&words, &mut out).0, 0);
    words[17] = 1;
    assert_eq!(write(&words, &mut out), (8, 0));
}

/// From any count on: the value goes by the steps since the start alone.
#[test]
fn any_step_over_lent_memory() {
    let text = "study\t1000\t1000000\t0\nVC\t1\t20000000\t7\t50000\n";
    let mut words = vec![7; NETWORK_WORDS];
    assert_eq!(calls::read(text.as_bytes(), &mut words), (0, 0));
    for (count, voltage) in [
        (5, 0),
        (6, 20_000_000),
        (5_006, 0),
        (10_006, -20_000_000),
        (15_006, 0),
        (20_006, 20_000_000),
        (999_999, 19_999_623),
    ] {
        let mut lent = Lent::at_rest(&words);
        lent.records[state::count_place(1)] = count;
        let answer = calls::advance(&lent.network, &mut lent.records, &mut lent.froms, &mut lent.tos, 1);
        assert_eq!(answer, (0, count as u64 + 1));
        assert_eq!(lent.records[state::voltage_place(1)], voltage, "count {count}");
    }
}

/// Random studies have power-frequency sources at every part of their turn.
#[test]
fn random_studies_meet_every_part_of_a_turn() {
    let mut tally = Tally::default();
    for seed in 0..1_000 {
        waves::count_text(&studies::random_text(&mut Dice::new(seed)), &mut tally);
    }
    waves::miss_nothing(&mut tally);
    assert_eq!(tally.failed, 0);
}

/// The comparison's studies of single places have each place twice, with a peak that tells its cosine from the one
/// below and from the one above; at 1, 0 and -1 there are peaks for one side only, or for none.
#[test]
fn every_place_of_the_turn_is_told() {
    let mut places = vec![0; TURN as usize];
    let mut told = vec![(false, false); TURN as usize];
    let texts = waves::every_place();
    for text in &texts {
        let study = read_study(text).expect("a good text");
        for row in study.rows.iter().filter(|row| row.kind == Kind::CosineSource) {
            let (peak, since_start) = (row.fields[1], 2_000 - row.fields[2]);
            let index = cosine_index(since_start, study.step_length, row.fields[3]);
            let value = |off: i128| peak * (cosine(index) + off) / ONE;
            places[index as usize] += 1;
            told[index as usize].0 |= value(-1) != value(0);
            told[index as usize].1 |= value(1) != value(0);
        }
        assert!(waves::ask_place(&own_calls(), text, &mut Tally::default()).is_ok());
    }
    for (index, told) in told.into_iter().enumerate() {
        let wanted = match index {
            0 => (true, false),
            256 | 768 => (false, false),
            512 => (false, true),
            _ => (true, true),
        };
        assert_eq!(told, wanted, "{index}");
        assert_eq!(places[index], usize::from(told.0) + usize::from(told.1), "{index}");
    }
    assert_eq!(texts.len(), 128);
}
