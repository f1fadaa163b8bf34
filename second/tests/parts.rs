//! Ramps, injections, switches, conductances, doubles and rounding, each by itself.

use second::areas::number_areas;
use second::latch::Breaker;
use second::listing::listing_of;
use second::network::{nearest_halves_up, Branch, Course, Element, Source, Travel};
use second::solve::{double_of, solve};
use second::step::whole_voltage;

fn source(peak: i128, start: i128, rise: i128) -> Source {
    Source { node: 1, fixes_voltage: true, peak, start, course: Course::Ramp { rise } }
}

#[test]
fn ramps_round_toward_zero() {
    let values = |source: Source| (1..=7).map(|step| source.value_at(step)).collect::<Vec<_>>();
    assert_eq!(values(source(10, 2, 3)), [0, 0, 3, 6, 10, 10, 10]);
    assert_eq!(values(source(-10, 2, 3)), [0, 0, -3, -6, -10, -10, -10]);
    assert_eq!(values(source(10, 2, 0)), [0, 10, 10, 10, 10, 10, 10]);
    assert_eq!(values(source(10, 2, 1)), [0, 0, 10, 10, 10, 10, 10]);
}

#[test]
fn several_injections_are_rounded_one_by_one() {
    // 5·1/2 is 2 each; together 4, not 5.
    let text = "study\t1000\t2\t1000\nR\t1\t0\t1000000000000\nIS\t1\t5\t1\t2\nIS\t1\t5\t1\t2\n";
    let listing = listing_of(text.as_bytes());
    assert_eq!(listing, "v\t1\t1\t0\ni\t1\t1\t0\nv\t2\t1\t4\ni\t2\t1\t4\ndone\t2\n");
}

#[test]
fn injection_on_a_fixed_node_changes_nothing() {
    let table = "study\t1000\t2\t0\nVS\t1\t1000\t1\t0\nR\t1\t2\t2000\nR\t2\t0\t2000\n";
    let with_injection = format!("{table}IS\t1\t2000000000000000\t1\t0\n");
    assert_eq!(listing_of(table.as_bytes()), listing_of(with_injection.as_bytes()));
}

#[test]
fn switch_opens_and_the_node_floats() {
    for word in ["SW", "SWT"] {
        let text = format!("study\t1000\t9\t0\nVS\t1\t8\t1\t0\n{word}\t1\t2\t1000\t1\t3\n");
        assert!(listing_of(text.as_bytes()).ends_with("v\t2\t2\t8\ni\t2\t1\t0\nstop\t3\t1\t14\t2\n"));
    }
}

#[test]
fn conductance_halves_go_up() {
    assert_eq!(nearest_halves_up(1, 2), 1);
    assert_eq!(nearest_halves_up(3, 2), 2);
    assert_eq!(nearest_halves_up(499, 1000), 0);
    assert_eq!(nearest_halves_up(1_000_000_000_000, 3_000), 333_333_333);
}

#[test]
fn whole_numbers_become_doubles_by_one_rounding() {
    for whole in [0, 1, -1, 1 << 32, -(1 << 32), (1 << 53) + 1, -(1 << 53) - 1, 7_699_999_999_999_999_999] {
        assert_eq!(double_of(whole), whole as f64, "{whole}");
    }
}

#[test]
fn voltages_round_halves_away_from_zero() {
    assert_eq!(whole_voltage(0.5), Some(1));
    assert_eq!(whole_voltage(-0.5), Some(-1));
    assert_eq!(whole_voltage(0.49999999999999994), Some(0));
    assert_eq!(whole_voltage(20_000_000.0), Some(20_000_000));
    assert_eq!(whole_voltage(-20_000_000.000_000_004), None);
    assert_eq!(whole_voltage(f64::NAN), None);
    assert_eq!(whole_voltage(f64::INFINITY), None);
}

#[test]
fn elimination_of_two_rows() {
    assert_eq!(solve(&[vec![4, -1], vec![-1, 4]], &[15, 0]), [4.0, 1.0]);
    assert!(solve(&[], &[]).is_empty());
}

#[test]
fn areas_by_lowest_node() {
    let branch = |from, to, element| Branch { row: 0, from, to, conductance: 1, element };
    let open = Element::Switch(Breaker { close: 9, open: 10 });
    let branches = [
        branch(5, 2, Element::Resistor),
        branch(1, 0, Element::Resistor),
        branch(0, 3, Element::Capacitor),
        branch(4, 5, open),
        branch(6, 0, Element::TimedSwitch { close: 1, open: 2 }),
        branch(1, 3, Element::Line { travel: Travel::of(1000, 1000) }),
    ];
    assert_eq!(number_areas(6, &branches), [0, 1, 2, 3, 2, 2, 4]);
}
