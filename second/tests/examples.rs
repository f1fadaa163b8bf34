//! The paper's numbered examples E1 to E10, and the values it gives for each.

use second::listing::listing_of;
use second::network::Network;
use second::reader::read_study;
use second::refusal::{Refusal, Stop};
use second::run::Run;

const SOURCE: &str = "VS\t1\t1000\t1\t0\n";

fn listing(steps: u64, limit: u64, table: &str) -> String {
    listing_of(format!("study\t1000\t{steps}\t{limit}\n{table}").as_bytes())
}

fn run(steps: u64, limit: u64, table: &str) -> Run {
    let text = format!("study\t1000\t{steps}\t{limit}\n{table}");
    Run::at_rest(Network::of_study(&read_study(text.as_bytes()).expect("a good text")))
}

/// The fourth field of each line with this word and this node or branch.
fn column(listing: &str, word: &str, place: &str) -> Vec<i64> {
    let fields = listing.lines().map(|line| line.split('\t').collect::<Vec<_>>());
    let wanted = fields.filter(|fields| fields[0] == word && fields[2] == place);
    wanted.map(|fields| fields[3].parse().expect("a number")).collect()
}

fn last_line(listing: &str) -> &str {
    listing.lines().last().expect("a listing has a last line")
}

#[test]
fn e1_whole_listing() {
    let got = listing(1, 0, &format!("{SOURCE}R\t1\t2\t2000\nR\t2\t0\t2000\n"));
    let wanted = "v\t1\t1\t1000\nv\t1\t2\t500\ni\t1\t1\t250000000000\ni\t1\t2\t250000000000\ndone\t1\n";
    assert_eq!(got, wanted);
}

#[test]
fn e2_limit_met_and_passed() {
    let table = format!("{SOURCE}R\t1\t2\t1000\nR\t2\t0\t2000\n");
    let met = listing(1, 500_000_000, &table);
    assert_eq!(column(&met, "v", "2"), [667]);
    assert_eq!(last_line(&met), "done\t1");
    assert_eq!(listing(1, 499_999_999, &table), "stop\t1\t1\t16\t2\n");
    let mut observed = run(1, 500_000_000, &table);
    observed.advance(1).expect("accepted");
    assert_eq!(observed.largest_imbalance, 500_000_000);
}

#[test]
fn e3_inductor() {
    let got = listing(2, 0, &format!("{SOURCE}L\t1\t0\t1000000\n"));
    assert_eq!(column(&got, "i", "1"), [500_000_000, 1_500_000_000]);
}

#[test]
fn e4_capacitor() {
    let got = listing(3, 0, &format!("{SOURCE}C\t1\t0\t1000\n"));
    assert_eq!(column(&got, "i", "1"), [2_000_000_000, -2_000_000_000, 2_000_000_000]);
}

#[test]
fn e5_open_line() {
    let got = listing(8, 0, &format!("{SOURCE}LINE\t1\t2\t400000\t2000\n"));
    assert_eq!(column(&got, "v", "2"), [0, 0, 2000, 2000, 2000, 2000, 0, 0]);
    assert_eq!(last_line(&got), "done\t8");
}

#[test]
fn e6_one_area_alone_waits() {
    let mut alone = run(8, 0, &format!("{SOURCE}LINE\t1\t2\t400000\t2000\n"));
    assert_eq!(alone.advance(1), Ok(1));
    assert_eq!(alone.advance(1), Ok(2));
    assert_eq!(alone.advance(1), Err(Stop { refusal: Refusal::Wait, place: 1 }));
    assert_eq!(alone.advance(2), Ok(1));
    assert_eq!(alone.advance(1), Ok(3));
}

#[test]
fn e7_switch_alone_floats() {
    assert_eq!(listing(10, 0, &format!("{SOURCE}SW\t1\t2\t1000\t5\t10\n")), "stop\t1\t1\t14\t2\n");
}

#[test]
fn e8_capacitor_holds_the_node() {
    let got = listing(1, 0, &format!("{SOURCE}SW\t1\t2\t1000\t5\t10\nC\t2\t0\t1000\n"));
    assert_eq!(column(&got, "v", "2"), [0]);
    assert_eq!(last_line(&got), "done\t1");
}

#[test]
fn e9_travel_between_steps() {
    let got = listing(8, 0, &format!("{SOURCE}LINE\t1\t2\t400000\t2500\n"));
    assert_eq!(column(&got, "v", "2"), [0, 0, 1000, 2000, 2000, 2000, 1750, 1000]);
    assert_eq!(column(&got, "i", "1")[4..6], [1_250_000_000, -1_250_000_000]);
    assert_eq!(last_line(&got), "done\t8");
    assert_eq!(listing(8, 0, &format!("{SOURCE}LINE\t1\t2\t400000\t999\n")), "bad\t3\t4\n");
}

#[test]
fn e10_history_passes_its_end() {
    let got = listing(3, 0, "VS\t1\t20000000\t1\t0\nL\t1\t0\t500\n");
    assert_eq!(column(&got, "i", "1"), [20_000_000_000_000_000, 60_000_000_000_000_000]);
    assert_eq!(last_line(&got), "stop\t3\t1\t17\t1");
}
