//! Points of the papers with more than one reading, each with the reading that is taken.

use second::listing::listing_of;

const STUDY: &str = "study\t1000\t4\t1000000000000000\n";

fn bad(text: &str) -> String {
    let listing = listing_of(text.as_bytes());
    assert!(listing.starts_with("bad\t") && listing.ends_with('\n'), "{text:?} gives {listing}");
    listing.trim_end()[4..].to_string()
}

fn bad_row(row: &str) -> String {
    bad(&format!("{STUDY}{row}\n"))
}

fn done(text: &str) {
    let listing = listing_of(text.as_bytes());
    assert!(listing.contains("done\t"), "{text:?} gives {listing}");
}

fn accepted(text: &str) {
    assert!(!listing_of(text.as_bytes()).starts_with("bad"), "{text:?}");
}

#[test]
fn ends_of_lines_and_of_the_text() {
    assert_eq!(bad(""), "1\t1");
    assert_eq!(bad("\n"), "1\t1");
    assert_eq!(bad(STUDY.trim_end()), "1\t1");
    assert_eq!(bad(&format!("{STUDY}\n")), "2\t1");
    assert_eq!(bad(&format!("{STUDY}R\t33\t0\t999")), "2\t1");
    assert_eq!(bad(&format!("{STUDY}R\t33\t0\t999\nR")), "2\t2");
    assert_eq!(bad(&STUDY.replace('\n', "\r\n")), "1\t1");
    assert_eq!(bad(&format!("\u{feff}{STUDY}")), "1\t1");
}

#[test]
fn study_line_stands_first_and_once() {
    assert_eq!(bad("R\t1\t0\t1000\n"), "1\t1");
    assert_eq!(bad(&format!("{STUDY}{STUDY}")), "2\t1");
    assert_eq!(bad("study\t0\t1\t0\n"), "1\t3");
    assert_eq!(bad("study\t1\t1000001\t0\n"), "1\t3");
    assert_eq!(bad("study\t1\t1\t1000000000000001\n"), "1\t3");
    assert_eq!(listing_of(b"study\t1000000\t1000000\t1000000000000000\n"), "done\t1000000\n");
}

#[test]
fn lowest_number_of_a_line_comes_first() {
    assert_eq!(bad_row("R\t33\t0\t0999"), "2\t1");
    assert_eq!(bad_row("R\t33\t0\t999"), "2\t2");
    assert_eq!(bad_row("R\t1\t1\t999"), "2\t2");
    assert_eq!(bad_row("LINE\t1\t2\t999\t2500"), "2\t3");
    assert_eq!(bad_row("LINE\t1\t2\t1000\t0"), "2\t3");
    assert_eq!(bad_row("LINE\t1\t2\t1000\t1000000001"), "2\t3");
    assert_eq!(bad_row("LINE\t1\t2\t1000\t1"), "2\t4");
    assert_eq!(bad_row("SW\t1\t2\t1000\t5\t5"), "2\t3");
    assert_eq!(bad_row("SW\t1\t2\t1000\t5\t1000002"), "2\t3");
}

#[test]
fn spelling_of_numbers() {
    let long = "9".repeat(100);
    assert_eq!(bad_row(&format!("R\t{long}\t0\t1000")), "2\t2");
    assert_eq!(bad_row(&format!("R\t1\t0\t{long}")), "2\t3");
    assert_eq!(bad_row(&format!("VS\t1\t-{long}\t1\t0")), "2\t3");
    assert_eq!(bad_row(&format!("R\t1\t0\t0{long}")), "2\t1");
    assert_eq!(bad_row("VS\t1\t-0\t1\t0"), "2\t1");
    assert_eq!(bad_row("VS\t1\t+5\t1\t0"), "2\t1");
    assert_eq!(bad_row("VS\t1\t5\t-1\t0"), "2\t1");
    assert_eq!(bad_row("VS\t-1\t5\t1\t0"), "2\t1");
    assert_eq!(bad_row("VS\t1\t5\t1\t0\t"), "2\t1");
    assert_eq!(bad_row("R\t1\t0\t"), "2\t1");
    done(&format!("{STUDY}VS\t1\t-20000000\t1\t0\n"));
}

#[test]
fn doubles_and_full_tables() {
    let sources = "IS\t1\t5\t1\t0\n".repeat(15);
    let sixteen = format!("{STUDY}VS\t1\t5\t1\t0\n{sources}");
    done(&sixteen);
    assert_eq!(bad(&format!("{sixteen}VS\t1\t5\t1\t0\n")), "18\t5");
    assert_eq!(bad(&format!("{sixteen}VS\t2\t5\t1\t0\n")), "18\t6");
    let branches = "R\t1\t0\t1000\n".repeat(64);
    accepted(&format!("{STUDY}{branches}"));
    assert_eq!(bad(&format!("{STUDY}{branches}L\t1\t0\t1000\n")), "66\t6");
    accepted(&format!("{STUDY}LINE\t1\t2\t1000\t2047000\nLINE\t1\t2\t1000\t1000\n"));
    assert_eq!(bad(&format!("{STUDY}LINE\t1\t2\t1000\t2047000\nLINE\t1\t2\t1000\t2000\n")), "3\t6");
    assert_eq!(bad(&format!("{STUDY}LINE\t1\t2\t1000\t1000000000\n")), "2\t6");
}

#[test]
fn length_of_the_text() {
    let padded = |length: usize| format!("{STUDY}R\t1\t0\t{}\n", "9".repeat(length - STUDY.len() - 7));
    assert_eq!(padded(65_536).len(), 65_536);
    assert_eq!(bad(&padded(65_536)), "2\t3");
    assert_eq!(bad(&padded(65_537)), "0\t7");
}

#[test]
fn rounded_conductance_is_judged() {
    // 10^9 · 1000 / (2 · 10^12) is 0.5: rounded up to 1. A shorter step gives less and is refused.
    done(&format!("{STUDY}L\t1\t0\t1000000000000\n"));
    assert_eq!(bad("study\t999\t1\t0\nL\t1\t0\t1000000000000\n"), "2\t3");
    assert_eq!(bad_row("L\t1\t0\t499"), "2\t3");
    done(&format!("{STUDY}L\t1\t0\t500\n"));
    done(&format!("{STUDY}C\t1\t0\t500000\n"));
    assert_eq!(bad_row("C\t1\t0\t500001"), "2\t3");
    // 2·10^6·1 / 10^6 = 2 and 10^12 / 10^12 = 1 stand at the low ends.
    done("study\t1000000\t1\t0\nC\t1\t0\t1\nR\t1\t0\t1000000000000\n");
}

#[test]
fn nodes_that_no_line_names_float() {
    assert_eq!(listing_of(format!("{STUDY}R\t2\t0\t1000\n").as_bytes()), "stop\t1\t1\t14\t1\n");
    assert_eq!(listing_of(format!("{STUDY}IS\t1\t5\t1\t0\n").as_bytes()), "stop\t1\t1\t14\t1\n");
    done(&format!("{STUDY}VS\t1\t5\t1\t0\n"));
}

#[test]
fn one_area_may_hold_both_ends_of_a_line() {
    done(&format!("{STUDY}R\t1\t2\t1000\nLINE\t1\t2\t400000\t1000\nIS\t1\t1000000000\t1\t0\n"));
}

#[test]
fn range_is_judged_before_rounding() {
    // 1 nS and 20,000,000.3 times it do not fit a whole injection; two nodes of 3 nS and 1 nS do it:
    // an injection of 60,000,001 into 3 nS proposes 20,000,000.33.
    let study = "study\t1000\t1\t1000000\nR\t1\t0\t333333333333\n";
    assert_eq!(listing_of(format!("{study}IS\t1\t60000001\t1\t0\n").as_bytes()), "stop\t1\t1\t15\t1\n");
    done(&format!("{study}IS\t1\t60000000\t1\t0\n"));
}

#[test]
fn current_sign_where_from_is_ground() {
    let listing = listing_of(b"study\t1000\t1\t0\nVS\t1\t1000\t1\t0\nR\t0\t1\t2000\n");
    assert_eq!(listing, "v\t1\t1\t1000\ni\t1\t1\t-500000000000\ndone\t1\n");
}
