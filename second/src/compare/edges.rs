//! Number spellings at and around every limit of the paper, and spellings that are none.

/// Every end of a range in the text, each once; the neighbours of each are tried too.
const ENDS: [i128; 16] = [
    0,
    1,
    16,
    32,
    64,
    1_000,
    4_096,
    100_000,
    1_000_000,
    1_000_001,
    20_000_000,
    1_000_000_000,
    1_000_000_000_000,
    1_000_000_000_000_000,
    2_000_000_000_000_000,
    9_223_372_036_854_775_807,
];

/// Wrap-around values: numbers that come back into range when kept in too few bits.
const WRAPS: [&str; 8] = [
    "4294967297",
    "18446744073709551616",
    "18446744073709551617",
    "18446744073709552616",
    "340282366920938463463374607431768211456",
    "340282366920938463463374607431768211457",
    "-9223372036854775808",
    "-9223372036854775809",
];

const ILL_SPELT: [&str; 14] =
    ["", "-", "-0", "00", "01", "007", "+1", "1 ", " 1", "1.0", "1e3", "0x1", "--1", "\u{661}"];

pub fn well_spelt() -> Vec<String> {
    let mut all: Vec<String> = Vec::new();
    for end in ENDS {
        for near in [end - 1, end, end + 1] {
            all.push(near.to_string());
            all.push((-near).to_string());
        }
    }
    all.extend(WRAPS.iter().map(|wrap| wrap.to_string()));
    all.push("9".repeat(100));
    all.push(format!("1{}", "0".repeat(99)));
    all.push(format!("-{}", "9".repeat(100)));
    all.sort();
    all.dedup();
    all
}

pub fn ill_spelt() -> Vec<String> {
    let mut all: Vec<String> = ILL_SPELT.iter().map(|field| field.to_string()).collect();
    all.push(format!("0{}", "9".repeat(100)));
    all
}

/// A few of them, for pairs of faults on one line.
pub fn telling() -> Vec<String> {
    ["0", "1", "2", "33", "007", "-1", "-0", "999", "2500", "1000000000001", "99999999999999999999"]
        .iter()
        .map(|field| field.to_string())
        .collect()
}
