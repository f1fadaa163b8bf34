//! The fixed list of texts: the paper's examples, and everything a reader is likely to get wrong.

use super::edges;

const STUDY: &str = "study\t1000\t3\t1000000000000000\n";

/// A good line of each kind, with its fields apart.
const GOOD_LINES: [&[&str]; 10] = [
    &["study", "1000", "3", "1000000000000000"],
    &["R", "1", "2", "1000000"],
    &["L", "1", "2", "1000000"],
    &["C", "1", "2", "1000"],
    &["LINE", "1", "2", "400000", "2000"],
    &["SW", "1", "2", "1000000", "1", "3"],
    &["VS", "1", "1000", "1", "0"],
    &["IS", "1", "1000", "1", "0"],
    &["VC", "1", "1000", "1", "50000"],
    &["SWT", "1", "2", "1000000", "1", "3"],
];

/// A line for each number 1 to 6 that is at fault by that number and no lower one, after `full_table`.
const FAULTS: [&str; 6] = [
    "R\t01\t0\t1000\n",
    "R\t33\t0\t1000\n",
    "R\t1\t0\t999\n",
    "LINE\t1\t2\t1000\t999\n",
    "VS\t1\t1\t1\t0\n",
    "R\t1\t0\t1000\n",
];

/// The tables of E1 to E10, each with its study line, a power-frequency source's and one of a switch by the clock.
pub fn examples() -> Vec<String> {
    let source = "VS\t1\t1000\t1\t0\n";
    let mut all = vec![
        format!("study\t1000\t1\t0\n{source}R\t1\t2\t2000\nR\t2\t0\t2000\n"),
        format!("study\t1000\t1\t500000000\n{source}R\t1\t2\t1000\nR\t2\t0\t2000\n"),
        format!("study\t1000\t1\t499999999\n{source}R\t1\t2\t1000\nR\t2\t0\t2000\n"),
        format!("study\t1000\t2\t0\n{source}L\t1\t0\t1000000\n"),
        format!("study\t1000\t3\t0\n{source}C\t1\t0\t1000\n"),
        format!("study\t1000\t8\t0\n{source}LINE\t1\t2\t400000\t2000\n"),
        format!("study\t1000\t10\t0\n{source}SW\t1\t2\t1000\t5\t1000001\n"),
        format!("study\t1000\t1\t0\n{source}SW\t1\t2\t1000\t5\t1000001\nC\t2\t0\t1000\n"),
        format!("study\t1000\t8\t0\n{source}LINE\t1\t2\t400000\t2500\n"),
    ];
    all.push("study\t1000\t3\t0\nVS\t1\t20000000\t1\t0\nL\t1\t0\t500\n".to_string());
    all.push("study\t1000000\t7\t0\nVC\t1\t1000\t2\t50000\nR\t1\t0\t1000000\n".to_string());
    all.push("study\t1000\t4\t0\nVS\t1\t1000\t1\t0\nSWT\t1\t2\t2000\t1\t2\n".to_string());
    all
}

/// Every text of the list with the name of its part.
pub fn bad_inputs() -> Vec<(&'static str, Vec<u8>)> {
    let mut all = Vec::new();
    let mut add =
        |name: &'static str, texts: Vec<Vec<u8>>| all.extend(texts.into_iter().map(|text| (name, text)));
    add("examples", examples().into_iter().map(String::into_bytes).collect());
    add("ends of lines and text", line_ends());
    add("strange bytes", strange_bytes());
    add("fields at the limits", single_fields());
    add("two fields of one line", field_pairs());
    add("fields dropped and added", field_counts());
    add("very long numbers", long_numbers());
    add("two faulty lines", two_faulty_lines());
    add("full tables", full_tables());
    add("lengths of the text", text_lengths());
    all
}

fn line_ends() -> Vec<Vec<u8>> {
    let mut texts: Vec<String> =
        ["", "\n", "\n\n", "\r\n", "\t", "\t\n", "study", "study\n", "STUDY\t1\t1\t0\n"]
            .iter()
            .map(|text| text.to_string())
            .collect();
    for example in examples() {
        texts.push(example.trim_end().to_string());
        texts.push(format!("{example}\n"));
        texts.push(format!("\n{example}"));
        texts.push(example.replace('\n', "\r\n"));
        texts.push(example.replace('\n', "\r"));
        texts.push(example.replace('\n', "\n\n"));
        texts.push(example.replace('\t', " "));
        texts.push(example.replace('\t', "\t\t"));
        texts.push(example.replace('\n', "\t\n"));
        texts.push(format!("{example}{example}"));
        texts.push(format!("\u{feff}{example}"));
        texts.push(example.lines().skip(1).map(|line| format!("{line}\n")).collect());
    }
    texts.into_iter().map(String::into_bytes).collect()
}

/// Each byte value in the word, in a number and on a line of its own.
fn strange_bytes() -> Vec<Vec<u8>> {
    let mut texts = Vec::new();
    for byte in 0..=255u8 {
        for (before, after) in [
            ("", "study\t1000\t1\t0\n"),
            ("study", "\t1000\t1\t0\n"),
            ("study\t1", "000\t1\t0\n"),
            ("study\t1000\t1\t0", "\n"),
            ("study\t1000\t1\t0\n", ""),
            ("study\t1000\t1\t0\n", "\n"),
            ("study\t1000\t1\t0\nR", "\t1\t0\t1000\n"),
            ("study\t1000\t1\t0\nVS\t1\t", "5\t1\t0\n"),
        ] {
            texts.push([before.as_bytes(), &[byte], after.as_bytes()].concat());
        }
    }
    texts
}

/// The line's fields joined again, in a study of the given head. A `study` line is the head itself.
fn text_with(head: &str, fields: &[String]) -> Vec<u8> {
    let line = fields.join("\t");
    if fields[0] == "study" {
        format!("{line}\nR\t1\t0\t1000000\n").into_bytes()
    } else {
        format!("{head}{line}\n").into_bytes()
    }
}

/// Heads that bring out conductances at their ends, second voltage sources and full tables.
fn heads() -> Vec<String> {
    vec![
        STUDY.to_string(),
        "study\t1\t3\t0\n".to_string(),
        "study\t1000000\t3\t0\n".to_string(),
        format!("{STUDY}VS\t1\t5\t1\t0\n"),
        full_table(),
    ]
}

/// Every limit, one below and one above, and every ill spelling, in every field of every kind.
fn single_fields() -> Vec<Vec<u8>> {
    let mut texts = Vec::new();
    let spellings = [edges::well_spelt(), edges::ill_spelt()].concat();
    for good in GOOD_LINES {
        for head in heads() {
            for place in 1..good.len() {
                for spelling in &spellings {
                    let mut fields = owned(good);
                    fields[place] = spelling.clone();
                    texts.push(text_with(&head, &fields));
                }
            }
        }
    }
    texts
}

fn owned(fields: &[&str]) -> Vec<String> {
    fields.iter().map(|field| field.to_string()).collect()
}

/// Two faults on one line in every pair of fields; with the full table as head, three.
fn field_pairs() -> Vec<Vec<u8>> {
    let mut texts = Vec::new();
    let telling = edges::telling();
    for good in GOOD_LINES {
        for head in [STUDY.to_string(), full_table()] {
            for (one, other) in pairs(good.len()) {
                for first in &telling {
                    for second in &telling {
                        let mut fields = owned(good);
                        fields[one] = first.clone();
                        fields[other] = second.clone();
                        texts.push(text_with(&head, &fields));
                    }
                }
            }
        }
    }
    texts
}

fn pairs(end: usize) -> Vec<(usize, usize)> {
    (1..end).flat_map(|one| (one + 1..end).map(move |other| (one, other))).collect()
}

fn field_counts() -> Vec<Vec<u8>> {
    let mut texts = Vec::new();
    for good in GOOD_LINES {
        for place in 0..good.len() {
            let mut fewer = owned(good);
            fewer.remove(place);
            if !fewer.is_empty() {
                texts.push(text_with(STUDY, &fewer));
            }
            let mut more = owned(good);
            more.insert(place + 1, "1".to_string());
            texts.push(text_with(STUDY, &more));
            let mut bare = owned(good);
            bare.truncate(place);
            if !bare.is_empty() {
                texts.push(text_with(STUDY, &bare));
            }
        }
        for word in [
            "r", "RR", "VSS", "V", "VCC", "VR", "vc", "CV", "LINES", "LIN", "S", "I", "ST", "SWTT", "SWt",
            "WT", "Study", "studyy", "1", "-", " R", "R ",
        ] {
            let mut fields = owned(good);
            fields[0] = word.to_string();
            texts.push(text_with(STUDY, &fields));
        }
    }
    texts
}

fn long_numbers() -> Vec<Vec<u8>> {
    let mut texts = Vec::new();
    for good in GOOD_LINES {
        for place in 1..good.len() {
            for digits in [19, 20, 21, 39, 40, 100, 60_000] {
                for front in ["", "0", "-", "1"] {
                    for digit in ["0", "9"] {
                        let mut fields = owned(good);
                        fields[place] = format!("{front}{}", digit.repeat(digits));
                        texts.push(text_with(STUDY, &fields));
                    }
                }
            }
        }
    }
    texts
}

/// 64 branches that take all 4,096 slots, and 16 sources, one of them a VC on node 1.
fn full_table() -> String {
    let lines = "LINE\t1\t2\t400000\t1024000\n".repeat(2);
    let resistors = "R\t1\t0\t1000000\n".repeat(62);
    let sources = "IS\t2\t1\t1\t0\n".repeat(15);
    format!("study\t1000\t3\t1000000000000000\n{lines}{resistors}VC\t1\t5\t1\t50000\n{sources}")
}

/// The same fault on two lines, and every other pair of faults on two lines in either order.
fn two_faulty_lines() -> Vec<Vec<u8>> {
    let mut texts = Vec::new();
    for first in FAULTS {
        for second in FAULTS {
            texts.push(format!("{}{first}{second}", full_table()).into_bytes());
            texts.push(format!("{STUDY}VS\t1\t5\t1\t0\n{first}{second}").into_bytes());
            texts.push(format!("{STUDY}{first}R\t1\t0\t1000\n{second}").into_bytes());
            texts.push(format!("{STUDY}{first}{}", second.trim_end()).into_bytes());
        }
    }
    texts
}

fn full_tables() -> Vec<Vec<u8>> {
    let mut texts = Vec::new();
    for (line, most) in [
        ("R\t1\t0\t1000000\n", 64),
        ("L\t1\t0\t1000000\n", 64),
        ("C\t1\t0\t1000\n", 64),
        ("SW\t1\t0\t1000000\t1\t2\n", 64),
        ("SWT\t1\t0\t1000000\t1\t2\n", 64),
        ("LINE\t1\t2\t400000\t1000\n", 64),
        ("LINE\t1\t2\t400000\t32000\n", 64),
        ("LINE\t1\t2\t400000\t33000\n", 62),
        ("LINE\t1\t2\t400000\t31001\n", 64),
        ("LINE\t1\t2\t400000\t32999\n", 63),
        ("IS\t1\t1\t1\t0\n", 16),
    ] {
        for times in [most - 1, most, most + 1] {
            texts.push(format!("{STUDY}{}", line.repeat(times)).into_bytes());
            texts.push(format!("{STUDY}{}VS\t1\t5\t1\t0\n", line.repeat(times)).into_bytes());
        }
    }
    for sources in [15, 16, 17] {
        for words in [["VS", "VS"], ["VC", "VC"], ["VS", "VC"], ["IS", "VC"]] {
            let line = |node: usize| format!("{}\t{node}\t5\t1\t1\n", words[node % 2]);
            let lines: String = (1..=sources).map(line).collect();
            texts.push(format!("{STUDY}{lines}").into_bytes());
        }
    }
    for (first, second) in [("VS", "VC"), ("VC", "VS"), ("VC", "VC"), ("IS", "VC"), ("VC", "IS")] {
        texts.push(format!("{STUDY}{first}\t1\t5\t1\t1\n{second}\t1\t5\t1\t1\n").into_bytes());
        texts.push(format!("{STUDY}{first}\t1\t5\t1\t1\n{second}\t2\t5\t1\t1\n").into_bytes());
    }
    for whole in [0, 1, 2046, 2047, 2048, 2049, 1_000_000] {
        for rest in [0, 1, 500, 999] {
            let line = format!("LINE\t1\t2\t400000\t{}\n", whole * 1000 + rest);
            texts.push(format!("{STUDY}{line}").into_bytes());
            for other in ["LINE\t3\t4\t400000\t1000\n", "LINE\t3\t4\t400000\t1001\n"] {
                texts.push(format!("{STUDY}{other}{line}").into_bytes());
                texts.push(format!("{STUDY}{line}{other}").into_bytes());
            }
        }
    }
    texts.push(full_table().into_bytes());
    texts
}

fn text_lengths() -> Vec<Vec<u8>> {
    let mut texts = Vec::new();
    for length in [65_534, 65_535, 65_536, 65_537, 65_538, 70_000, 131_072] {
        let digits = "9".repeat(length - STUDY.len() - "R\t1\t0\t\n".len());
        texts.push(format!("{STUDY}R\t1\t0\t{digits}\n").into_bytes());
        texts.push(vec![b'\n'; length]);
        texts.push(vec![b'9'; length]);
    }
    texts
}
