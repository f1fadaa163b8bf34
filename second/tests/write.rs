//! Studies written out again: worked texts, the round trip both ways, and what is refused.

use second::calls;
use second::compare::damage::damaged;
use second::compare::dice::Dice;
use second::compare::fixed;
use second::compare::studies;
use second::compare::writings::longest_text;
use second::record::NETWORK_WORDS;
use second::write::{write, TEXT_ROOM};

/// What an area of rubbish holds behind the text.
const RUBBISH: u8 = b'?';

fn record_of(text: &[u8]) -> Option<Vec<i64>> {
    let mut words = vec![7; NETWORK_WORDS];
    (calls::read(text, &mut words) == (0, 0)).then_some(words)
}

/// The number and the text written into so many bytes; those behind the text must stay as they were.
fn written(network: &[i64], room: usize) -> (u64, String) {
    let mut out = vec![RUBBISH; room];
    let (number, bytes) = write(network, &mut out);
    let (text, rest) = out.split_at(bytes as usize);
    assert!(rest.iter().all(|byte| *byte == RUBBISH));
    (number, String::from_utf8(text.to_vec()).expect("plain text"))
}

/// The words of a record as a drawing tool would set them: the head, then kind and fields of each row.
fn drawn(head: [i64; 3], rows: &[&[i64]]) -> Vec<i64> {
    let mut words = vec![0; NETWORK_WORDS];
    words[..3].copy_from_slice(&head);
    words[3] = rows.len() as i64;
    for (row, fields) in rows.iter().enumerate() {
        words[8 + 8 * row..][..fields.len()].copy_from_slice(fields);
    }
    words
}

#[test]
fn e1_is_four_lines_of_51_bytes() {
    let network = drawn([1000, 1, 0], &[&[6, 1, 1000, 1, 0], &[1, 1, 2, 2000], &[1, 2, 0, 2000]]);
    let text = "study\t1000\t1\t0\nVS\t1\t1000\t1\t0\nR\t1\t2\t2000\nR\t2\t0\t2000\n";
    assert_eq!(text.len(), 51);
    assert_eq!(written(&network, TEXT_ROOM), (0, text.to_string()));
    assert_eq!(record_of(text.as_bytes()), Some(network));
}

#[test]
fn sources_stay_among_branches_and_the_minus_stays() {
    let rows: [&[i64]; 4] =
        [&[1, 1, 2, 2000], &[6, 1, -1000, 1, 0], &[4, 2, 3, 400000, 2000], &[7, 3, 5, 1, 0]];
    let network = drawn([1000, 8, 0], &rows);
    let text =
        "study\t1000\t8\t0\nR\t1\t2\t2000\nVS\t1\t-1000\t1\t0\nLINE\t2\t3\t400000\t2000\nIS\t3\t5\t1\t0\n";
    assert_eq!(written(&network, TEXT_ROOM), (0, text.to_string()));
    assert_eq!(record_of(text.as_bytes()), Some(network));
}

#[test]
fn all_fields_of_every_kind() {
    let rows: [&[i64]; 4] = [&[5, 0, 1, 1000, 5, 9], &[2, 1, 2, 500], &[9, 1, 2, 1000, 1, 2], &[3, 2, 0, 7]];
    let text = "study\t1000\t8\t3\nSW\t0\t1\t1000\t5\t9\nL\t1\t2\t500\nSWT\t1\t2\t1000\t1\t2\nC\t2\t0\t7\n";
    assert_eq!(written(&drawn([1000, 8, 3], &rows), TEXT_ROOM), (0, text.to_string()));
}

#[test]
fn a_study_line_alone() {
    assert_eq!(written(&drawn([1, 1, 0], &[]), TEXT_ROOM), (0, "study\t1\t1\t0\n".to_string()));
}

#[test]
fn a_longer_area_is_fine() {
    let network = drawn([1, 1, 0], &[]);
    for room in [TEXT_ROOM + 1, 20_000, 70_000] {
        assert_eq!(written(&network, room), (0, "study\t1\t1\t0\n".to_string()));
    }
}

/// No text is longer: no line of a branch is longer than an SWT's, no line of a source than an IS's.
#[test]
fn the_longest_text_has_room() {
    let text = longest_text();
    assert_eq!(text.len(), 39 + 64 * 40 + 16 * 37);
    let network = record_of(&text).expect("a good text");
    assert_eq!(written(&network, TEXT_ROOM).1.as_bytes(), text);
}

#[test]
fn lengths_come_before_the_network() {
    let good = drawn([1, 1, 0], &[]);
    let mut bad = good.clone();
    bad[4] = 1;
    for network in [&good, &bad] {
        for room in [0, 1, 12, 8_191] {
            assert_eq!(written(network, room), (9, String::new()));
        }
    }
    for length in [0, 1, 1_023, 1_025, 2_048] {
        let mut network = good.clone();
        network.resize(length, 0);
        assert_eq!(written(&network, TEXT_ROOM), (9, String::new()));
    }
    assert_eq!(written(&bad, TEXT_ROOM), (8, String::new()));
}

#[test]
fn networks_that_no_text_gives() {
    let resistor = |fields: &[i64]| drawn([1000, 1, 0], &[fields]);
    assert_eq!(written(&resistor(&[1, 1, 2, 1000]), TEXT_ROOM).0, 0);
    for fields in [
        &[1, 1, 2, 999][..],
        &[1, 1, 2, -1000],
        &[1, 1, 1, 1000],
        &[1, 33, 1, 1000],
        &[0, 1, 2, 1000],
        &[10, 1, 2, 1000],
        &[1, 1, 2, 1000, 1],
    ] {
        assert_eq!(written(&resistor(fields), TEXT_ROOM), (8, String::new()), "{fields:?}");
    }
    let twice = drawn([1000, 1, 0], &[&[6, 1, 5, 1, 0], &[6, 1, 5, 1, 0]]);
    assert_eq!(written(&twice, TEXT_ROOM), (8, String::new()));
}

/// Writing what was read gives the same bytes: on the fixed list, and on good and damaged random texts.
#[test]
fn what_was_read_is_written() {
    let mut texts: Vec<Vec<u8>> = fixed::bad_inputs().into_iter().map(|(_, text)| text).collect();
    for seed in 0..500 {
        let mut dice = Dice::new(seed);
        let text = studies::random_text(&mut dice);
        texts.push(damaged(&mut dice, &text));
        texts.push(text);
    }
    let mut read = 0;
    for text in texts {
        let Some(network) = record_of(&text) else { continue };
        read += 1;
        let (number, again) = written(&network, TEXT_ROOM);
        assert_eq!((number, again.as_bytes()), (0, text.as_slice()));
    }
    assert!(read > 3_000, "{read}");
}
