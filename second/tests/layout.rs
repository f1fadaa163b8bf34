//! How a network is laid out: areas, a node's area, a branch's row; and what is refused.

use second::calls;
use second::compare::dice::Dice;
use second::compare::studies;
use second::layout::{layout, Layout};
use second::network::Kind;
use second::record::NETWORK_WORDS;

/// Sources stand before, between and behind the branches, in rows 1, 3, 6 and 8; a line parts nodes 2 and 3.
const BETWEEN: &str = concat!(
    "study\t1000\t3\t0\nVS\t1\t1000\t1\t0\nR\t1\t2\t2000\nIS\t2\t7\t1\t0\nC\t2\t0\t1000\n",
    "LINE\t2\t3\t400000\t2000\nVC\t4\t50\t1\t50000\nL\t3\t4\t700000\nIS\t3\t9\t1\t0\n"
);

fn words_of(text: &str) -> Vec<i64> {
    let mut words = vec![7; NETWORK_WORDS];
    assert_eq!(calls::read(text.as_bytes(), &mut words), (0, 0), "{text}");
    words
}

fn areas_of_nodes(text: &str, nodes: u64) -> Vec<u64> {
    let words = words_of(text);
    let told = (1..=nodes).map(|node| layout(&words, Layout::AreaOf(node)));
    told.map(|(number, area)| if number == 0 { area } else { panic!("{number}") }).collect()
}

fn all_three(words: &[i64], number: u64) -> [(u64, u64); 3] {
    [Layout::Areas, Layout::AreaOf(number), Layout::RowOf(number)].map(|asked| layout(words, asked))
}

#[test]
fn rows_count_sources_and_branches_do_not() {
    let words = words_of(BETWEEN);
    let rows = [1, 2, 3, 4].map(|branch| layout(&words, Layout::RowOf(branch)));
    assert_eq!(rows, [(0, 2), (0, 4), (0, 5), (0, 7)]);
    let line = |row: u64| BETWEEN.lines().nth(row as usize).expect("a line").split('\t').next();
    assert_eq!(rows.map(|(_, row)| line(row)), ["R", "C", "LINE", "L"].map(Some));
}

#[test]
fn areas_are_numbered_by_their_lowest_nodes() {
    assert_eq!(layout(&words_of(BETWEEN), Layout::Areas), (0, 2));
    assert_eq!(areas_of_nodes(BETWEEN, 4), [1, 1, 2, 2]);
    let crossed = "study\t1000\t1\t0\nR\t6\t3\t1000\nR\t5\t2\t1000\nR\t4\t6\t1000\nR\t5\t1\t1000\n";
    assert_eq!(areas_of_nodes(crossed, 6), [1, 1, 2, 2, 1, 2]);
    let apart = "study\t1000\t1\t0\nR\t4\t0\t1000\nR\t2\t0\t1000\n";
    assert_eq!(areas_of_nodes(apart, 4), [1, 2, 3, 4]);
    let open = "study\t1000\t1\t0\nSW\t3\t1\t1000\t5\t9\nLINE\t1\t2\t400000\t1000\n";
    assert_eq!(areas_of_nodes(open, 3), [1, 2, 1]);
}

#[test]
fn a_study_without_rows_has_no_areas() {
    let words = words_of("study\t1000\t1\t0\n");
    assert_eq!(all_three(&words, 1), [(0, 0), (2, 0), (2, 0)]);
}

#[test]
fn no_such_node_or_branch() {
    let words = words_of(BETWEEN);
    for none in [0, 5, 33, 65, 1 << 32, (1 << 32) + 1, 1 << 63, u64::MAX] {
        assert_eq!(all_three(&words, none), [(0, 2), (2, 0), (2, 0)], "{none}");
    }
}

#[test]
fn lengths_then_the_network_then_the_number() {
    let mut words = words_of(BETWEEN);
    words[4] = 1;
    for number in [0, 1, 99] {
        assert_eq!(all_three(&words, number), [(8, 0); 3]);
        assert_eq!(all_three(&words[..NETWORK_WORDS - 1], number), [(9, 0); 3]);
        assert_eq!(all_three(&[words.clone(), vec![0]].concat(), number), [(9, 0); 3]);
        assert_eq!(all_three(&[], number), [(9, 0); 3]);
    }
}

/// An area is one that advances know, a node one that may be asked for, and a row's first word a branch's kind.
#[test]
fn the_other_calls_agree() {
    let is_branch = |row: &[i64]| Kind::of_number(row[0]).is_some_and(|kind| !kind.is_source());
    for seed in 0..200 {
        let text = studies::random_text(&mut Dice::new(seed));
        let words = words_of(std::str::from_utf8(&text).expect("plain text"));
        let areas = layout(&words, Layout::Areas).1;
        let mut rest = [vec![0; 1_024], vec![0; 4_096], vec![0; 4_096]];
        let [records, froms, tos] = &mut rest;
        for area in 0..=areas + 1 {
            let unknown = calls::advance(&words, records, froms, tos, area).0 == 11;
            assert_eq!(unknown, !(1..=areas).contains(&area), "seed {seed}, area {area}");
        }
        for branch in 1.. {
            let (number, row) = layout(&words, Layout::RowOf(branch));
            if number == 2 {
                let branches = words[8..].chunks(8).filter(|row| is_branch(row)).count();
                assert_eq!(branch, branches as u64 + 1, "seed {seed}");
                break;
            }
            assert!(is_branch(&words[8 * row as usize..]), "seed {seed}, branch {branch}");
        }
    }
}
