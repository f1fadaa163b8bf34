//! Layouts told with planted slips, to see that the comparison finds them.

use super::foreign::Calls;
use super::slips::own_calls;
use crate::layout::{layout, Layout};
use crate::network::{Kind, Network, Study};
use crate::record::{self, NETWORK_WORDS};

/// Name, calls, and whether the slip is in the reader: never here.
pub fn planted() -> Vec<(&'static str, Calls, bool)> {
    let slip = |layout| Calls { layout: Some(layout), ..own_calls() };
    vec![
        ("rows counted from 0", slip(rows_from_0), false),
        ("a source counted as a branch", slip(sources_as_branches), false),
        ("a line of the text told for a row", slip(lines_for_rows), false),
        ("nodes counted for areas", slip(nodes_for_areas), false),
        ("a lowest node told for its area", slip(leader_for_area), false),
        ("a switch joins nothing", slip(switches_apart), false),
        ("a line joins its ends", slip(lines_joining), false),
        ("areas without the nodes that no row names", slip(unnamed_left_out), false),
        ("ground in an area", slip(ground_in_an_area), false),
        ("no branch told as row 0", slip(no_branch_as_row_0), false),
        ("number beyond 32 bits cut short", slip(short_numbers), false),
        ("the last node none", slip(last_node_none), false),
        ("told where it is refused", slip(told_at_a_refusal), false),
        ("unused words not judged", slip(unused_words_taken), false),
        ("a longer network taken", slip(longer_taken), false),
        ("the network judged before its length", slip(network_first), false),
        ("the number judged before the network", slip(number_first), false),
    ]
}

type Told = (u64, u64);

/// Right but for what an accepted call tells, which this rule gives.
fn told_by(words: &[i64], asked: Layout, rule: impl Fn(Study, u64) -> u64) -> Told {
    match layout(words, asked) {
        (0, told) => (0, rule(record::study_of_record(words).expect("an accepted network is good"), told)),
        refused => refused,
    }
}

fn rows_from_0(words: &[i64], asked: Layout) -> Told {
    told_by(words, asked, |_, told| told - u64::from(matches!(asked, Layout::RowOf(_))))
}

fn lines_for_rows(words: &[i64], asked: Layout) -> Told {
    told_by(words, asked, |_, told| told + u64::from(matches!(asked, Layout::RowOf(_))))
}

fn sources_as_branches(words: &[i64], asked: Layout) -> Told {
    match asked {
        Layout::RowOf(branch) => told_by(words, asked, |_, _| branch),
        _ => layout(words, asked),
    }
}

fn nodes_for_areas(words: &[i64], asked: Layout) -> Told {
    match asked {
        Layout::Areas => told_by(words, asked, |study, _| Network::of_study(&study).node_count as u64),
        _ => layout(words, asked),
    }
}

fn leader_for_area(words: &[i64], asked: Layout) -> Told {
    match asked {
        Layout::AreaOf(_) => told_by(words, asked, |study, told| {
            let area_of = Network::of_study(&study).area_of;
            area_of.iter().position(|area| *area as u64 == told).expect("it is told of a node") as u64
        }),
        _ => layout(words, asked),
    }
}

/// Right but for areas and their numbers, which are those of the study that this leaves.
fn areas_of(words: &[i64], asked: Layout, other: impl Fn(&mut Study)) -> Told {
    if matches!(asked, Layout::RowOf(_)) {
        return layout(words, asked);
    }
    told_by(words, asked, |mut study, told| {
        other(&mut study);
        match layout(&record::record_of(&study), asked) {
            (0, other) => other,
            _ => told,
        }
    })
}

fn switches_apart(words: &[i64], asked: Layout) -> Told {
    areas_of(words, asked, |study| {
        for row in study.rows.iter_mut().filter(|row| row.kind == Kind::Switch && row.fields[0] > 0) {
            row.fields[1] = 0;
        }
    })
}

fn lines_joining(words: &[i64], asked: Layout) -> Told {
    areas_of(words, asked, |study| {
        for row in study.rows.iter_mut().filter(|row| row.kind == Kind::Line) {
            row.kind = Kind::Resistor;
            row.fields.truncate(3);
        }
    })
}

fn unnamed_left_out(words: &[i64], asked: Layout) -> Told {
    match asked {
        Layout::Areas => told_by(words, asked, |study, told| {
            let nodes = 1..=Network::of_study(&study).node_count as i128;
            let named = |node: &i128| study.rows.iter().any(|row| row.nodes().contains(node));
            told - nodes.filter(|node| !named(node)).count() as u64
        }),
        _ => layout(words, asked),
    }
}

fn ground_in_an_area(words: &[i64], asked: Layout) -> Told {
    match (asked, layout(words, asked)) {
        (Layout::AreaOf(0), (2, told)) => (0, told),
        (_, answer) => answer,
    }
}

fn no_branch_as_row_0(words: &[i64], asked: Layout) -> Told {
    match (asked, layout(words, asked)) {
        (Layout::RowOf(_), (2, told)) => (0, told),
        (_, answer) => answer,
    }
}

fn short_numbers(words: &[i64], asked: Layout) -> Told {
    let short = match asked {
        Layout::Areas => Layout::Areas,
        Layout::AreaOf(node) => Layout::AreaOf(node & 0xFFFF_FFFF),
        Layout::RowOf(branch) => Layout::RowOf(branch & 0xFFFF_FFFF),
    };
    layout(words, short)
}

fn last_node_none(words: &[i64], asked: Layout) -> Told {
    match (asked, layout(words, asked)) {
        (Layout::AreaOf(node), (0, _)) if layout(words, Layout::AreaOf(node + 1)).0 == 2 => (2, 0),
        (_, answer) => answer,
    }
}

fn told_at_a_refusal(words: &[i64], asked: Layout) -> Told {
    match (asked, layout(words, asked)) {
        (Layout::AreaOf(node), (2, _)) => (2, node),
        (_, answer) => answer,
    }
}

fn unused_words_taken(words: &[i64], asked: Layout) -> Told {
    let mut cleared = words.to_vec();
    if cleared.len() == NETWORK_WORDS {
        cleared[4..8].fill(0);
    }
    layout(&cleared, asked)
}

fn longer_taken(words: &[i64], asked: Layout) -> Told {
    layout(&words[..words.len().min(NETWORK_WORDS)], asked)
}

fn network_first(words: &[i64], asked: Layout) -> Told {
    match layout(words, asked) {
        (9, _) if words.len() > 4 && words[4] != 0 => (8, 0),
        answer => answer,
    }
}

fn number_first(words: &[i64], asked: Layout) -> Told {
    match (asked, layout(words, asked)) {
        (Layout::AreaOf(0) | Layout::RowOf(0), (8, _)) => (2, 0),
        (_, answer) => answer,
    }
}
