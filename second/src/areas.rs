//! Which nodes stand in one area, and which free nodes float.

use crate::limits::Whole;
use crate::network::{Branch, Network};

/// Area numbers by node (place 0 is ground, in no area, number 0).
///
/// Nodes joined by R, L, C or a switch, open or closed, share an area; ground and lines join nothing. Every node
/// first carries its own number; joined nodes take the lower of both until nothing changes, so each ends
/// with the lowest node of its area. Those lowest nodes, in rising order, are areas 1, 2, ...
pub fn number_areas(node_count: usize, branches: &[Branch]) -> Vec<usize> {
    let mut lowest: Vec<usize> = (0..=node_count).collect();
    let mut changed = true;
    while changed {
        changed = false;
        for branch in branches.iter().filter(|branch| joins(branch)) {
            let low = lowest[branch.from].min(lowest[branch.to]);
            changed |= lowest[branch.from] != low || lowest[branch.to] != low;
            lowest[branch.from] = low;
            lowest[branch.to] = low;
        }
    }
    let leaders: Vec<usize> = (1..=node_count).filter(|node| lowest[*node] == *node).collect();
    let number_of = |node: usize| leaders.iter().position(|leader| *leader == lowest[node]);
    let mut area_of = vec![0];
    area_of.extend((1..=node_count).map(|node| number_of(node).expect("every node has a leader") + 1));
    area_of
}

fn joins(branch: &Branch) -> bool {
    !branch.is_line() && branch.from != 0 && branch.to != 0
}

/// The lowest free node of the area without a path of conducting branches to ground, to a fixed node or to
/// a node with a line end (itself included). Latches stand by branch.
pub fn lowest_floating_node(network: &Network, area: usize, step: Whole, latches: &[Whole]) -> Option<usize> {
    let held = held_nodes(network, step, latches);
    let mut nodes = network.nodes_of_area(area).into_iter();
    nodes.find(|node| !network.is_fixed(*node) && !held[*node])
}

/// Every node that a conducting path ties to something that settles its voltage. The ends of such paths are
/// held from the beginning; being held then spreads over conducting branches until it spreads no more.
fn held_nodes(network: &Network, step: Whole, latches: &[Whole]) -> Vec<bool> {
    let has_line_end =
        |node: usize| network.branches.iter().any(|branch| branch.is_line() && branch.touches(node));
    let mut held: Vec<bool> = (0..=network.node_count)
        .map(|node| node == 0 || network.is_fixed(node) || has_line_end(node))
        .collect();
    let leads = |(branch, latch): &(&Branch, &Whole)| !branch.is_line() && branch.conducts_at(step, **latch);
    let paths: Vec<(&Branch, &Whole)> = network.branches.iter().zip(latches).filter(leads).collect();
    // Each pass either holds a further node or is the last, so as many passes as nodes are enough.
    for _ in 0..network.node_count {
        for (branch, _) in &paths {
            let either = held[branch.from] || held[branch.to];
            held[branch.from] = either;
            held[branch.to] = either;
        }
    }
    held
}
