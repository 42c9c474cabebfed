//! Where the nodes of a hall stand on its map.

use super::svg::WIDTH;
use plain::table::Queue;
use std::collections::btree_map::{BTreeMap, Entry};
use std::collections::{BTreeSet, VecDeque};

#[derive(Clone, Copy, Debug, PartialEq)]
pub struct Spot {
    pub x: f64,
    pub y: f64,
}

const MARGIN: f64 = 24.0;
const ROWS_APART: f64 = 150.0;
/// More columns leave no room between them.
const MOST_COLUMNS: usize = 7;

/// Columns by the number of links from the nodes where nothing arrives; a hall that needs too many
/// columns has its nodes on a circle.
pub fn places(queues: &[Queue]) -> BTreeMap<u64, Spot> {
    let columns = columns(queues);
    if columns.len() > MOST_COLUMNS {
        return circle(queues);
    }
    let most = columns.iter().map(Vec::len).max().unwrap_or(1);
    let mut spots = BTreeMap::new();
    for (column, nodes) in columns.iter().enumerate() {
        let across = (WIDTH - 2.0 * MARGIN) / (columns.len().max(2) - 1) as f64;
        for (row, &node) in nodes.iter().enumerate() {
            let middle = (most - nodes.len()) as f64 / 2.0;
            let spot = Spot {
                x: MARGIN + across * column as f64,
                y: ROWS_APART * (row as f64 + middle),
            };
            spots.insert(node, spot);
        }
    }
    spots
}

fn nodes(queues: &[Queue]) -> BTreeSet<u64> {
    queues
        .iter()
        .flat_map(|queue| [queue.from, queue.to])
        .collect()
}

fn columns(queues: &[Queue]) -> Vec<Vec<u64>> {
    let all = nodes(queues);
    let entered: BTreeSet<u64> = queues.iter().map(|queue| queue.to).collect();
    let mut column: BTreeMap<u64, usize> = BTreeMap::new();
    let mut reached: VecDeque<u64> = all.difference(&entered).copied().collect();
    column.extend(reached.iter().map(|&node| (node, 0)));
    // A hall all of loops begins at its lowest node; so does each part that nothing reached.
    for &first in &all {
        while let Some(node) = reached.pop_front() {
            let next = column[&node] + 1;
            for queue in queues.iter().filter(|queue| queue.from == node) {
                if let Entry::Vacant(new) = column.entry(queue.to) {
                    new.insert(next);
                    reached.push_back(queue.to);
                }
            }
        }
        if let Entry::Vacant(new) = column.entry(first) {
            new.insert(0);
            reached.push_back(first);
        }
    }
    let count = column.values().max().map_or(0, |last| last + 1);
    let of = |wanted: usize| {
        all.iter()
            .copied()
            .filter(|node| column[node] == wanted)
            .collect()
    };
    (0..count).map(of).collect()
}

fn circle(queues: &[Queue]) -> BTreeMap<u64, Spot> {
    let all = nodes(queues);
    let radius = WIDTH / 2.0 - MARGIN;
    let turn = std::f64::consts::TAU / all.len() as f64;
    let spot = |index: usize| Spot {
        x: WIDTH / 2.0 + radius * (turn * index as f64).sin(),
        y: radius - radius * (turn * index as f64).cos(),
    };
    all.iter()
        .enumerate()
        .map(|(index, &node)| (node, spot(index)))
        .collect()
}
