//! Every legal schedule of a small table, idling included: all states that can be reached, slot by slot. A schedule names
//! rows, and a named row moves its earliest cell at that node; a cell has no due slot of its own here.

use crate::panel::Row;

/// At most so many cells, and so many nodes: a state is three bits for each cell, the links that it has gone, up to a full
/// turn of 7 nodes.
pub const MOST_CELLS: usize = 7;
const MOST_NODES: usize = 7;

#[derive(Clone, Copy)]
struct Reached {
    state: usize,
    /// The state that it was reached from, in the slot before.
    from: usize,
    /// The row that each link carried a cell of on the way.
    slot: [u16; MOST_NODES],
}

/// A cell, by the index of its row, where it starts, and how far it has to go.
struct Cell {
    row: usize,
    src: usize,
    distance: usize,
}

fn gone(state: usize, cell: usize) -> usize {
    state >> (3 * cell) & 7
}

/// The cells of all rows, those of one row in their order.
fn cells(n: usize, rows: &[Row]) -> Vec<Cell> {
    let of_row = |(row, r): (usize, &Row)| {
        let (src, dst) = (r.src as usize, r.dst as usize);
        let distance = match (dst + n - src) % n {
            0 => n,
            links => links,
        };
        (0..r.len).map(move |_| Cell { row, src, distance })
    };
    rows.iter().enumerate().flat_map(of_row).collect()
}

/// What link p may carry: for each row that has undelivered cells at node p, the row and the earliest of these cells.
fn choices(n: usize, cells: &[Cell], state: usize) -> Vec<Vec<(usize, usize)>> {
    let mut held: Vec<Vec<(usize, usize)>> = vec![Vec::new(); n];
    for (c, cell) in cells.iter().enumerate() {
        let k = gone(state, c);
        let here = &mut held[(cell.src + k) % n];
        if k < cell.distance && here.iter().all(|&(row, _)| row != cell.row) {
            here.push((cell.row, c));
        }
    }
    held
}

/// A schedule that is legal and meets the table, if there is one.
pub fn schedule(nodes: u16, rows: &[Row]) -> Option<Vec<u16>> {
    let n = nodes as usize;
    let cells = cells(n, rows);
    assert!(cells.len() <= MOST_CELLS && n <= MOST_NODES);
    let there = |state: usize, c: usize| gone(state, c) == cells[c].distance;
    let slots = rows.iter().map(|r| r.due as usize).max().unwrap_or(0);
    let mut layers = vec![vec![Reached {
        state: 0,
        from: 0,
        slot: [0; MOST_NODES],
    }]];
    let mut seen = vec![u16::MAX; 1 << (3 * cells.len())];

    for t in 0..slots {
        let mut next = Vec::new();
        for (from, reached) in layers[t].iter().enumerate() {
            let start = Reached {
                state: reached.state,
                from,
                slot: [0; MOST_NODES],
            };
            spread(&choices(n, &cells, reached.state), 0, start, &mut |r| {
                // a cell that isn't there when its row's due slot has come makes the schedule miss the table
                let in_time =
                    |c: usize| there(r.state, c) || t + 1 < rows[cells[c].row].due as usize;
                if seen[r.state] != t as u16 && (0..cells.len()).all(in_time) {
                    seen[r.state] = t as u16;
                    next.push(r);
                }
            });
        }
        layers.push(next);
    }

    let all_there = |r: &Reached| (0..cells.len()).all(|c| there(r.state, c));
    let mut at = layers[slots].iter().position(all_there)?;
    let mut plan = vec![0; slots * n];
    for t in (1..=slots).rev() {
        let r = &layers[t][at];
        plan[(t - 1) * n..t * n].copy_from_slice(&r.slot[..n]);
        at = r.from;
    }
    Some(plan)
}

/// Each choice of links p and up: idle, or one of the rows that have cells at the node.
fn spread(choices: &[Vec<(usize, usize)>], p: usize, r: Reached, found: &mut impl FnMut(Reached)) {
    if p == choices.len() {
        found(r);
        return;
    }
    spread(choices, p + 1, r, found);
    for &(row, cell) in &choices[p] {
        let mut with = r;
        with.state += 1 << (3 * cell);
        with.slot[p] = row as u16 + 1;
        spread(choices, p + 1, with, found);
    }
}
