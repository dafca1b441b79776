//! The same planner in plain Rust: in each slot one scan over all cells finds the late one and each node's choice. The scan
//! is written twice, with a branch for each comparison and with none.

use panel_tests::panel::{Answer, Row};

#[derive(Clone, Copy)]
pub struct Cell {
    /// The slot in which it must be sent at the latest: due less links to go. Its slack is this less the present instant.
    latest: i32,
    at: u16,
    left: u16,
    row: u16,
}

/// A delivered cell stands here, where none is chosen, and is never late.
const GONE: Cell = Cell {
    latest: i16::MAX as i32,
    at: 32,
    left: 0,
    row: 0,
};

/// The most cells of all rows together.
const MOST_CELLS: usize = 1024;

/// The cell that each node sends at instant t, numbered from 1, or the index of the first late one.
type Chosen = Result<[u16; 33], usize>;

/// The scan as one writes it down: skip, compare, keep.
pub fn with_branches(cells: &[Cell], t: i32) -> Chosen {
    let mut best = [i32::MAX; 33];
    let mut chosen = [0; 33];
    for (i, c) in cells.iter().enumerate() {
        if c.left == 0 {
            continue;
        }
        if c.latest < t {
            return Err(i);
        }
        if c.latest < best[c.at as usize] {
            best[c.at as usize] = c.latest;
            chosen[c.at as usize] = i as u16 + 1;
        }
    }
    Ok(chosen)
}

/// The same without a branch on the data: slack and the cell's number in one number, of which the least is kept.
pub fn with_minimum(cells: &[Cell], t: i32) -> Chosen {
    let mut best = [0xffff_0000u32; 33];
    for (i, c) in cells.iter().enumerate() {
        if c.latest < t {
            return Err(i);
        }
        let b = &mut best[c.at as usize];
        *b = (*b).min((c.latest as u32) << 16 | (i as u32 + 1));
    }
    Ok(best.map(|b| b as u16))
}

fn refused(number: u16, row: u16, slot: u16) -> Answer {
    Answer {
        number,
        row,
        slot,
        ..Answer::default()
    }
}

fn fault(nodes: u16, r: &Row) -> u16 {
    match r {
        r if r.src >= nodes => 3,
        r if r.dst >= nodes => 4,
        r if r.len == 0 || r.len > 64 => 10,
        r if r.due == 0 || r.due > 1024 => 6,
        _ => 0,
    }
}

/// Lays the rows out as cells, each due a slot before the next of its row, and counts the sends.
fn lay(nodes: u16, rows: &[Row], cells: &mut [Cell]) -> u32 {
    let mut cells = cells.iter_mut();
    let mut sends = 0;
    for (row, r) in (1..).zip(rows) {
        let left = if r.src < r.dst {
            r.dst - r.src
        } else {
            r.dst + nodes - r.src
        };
        for behind in (0..r.len as i32).rev() {
            *cells.next().unwrap() = Cell {
                latest: r.due as i32 - behind - left as i32,
                at: r.src,
                left,
                row,
            };
        }
        sends += left as u32 * r.len as u32;
    }
    sends
}

pub fn plan(
    choose: impl Fn(&[Cell], i32) -> Chosen,
    nodes: u16,
    rows: &[Row],
    plan: &mut [u16],
    arrivals: &mut [u16],
) -> Answer {
    if !(2..=32).contains(&nodes) {
        return refused(1, 0, 0);
    }
    if rows.len() > 512 {
        return refused(2, 0, 0);
    }
    if let Some(i) = rows.iter().position(|r| fault(nodes, r) != 0) {
        return refused(fault(nodes, &rows[i]), i as u16 + 1, 0);
    }
    let count = rows.iter().map(|r| r.len as usize).sum();
    if count > MOST_CELLS {
        return refused(11, 0, 0);
    }
    let n = nodes as usize;
    let needed = n * rows.iter().map(|r| r.due as usize).max().unwrap_or(0);
    if plan.len() < needed {
        return refused(7, 0, 0);
    }
    if arrivals.len() < rows.len() {
        return refused(8, 0, 0);
    }
    let plan = &mut plan[..needed];
    let arrivals = &mut arrivals[..rows.len()];

    let mut all = [GONE; MOST_CELLS];
    let cells = &mut all[..count];
    let sends = lay(nodes, rows, cells);
    let (mut t, mut under_way, mut looks) = (0usize, count, 0);
    while under_way > 0 {
        looks += under_way as u32;
        let chosen = match choose(cells, t as i32) {
            Ok(chosen) => chosen,
            Err(i) => {
                plan.fill(0);
                arrivals.fill(0);
                return Answer {
                    looks,
                    ..refused(9, cells[i].row, t as u16)
                };
            }
        };
        let slot = &mut plan[t * n..(t + 1) * n];
        for (p, entry) in slot.iter_mut().enumerate() {
            *entry = 0;
            if chosen[p] == 0 {
                continue;
            }
            let c = &mut cells[chosen[p] as usize - 1];
            *entry = c.row;
            *c = Cell {
                latest: c.latest + 1,
                at: if p + 1 == n { 0 } else { p as u16 + 1 },
                left: c.left - 1,
                row: c.row,
            };
            if c.left == 0 {
                // a row's last cell comes last
                arrivals[c.row as usize - 1] = t as u16 + 1;
                *c = GONE;
                under_way -= 1;
            }
        }
        t += 1;
    }
    plan[t * n..].fill(0);
    let sum: u32 = arrivals.iter().map(|&at| at as u32).sum();
    if rows.is_empty() {
        return Answer::default();
    }
    let (mean, share) = (
        sum as f64 / rows.len() as f64,
        sends as f64 / (n * t) as f64,
    );
    Answer {
        number: 0,
        row: 0,
        slot: 0,
        last: t as u16,
        sends,
        sum,
        looks,
        mean,
        share,
    }
}
