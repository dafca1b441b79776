//! The planner of documents 01 and 02, written from their words alone: cells that stand at nodes, and nodes that hold them.

use crate::panel::{Answer, Row};

/// The most cells of a row, and of all rows together.
pub const LONGEST: u16 = 64;
pub const MOST_CELLS: usize = 1024;

/// One cell of a row: the `place`th of `len`, counted from 1.
struct Cell {
    row: u16,
    place: u16,
    len: u16,
    to: u16,
    /// The row's due slot less the cells that come after this one, which may be below 0.
    due: i64,
}

struct Ring {
    nodes: u16,
    /// The cells that each node holds, in no order.
    held: Vec<Vec<Cell>>,
    now: u16,
}

impl Ring {
    fn start(nodes: u16, rows: &[Row]) -> Ring {
        let mut held: Vec<Vec<Cell>> = (0..nodes).map(|_| Vec::new()).collect();
        for (number, row) in (1..).zip(rows) {
            let cell = |place| Cell {
                row: number,
                place,
                len: row.len,
                to: row.dst,
                due: i64::from(row.due) - i64::from(row.len - place),
            };
            held[row.src as usize].extend((1..=row.len).map(cell));
        }
        Ring {
            nodes,
            held,
            now: 0,
        }
    }

    /// The links that a cell still has to go: all N where it stands at its destination, which it hasn't left yet.
    fn to_go(&self, from: u16, to: u16) -> u16 {
        if from < to {
            to - from
        } else {
            self.nodes - from + to
        }
    }

    fn slack(&self, at: u16, cell: &Cell) -> i64 {
        (cell.due - i64::from(self.now)) - i64::from(self.to_go(at, cell.to))
    }

    /// The cells that are not delivered yet, each of which is one look.
    fn undelivered(&self) -> u32 {
        self.held.iter().map(|cells| cells.len() as u32).sum()
    }

    /// The lowest row of which a cell's slack is below zero.
    fn late(&self) -> Option<u16> {
        let at_node = |p: u16| {
            self.held[p as usize]
                .iter()
                .filter(move |cell| self.slack(p, cell) < 0)
                .map(|cell| cell.row)
        };
        (0..self.nodes).flat_map(at_node).min()
    }

    /// One slot: each node picks its cell, and then all of them move. The row that each link carried a cell of.
    fn send(&mut self, arrivals: &mut [u16]) -> Vec<u16> {
        let mut under_way: Vec<Option<Cell>> = Vec::new();
        for p in 0..self.nodes {
            let best = self.held[p as usize]
                .iter()
                .enumerate()
                .min_by_key(|(_, cell)| (self.slack(p, cell), cell.row, cell.place))
                .map(|(i, _)| i);
            under_way.push(best.map(|i| self.held[p as usize].swap_remove(i)));
        }
        self.now += 1;
        let carried = under_way
            .iter()
            .map(|cell| cell.as_ref().map_or(0, |cell| cell.row))
            .collect();
        for (p, cell) in (0..self.nodes).zip(under_way) {
            let Some(cell) = cell else { continue };
            let next = if p + 1 == self.nodes { 0 } else { p + 1 };
            if next != cell.to {
                self.held[next as usize].push(cell);
            } else if cell.place == cell.len {
                arrivals[cell.row as usize - 1] = self.now;
            }
        }
        carried
    }
}

fn refused(number: u16, row: u16, slot: u16) -> Answer {
    Answer {
        number,
        row,
        slot,
        ..Answer::default()
    }
}

/// What is wrong with one row.
pub fn fault(nodes: u16, row: &Row) -> Option<u16> {
    if row.src >= nodes {
        Some(3)
    } else if row.dst >= nodes {
        Some(4)
    } else if !(1..=LONGEST).contains(&row.len) {
        Some(10)
    } else if !(1..=1024).contains(&row.due) {
        Some(6)
    } else {
        None
    }
}

/// The cells of all rows together.
pub fn cells(rows: &[Row]) -> usize {
    rows.iter().map(|r| r.len as usize).sum()
}

/// The first refusal that holds, of those that stand before 7.
pub fn unfit(nodes: u16, rows: &[Row]) -> Option<Answer> {
    if !(2..=32).contains(&nodes) {
        return Some(refused(1, 0, 0));
    }
    if rows.len() > 512 {
        return Some(refused(2, 0, 0));
    }
    (1..)
        .zip(rows)
        .find_map(|(number, row)| fault(nodes, row).map(|f| refused(f, number, 0)))
        .or((cells(rows) > MOST_CELLS).then_some(refused(11, 0, 0)))
}

/// The largest due slot, 0 where there are no rows.
pub fn largest_due(rows: &[Row]) -> usize {
    rows.iter().map(|r| r.due as usize).max().unwrap_or(0)
}

/// Entries that the plan of a good table has.
pub fn entries(nodes: u16, rows: &[Row]) -> usize {
    nodes as usize * largest_due(rows)
}

/// The most looks that planning can take: every cell at every instant from 0 to the largest due slot.
pub fn most_looks(nodes: u16, rows: &[Row]) -> u32 {
    match unfit(nodes, rows) {
        Some(_) => 0,
        None => (cells(rows) * (largest_due(rows) + 1)) as u32,
    }
}

/// The answer, with `plan` and `arrivals` as the planner leaves them.
pub fn plan(nodes: u16, rows: &[Row], plan: &mut [u16], arrivals: &mut [u16]) -> Answer {
    if let Some(answer) = unfit(nodes, rows) {
        return answer;
    }
    let needed = entries(nodes, rows);
    if plan.len() < needed {
        return refused(7, 0, 0);
    }
    if arrivals.len() < rows.len() {
        return refused(8, 0, 0);
    }

    let plan = &mut plan[..needed];
    let arrivals = &mut arrivals[..rows.len()];
    plan.fill(0);
    arrivals.fill(0);
    let mut ring = Ring::start(nodes, rows);
    let sends: u32 = rows
        .iter()
        .map(|r| u32::from(ring.to_go(r.src, r.dst)) * u32::from(r.len))
        .sum();
    let mut looks = 0;
    while ring.undelivered() > 0 {
        looks += ring.undelivered();
        if let Some(row) = ring.late() {
            plan.fill(0);
            arrivals.fill(0);
            return Answer {
                looks,
                ..refused(9, row, ring.now)
            };
        }
        let first = ring.now as usize * nodes as usize;
        let carried = ring.send(arrivals);
        plan[first..first + carried.len()].copy_from_slice(&carried);
    }

    if rows.is_empty() {
        return Answer::default();
    }
    let sum: u32 = arrivals.iter().map(|&a| u32::from(a)).sum();
    let last = *arrivals.iter().max().unwrap();
    Answer {
        number: 0,
        row: 0,
        slot: 0,
        last,
        sends,
        sum,
        looks,
        mean: f64::from(sum) / rows.len() as f64,
        share: f64::from(sends) / f64::from(u32::from(nodes) * u32::from(last)),
    }
}
