//! Why a table is late, by a model written from the words alone: each cell is walked back along its way, and for every link
//! and every slot the cells are counted afresh. One call of the panel's function, held to it.

use crate::desk::{same, same_lists, Lent};
use crate::model::{largest_due, unfit};
use crate::panel::{self, Reason, Row};
use crate::random::Random;

/// A cell that has to cross a link.
struct Crossing {
    /// The index of its row.
    row: usize,
    /// The last slot in which it can cross and still be in time, which may be below 0.
    last: i32,
}

/// So many cells must cross a link before a slot, and they are more than the slots there are. The first in order is the one
/// that is told: fewest cells, then the lowest link.
#[derive(Clone, Copy, Debug, PartialEq, Eq, PartialOrd, Ord)]
struct Jam {
    cells: u16,
    link: u16,
    before: u16,
}

/// The cells that have to cross each link, and the largest due slot.
struct Links {
    crossings: Vec<Vec<Crossing>>,
    latest: u16,
}

/// The way of a cell, walked back from its destination, where it is when it is due: each link, and the slot of crossing it.
fn walked_back(nodes: u16, row: &Row, due: i32) -> Vec<(usize, i32)> {
    let mut way = Vec::new();
    let (mut node, mut slot) = (row.dst, due);
    loop {
        node = if node == 0 { nodes - 1 } else { node - 1 };
        slot -= 1;
        way.push((node as usize, slot));
        if node == row.src {
            return way;
        }
    }
}

impl Links {
    fn new(nodes: u16, rows: &[Row]) -> Links {
        let mut crossings: Vec<Vec<Crossing>> = (0..nodes).map(|_| Vec::new()).collect();
        for (row, r) in rows.iter().enumerate() {
            for behind in 0..r.len {
                let due = i32::from(r.due) - i32::from(behind);
                for (p, last) in walked_back(nodes, r, due) {
                    crossings[p].push(Crossing { row, last });
                }
            }
        }
        let latest = largest_due(rows) as u16;
        Links { crossings, latest }
    }

    /// The cells that must cross a link before a slot.
    fn must_cross(&self, link: u16, before: u16) -> impl Iterator<Item = &Crossing> {
        let must = move |crossing: &&Crossing| crossing.last < i32::from(before);
        self.crossings[link as usize].iter().filter(must)
    }

    /// The first slot before which a link has too many cells to cross it.
    fn first_jam(&self, link: u16) -> Option<Jam> {
        (0..=self.latest).find_map(|before| {
            let cells = self.must_cross(link, before).count() as u16;
            (cells > before).then_some(Jam {
                cells,
                link,
                before,
            })
        })
    }

    fn jam(&self) -> Option<Jam> {
        (0..self.crossings.len() as u16)
            .filter_map(|link| self.first_jam(link))
            .min()
    }
}

/// The reason, with `members` as the panel leaves it.
pub fn reason(nodes: u16, rows: &[Row], members: &mut [u16]) -> Reason {
    let refused = |number, row| Reason {
        number,
        row,
        ..Reason::default()
    };
    if let Some(answer) = unfit(nodes, rows) {
        return refused(answer.number, answer.row);
    }
    if members.len() < rows.len() {
        return refused(8, 0);
    }
    members[..rows.len()].fill(0);
    let links = Links::new(nodes, rows);
    let Some(jam) = links.jam() else {
        return Reason::default();
    };
    for crossing in links.must_cross(jam.link, jam.before) {
        members[crossing.row] += 1;
    }
    Reason {
        cells: jam.cells,
        link: jam.link,
        before: jam.before,
        ..Reason::default()
    }
}

/// The reason and the whole lent list after the call.
pub struct Explained {
    pub reason: Reason,
    pub members: Vec<u16>,
}

/// Asks the panel for the reason with a list of this length, filled with a pattern, and holds what it does to the model.
pub fn agree_reason(
    random: &mut Random,
    nodes: u16,
    rows: &[Row],
    members_len: usize,
) -> Result<Explained, String> {
    let mut members = random.pattern(members_len);
    let mut lent = Lent::new(random, &members);
    let lent_rows = rows.to_vec();
    let found = panel::reason(nodes, &lent_rows, lent.list());
    let reason = reason(nodes, rows, &mut members);
    same("the reason", found, reason)?;
    same_lists("the entry of index", lent.list(), &members)?;
    lent.hold_ends()?;
    if lent_rows != rows {
        return Err("the lent rows have changed".to_string());
    }
    Ok(Explained { reason, members })
}
