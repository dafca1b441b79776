//! A table under edit, written from document 02 alone: a ring and its rows. Loads are counted afresh whenever they are asked
//! for, by walking every row from node to node with all its cells, so nothing here has to be kept in step.

use crate::model::fault;
use crate::panel::{self, EditAnswer, Row, Table, LOADS, PER_ROW, ROWS, TABLE};

/// The most rows that a table may have.
const MOST_ROWS: usize = 512;

/// One edit. Rows are numbered from 1.
#[derive(Clone, Copy, Debug)]
pub enum Edit {
    Add(Row),
    Change(u16, Row),
    Remove(u16),
}

impl Edit {
    /// Has the panel do it.
    pub fn call(self, table: &mut Table) -> EditAnswer {
        match self {
            Edit::Add(row) => panel::add(table, row),
            Edit::Change(number, row) => panel::change(table, number, row),
            Edit::Remove(number) => panel::remove(table, number),
        }
    }
}

pub fn refused(number: u16, row: u16) -> EditAnswer {
    EditAnswer {
        number,
        row,
        slot: 0,
    }
}

/// The links that a good row crosses, one after another from its source.
pub fn way(nodes: u16, row: Row) -> impl Iterator<Item = u16> {
    let next = move |&p: &u16| {
        let node = if p + 1 == nodes { 0 } else { p + 1 };
        (node != row.dst).then_some(node)
    };
    std::iter::successors(Some(row.src), next)
}

/// A table that was opened and edited, and never damaged.
pub struct Entered {
    pub nodes: u16,
    pub rows: Vec<Row>,
}

impl Entered {
    pub fn open(nodes: u16) -> Option<Entered> {
        let rows = Vec::new();
        (2..=32).contains(&nodes).then_some(Entered { nodes, rows })
    }

    fn is_there(&self, number: u16) -> bool {
        (1..=self.rows.len()).contains(&(number as usize))
    }

    fn judge(&self, edit: Edit) -> Option<EditAnswer> {
        let coming = self.rows.len() as u16 + 1;
        match edit {
            Edit::Add(_) if self.rows.len() == MOST_ROWS => Some(refused(2, 0)),
            Edit::Change(number, _) | Edit::Remove(number) if !self.is_there(number) => {
                Some(refused(12, number))
            }
            Edit::Add(row) => fault(self.nodes, &row).map(|f| refused(f, coming)),
            Edit::Change(number, row) => fault(self.nodes, &row).map(|f| refused(f, number)),
            Edit::Remove(_) => None,
        }
    }

    pub fn edit(&mut self, edit: Edit) -> EditAnswer {
        if let Some(answer) = self.judge(edit) {
            return answer;
        }
        match edit {
            Edit::Add(row) => self.rows.push(row),
            Edit::Change(number, row) => self.rows[number as usize - 1] = row,
            Edit::Remove(number) => drop(self.rows.remove(number as usize - 1)),
        }
        EditAnswer::default()
    }

    /// The area that holds this table and nothing else.
    pub fn area(&self) -> Table {
        let mut area = [0; TABLE];
        area[0] = self.nodes;
        area[1] = self.rows.len() as u16;
        for (i, &row) in self.rows.iter().enumerate() {
            way(self.nodes, row).for_each(|p| area[LOADS + p as usize] += row.len);
            area[ROWS + PER_ROW * i..][..PER_ROW].copy_from_slice(&row.numbers());
        }
        area
    }
}
