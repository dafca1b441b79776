//! An area of any numbers, as it comes when nobody has opened a table in it or somebody has damaged it: what every function
//! makes of it, by the definitions of crates/area/specs/Area.antt and crates/edit/specs/Edit.antt.

use crate::edit::{refused, Edit};
use crate::model::fault;
use crate::panel::{EditAnswer, Link, Row, RowAnswer, Table, LOADS, PER_ROW, ROWS};

/// The most links that a ring may have.
const MOST_LINKS: u16 = 32;

/// Link p lies on a row's way, whatever the row's numbers are; equal ends are a full turn.
pub fn crosses(nodes: u16, row: Row, p: u16) -> bool {
    let on_way = if row.src < row.dst {
        (row.src..row.dst).contains(&p)
    } else {
        !(row.dst..row.src).contains(&p)
    };
    p < nodes && on_way
}

pub struct Area(pub Table);

impl Area {
    pub fn nodes(&self) -> u16 {
        self.0[0]
    }

    pub fn count(&self) -> u16 {
        self.0[1]
    }

    /// The row in place `number` of the area, where it has so many places.
    pub fn row(&self, number: u16) -> Option<Row> {
        let i = (number as usize).checked_sub(1)?;
        let place = self.0[ROWS..].chunks_exact(PER_ROW).nth(i)?;
        Some(Row::of_numbers(place.try_into().unwrap()))
    }

    fn size_refusal(&self) -> Option<u16> {
        if self.nodes() < 2 || self.nodes() > MOST_LINKS {
            Some(1)
        } else {
            (self.count() > 512).then_some(2)
        }
    }

    /// 1, 2 and 12 for a row that is asked for, with the row that they name.
    fn missing(&self, number: u16) -> Option<EditAnswer> {
        let there = 1 <= number && number <= self.count();
        let size = self.size_refusal().map(|f| refused(f, 0));
        size.or((!there).then_some(refused(12, number)))
    }

    fn judge(&self, edit: Edit) -> Option<EditAnswer> {
        let wrong = |row: Row, number: u16| fault(self.nodes(), &row).map(|f| refused(f, number));
        match edit {
            Edit::Add(row) => match self.size_refusal() {
                Some(f) => Some(refused(f, 0)),
                None if self.count() == 512 => Some(refused(2, 0)),
                None => wrong(row, self.count() + 1),
            },
            Edit::Change(number, row) => self.missing(number).or_else(|| wrong(row, number)),
            Edit::Remove(number) => self.missing(number),
        }
    }

    /// Counts a row's cells in or out; a count goes no further than 65,535 or 0.
    fn count_row(&mut self, row: Row, step: impl Fn(u16) -> u16) {
        let nodes = self.nodes();
        for p in (0..MOST_LINKS).filter(|&p| crosses(nodes, row, p)) {
            let load = &mut self.0[LOADS + p as usize];
            *load = step(*load);
        }
    }

    fn count_in(&mut self, row: Row) {
        self.count_row(row, |load| load.saturating_add(row.len));
    }

    fn count_out(&mut self, number: u16) {
        let old = self.row(number).unwrap();
        self.count_row(old, |load| load.saturating_sub(old.len));
    }

    fn put(&mut self, number: u16, row: Row) {
        let at = ROWS + PER_ROW * (number as usize - 1);
        self.0[at..at + PER_ROW].copy_from_slice(&row.numbers());
    }

    pub fn open(&mut self, nodes: u16) -> EditAnswer {
        if !(2..=MOST_LINKS).contains(&nodes) {
            return refused(1, 0);
        }
        self.0.fill(0);
        self.0[0] = nodes;
        EditAnswer::default()
    }

    pub fn edit(&mut self, edit: Edit) -> EditAnswer {
        if let Some(answer) = self.judge(edit) {
            return answer;
        }
        let count = self.count();
        match edit {
            Edit::Add(row) => {
                self.count_in(row);
                self.put(count + 1, row);
                self.0[1] = count + 1;
            }
            Edit::Change(number, row) => {
                self.count_out(number);
                self.count_in(row);
                self.put(number, row);
            }
            Edit::Remove(number) => {
                self.count_out(number);
                let place = |number: u16| ROWS + PER_ROW * (number as usize - 1);
                let (at, end) = (place(number), place(count + 1));
                self.0[at..end].rotate_left(PER_ROW);
                self.0[end - PER_ROW..end].fill(0);
                self.0[1] = count - 1;
            }
        }
        EditAnswer::default()
    }

    pub fn row_of(&self, number: u16) -> RowAnswer {
        if let Some(EditAnswer { number, row, slot }) = self.missing(number) {
            return RowAnswer {
                number,
                row,
                slot,
                ..RowAnswer::default()
            };
        }
        let Row { src, dst, len, due } = self.row(number).unwrap();
        RowAnswer {
            src,
            dst,
            len,
            due,
            ..RowAnswer::default()
        }
    }

    /// The ring's links, each with its load.
    fn links(&self) -> impl Iterator<Item = Link> + '_ {
        let ring = 0..self.nodes().min(MOST_LINKS);
        ring.map(|link| Link {
            link,
            load: self.0[LOADS + link as usize],
        })
    }

    pub fn link_load(&self, link: u16) -> u16 {
        let found = self.links().find(|l| l.link == link);
        found.map_or(0, |l| l.load)
    }

    pub fn busiest(&self) -> Link {
        let by_load = |l: &Link| (std::cmp::Reverse(l.load), l.link);
        self.links().min_by_key(by_load).unwrap_or_default()
    }

    /// The rows that a planner would have to be given: places that the area does not have are rows too.
    pub fn rows(&self) -> Vec<Row> {
        let nothing = Row::of_numbers([0; PER_ROW]);
        let at = |number| self.row(number).unwrap_or(nothing);
        (1..=self.count()).map(at).collect()
    }
}
