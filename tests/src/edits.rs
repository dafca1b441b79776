//! Tables edited at random at the panel, right and wrong edits mixed, and areas damaged at random.

use crate::cases::{any_length, row, Outcome};
use crate::desk::Desk;
use crate::edit::{Edit, Entered};
use crate::panel::{Row, Table, LOADS, PER_ROW, ROWS, TABLE};
use crate::random::Random;
use std::collections::{BTreeMap, BTreeSet};

/// What the calls of random edits came to: how often each number was answered, and on which rings.
#[derive(Debug, Default)]
pub struct Met {
    pub edits: BTreeMap<u16, usize>,
    pub plans: BTreeMap<u16, usize>,
    pub rings: BTreeSet<u16>,
}

/// Where a stretch of edits leads.
#[derive(Clone, Copy)]
enum Lean {
    Fill,
    Mix,
    Thin,
}

/// How a sequence's due slots are set.
#[derive(Clone, Copy)]
enum Dues {
    Loose,
    Near,
    Any,
}

fn good_row(random: &mut Random, nodes: u16, dues: Dues) -> Row {
    let len = match dues {
        Dues::Near => random.within(1, 3) as u16,
        _ if random.once_in(4) => any_length(random),
        _ => 1,
    };
    let row = row(random, nodes, |random, distance| match dues {
        Dues::Loose => random.within(620, 1024),
        Dues::Near => distance + (len as usize - 1) + random.within(0, 4),
        Dues::Any => random.within(1, 1024),
    });
    Row { len, ..row }
}

/// Up to three faults, so that the order of the refusals counts: equal ends are none.
fn spoil(random: &mut Random, nodes: u16, row: &mut Row) {
    for _ in 0..random.within(1, 3) {
        let off = [nodes, nodes.saturating_add(1), 32, 65535][random.within(0, 3)];
        match random.within(2, 6) {
            2 => row.len = [0, 65, 66, 65535][random.within(0, 3)],
            3 => row.src = off,
            4 => row.dst = off,
            5 => row.dst = row.src,
            _ => row.due = [0, 1025, 1026, 65535][random.within(0, 3)],
        }
    }
}

/// A row number, most often one that is there.
fn any_number(random: &mut Random, count: u16) -> u16 {
    match random.within(0, 19) {
        0 => [0, 513, 32768, 65535][random.within(0, 3)],
        1 => count.saturating_add(1),
        2 => random.word() as u16,
        3 | 4 => count,
        5 | 6 => 1,
        _ => random.within(1, count.clamp(1, 512) as usize) as u16,
    }
}

fn any_edit(random: &mut Random, nodes: u16, count: u16, lean: Lean, dues: Dues) -> Edit {
    let mut row = good_row(random, nodes, dues);
    if random.once_in(6) {
        spoil(random, nodes, &mut row);
    }
    let number = any_number(random, count);
    let (adds, removes) = match lean {
        Lean::Fill => (85, 5),
        Lean::Mix => (34, 33),
        Lean::Thin => (5, 85),
    };
    match random.within(1, 100) {
        k if k <= adds => Edit::Add(row),
        k if k <= adds + removes => Edit::Remove(number),
        _ => Edit::Change(number, row),
    }
}

/// A run of random edits of one table, with some planning and some openings that are refused.
struct Session<'a> {
    desk: Desk,
    dues: Dues,
    /// It is planned once in so many steps.
    plans: usize,
    met: &'a mut Met,
}

impl<'a> Session<'a> {
    fn open(random: &mut Random, plans: usize, met: &'a mut Met) -> Result<Session<'a>, String> {
        let nodes = match random.within(0, 9) {
            0 => 2,
            1 => 32,
            _ => random.within(2, 32) as u16,
        };
        met.rings.insert(nodes);
        Ok(Session {
            desk: Desk::opened(random, nodes)?,
            dues: [Dues::Loose, Dues::Near, Dues::Any][random.within(0, 2)],
            plans,
            met,
        })
    }

    fn count(&self) -> u16 {
        self.desk.table()[1]
    }

    fn step(&mut self, random: &mut Random, lean: Lean) -> Result<(), String> {
        let (nodes, count) = (self.desk.table()[0], self.count());
        let edit = any_edit(random, nodes, count, lean, self.dues);
        let answer = self.desk.edit(random, edit)?;
        *self.met.edits.entry(answer.number).or_insert(0) += 1;
        if random.once_in(self.plans) {
            let number = self.desk.plan_somehow(random)?;
            *self.met.plans.entry(number).or_insert(0) += 1;
        }
        if random.once_in(100) {
            let wrong = [0, 1, 33, 65535][random.within(0, 3)];
            self.desk.open(random, wrong)?;
        }
        Ok(())
    }

    fn steps(&mut self, random: &mut Random, lean: Lean, count: usize) -> Result<(), String> {
        (0..count).try_for_each(|_| self.step(random, lean))
    }

    fn until(&mut self, random: &mut Random, lean: Lean, count: u16) -> Result<(), String> {
        while self.count() != count {
            self.step(random, lean)?;
        }
        Ok(())
    }
}

/// A table filled to 512 rows, edited there, and emptied again.
pub fn full(random: &mut Random, met: &mut Met) -> Outcome {
    let mut session = Session::open(random, 60, met)?;
    session.until(random, Lean::Fill, 512)?;
    session.steps(random, Lean::Fill, 40)?;
    session.steps(random, Lean::Mix, 200)?;
    session.until(random, Lean::Thin, 0)?;
    session.steps(random, Lean::Thin, 20)?;
    session.steps(random, Lean::Mix, 100)?;
    Ok("filled and emptied")
}

/// A table of few rows, planned often, and another one opened over it.
pub fn few(random: &mut Random, met: &mut Met) -> Outcome {
    let mut session = Session::open(random, 4, met)?;
    for lean in [Lean::Fill, Lean::Mix, Lean::Thin] {
        session.steps(random, lean, 12)?;
    }
    let nodes = random.within(2, 32) as u16;
    session.desk.open(random, nodes)?;
    session.steps(random, Lean::Mix, 6)?;
    Ok("few rows")
}

/// The area of a table as it may be, before anything happens to it.
fn entered(random: &mut Random) -> Table {
    let nodes = random.within(2, 32) as u16;
    let count = [0, 1, 2, 5, 40, 511, 512][random.within(0, 6)];
    let rows = (0..count).map(|_| good_row(random, nodes, Dues::Any));
    Entered {
        nodes,
        rows: rows.collect(),
    }
    .area()
}

/// Changes some numbers of an area as no function would.
fn damage(random: &mut Random, area: &mut Table) {
    match random.within(0, 7) {
        0 => area[0] = [0, 1, 2, 32, 33, 34, 64, 65535][random.within(0, 7)],
        1 => area[1] = [511, 512, 513, 514, 1024, 65535][random.within(0, 5)],
        2 => area[1] = random.within(0, 512) as u16,
        // loads that cannot go on, on the ring and past it
        3 => area[LOADS..LOADS + 32].fill([0, 1, 65534, 65535][random.within(0, 3)]),
        4 => area[LOADS + random.within(0, 31)] = random.word() as u16,
        5 => {
            let row = random.within(0, 511);
            let off = [0, area[0], area[0].saturating_add(1), 65535][random.within(0, 3)];
            area[ROWS + PER_ROW * row + random.within(0, PER_ROW - 1)] = off;
        }
        6 => area[2..].copy_from_slice(&random.pattern(TABLE - 2)),
        _ => area[random.within(0, TABLE - 1)] = random.word() as u16,
    }
}

/// An area that was damaged, or never opened.
pub fn any_area(random: &mut Random) -> Table {
    if random.once_in(20) {
        return [0; TABLE];
    }
    let mut area = entered(random);
    for _ in 0..random.within(1, 4) {
        damage(random, &mut area);
    }
    area
}

/// Some edit of such an area.
pub fn edit_of(random: &mut Random, area: &Table) -> Edit {
    let nodes = area[0].clamp(2, 32);
    let lean = [Lean::Fill, Lean::Mix, Lean::Thin][random.within(0, 2)];
    any_edit(random, nodes, area[1], lean, Dues::Any)
}

/// A damaged area, edited and planned as it stands, and opened in the end.
pub fn damaged(random: &mut Random, met: &mut Met) -> Outcome {
    let area = any_area(random);
    let mut desk = Desk::new(random, area);
    desk.hold(random)?;
    for _ in 0..random.within(1, 12) {
        let edit = edit_of(random, desk.table());
        let answer = desk.edit(random, edit)?;
        *met.edits.entry(answer.number).or_insert(0) += 1;
    }
    let number = desk.plan_somehow(random)?;
    *met.plans.entry(number).or_insert(0) += 1;
    let nodes = [0, 1, 2, 17, 32, 33, 65535][random.within(0, 6)];
    desk.open(random, nodes)?;
    let edit = edit_of(random, desk.table());
    desk.edit(random, edit)?;
    Ok("damaged")
}
