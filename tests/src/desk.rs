//! An area lent to the panel's functions, each call held to the models: the answer, every number of the area, what the area
//! shows, and what lies around it.

use crate::area::{crosses, Area};
use crate::edit::{Edit, Entered};
use crate::model::{self, entries};
use crate::panel::{self, EditAnswer, Row, Table, LOADS, TABLE};
use crate::random::Random;
use std::fmt::{Debug, Display};

/// Numbers before and behind a lent list that must stay as they are.
const AROUND: usize = 32;

/// Plan entries that are enough for every table.
const MOST_ENTRIES: usize = 32 * 1024;

/// Holds one thing to the model's.
pub fn same<T: PartialEq + Debug>(what: impl Display, found: T, expected: T) -> Result<(), String> {
    if found == expected {
        return Ok(());
    }
    Err(format!("{what} is {found:?}, and the model's {expected:?}"))
}

/// Holds a list to the model's, entry for entry.
pub fn same_lists(what: &str, found: &[u16], expected: &[u16]) -> Result<(), String> {
    if found == expected {
        return Ok(());
    }
    let i = (0..found.len()).find(|&i| found[i] != expected[i]).unwrap();
    same(format_args!("{what} {i}"), found[i], expected[i])
}

/// A list in the midst of numbers that no call may touch.
pub struct Lent {
    numbers: Vec<u16>,
    ends: [Vec<u16>; 2],
}

impl Lent {
    pub fn new(random: &mut Random, list: &[u16]) -> Lent {
        let ends = [random.pattern(AROUND), random.pattern(AROUND)];
        let numbers = [&ends[0], list, &ends[1]].concat();
        Lent { numbers, ends }
    }

    pub fn list(&mut self) -> &mut [u16] {
        let end = self.numbers.len() - AROUND;
        &mut self.numbers[AROUND..end]
    }

    pub fn hold_ends(&self) -> Result<(), String> {
        let behind = self.numbers.len() - AROUND;
        same_lists("number before", &self.numbers[..AROUND], &self.ends[0])?;
        same_lists("number behind", &self.numbers[behind..], &self.ends[1])
    }
}

/// Holds what the panel shows of an area to the definitions.
pub fn hold_shown(random: &mut Random, table: &Table, area: &Area) -> Result<(), String> {
    same("the row count", panel::row_count(table), area.count())?;
    same("the busiest link", panel::busiest(table), area.busiest())?;
    let count = area.count();
    let some = random.within(0, 600) as u16;
    for number in [0, 1, count, count.saturating_add(1), some, 65535] {
        let (found, expected) = (panel::row_of(table, number), area.row_of(number));
        same(format_args!("row {number}"), found, expected)?;
    }
    for link in (0..=40).chain([65535]) {
        let (found, expected) = (panel::link_load(table, link), area.link_load(link));
        same(format_args!("the load of link {link}"), found, expected)?;
    }
    same_lists("after showing, number", table, &area.0)
}

/// A lent area, and what it must hold.
pub struct Desk {
    lent: Lent,
    area: Area,
    /// The table of document 02, from its opening on.
    entered: Option<Entered>,
}

impl Desk {
    /// An area of any numbers.
    pub fn new(random: &mut Random, numbers: Table) -> Desk {
        Desk {
            lent: Lent::new(random, &numbers),
            area: Area(numbers),
            entered: None,
        }
    }

    /// An area in which an empty table was opened over what it held.
    pub fn opened(random: &mut Random, nodes: u16) -> Result<Desk, String> {
        let dirt = random.pattern(TABLE).try_into().unwrap();
        let mut desk = Desk::new(random, dirt);
        desk.open(random, nodes)?;
        Ok(desk)
    }

    pub fn table(&self) -> &Table {
        let numbers = &self.lent.numbers;
        numbers[AROUND..AROUND + TABLE].try_into().unwrap()
    }

    fn table_mut(&mut self) -> &mut Table {
        self.lent.list().try_into().unwrap()
    }

    /// What the area holds and shows.
    pub fn hold(&self, random: &mut Random) -> Result<(), String> {
        self.lent.hold_ends()?;
        same_lists("number", self.table(), &self.area.0)?;
        if let Some(entered) = &self.entered {
            same_lists("afresh, number", self.table(), &entered.area())?;
        }
        hold_shown(random, self.table(), &self.area)
    }

    pub fn open(&mut self, random: &mut Random, nodes: u16) -> Result<EditAnswer, String> {
        let tell = |what: String| format!("{what}\nopening for {nodes} nodes");
        let answer = panel::open(self.table_mut(), nodes);
        same("the answer", answer, self.area.open(nodes)).map_err(tell)?;
        self.entered = Entered::open(nodes).or(self.entered.take());
        self.hold(random).map_err(tell)?;
        Ok(answer)
    }

    pub fn edit(&mut self, random: &mut Random, edit: Edit) -> Result<EditAnswer, String> {
        let (nodes, count) = (self.area.nodes(), self.area.count());
        let tell = |what: String| format!("{what}\n{edit:?} of {nodes} nodes and {count} rows");
        let before = Area(*self.table());
        let answer = edit.call(self.table_mut());
        only_on_the_way(&before, edit, self.table()).map_err(tell)?;
        same("the answer", answer, self.area.edit(edit)).map_err(tell)?;
        if let Some(entered) = &mut self.entered {
            same("the answer", answer, entered.edit(edit)).map_err(tell)?;
        }
        self.hold(random).map_err(tell)?;
        Ok(answer)
    }

    /// Plans the table, and the same rows entered afresh, in areas of these lengths; the number of the answer.
    pub fn plan(
        &mut self,
        random: &mut Random,
        plan_len: usize,
        arrivals_len: usize,
    ) -> Result<u16, String> {
        let dirt = (random.pattern(plan_len), random.pattern(arrivals_len));
        let mut plan = Lent::new(random, &dirt.0);
        let mut arrivals = Lent::new(random, &dirt.1);
        let (mut plan_afresh, mut arrivals_afresh) = dirt;
        let answer = panel::plan_table(self.table(), plan.list(), arrivals.list());
        let (nodes, rows) = self.to_plan();
        let afresh = panel::plan(nodes, &rows, &mut plan_afresh, &mut arrivals_afresh);
        let tell = |what: String| format!("{what}\nplanning {nodes} nodes and {} rows", rows.len());
        same("the planner's answer", answer, afresh).map_err(tell)?;
        same_lists("plan entry", plan.list(), &plan_afresh).map_err(tell)?;
        same_lists("arrivals entry", arrivals.list(), &arrivals_afresh).map_err(tell)?;
        let most = panel::most_looks(nodes, &rows);
        same("the most looks", most, model::most_looks(nodes, &rows)).map_err(tell)?;
        let of_table = panel::most_looks_table(self.table());
        same("the table's most looks", of_table, most).map_err(tell)?;
        plan.hold_ends().map_err(tell)?;
        arrivals.hold_ends().map_err(tell)?;
        self.hold(random).map_err(tell)?;
        Ok(answer.number)
    }

    fn to_plan(&self) -> (u16, Vec<Row>) {
        match &self.entered {
            Some(entered) => (entered.nodes, entered.rows.clone()),
            None => (self.area.nodes(), self.area.rows()),
        }
    }

    /// Plans in areas of about the needed lengths.
    pub fn plan_somehow(&mut self, random: &mut Random) -> Result<u16, String> {
        let (nodes, rows) = self.to_plan();
        let about = |random: &mut Random, needed: usize| match random.within(0, 9) {
            0 => needed.saturating_sub(1),
            1 => random.within(0, needed),
            2..=4 => needed + random.within(1, 50),
            _ => needed,
        };
        let plan_len = about(random, entries(nodes, &rows).min(MOST_ENTRIES));
        let arrivals_len = about(random, rows.len());
        self.plan(random, plan_len, arrivals_len)
    }
}

/// No load has changed but those of links on the way of the old row or the new one.
fn only_on_the_way(before: &Area, edit: Edit, after: &Table) -> Result<(), String> {
    let ways = match edit {
        Edit::Add(new) => [None, Some(new)],
        Edit::Change(number, new) => [before.row(number), Some(new)],
        Edit::Remove(number) => [before.row(number), None],
    };
    let on_way = |p| {
        let mut rows = ways.iter().flatten();
        rows.any(|&row| crosses(before.nodes(), row, p))
    };
    let moved = |p: &u16| after[LOADS + *p as usize] != before.0[LOADS + *p as usize];
    match (0..32).filter(moved).find(|&p| !on_way(p)) {
        Some(p) => Err(format!("the load of link {p} has changed")),
        None => Ok(()),
    }
}
