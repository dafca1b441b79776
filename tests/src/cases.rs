//! Random tables of several kinds, each tried in full. A kind and a seed are a table: the same seed repeats it.

use crate::checker;
use crate::compare::agree;
use crate::model::{self, cells, entries, LONGEST, MOST_CELLS};
use crate::panel::{Answer, Row};
use crate::random::Random;
use crate::search;
use std::collections::BTreeMap;
use std::sync::atomic::{AtomicU64, Ordering};

/// What came of the tables tried, by name.
pub type Tally = BTreeMap<&'static str, usize>;

/// What came of one table, or what is wrong with it.
pub type Outcome = Result<&'static str, String>;

pub type Kind = fn(&mut Random) -> Outcome;

/// The seed of the table that is being tried, for a test whose process may end in the midst of it.
pub static UNDER_TEST: AtomicU64 = AtomicU64::new(0);

/// Runs `count` tables of a kind from a first seed on, or just the one of the variable SEED, and counts what came of them.
pub fn each(
    test: &str,
    mut kind: impl FnMut(&mut Random) -> Outcome,
    first: u64,
    count: u64,
) -> Tally {
    let (first, count) = match std::env::var("SEED") {
        Ok(seed) => (seed.parse().expect("SEED is no number"), 1),
        Err(_) => (first, count),
    };
    let mut tally = Tally::new();
    for seed in first..first + count {
        UNDER_TEST.store(seed, Ordering::Relaxed);
        match kind(&mut Random::new(seed)) {
            Ok(name) => *tally.entry(name).or_insert(0) += 1,
            Err(what) => {
                panic!("{what}\nrepeat: SEED={seed} cargo test --release --offline --test {test}")
            }
        }
    }
    println!("{test}: {count} tables: {tally:?}");
    tally
}

/// A row of one cell from a node of the ring to any other or once round to itself, due as `due` says of its distance.
pub fn row(random: &mut Random, nodes: u16, due: impl FnOnce(&mut Random, usize) -> usize) -> Row {
    let src = random.node(nodes);
    let distance = random.within(1, nodes as usize);
    let dst = ((src as usize + distance) % nodes as usize) as u16;
    Row::single(src, dst, due(random, distance) as u16)
}

/// A length from 1 to 64, each of these about as often: 1, some cells, any number, and the most.
pub fn any_length(random: &mut Random) -> u16 {
    match random.within(0, 3) {
        0 => 1,
        1 => random.within(1, 5) as u16,
        2 => random.within(1, LONGEST as usize) as u16,
        _ => LONGEST,
    }
}

/// Gives rows of one cell more cells, as long as there are at most `most` in all.
pub fn lengthen(random: &mut Random, rows: &mut [Row], most: usize) {
    let mut spare = most.saturating_sub(rows.len());
    for _ in 0..rows.len() {
        let row = &mut rows[random.within(0, rows.len() - 1)];
        let len = any_length(random).max(row.len).min(row.len + spare as u16);
        spare -= (len - row.len) as usize;
        row.len = len;
    }
}

/// Gives rows more cells until there are `total` in all, where rows of at most 64 can have so many.
fn fill_to(random: &mut Random, rows: &mut [Row], total: usize) {
    if rows.len() * LONGEST as usize <= total {
        return rows.iter_mut().for_each(|r| r.len = LONGEST);
    }
    while cells(rows) < total {
        let spare = total - cells(rows);
        let row = &mut rows[random.within(0, rows.len() - 1)];
        let more = random.within(0, (LONGEST - row.len) as usize).min(spare);
        row.len += more as u16;
    }
}

/// What is wrong, and the table that it is wrong with.
pub fn told(nodes: u16, rows: &[Row], what: String) -> String {
    let rows: Vec<String> = rows
        .iter()
        .map(|r| format!("{}>{}*{}/{}", r.src, r.dst, r.len, r.due))
        .collect();
    format!("{what}\n{nodes}; {}", rows.join(", "))
}

/// A table small enough for the search: up to five rows, and seven cells in all.
pub fn small_table(random: &mut Random) -> (u16, Vec<Row>) {
    let nodes = random.within(2, 5) as u16;
    let count = random.within(0, 5).max(random.within(0, 5));
    let near = !random.once_in(4);
    let crowded = random.once_in(2);
    let mut rows: Vec<Row> = (0..count)
        .map(|_| {
            row(random, nodes, |random, distance| {
                if near {
                    (distance + random.within(0, 2)).min(6)
                } else {
                    random.within(1, 6)
                }
            })
        })
        .collect();
    if crowded {
        let src = random.node(nodes);
        rows.iter_mut().for_each(|r| r.src = src);
    }
    if !rows.is_empty() && !random.once_in(3) {
        for _ in count..random.within(count, search::MOST_CELLS) {
            let i = random.within(0, count - 1);
            rows[i].len += 1;
            // most often a cell more has a slot more
            rows[i].due += u16::from(rows[i].due < 7 && !random.once_in(4));
        }
    }
    (nodes, rows)
}

/// A small table against the model, the search and the checker.
pub fn small(random: &mut Random) -> Outcome {
    let (nodes, rows) = small_table(random);
    judged(random, nodes, &rows)
}

/// A small table that only the model plans, against the search and the checker. No function of the panel is called.
pub fn modelled(random: &mut Random) -> Outcome {
    let (nodes, rows) = small_table(random);
    let mut plan = vec![0; entries(nodes, &rows)];
    let mut arrivals = vec![0; rows.len()];
    let answer = model::plan(nodes, &rows, &mut plan, &mut arrivals);
    sound(nodes, &rows, answer, &plan, &arrivals)
}

/// A table of at most seven cells, whose answer must be 9 exactly when no legal schedule meets it.
pub fn judged(random: &mut Random, nodes: u16, rows: &[Row]) -> Outcome {
    let tell = |what: String| told(nodes, rows, what);
    let needed = entries(nodes, rows);
    let (plan_len, arrivals_len) = (
        needed + random.within(0, 3),
        rows.len() + random.within(0, 3),
    );
    let planned = agree(random, nodes, rows, plan_len, arrivals_len).map_err(tell)?;
    let (plan, arrivals) = (&planned.plan[..needed], &planned.arrivals[..rows.len()]);
    sound(nodes, rows, planned.answer, plan, arrivals)
}

/// Holds an outcome to the search and the checker: that of a table of at most seven cells.
fn sound(nodes: u16, rows: &[Row], answer: Answer, plan: &[u16], arrivals: &[u16]) -> Outcome {
    let tell = |what: String| told(nodes, rows, what);
    match (answer.number, search::schedule(nodes, rows)) {
        (0, Some(found)) => {
            checker::check(nodes, rows, &found)
                .map_err(|e| tell(format!("the search's own schedule: {e}")))?;
            checked(nodes, rows, answer.looks, plan, arrivals).map_err(tell)?;
            Ok("accepted")
        }
        (9, None) if answer.slot == 0 => Ok("late at once"),
        (9, None) => Ok("late"),
        (0, None) => Err(tell("accepted, and no schedule meets it".to_string())),
        (9, Some(found)) => Err(tell(format!("late, and this schedule meets it: {found:?}"))),
        (other, _) => Err(tell(format!("refusal {other} of a good table"))),
    }
}

/// Holds an accepted table's looks, plan and arrivals to the checker.
fn checked(
    nodes: u16,
    rows: &[Row],
    looks: u32,
    plan: &[u16],
    arrivals: &[u16],
) -> Result<(), String> {
    let delivered = checker::check(nodes, rows, plan)?;
    if delivered.rows != arrivals {
        return Err("the arrivals are not those of the plan".to_string());
    }
    if delivered.sum_over_cells != looks {
        return Err(format!(
            "{looks} looks, and the cells' delivery instants sum up to {}",
            delivered.sum_over_cells
        ));
    }
    checker::follows_rule(nodes, rows, plan)
}

/// Delivery instants of a schedule that sends cells at random, and so slots by which every row can be there.
fn reachable(random: &mut Random, nodes: u16, rows: &[Row]) -> Vec<u16> {
    let n = nodes as usize;
    let idle = random.within(4, 40);
    let mut held: Vec<Vec<usize>> = vec![Vec::new(); n];
    for (i, r) in rows.iter().enumerate() {
        held[r.src as usize].extend((0..r.len).map(|_| i));
    }
    let mut arrived = vec![0; rows.len()];
    let mut left = cells(rows);
    let mut t = 0;
    while left > 0 {
        t += 1;
        let mut moving = Vec::new();
        for (p, here) in held.iter_mut().enumerate() {
            if here.is_empty() || (t < 300 && random.once_in(idle)) {
                continue;
            }
            let i = random.within(0, here.len() - 1);
            moving.push((here.swap_remove(i), (p + 1) % n));
        }
        for (i, q) in moving {
            if q == rows[i].dst as usize {
                arrived[i] = t;
                left -= 1;
            } else {
                held[q].push(i);
            }
        }
    }
    arrived
}

/// How a large table's due slots are set.
#[derive(Clone, Copy, PartialEq)]
pub enum Dues {
    /// Late in the day.
    Loose,
    /// By a schedule that meets them, with nothing or little to spare.
    Tight,
    /// The same, with those of one node's rows, or of a few rows, cut.
    Cut,
}

/// Sets due slots so early that most often some row is late: a node that sends one cell in each slot can't send m cells that
/// must all have left before m slots are over.
fn cut(random: &mut Random, nodes: u16, rows: &mut [Row]) {
    // from 1 to N
    let distance = |r: &Row| (r.dst + nodes - r.src - 1) % nodes + 1;
    let one = rows[random.within(0, rows.len() - 1)];
    if random.once_in(4) {
        for _ in 0..random.within(1, 4) {
            let i = random.within(0, rows.len() - 1);
            rows[i].due = (rows[i].due / 2).max(1);
        }
        return;
    }
    let from_there = rows.iter().filter(|r| r.src == one.src);
    let m: usize = from_there.map(|r| r.len as usize).sum();
    let short = random.within(1, 3);
    for r in rows.iter_mut().filter(|r| r.src == one.src) {
        let behind = random.within(0, m.saturating_sub(short)) as u16;
        r.due = (distance(r) + behind.max(r.len - 1)).min(1024);
    }
}

/// The rows of a large table.
pub fn large_table(random: &mut Random, nodes: u16, count: usize, dues: Dues) -> Vec<Row> {
    let mut rows: Vec<Row> = (0..count)
        .map(|_| row(random, nodes, |random, _| random.within(620, 1024)))
        .collect();
    if random.once_in(4) {
        // most of them from few nodes
        let few = random.within(1, 3);
        for r in rows.iter_mut() {
            r.src = random.within(0, few - 1) as u16 % nodes;
        }
    }
    match random.within(0, 3) {
        0 => {}
        1 => fill_to(random, &mut rows, MOST_CELLS),
        _ => lengthen(random, &mut rows, MOST_CELLS),
    }
    if dues != Dues::Loose {
        let spare = random.within(0, 1);
        let mut instants = reachable(random, nodes, &rows);
        while instants.iter().any(|&at| at + spare as u16 > 1024) {
            // too many cells for one link
            rows.iter_mut().for_each(|r| r.len = r.len.div_ceil(2));
            instants = reachable(random, nodes, &rows);
        }
        for (r, at) in rows.iter_mut().zip(instants) {
            r.due = at + random.within(0, spare) as u16;
        }
    }
    if dues == Dues::Cut && count > 0 {
        cut(random, nodes, &mut rows);
    }
    assert!(rows.iter().all(|r| (1..=1024).contains(&r.due)));
    rows
}

/// A large table, and how its due slots were set.
pub fn any_large(random: &mut Random) -> (u16, Vec<Row>, Dues) {
    let nodes = random.within(2, 32) as u16;
    let nodes = if random.once_in(4) { 32 } else { nodes };
    let count = if random.once_in(4) {
        512
    } else {
        random.within(0, 512)
    };
    let dues = [Dues::Loose, Dues::Tight, Dues::Tight, Dues::Cut, Dues::Cut][random.within(0, 4)];
    (nodes, large_table(random, nodes, count, dues), dues)
}

/// A large table against the model and, where it is accepted, the checker.
pub fn large(random: &mut Random) -> Result<&'static str, String> {
    let (nodes, rows, dues) = any_large(random);
    let tell = |what: String| told(nodes, &rows, what);
    let needed = entries(nodes, &rows);
    let plan_len = needed
        + if random.once_in(3) {
            0
        } else {
            random.within(1, 200)
        };
    let arrivals_len = rows.len()
        + if random.once_in(3) {
            0
        } else {
            random.within(1, 200)
        };
    let planned = agree(random, nodes, &rows, plan_len, arrivals_len).map_err(tell)?;
    if planned.answer.number == 9 {
        if dues == Dues::Tight {
            return Err(tell(
                "late, and the schedule that set its due slots meets it".to_string(),
            ));
        }
        return Ok("late");
    }
    checked(
        nodes,
        &rows,
        planned.answer.looks,
        &planned.plan[..needed],
        &planned.arrivals[..rows.len()],
    )
    .map_err(tell)?;
    let no_spare = rows
        .iter()
        .zip(&planned.arrivals)
        .any(|(r, &at)| r.due == at);
    Ok(if no_spare { "tight" } else { "loose" })
}

/// A table with up to three faults, among them the lengths of the plan area and of a list with an entry for each row, which
/// are else about the needed ones.
pub fn with_faults(random: &mut Random) -> (u16, Vec<Row>, usize, usize) {
    let mut nodes = random.within(2, 32) as u16;
    let count = if random.once_in(3) {
        random.within(1, 6)
    } else {
        random.within(1, 512)
    };
    let mut rows = large_table(random, nodes, count, Dues::Loose);
    let top = random.within(1, 1024) as u16;
    rows.iter_mut().for_each(|r| r.due = r.due.min(top).max(1));
    let needed = entries(nodes, &rows);
    let mut plan_len = needed + random.within(0, 2);
    let mut arrivals_len = count + random.within(0, 2);
    for _ in 0..random.within(0, 3) {
        let i = random.within(0, rows.len() - 1);
        match random.within(1, 10) {
            1 => nodes = [0, 1, 33, 34, 64, 65535][random.within(0, 5)],
            2 => {
                let more = random.within(513, 700);
                rows.resize(more, rows[0]);
            }
            3 => rows[i].src = [nodes, nodes.saturating_add(1), 65535][random.within(0, 2)],
            4 => rows[i].dst = [nodes, nodes.saturating_add(1), 65535][random.within(0, 2)],
            // no fault: it goes once round
            5 => rows[i].dst = rows[i].src,
            6 => rows[i].due = [0, 1025, 1026, 65535][random.within(0, 3)],
            7 => rows[i].len = [0, 65, 66, 65535][random.within(0, 3)],
            8 => {
                let total = MOST_CELLS + [0, 1, 2, 500, 40_000][random.within(0, 4)];
                rows.iter_mut().for_each(|r| r.len = 1);
                fill_to(random, &mut rows, total)
            }
            9 => {
                plan_len =
                    [0, needed / 2, needed.saturating_sub(2), needed - 1][random.within(0, 3)]
            }
            _ => {
                arrivals_len =
                    [0, count / 2, count.saturating_sub(2), count - 1][random.within(0, 3)]
            }
        }
    }
    (nodes, rows, plan_len, arrivals_len)
}

/// A table with up to three faults, or areas of about the needed length, against the model.
pub fn faulty(random: &mut Random) -> Result<&'static str, String> {
    let (nodes, rows, plan_len, arrivals_len) = with_faults(random);
    let planned = agree(random, nodes, &rows, plan_len, arrivals_len)
        .map_err(|what| told(nodes, &rows, what))?;
    Ok(ANSWERS[planned.answer.number as usize])
}

/// The names of the planner's answers by number; 5 is none of them on a ring.
pub const ANSWERS: [&str; 12] = [
    "accepted", "1", "2", "3", "4", "5", "6", "7", "8", "9", "10", "11",
];
