//! Random tables of several kinds, each asked why it is late, and the reason held to the rows, to planning and to the search.

use crate::cases::{any_large, small_table, told, with_faults, Outcome, ANSWERS};
use crate::model::{entries, largest_due};
use crate::panel::{self, Reason, Row};
use crate::random::Random;
use crate::reason::{agree_reason, Explained};
use crate::search;

/// How many cells of a row must cross a link before a slot, from the row's four numbers: all but its last few, which are due
/// later.
fn of_row(nodes: u16, row: &Row, link: u16, before: u16) -> u16 {
    // from 1 to N
    let links_on = |node: u16| (row.dst + nodes - node - 1) % nodes + 1;
    if links_on(link) > links_on(row.src) {
        return 0;
    }
    let spare = i32::from(row.due) - i32::from(before) - i32::from(links_on(link));
    row.len - (spare + 1).clamp(0, i32::from(row.len)) as u16
}

/// The same of all rows, one by one.
fn of_rows(nodes: u16, rows: &[Row], link: u16, before: u16) -> Vec<u16> {
    rows.iter()
        .map(|r| of_row(nodes, r, link, before))
        .collect()
}

/// The number that planning with areas of the needed lengths answers.
fn planned(nodes: u16, rows: &[Row]) -> u16 {
    let (mut plan, mut arrivals) = (vec![0; entries(nodes, rows)], vec![0; rows.len()]);
    panel::plan(nodes, rows, &mut plan, &mut arrivals).number
}

/// Holds a reason to the rows: its cells counted anew, of each row and in all, are more than the slots.
fn hold_counts(nodes: u16, rows: &[Row], found: &Explained) -> Result<(), String> {
    let Reason {
        cells,
        link,
        before,
        ..
    } = found.reason;
    let counts = of_rows(nodes, rows, link, before);
    let sum: u16 = counts.iter().sum();
    if found.members[..rows.len()] != counts || sum != cells || cells <= before {
        return Err(format!("{:?}, and counted anew {counts:?}", found.reason));
    }
    Ok(())
}

/// Holds the marked rows to being late by themselves, for a reason of no more cells.
fn hold_marked(
    random: &mut Random,
    nodes: u16,
    rows: &[Row],
    found: &Explained,
) -> Result<(), String> {
    let marks = rows.iter().zip(&found.members);
    let alone: Vec<Row> = marks.filter(|(_, &m)| m > 0).map(|(r, _)| *r).collect();
    let number = planned(nodes, &alone);
    if number != 9 {
        return Err(format!("the marked rows alone are answered {number}"));
    }
    let cells = agree_reason(random, nodes, &alone, alone.len())?
        .reason
        .cells;
    if cells == 0 || cells > found.reason.cells {
        return Err(format!("{cells} cells of the marked rows alone"));
    }
    Ok(())
}

/// Holds a good table's reason to planning and to the rows: whether there is one, which cells they are, and that their rows
/// are late by themselves.
fn hold(random: &mut Random, nodes: u16, rows: &[Row], found: &Explained) -> Outcome {
    let late = match planned(nodes, rows) {
        0 => false,
        9 => true,
        other => return Err(format!("refusal {other} of a good table")),
    };
    if late != (found.reason.cells > 0) {
        return Err(format!("{:?}, and late: {late}", found.reason));
    }
    if !late {
        return Ok("none");
    }
    hold_counts(nodes, rows, found)?;
    hold_marked(random, nodes, rows, found)?;
    Ok(if found.reason.before == 0 {
        "before slot 0"
    } else if found.members[..rows.len()].contains(&0) {
        "some rows"
    } else {
        "all rows"
    })
}

/// Holds a reason to having the fewest cells: no link has fewer and too many before any slot, and no lower link as few.
fn hold_fewest(nodes: u16, rows: &[Row], reason: Reason) -> Result<(), String> {
    for link in 0..nodes {
        for before in 0..=largest_due(rows) as u16 + 1 {
            let cells: u16 = of_rows(nodes, rows, link, before).iter().sum();
            if cells > before && (cells, link) < (reason.cells, reason.link) {
                return Err(format!(
                    "{reason:?}, and link {link} has {cells} before {before}"
                ));
            }
        }
    }
    Ok(())
}

/// Holds a table of at most seven cells to the search besides: there is a reason exactly where no legal schedule meets it.
fn searched(random: &mut Random, nodes: u16, rows: &[Row]) -> Outcome {
    let members_len = rows.len() + random.within(0, 3);
    let found = agree_reason(random, nodes, rows, members_len)?;
    if search::schedule(nodes, rows).is_some() != (found.reason.cells == 0) {
        return Err(format!("{:?}, and the search says otherwise", found.reason));
    }
    if found.reason.cells > 0 {
        hold_fewest(nodes, rows, found.reason)?;
    }
    hold(random, nodes, rows, &found)
}

/// A small table against the model, the search and planning.
pub fn small(random: &mut Random) -> Outcome {
    let (nodes, rows) = small_table(random);
    searched(random, nodes, &rows).map_err(|what| told(nodes, &rows, what))
}

/// A large table against the model and planning.
pub fn large(random: &mut Random) -> Outcome {
    let (nodes, rows, _) = any_large(random);
    let members_len = rows.len() + random.within(0, 3);
    agree_reason(random, nodes, &rows, members_len)
        .and_then(|found| hold(random, nodes, &rows, &found))
        .map_err(|what| told(nodes, &rows, what))
}

/// A table with up to three faults, or a list of about the needed length, against the model.
pub fn faulty(random: &mut Random) -> Outcome {
    let (nodes, rows, _, members_len) = with_faults(random);
    let found =
        agree_reason(random, nodes, &rows, members_len).map_err(|what| told(nodes, &rows, what))?;
    Ok(ANSWERS[found.reason.number as usize])
}
