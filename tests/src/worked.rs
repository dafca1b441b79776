//! Tables as one writes them down, planned by the panel's function and the model, and held to a plan that was worked by hand.

use crate::compare::{agree, Planned};
use crate::panel::{Answer, Row};
use crate::random::Random;

/// Rows as source>destination/due, or source>destination*length/due, parted by commas.
pub fn rows(text: &str) -> Vec<Row> {
    let number = |s: &str| s.trim().parse().unwrap();
    let one = |s: &str| {
        let (src, rest) = s.split_once('>').unwrap();
        let (dst, due) = rest.split_once('/').unwrap();
        let (dst, len) = dst.split_once('*').unwrap_or((dst, "1"));
        Row {
            src: number(src),
            dst: number(dst),
            len: number(len),
            due: number(due),
        }
    };
    text.split(',')
        .filter(|s| !s.trim().is_empty())
        .map(one)
        .collect()
}

/// The outcome with areas that are ample and cut to what is used.
pub fn outcome(nodes: u16, table: &str) -> Planned {
    let rows = rows(table);
    let needed = nodes as usize * rows.iter().map(|r| r.due as usize).max().unwrap_or(0);
    let mut planned = agree(
        &mut Random::new(9),
        nodes,
        &rows,
        needed + 40,
        rows.len() + 40,
    )
    .unwrap();
    planned.plan.truncate(needed);
    planned.arrivals.truncate(rows.len());
    planned
}

pub fn accepted(nodes: u16, table: &str, plan: &[u16], arrivals: &[u16]) -> Answer {
    let planned = outcome(nodes, table);
    assert_eq!(
        (
            planned.answer.number,
            planned.answer.row,
            planned.answer.slot
        ),
        (0, 0, 0)
    );
    assert_eq!((&planned.plan[..], &planned.arrivals[..]), (plan, arrivals));
    planned.answer
}

/// Refused before the rule is applied: no slot is named, and no look was taken.
pub fn refused(nodes: u16, table: &str, number: u16, row: u16) {
    assert_eq!(
        outcome(nodes, table).answer,
        Answer {
            number,
            row,
            ..Answer::default()
        }
    );
}

/// Refused with 9, after so many looks.
pub fn late(nodes: u16, table: &str, row: u16, slot: u16, looks: u32) {
    assert_eq!(
        outcome(nodes, table).answer,
        Answer {
            number: 9,
            row,
            slot,
            looks,
            ..Answer::default()
        }
    );
}
