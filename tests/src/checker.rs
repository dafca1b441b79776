//! Whether a plan is legal, meets its table and follows the rule. It shares nothing with the model: it traces each row's cells
//! by place.

use crate::panel::Row;

/// Where the cells of a row stand, in their order; nowhere once they are delivered. A cell is delivered as it comes to its
/// destination, so standing there at the start doesn't count.
type Places = Vec<Option<usize>>;

fn at_start(rows: &[Row]) -> Vec<Places> {
    let of_row = |r: &Row| vec![Some(r.src as usize); r.len as usize];
    rows.iter().map(of_row).collect()
}

/// The earliest of a row's cells that stand at node p.
fn earliest(places: &Places, p: usize) -> Option<usize> {
    places.iter().position(|&place| place == Some(p))
}

/// Moves cell c of a row on from node p.
fn go_on(n: usize, row: &Row, places: &mut Places, c: usize, p: usize) {
    let next = (p + 1) % n;
    places[c] = (next != row.dst as usize).then_some(next);
}

/// The delivery instants of the rows, each that of its last cell, and the sum of those of all cells.
pub struct Delivered {
    pub rows: Vec<u16>,
    pub sum_over_cells: u32,
}

/// The deliveries of a legal plan that meets the table, or what is wrong with it.
pub fn check(nodes: u16, rows: &[Row], plan: &[u16]) -> Result<Delivered, String> {
    let n = nodes as usize;
    let mut places = at_start(rows);
    let mut arrived = vec![0u16; rows.len()];
    let mut sum_over_cells = 0;
    if !plan.len().is_multiple_of(n) {
        return Err(format!(
            "{} entries are no whole number of slots",
            plan.len()
        ));
    }
    for (t, slot) in plan.chunks(n).enumerate() {
        // all of a slot's sends are judged by where the cells stand at its start
        let mut moves = Vec::new();
        for (p, &name) in slot.iter().enumerate() {
            if name == 0 {
                continue;
            }
            let i = name as usize - 1;
            let Some(cells) = places.get(i) else {
                return Err(format!("slot {t}, link {p}: there is no row {name}"));
            };
            let Some(c) = earliest(cells, p) else {
                return Err(format!(
                    "slot {t}, link {p}: row {name} has no cell there, but at {cells:?}"
                ));
            };
            moves.push((i, c, p));
        }
        for (i, c, p) in moves {
            go_on(n, &rows[i], &mut places[i], c, p);
            if places[i][c].is_none() {
                // the cells before it are there, since none overtakes another
                if places[i][..c].iter().any(Option::is_some) {
                    return Err(format!(
                        "slot {t}: cell {} of row {} overtakes",
                        c + 1,
                        i + 1
                    ));
                }
                arrived[i] = t as u16 + 1;
                sum_over_cells += t as u32 + 1;
            }
        }
    }
    for (i, row) in rows.iter().enumerate() {
        let left = places[i].iter().flatten().count();
        if left > 0 || arrived[i] > row.due {
            return Err(format!(
                "row {} is due at {}; its last delivery is at {}, and {left} cells are left",
                i + 1,
                row.due,
                arrived[i]
            ));
        }
    }
    Ok(Delivered {
        rows: arrived,
        sum_over_cells,
    })
}

/// Whether a legal plan sends at each node the cell that the paper's equation (1) puts first, and never idles beside one.
pub fn follows_rule(nodes: u16, rows: &[Row], plan: &[u16]) -> Result<(), String> {
    let n = nodes as usize;
    // by equation (1): due - destination, less N where the cell is beyond its destination, or has not left it yet; a cell's
    // due slot is its row's less the cells behind it
    let standing = |i: usize, c: usize, p: usize| {
        let r = &rows[i];
        let due = r.due as i32 - (r.len as i32 - 1 - c as i32);
        due - r.dst as i32 - if p >= r.dst as usize { n as i32 } else { 0 }
    };
    let mut places = at_start(rows);
    for (t, slot) in plan.chunks(n).enumerate() {
        let mut firsts: Vec<Option<(usize, usize)>> = vec![None; n];
        for (i, cells) in places.iter().enumerate() {
            for (c, place) in cells.iter().enumerate() {
                let Some(p) = *place else { continue };
                if firsts[p].is_none_or(|(j, d)| standing(i, c, p) < standing(j, d, p)) {
                    firsts[p] = Some((i, c));
                }
            }
        }
        for (p, &name) in slot.iter().enumerate() {
            let first = firsts[p].map_or(0, |(i, _)| i + 1);
            if name as usize != first {
                return Err(format!(
                    "slot {t}, link {p}: carries {name}, and the rule says {first}"
                ));
            }
        }
        let sent = |p: usize| firsts[p].map(|(i, c)| (i, c, p));
        let moves: Vec<_> = (0..n).filter_map(sent).collect();
        for &(i, c, p) in &moves {
            if earliest(&places[i], p) != Some(c) {
                return Err(format!(
                    "slot {t}, link {p}: cell {} of row {} is not its earliest there",
                    c + 1,
                    i + 1
                ));
            }
        }
        for (i, c, p) in moves {
            go_on(n, &rows[i], &mut places[i], c, p);
        }
    }
    Ok(())
}
