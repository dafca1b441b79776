//! Times the archive's planner beside Rust planners that scan all cells in each slot, on the same random full tables, of 512
//! rows of one cell and of 1,024 cells, and a sentence of the longest catalogue beside the tests' model.

mod scan;

use panel_tests::catalogue;
use panel_tests::panel::{self, Answer, Row, SentenceAnswer};
use panel_tests::random::Random;
use std::hint::black_box;
use std::time::Instant;

const NODES: u16 = 32;
const ROWS: usize = 512;
const TABLES: usize = 100;
const ROUNDS: usize = 21;
const SENTENCES: usize = 2001;
const CELLS: usize = 1024;
const ENTRIES: usize = NODES as usize * 1024;

/// Scans all cells in each slot, with branches.
fn scan(nodes: u16, rows: &[Row], plan: &mut [u16], arrivals: &mut [u16]) -> Answer {
    scan::plan(scan::with_branches, nodes, rows, plan, arrivals)
}

/// Scans all cells in each slot, with none.
fn scan_min(nodes: u16, rows: &[Row], plan: &mut [u16], arrivals: &mut [u16]) -> Answer {
    scan::plan(scan::with_minimum, nodes, rows, plan, arrivals)
}

type Planner = fn(u16, &[Row], &mut [u16], &mut [u16]) -> Answer;

/// Areas that were not cleared: each planner writes all that it owes.
struct Areas {
    plan: Vec<u16>,
    arrivals: Vec<u16>,
}

const PLANNERS: [Planner; 3] = [panel::plan, scan, scan_min];

impl Areas {
    fn dirty() -> Areas {
        Areas {
            plan: vec![0xabcd; ENTRIES],
            arrivals: vec![0xabcd; ROWS],
        }
    }
}

/// What a kind of tables is made of: how many cells, and due slots from `low` to `high` past each row's distance, and at most
/// 1,024.
#[derive(Clone, Copy)]
struct Full {
    cells: usize,
    low: usize,
    high: usize,
}

/// A full table, of rows of one cell, or of rows whose lengths make up so many cells; some go once round.
fn table(random: &mut Random, full: Full) -> Vec<Row> {
    let row = |_| {
        let (src, distance) = (random.node(NODES), random.within(1, NODES as usize));
        let dst = ((src as usize + distance) % NODES as usize) as u16;
        let due = (distance + random.within(full.low, full.high)).min(1024) as u16;
        Row::single(src, dst, due)
    };
    let mut rows: Vec<Row> = (0..ROWS).map(row).collect();
    let mut left = full.cells - ROWS;
    while left > 0 {
        let row = &mut rows[random.within(0, ROWS - 1)];
        if row.len < 64 {
            row.len += 1;
            left -= 1;
        }
    }
    rows
}

/// A hundred tables of one answer, on which the planners agree in every number and entry.
fn tables(random: &mut Random, full: Full, number: u16) -> (Vec<Vec<Row>>, Vec<u16>) {
    let (mut found, mut instants) = (Vec::new(), Vec::new());
    while found.len() < TABLES {
        let rows = table(random, full);
        let outcome = |planner: Planner| {
            let mut areas = Areas::dirty();
            (
                planner(NODES, &rows, &mut areas.plan, &mut areas.arrivals),
                areas.plan,
                areas.arrivals,
            )
        };
        let [ours, scanned, scanned_min] = PLANNERS.map(outcome);
        assert!(
            ours == scanned && ours == scanned_min,
            "the planners differ"
        );
        let ours = ours.0;
        if ours.number == number && (number == 0 || ours.slot > 0) {
            instants.push(if number == 0 { ours.last } else { ours.slot });
            found.push(rows);
        }
    }
    (found, instants)
}

fn median<T: Copy + PartialOrd>(mut all: Vec<T>) -> T {
    all.sort_by(|a, b| a.partial_cmp(b).unwrap());
    all[all.len() / 2]
}

/// Microseconds for one call.
fn time(planner: Planner, rows: &[Row], areas: &mut Areas) -> f64 {
    areas.plan.fill(0xabcd);
    areas.arrivals.fill(0xabcd);
    let start = Instant::now();
    black_box(planner(
        black_box(NODES),
        black_box(rows),
        black_box(&mut areas.plan),
        black_box(&mut areas.arrivals),
    ));
    start.elapsed().as_secs_f64() * 1e6
}

fn compare(name: &str, tables: &[Vec<Row>], instants: Vec<u16>) {
    let mut areas = Areas::dirty();
    let mut times = [Vec::new(), Vec::new(), Vec::new()];
    for round in 0..ROUNDS {
        // each goes through all tables by itself, and another goes first in the next round
        for k in (0..3).map(|k| (k + round) % 3) {
            for rows in tables {
                times[k].push(time(PLANNERS[k], rows, &mut areas));
            }
        }
    }
    let [ours, scan, least] = times.map(median);
    println!(
        "{name}: {TABLES} tables, {ROUNDS} rounds; last or late instant, median: {}",
        median(instants)
    );
    println!("  ours {ours:.1} us; scan with branches {scan:.1} us, ratio {:.2}; scan without {least:.1} us, ratio {:.2}", ours / scan, ours / least);
}

type Speaker = fn(&[u8], u16, u16, u16, &mut [u8]) -> SentenceAnswer;

/// A sentence of the longest catalogue, whose labels differ in their last byte alone: judged for each, beside the tests' model.
fn compare_sentences() {
    let strings: Vec<Vec<u8>> = (0..catalogue::LINES)
        .map(|k| [vec![b'x'; catalogue::LONGEST - 1], vec![b'A' + k as u8]].concat())
        .collect();
    let text = catalogue::text(&strings);
    let mut times = [Vec::new(), Vec::new()];
    for round in 0..SENTENCES {
        for k in (0..2).map(|k| (k + round) % 2) {
            let speaker = [panel::sentence as Speaker, catalogue::sentence][k];
            let mut area = [0xab; 108];
            let start = Instant::now();
            let answer = speaker(black_box(&text), 33, 65535, 65535, black_box(&mut area));
            times[k].push(start.elapsed().as_secs_f64() * 1e6);
            assert!(answer.number == 0 && answer.length == 108);
        }
    }
    let [ours, model] = times.map(median);
    println!(
        "a sentence of a catalogue of {} bytes, {SENTENCES} calls: ours {ours:.1} us; the model {model:.1} us, ratio {:.2}",
        text.len(),
        ours / model
    );
}

fn main() {
    let mut random = Random::new(14);
    println!("{NODES} nodes, {ROWS} rows; areas filled with a pattern, not cleared, before each call; medians over all calls");
    for (cells, low, latest) in [(ROWS, 400, 300), (CELLS, 700, 500)] {
        let loose = Full {
            cells,
            low,
            high: 1024,
        };
        let (found, instants) = tables(&mut random, loose, 0);
        compare(&format!("{cells} cells, not late"), &found, instants);
        let hurried = Full {
            cells,
            low: 0,
            high: latest,
        };
        let (found, instants) = tables(&mut random, hurried, 9);
        compare(&format!("{cells} cells, late"), &found, instants);
    }
    compare_sentences();
}
