//! Small tables: refused as late exactly when an exhaustive search finds no schedule, and else with a plan that is checked.

use panel_tests::cases::{each, judged, modelled, small};
use panel_tests::panel::Row;
use panel_tests::random::Random;

#[test]
fn random_small_tables() {
    let tally = each("small", small, 0, 60_000);
    if std::env::var("SEED").is_err() {
        assert!(
            tally["accepted"] >= 15_000 && tally["late"] >= 10_000,
            "an unfair share: {tally:?}"
        );
    }
}

/// The model, the search and the checker against each other, with no call of the panel's functions.
#[test]
fn the_models_agree() {
    let tally = each("small", modelled, 10_000_000, 100_000);
    if std::env::var("SEED").is_err() {
        assert!(
            tally["accepted"] >= 25_000 && tally["late"] >= 15_000,
            "an unfair share: {tally:?}"
        );
    }
}

/// Every row of a ring, with lengths and due slots up to a largest one.
fn kinds(nodes: u16, longest: u16, latest: u16) -> Vec<Row> {
    let mut kinds = Vec::new();
    for src in 0..nodes {
        for dst in 0..nodes {
            for len in 1..=longest {
                kinds.extend((1..=latest).map(|due| Row { src, dst, len, due }));
            }
        }
    }
    kinds
}

/// Every table of so many rows of these kinds: how many there are, and how many of them are late.
fn each_of(nodes: u16, count: u32, kinds: &[Row]) -> (usize, usize) {
    let mut random = Random::new(0);
    let (mut tables, mut late) = (0, 0);
    for mut code in 0..kinds.len().pow(count) {
        let rows: Vec<Row> = (0..count)
            .map(|_| {
                let kind = code % kinds.len();
                code /= kinds.len();
                kinds[kind]
            })
            .collect();
        tables += 1;
        late += usize::from(judged(&mut random, nodes, &rows).unwrap() != "accepted");
    }
    (tables, late)
}

/// Every table of some rows for a ring, with lengths and due slots up to a largest one, full turns among them.
fn all(nodes: u16, count: u32, longest: u16, latest: u16) {
    let (tables, late) = each_of(nodes, count, &kinds(nodes, longest, latest));
    println!(
        "all tables of {count} rows for {nodes} nodes, lengths up to {longest}, due up to {latest}: {tables}, {late} late"
    );
}

/// The same of full turns alone, which need later due slots.
fn turns(nodes: u16, count: u32, longest: u16, latest: u16) {
    let mut round = kinds(nodes, longest, latest);
    round.retain(|r| r.src == r.dst);
    let (tables, late) = each_of(nodes, count, &round);
    println!(
        "all tables of {count} full turns for {nodes} nodes, lengths up to {longest}, due up to {latest}: {tables}, {late} late"
    );
    assert!(late < tables, "none is in time");
}

#[test]
fn every_table_of_four_rows_for_two_nodes() {
    all(2, 4, 1, 5);
}

#[test]
fn every_table_of_three_rows_for_three_nodes() {
    all(3, 3, 1, 4);
}

#[test]
fn every_table_of_two_rows_for_five_nodes() {
    all(5, 2, 1, 6);
}

#[test]
fn every_table_of_blocks() {
    all(2, 3, 2, 6);
    all(3, 2, 3, 6);
    all(4, 2, 2, 6);
    all(5, 1, 7, 12);
}

#[test]
fn every_table_of_full_turns() {
    turns(2, 3, 2, 8);
    turns(3, 3, 1, 8);
    turns(3, 2, 3, 9);
    turns(4, 2, 2, 9);
    turns(5, 3, 1, 8);
    turns(6, 2, 1, 10);
    turns(7, 1, 4, 12);
}
