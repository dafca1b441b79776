//! Editing at the panel: random sequences of edits, areas that somebody damaged, and each rule by itself.

use panel_tests::cases::{each, Outcome};
use panel_tests::desk::Desk;
use panel_tests::edit::Edit;
use panel_tests::edits::{damaged, few, full, Met};
use panel_tests::panel::{
    self, EditAnswer, Link, Row, RowAnswer, Table, LOADS, PER_ROW, ROWS, TABLE,
};
use panel_tests::random::Random;
use std::collections::BTreeMap;

fn row(src: u16, dst: u16, due: u16) -> Row {
    Row::single(src, dst, due)
}

fn block(src: u16, dst: u16, len: u16, due: u16) -> Row {
    Row { src, dst, len, due }
}

/// An area under test. The models have agreed to every call of it, so what a test says of the answers stands beside them.
struct Tried {
    random: Random,
    desk: Desk,
}

/// Number and row of an answer, whose slot is always 0.
fn short(answer: Result<EditAnswer, String>) -> (u16, u16) {
    let answer = answer.unwrap_or_else(|what| panic!("{what}"));
    assert_eq!(answer.slot, 0);
    (answer.number, answer.row)
}

impl Tried {
    fn area(numbers: Table) -> Tried {
        let mut random = Random::new(21);
        let desk = Desk::new(&mut random, numbers);
        Tried { random, desk }
    }

    fn opened(nodes: u16) -> Tried {
        let mut tried = Tried::area([9; TABLE]);
        assert_eq!(tried.open(nodes), (0, 0));
        tried
    }

    fn with(nodes: u16, rows: &[Row]) -> Tried {
        let mut tried = Tried::opened(nodes);
        for &row in rows {
            assert_eq!(tried.add(row), (0, 0));
        }
        tried
    }

    fn open(&mut self, nodes: u16) -> (u16, u16) {
        short(self.desk.open(&mut self.random, nodes))
    }

    fn edit(&mut self, edit: Edit) -> (u16, u16) {
        short(self.desk.edit(&mut self.random, edit))
    }

    fn add(&mut self, row: Row) -> (u16, u16) {
        self.edit(Edit::Add(row))
    }

    fn change(&mut self, number: u16, row: Row) -> (u16, u16) {
        self.edit(Edit::Change(number, row))
    }

    fn remove(&mut self, number: u16) -> (u16, u16) {
        self.edit(Edit::Remove(number))
    }

    fn plan(&mut self, plan_len: usize, arrivals_len: usize) -> u16 {
        self.desk
            .plan(&mut self.random, plan_len, arrivals_len)
            .unwrap_or_else(|what| panic!("{what}"))
    }

    /// The loads that the area holds for the ring's links.
    fn loads(&self) -> &[u16] {
        let table = self.desk.table();
        &table[LOADS..LOADS + table[0] as usize]
    }

    /// The most looks that planning the area as it is can take.
    fn most_looks(&self) -> u32 {
        panel::most_looks_table(self.desk.table())
    }

    fn busiest(&self) -> (u16, u16) {
        let Link { link, load } = panel::busiest(self.desk.table());
        (link, load)
    }

    fn shown(&self, number: u16) -> Row {
        let a = panel::row_of(self.desk.table(), number);
        assert_eq!((a.number, a.row, a.slot), (0, 0, 0));
        block(a.src, a.dst, a.len, a.due)
    }

    fn not_shown(&self, number: u16) -> (u16, u16) {
        let a = panel::row_of(self.desk.table(), number);
        let refusal = RowAnswer {
            number: a.number,
            row: a.row,
            ..RowAnswer::default()
        };
        assert_eq!(a, refusal);
        (a.number, a.row)
    }
}

/// Tries random tables of a kind, and holds them to having met each of these numbers that often.
fn at_random(
    kind: fn(&mut Random, &mut Met) -> Outcome,
    (first, count): (u64, u64),
    edits: &[u16],
    plans: &[u16],
    least: usize,
) -> Met {
    let mut met = Met::default();
    each("edit", |random| kind(random, &mut met), first, count);
    println!("edit: {met:?}");
    let often =
        |tally: &BTreeMap<u16, usize>, number| tally.get(number).is_some_and(|&k| k >= least);
    assert!(!met.edits.contains_key(&5) && !met.plans.contains_key(&5));
    if std::env::var("SEED").is_err() {
        assert!(edits.iter().all(|k| often(&met.edits, k)), "{met:?}");
        assert!(plans.iter().all(|k| often(&met.plans, k)), "{met:?}");
    }
    met
}

#[test]
fn tables_filled_and_emptied() {
    let every = [0, 2, 3, 4, 6, 10, 12];
    at_random(full, (8_000_000, 240), &every, &[0, 7, 8, 9, 11], 50);
}

#[test]
fn tables_of_few_rows() {
    let every = [0, 3, 4, 6, 10, 12];
    let met = at_random(few, (8_100_000, 12_000), &every, &[0, 7, 8, 9], 500);
    assert!(met.rings.len() == 31 || std::env::var("SEED").is_ok());
}

#[test]
fn areas_that_somebody_damaged() {
    let every = [0, 1, 2, 3, 4, 6, 10, 12];
    at_random(
        damaged,
        (8_200_000, 40_000),
        &every,
        &[0, 1, 2, 3, 4, 6, 10, 11],
        50,
    );
}

#[test]
fn every_way_of_every_ring() {
    for nodes in 2..=32 {
        let mut tried = Tried::opened(nodes);
        for (src, dst) in ways(nodes) {
            let links = (dst + nodes - src) % nodes;
            let crossed = |p: u16| u16::from(src == dst || (p + nodes - src) % nodes < links);
            assert_eq!(tried.add(row(src, dst, 1)), (0, 0));
            assert_eq!(tried.loads(), (0..nodes).map(crossed).collect::<Vec<_>>());
            assert_eq!(tried.remove(1), (0, 0));
            assert_eq!(tried.loads(), vec![0; nodes as usize]);
        }
    }
}

/// Every way of a ring, full turns too.
fn ways(nodes: u16) -> impl Iterator<Item = (u16, u16)> {
    (0..nodes).flat_map(move |src| (0..nodes).map(move |dst| (src, dst)))
}

#[test]
fn every_way_changed_to_every_other() {
    for nodes in 2..=6 {
        for (src, dst) in ways(nodes) {
            for (new_src, new_dst) in ways(nodes) {
                let kept = row(0, 1, 7);
                let mut tried = Tried::with(nodes, &[row(src, dst, 1), kept]);
                assert_eq!(tried.change(1, row(new_src, new_dst, 2)), (0, 0));
                let afresh = Tried::with(nodes, &[row(new_src, new_dst, 2), kept]);
                assert_eq!(tried.desk.table(), afresh.desk.table());
            }
        }
    }
}

#[test]
fn opening() {
    for nodes in [0, 1, 33, 34, 65535] {
        let mut dirt = Tried::area([7; TABLE]);
        assert_eq!(dirt.open(nodes), (1, 0));
        assert_eq!(dirt.desk.table(), &[7; TABLE]);
        let mut open = Tried::with(4, &[row(3, 1, 9)]);
        let before = *open.desk.table();
        assert_eq!(open.open(nodes), (1, 0));
        assert_eq!(open.desk.table(), &before);
    }
    for nodes in 2..=32 {
        let mut empty = [0; TABLE];
        empty[0] = nodes;
        for dirt in [0, 7, 65535] {
            let mut tried = Tried::area([dirt; TABLE]);
            assert_eq!(tried.open(nodes), (0, 0));
            assert_eq!(tried.desk.table(), &empty);
            assert_eq!(tried.busiest(), (0, 0));
        }
    }
}

#[test]
fn a_full_table() {
    let mut tried = Tried::with(3, &[row(2, 1, 9); 511]);
    assert_eq!(tried.add(row(3, 1, 9)), (3, 512));
    assert_eq!(tried.add(row(1, 2, 9)), (0, 0));
    assert_eq!(tried.loads(), [511, 1, 511]);
    // 2 before all that is wrong with the row
    for row in [
        row(0, 1, 9),
        row(3, 3, 0),
        row(0, 3, 9),
        row(1, 1, 9),
        block(1, 1, 0, 9),
        row(0, 1, 0),
    ] {
        assert_eq!(tried.add(row), (2, 0));
    }
    assert_eq!(tried.change(512, row(0, 1, 1024)), (0, 0));
    assert_eq!(tried.change(513, row(0, 1, 1024)), (12, 513));
    assert_eq!(tried.remove(1), (0, 0));
    assert_eq!(tried.shown(511), row(0, 1, 1024));
    assert_eq!(tried.add(row(1, 0, 1)), (0, 0));
    assert_eq!(tried.shown(512), row(1, 0, 1));
    for _ in 0..512 {
        assert_eq!(tried.remove(1), (0, 0));
    }
    assert_eq!(tried.remove(1), (12, 1));
    assert_eq!(tried.desk.table(), Tried::opened(3).desk.table());
}

#[test]
fn numbers_that_are_not_there() {
    for count in [0, 1, 2, 5, 255, 256, 511, 512] {
        let mut tried = Tried::with(5, &vec![row(4, 2, 9); count as usize]);
        let before = *tried.desk.table();
        for number in [0, count + 1, count + 2, 513, 32768, 65535] {
            assert_eq!(tried.remove(number), (12, number));
            assert_eq!(tried.not_shown(number), (12, number));
            // 12 before all that is wrong with the row
            for row in [
                row(0, 1, 9),
                row(5, 5, 0),
                row(0, 5, 9),
                row(1, 1, 9),
                block(1, 1, 0, 9),
                row(0, 1, 0),
            ] {
                assert_eq!(tried.change(number, row), (12, number));
            }
        }
        assert_eq!(tried.desk.table(), &before);
        if count > 0 {
            for number in [1, count] {
                assert_eq!(tried.change(number, row(0, 1, number)), (0, 0));
                assert_eq!(tried.shown(number), row(0, 1, number));
            }
            assert_eq!(tried.remove(count), (0, 0));
            assert_eq!(tried.remove(count), (12, count));
        }
    }
}

#[test]
fn rows_that_are_wrong() {
    let mut tried = Tried::with(4, &[row(0, 1, 2), row(0, 3, 3)]);
    let before = *tried.desk.table();
    for (number, row) in [
        (3, row(4, 1, 1)),
        (3, block(4, 1, 0, 1)),
        (4, block(0, 4, 65, 1)),
        (3, row(65535, 65535, 0)),
        (4, row(0, 4, 1)),
        (4, row(3, 65535, 0)),
        (3, row(4, 4, 1)),
        (6, row(3, 3, 0)),
        (6, row(0, 0, 1025)),
        (10, block(0, 0, 0, 1)),
        (10, block(2, 2, 65, 1025)),
        (10, block(3, 0, 0, 1)),
        (10, block(3, 0, 65, 1)),
        (10, block(3, 0, 66, 0)),
        (10, block(3, 0, 65535, 1025)),
        (6, row(3, 0, 0)),
        (6, row(0, 3, 1025)),
        (6, row(0, 3, 65535)),
    ] {
        assert_eq!(tried.add(row), (number, 3));
        assert_eq!(tried.change(1, row), (number, 1));
        assert_eq!(tried.change(2, row), (number, 2));
    }
    assert_eq!(tried.desk.table(), &before);
}

#[test]
fn loads_count_cells() {
    let mut tried = Tried::with(4, &[block(0, 2, 5, 9), block(3, 1, 64, 9)]);
    assert_eq!(tried.loads(), [69, 5, 0, 64]);
    assert_eq!(tried.shown(2), block(3, 1, 64, 9));
    assert_eq!(tried.busiest(), (0, 69));
    assert_eq!(tried.change(1, block(0, 2, 1, 9)), (0, 0));
    assert_eq!(tried.loads(), [65, 1, 0, 64]);
    assert_eq!(tried.change(2, block(2, 0, 3, 9)), (0, 0));
    assert_eq!(tried.loads(), [1, 1, 3, 3]);
    assert_eq!(tried.busiest(), (2, 3));
    assert_eq!(tried.remove(2), (0, 0));
    assert_eq!(tried.loads(), [1, 1, 0, 0]);
    for len in 1..=64 {
        assert_eq!(tried.change(1, block(1, 0, len, 9)), (0, 0));
        assert_eq!(tried.loads(), [0, len, len, len]);
        assert_eq!(tried.add(block(1, 0, len, 9)), (0, 0));
        assert_eq!(tried.loads(), [0, 2 * len, 2 * len, 2 * len]);
        assert_eq!(tried.remove(2), (0, 0));
    }
}

#[test]
fn full_turns() {
    // each cell crosses every link once, whichever node it starts from
    let mut tried = Tried::with(4, &[row(2, 2, 9), block(0, 0, 5, 9), row(3, 1, 9)]);
    assert_eq!(tried.loads(), [7, 6, 6, 7]);
    assert_eq!(tried.busiest(), (0, 7));
    assert_eq!(tried.shown(1), row(2, 2, 9));
    assert_eq!(tried.change(3, block(3, 3, 64, 1024)), (0, 0));
    assert_eq!(tried.loads(), [70; 4]);
    assert_eq!(tried.busiest(), (0, 70));
    // from another node the same loads, and a way that is no turn others
    assert_eq!(tried.change(2, block(1, 1, 5, 9)), (0, 0));
    assert_eq!(tried.loads(), [70; 4]);
    assert_eq!(tried.change(3, block(1, 0, 64, 1024)), (0, 0));
    assert_eq!(tried.loads(), [6, 70, 70, 70]);
    assert_eq!(tried.remove(2), (0, 0));
    assert_eq!(tried.loads(), [1, 65, 65, 65]);
    assert_eq!(tried.remove(1), (0, 0));
    assert_eq!(tried.loads(), [0, 64, 64, 64]);
    // what is planned is due after N slots at the earliest
    assert_eq!(tried.change(1, row(3, 3, 4)), (0, 0));
    assert_eq!(tried.plan(16, 1), 0);
    assert_eq!(tried.change(1, row(3, 3, 3)), (0, 0));
    assert_eq!(tried.plan(12, 1), 9);
    // as many as there may be, of as many cells
    let mut tried = Tried::with(2, &[block(1, 1, 64, 1024); 512]);
    assert_eq!(tried.loads(), [32_768; 2]);
    assert_eq!(tried.plan(2048, 512), 11);
    for _ in 0..512 {
        assert_eq!(tried.remove(1), (0, 0));
    }
    assert_eq!(tried.desk.table(), Tried::opened(2).desk.table());
}

#[test]
fn editing_never_counts_the_cells_of_all_rows() {
    // 17 rows of 64 are too many for a plan, and 512 of them too; none is for an edit
    let mut tried = Tried::with(2, &[block(0, 1, 64, 1024); 16]);
    assert_eq!(tried.plan(2048, 16), 0);
    assert_eq!(tried.add(row(1, 0, 9)), (0, 0));
    assert_eq!(tried.plan(2048, 17), 11);
    assert_eq!(tried.plan(0, 0), 11);
    assert_eq!(tried.change(17, block(0, 1, 64, 9)), (0, 0));
    for _ in 17..512 {
        assert_eq!(tried.add(block(0, 1, 64, 1024)), (0, 0));
    }
    assert_eq!(tried.loads(), [32_768, 0]);
    assert_eq!(tried.plan(2048, 512), 11);
    for _ in 16..512 {
        assert_eq!(tried.remove(1), (0, 0));
    }
    assert_eq!(tried.loads(), [1_024, 0]);
    assert_eq!(tried.plan(2048, 16), 0);
}

#[test]
fn the_most_looks_of_an_edited_table() {
    let mut tried = Tried::opened(4);
    assert_eq!(tried.most_looks(), 0);
    assert_eq!(tried.add(block(0, 2, 5, 9)), (0, 0));
    assert_eq!(tried.most_looks(), 5 * 10);
    assert_eq!(tried.add(row(3, 3, 99)), (0, 0));
    assert_eq!(tried.most_looks(), 6 * 100);
    assert_eq!(tried.change(1, block(0, 2, 64, 1024)), (0, 0));
    assert_eq!(tried.most_looks(), 65 * 1025);
    assert_eq!(tried.remove(1), (0, 0));
    assert_eq!(tried.most_looks(), 100);
    // as many cells as there may be, and one more
    let mut tried = Tried::with(2, &[block(0, 1, 64, 1024); 16]);
    assert_eq!(tried.most_looks(), 1_049_600);
    assert_eq!(tried.add(row(1, 0, 9)), (0, 0));
    assert_eq!(tried.most_looks(), 0);
}

#[test]
fn the_most_looks_of_a_damaged_area() {
    assert_eq!(damaged_by(row(0, 3, 9), [5; 6]).most_looks(), 10);
    assert_eq!(damaged_by(row(0, 4, 9), [5; 6]).most_looks(), 0);
    // the rows are as many as it says, and no place of it is the 513th
    let mut numbers = *Tried::with(4, &[row(0, 1, 9); 512]).desk.table();
    for (rows, most) in [(1, 10), (511, 5_110), (512, 5_120), (513, 0), (65535, 0)] {
        numbers[1] = rows;
        assert_eq!(Tried::area(numbers).most_looks(), most);
    }
}

#[test]
fn removing_closes_the_gap() {
    let rows = [row(0, 1, 11), row(1, 3, 12), row(3, 2, 13), row(2, 0, 14)];
    for gap in 1..=4 {
        let mut tried = Tried::with(4, &rows);
        assert_eq!(tried.loads(), [2, 2, 2, 2]);
        assert_eq!(tried.remove(gap), (0, 0));
        let mut left = rows.to_vec();
        left.remove(gap as usize - 1);
        let numbers: Vec<Row> = (1..=3).map(|number| tried.shown(number)).collect();
        assert_eq!(numbers, left);
        assert_eq!(tried.not_shown(4), (12, 4));
        assert_eq!(tried.desk.table(), Tried::with(4, &left).desk.table());
        assert_eq!(
            tried.desk.table()[ROWS + 3 * PER_ROW..],
            [0; TABLE - ROWS - 3 * PER_ROW]
        );
    }
}

#[test]
fn the_lowest_of_the_busiest() {
    let mut tried = Tried::opened(4);
    assert_eq!(tried.busiest(), (0, 0));
    assert_eq!(tried.add(row(2, 1, 9)), (0, 0));
    assert_eq!(
        (tried.loads(), tried.busiest()),
        (&[1, 0, 1, 1][..], (0, 1))
    );
    assert_eq!(tried.add(row(2, 0, 9)), (0, 0));
    assert_eq!(
        (tried.loads(), tried.busiest()),
        (&[1, 0, 2, 2][..], (2, 2))
    );
    assert_eq!(tried.change(1, row(3, 2, 9)), (0, 0));
    assert_eq!(
        (tried.loads(), tried.busiest()),
        (&[1, 1, 1, 2][..], (3, 2))
    );
    assert_eq!(tried.remove(2), (0, 0));
    assert_eq!(
        (tried.loads(), tried.busiest()),
        (&[1, 1, 0, 1][..], (0, 1))
    );
    assert_eq!(tried.remove(1), (0, 0));
    assert_eq!(tried.busiest(), (0, 0));
}

/// Every function is refused with this number, and the area stays as it was.
fn refused_throughout(numbers: Table, number: u16) {
    let mut tried = Tried::area(numbers);
    for row in [row(0, 1, 9), row(65535, 65535, 0)] {
        assert_eq!(tried.add(row), (number, 0));
        for asked in [0, 1, 2, 512, 513, 65535] {
            assert_eq!(tried.change(asked, row), (number, 0));
            assert_eq!(tried.remove(asked), (number, 0));
            assert_eq!(tried.not_shown(asked), (number, 0));
        }
    }
    assert_eq!(tried.plan(100, 100), number);
    assert_eq!(tried.plan(0, 0), number);
    assert_eq!(tried.most_looks(), 0);
    assert_eq!(tried.desk.table(), &numbers);
}

#[test]
fn areas_that_hold_no_table() {
    refused_throughout([0; TABLE], 1);
    let good = *Tried::with(4, &[row(0, 1, 2), row(3, 1, 5)]).desk.table();
    for nodes in [0, 1, 33, 34, 65535] {
        for rows in [0, 2, 512, 513, 65535] {
            let mut numbers = good;
            (numbers[0], numbers[1]) = (nodes, rows);
            refused_throughout(numbers, 1);
        }
    }
    for rows in [513, 514, 65535] {
        let mut numbers = good;
        numbers[1] = rows;
        refused_throughout(numbers, 2);
    }
}

/// An area of a ring of 4 with this one row and these loads, the last of them those of links that the ring hasn't.
fn damaged_by(row: Row, loads: [u16; 6]) -> Tried {
    let mut numbers = [0; TABLE];
    (numbers[0], numbers[1]) = (4, 1);
    numbers[LOADS..LOADS + 6].copy_from_slice(&loads);
    numbers[ROWS..ROWS + PER_ROW].copy_from_slice(&row.numbers());
    Tried::area(numbers)
}

#[test]
fn counts_that_cannot_go_on() {
    let most = 65535;
    let way = row(3, 1, 9);
    let loads = [most, most, 5, most - 1, 8, most];
    let mut tried = damaged_by(way, loads);
    assert_eq!(tried.add(way), (0, 0));
    assert_eq!(tried.loads(), [most, most, 5, most]);
    assert_eq!(tried.remove(1), (0, 0));
    assert_eq!(tried.loads(), [most - 1, most, 5, most - 1]);
    // the old row is counted out first
    let mut tried = damaged_by(way, [most, 0, 0, 0, 8, most]);
    assert_eq!(tried.change(1, row(3, 2, 9)), (0, 0));
    assert_eq!(tried.loads(), [most, 1, 0, 1]);
    assert_eq!(tried.remove(1), (0, 0));
    assert_eq!(tried.remove(1), (12, 1));
    assert_eq!(tried.loads(), [most - 1, 0, 0, 0]);
    // several cells go as far as they can
    let mut tried_blocks = damaged_by(block(3, 1, 9, 9), [4, 9, 0, 10, 8, most]);
    assert_eq!(tried_blocks.remove(1), (0, 0));
    assert_eq!(tried_blocks.loads(), [0, 9, 0, 1]);
    let mut tried_blocks = damaged_by(block(3, 1, 65535, 9), [most - 9, most - 10, 5, most, 8, 8]);
    assert_eq!(tried_blocks.add(block(3, 2, 10, 9)), (0, 0));
    assert_eq!(tried_blocks.loads(), [most, most, 5, most]);
    assert_eq!(tried_blocks.remove(1), (0, 0));
    assert_eq!(tried_blocks.loads(), [0, most, 5, 0]);
    // a link that the ring hasn't is never counted and never shown
    assert_eq!(tried.desk.table()[LOADS + 4..LOADS + 6], [8, most]);
    assert_eq!(panel::link_load(tried.desk.table(), 4), 0);
    assert_eq!(tried.busiest(), (0, most - 1));
}

#[test]
fn rows_off_the_ring() {
    for (off, loads) in [
        (row(9, 2, 9), [4, 4, 5, 5]),
        (row(4, 2, 9), [4, 4, 5, 5]),
        (row(1, 9, 9), [5, 4, 4, 4]),
        (row(1, 4, 9), [5, 4, 4, 4]),
        (row(4, 9, 9), [5, 5, 5, 5]),
        (row(9, 4, 9), [4, 4, 4, 4]),
        (row(9, 9, 9), [4, 4, 4, 4]),
        (row(4, 4, 9), [4, 4, 4, 4]),
        (row(65535, 0, 0), [5, 5, 5, 5]),
        (row(65535, 65535, 65535), [4, 4, 4, 4]),
    ] {
        let mut tried = damaged_by(off, [5; 6]);
        assert_eq!(tried.shown(1), off);
        assert_eq!(tried.remove(1), (0, 0));
        assert_eq!(tried.loads(), loads);
        let mut tried = damaged_by(off, [5; 6]);
        assert_eq!(tried.change(1, row(0, 1, 9)), (0, 0));
        assert_eq!(tried.loads(), [loads[0] + 1, loads[1], loads[2], loads[3]]);
    }
}

#[test]
fn the_plan_of_an_edited_table() {
    // document 01's case B, come to by detours
    let mut tried = Tried::with(4, &[row(3, 2, 4), row(0, 1, 2), row(1, 0, 900)]);
    assert_eq!(tried.change(3, row(0, 3, 3)), (0, 0));
    assert_eq!(tried.remove(1), (0, 0));
    assert_eq!(tried.plan(12, 2), 0);
    assert_eq!(tried.plan(40, 9), 0);
    assert_eq!(tried.plan(11, 2), 7);
    assert_eq!(tried.plan(12, 1), 8);
    assert_eq!(tried.add(row(0, 1, 2)), (0, 0));
    assert_eq!(tried.plan(12, 3), 9);
    let (mut plan, mut arrivals) = ([7; 12], [7; 3]);
    assert_eq!(tried.remove(3), (0, 0));
    let answer = panel::plan_table(tried.desk.table(), &mut plan, &mut arrivals);
    assert_eq!((answer.number, answer.last), (0, 3));
    assert_eq!(plan, [2, 0, 0, 0, 1, 2, 0, 0, 0, 0, 2, 0]);
    assert_eq!(arrivals, [2, 3, 7]);
    // no rows need no room
    assert_eq!((tried.remove(1), tried.remove(1)), ((0, 0), (0, 0)));
    assert_eq!(tried.plan(0, 0), 0);
}
