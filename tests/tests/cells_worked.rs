//! Tables of messages of several cells, worked by hand: cell j of l is due l - j slots before its row.

use panel_tests::panel::Answer;
use panel_tests::worked::{accepted, late, outcome, refused};

/// The entries of a plan for slots without a send.
fn idle(entries: usize) -> impl Iterator<Item = u16> {
    std::iter::repeat_n(0, entries)
}

#[test]
fn a_block_alone() {
    // cells are due at 2, 3 and 4: each leaves as soon as the one before it has, and no slot is to spare
    let plan = [1, 0, 0, 0, 1, 1, 0, 0, 1, 1, 0, 0, 0, 1, 0, 0];
    let expected = Answer {
        number: 0,
        row: 0,
        slot: 0,
        last: 4,
        sends: 6,
        sum: 4,
        looks: 2 + 3 + 4,
        mean: 4.0,
        share: 6.0 / 16.0,
    };
    assert_eq!(accepted(4, "0>2*3/4", &plan, &[4]), expected);
    let loose: Vec<u16> = plan.into_iter().chain(idle(20)).collect();
    assert_eq!(accepted(4, "0>2*3/9", &loose, &[4]), expected);
    // the first cell would be due at 1, two links away
    late(4, "0>2*3/3", 1, 0, 3);
}

#[test]
fn two_blocks_that_share_a_link() {
    // slacks at node 0: row 1 has 2 and 3, row 2 has 1 and 2. Slot 1: 1 against 1, and the lower row goes; slot 2: row 1's
    // second cell has 1 and row 2's 0; slot 3: what is left, with nothing to spare
    let plan = [2, 0, 0, 0, 1, 2, 0, 0, 2, 0, 0, 0, 1, 2, 0, 0];
    let a = accepted(4, "0>1*2/4, 0>2*2/4", &plan, &[4, 4]);
    assert_eq!((a.last, a.sends, a.sum), (4, 6, 8));
    assert_eq!(a.looks, (2 + 4) + (2 + 4));
    assert_eq!((a.mean, a.share), (4.0, 6.0 / 16.0));
    // a third row of one cell is one too many
    assert_eq!(outcome(4, "0>1*2/4, 0>2*2/4, 0>1/4").answer.number, 9);
}

#[test]
fn a_block_past_node_0() {
    let plan = [0, 0, 1, 0, 0, 0, 1, 1, 1, 0, 0, 1, 1, 0, 0, 0];
    assert_eq!(accepted(4, "2>1*2/4", &plan, &[4]).looks, 3 + 4);
    late(4, "2>1*2/3", 1, 0, 2);
    // at node 3 its cells meet row 2's second cell: 1 against 2, then 1 against 1, where the lower row goes
    #[rustfmt::skip]
    let plan = [
        0, 0, 1, 2,
        0, 0, 1, 1,
        1, 0, 0, 1,
        1, 0, 0, 2,
        0, 0, 0, 0,
    ];
    let a = accepted(4, "2>1*2/5, 3>0*2/4", &plan, &[4, 4]);
    assert_eq!(a.looks, (3 + 4) + (1 + 4));
}

#[test]
fn cells_due_at_0_and_before() {
    late(2, "0>1*64/1", 1, 0, 64);
    late(2, "0>1*2/1", 1, 0, 2);
    late(2, "0>1*64/63", 1, 0, 64);
    // the lowest row that has such a cell, not the one with the least slack
    late(2, "0>1*3/9, 0>1*5/2, 0>1*64/1", 2, 0, 3 + 5 + 64);
    // with 64 slots they are just in time
    let plan: Vec<u16> = [1, 0].into_iter().cycle().take(128).collect();
    let a = accepted(2, "0>1*64/64", &plan, &[64]);
    assert_eq!((a.last, a.sends, a.sum), (64, 64, 64));
    assert_eq!(a.looks, 64 * 65 / 2);
}

#[test]
fn the_row_of_a_late_cell() {
    // slot 2: both rows have slack 0, and row 1 goes; then row 2's third cell is late, and row 1's second is not
    late(2, "0>1*2/4, 0>1*3/3", 2, 3, 5 + 4 + 3 + 2);
    late(2, "0>1*2/2, 0>1*2/2", 2, 1, 4 + 3);
    late(2, "0>1*2/3, 0>1*2/2", 2, 2, 4 + 3 + 2);
}

/// 16 rows of 64 cells.
fn full(due: u16) -> String {
    vec![format!("0>1*64/{due}"); 16].join(", ")
}

#[test]
fn as_many_cells_as_there_may_be() {
    // all first cells, then all second ones, and so on
    let plan: Vec<u16> = (0..1024).flat_map(|t| [t % 16 + 1, 0]).collect();
    let arrivals: Vec<u16> = (1..=16).map(|row| 1008 + row).collect();
    let a = accepted(2, &full(1024), &plan, &arrivals);
    assert_eq!((a.last, a.sends, a.sum), (1024, 1024, 16 * 1008 + 136));
    assert_eq!((a.mean, a.share), (16_264.0 / 16.0, 0.5));
    // one cell less is looked at with each instant
    let looks = 1024 * 1025 / 2;
    assert_eq!(a.looks, looks);
    // a slot less, where one cell is left at the end, and a cell more
    late(2, &full(1023), 16, 1023, looks);
    refused(2, &format!("{}, 1>0/1024", full(1024)), 11, 0);
    refused(2, &format!("{}, 1>0/1025", full(1024)), 6, 17);
}

#[test]
fn a_block_whose_cells_are_parted() {
    // link 0 carries two cells of the block, the row that has a slot less than its third one, and the third
    #[rustfmt::skip]
    let start = [
        1, 0, 0, 0,
        1, 0, 0, 0,
        2, 0, 0, 0,
        1, 2, 0, 0,
        0, 0, 2, 0,
    ];
    let plan: Vec<u16> = start.into_iter().chain(idle(20)).collect();
    let a = accepted(4, "0>1*3/9, 0>3/10", &plan, &[4, 5]);
    assert_eq!((a.last, a.sends, a.sum), (5, 6, 9));
    assert_eq!(a.looks, (1 + 2 + 4) + 5);
    // where the rows stand in the other order, the tie of slot 1 goes to the other one
    #[rustfmt::skip]
    let start = [
        2, 0, 0, 0,
        1, 0, 0, 0,
        2, 1, 0, 0,
        2, 0, 1, 0,
    ];
    let plan: Vec<u16> = start.into_iter().chain(idle(24)).collect();
    let a = accepted(4, "0>3/10, 0>1*3/9", &plan, &[4, 4]);
    assert_eq!(a.looks, 4 + (1 + 3 + 4));
}

/// Section 2, example 1, with its messages of two cells as rows of two cells, all due at 6.
#[test]
fn the_paper_s_messages() {
    #[rustfmt::skip]
    let plan = [
        3, 2, 0, 0, 0,
        1, 3, 2, 0, 0,
        1, 1, 3, 0, 0,
        0, 2, 0, 3, 0,
        0, 1, 2, 0, 0,
        0, 0, 0, 0, 0,
    ];
    let a = accepted(5, "0>2*2/6, 1>3*2/6, 0>4/6", &plan, &[5, 5, 4]);
    assert_eq!((a.last, a.sends, a.sum), (5, 12, 14));
    assert_eq!(a.looks, (3 + 5) + (2 + 5) + 4);
    accepted(5, "0>2*2/5, 1>3*2/5, 0>4/5", &plan[..25], &[5, 5, 4]);
    assert_eq!(outcome(5, "0>2*2/4, 1>3*2/4, 0>4/4").answer.number, 9);
}

#[test]
fn lengths_that_are_refused() {
    refused(4, "0>1*0/5", 10, 1);
    refused(4, "0>1*65/5", 10, 1);
    refused(4, "0>1/5, 0>1*65535/0", 10, 2);
    refused(4, "0>0*0/0", 10, 1);
    refused(4, "0>1*64/0", 6, 1);
}
