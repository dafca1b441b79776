//! Messages from a node to itself, worked by hand: once round, over every link, and there after N moves.

use panel_tests::panel::{self, Answer, Link, Row, TABLE};
use panel_tests::worked::{accepted, late, outcome, refused};

#[test]
fn alone() {
    let expected = Answer {
        number: 0,
        row: 0,
        slot: 0,
        last: 4,
        sends: 4,
        sum: 4,
        looks: 4,
        mean: 4.0,
        share: 0.25,
    };
    let from_0 = [1, 0, 0, 0, 0, 1, 0, 0, 0, 0, 1, 0, 0, 0, 0, 1];
    assert_eq!(accepted(4, "0>0/4", &from_0, &[4]), expected);
    // past node 0 with its first move, and in its midst
    let from_3 = [0, 0, 0, 1, 1, 0, 0, 0, 0, 1, 0, 0, 0, 0, 1, 0];
    assert_eq!(accepted(4, "3>3/4", &from_3, &[4]), expected);
    let from_2 = [0, 0, 1, 0, 0, 0, 0, 1, 1, 0, 0, 0, 0, 1, 0, 0];
    assert_eq!(accepted(4, "2>2/4", &from_2, &[4]), expected);
    // due slots to spare change nothing, and one too few makes it late at once
    let loose: Vec<u16> = from_2.into_iter().chain([0; 8]).collect();
    assert_eq!(accepted(4, "2>2/6", &loose, &[4]), expected);
    for table in ["0>0/3", "2>2/3", "3>3/3", "1>1/1"] {
        late(4, table, 1, 0, 1);
    }
}

#[test]
fn on_two_nodes() {
    accepted(2, "0>0/2", &[1, 0, 0, 1], &[2]);
    accepted(2, "1>1/2", &[0, 1, 1, 0], &[2]);
    late(2, "0>0/1", 1, 0, 1);
    let a = accepted(2, "0>0/2, 1>1/2", &[1, 2, 2, 1], &[2, 2]);
    assert_eq!((a.sends, a.share), (4, 1.0));
    late(2, "0>0/2, 1>1/2, 0>1/2", 3, 2, 3 + 3 + 1);
    // the third cell still waits at node 0, with two links to go, as the first comes back to it
    let a = accepted(2, "0>0*3/4", &[1, 0, 1, 1, 1, 1, 0, 1], &[4]);
    assert_eq!((a.last, a.sends, a.sum, a.share), (4, 6, 4, 0.75));
    assert_eq!(a.looks, 2 + 3 + 4);
    late(2, "0>0*3/3", 1, 0, 3);
}

#[test]
fn two_from_one_node() {
    #[rustfmt::skip]
    let plan = [
        0, 0, 1, 0,
        0, 0, 2, 1,
        1, 0, 0, 2,
        2, 1, 0, 0,
        0, 2, 0, 0,
    ];
    let a = accepted(4, "2>2/5, 2>2/5", &plan, &[4, 5]);
    assert_eq!((a.last, a.sends, a.sum, a.looks), (5, 8, 9, 9));
    assert_eq!((a.mean, a.share), (4.5, 8.0 / 20.0));
    // the one that is due earlier goes first
    let other = plan.map(|row: u16| if row == 0 { 0 } else { 3 - row });
    let loose: Vec<u16> = other.into_iter().chain([0; 4]).collect();
    accepted(4, "2>2/6, 2>2/5", &loose, &[5, 4]);
    late(4, "2>2/4, 2>2/4", 2, 1, 2 + 2);
}

#[test]
fn one_from_each_node() {
    #[rustfmt::skip]
    let plan = [
        1, 2, 3, 4,
        4, 1, 2, 3,
        3, 4, 1, 2,
        2, 3, 4, 1,
    ];
    let table = "0>0/4, 1>1/4, 2>2/4, 3>3/4";
    let a = accepted(4, table, &plan, &[4; 4]);
    assert_eq!((a.sends, a.looks, a.share), (16, 16, 1.0));
    // every link is taken in every slot, so one link more is too many
    late(4, &format!("{table}, 0>1/4"), 5, 4, 4 * 5 + 1);
}

#[test]
fn a_full_turn_is_not_none() {
    // slack 5 - 4 = 1 against 2 - 1 = 1, and the lower row goes; with no links to go it would have 5
    #[rustfmt::skip]
    let plan = [
        0, 1, 0, 0,
        0, 2, 1, 0,
        0, 0, 0, 1,
        1, 0, 0, 0,
        0, 0, 0, 0,
    ];
    accepted(4, "1>1/5, 1>2/2", &plan, &[4, 2]);
    // slack 1 against 4 - 4 = 0; where row 1 goes, row 2 is late
    #[rustfmt::skip]
    let plan = [
        0, 2, 0, 0,
        0, 1, 2, 0,
        0, 0, 0, 2,
        2, 0, 0, 0,
    ];
    accepted(4, "1>2/2, 1>1/4", &plan, &[2, 4]);
    // from node 0 and from node N - 1, with the same slacks
    accepted(3, "0>1/2, 0>0/3", &[2, 0, 0, 1, 2, 0, 0, 0, 2], &[2, 3]);
    accepted(3, "2>0/2, 2>2/3", &[0, 0, 2, 2, 0, 1, 0, 2, 0], &[2, 3]);
}

#[test]
fn past_node_0_it_goes_by_the_links_that_are_left() {
    // row 1 comes to node 1 at instant 3 with slack 7 - 3 - 1 = 3, and row 5 has waited there, with 8 - 3 - 1 = 4
    #[rustfmt::skip]
    let start = [
        0, 2, 1, 0,
        0, 3, 0, 1,
        1, 4, 0, 0,
        0, 1, 0, 0,
        0, 5, 0, 0,
    ];
    let table = "2>2/7, 1>2/5, 1>2/5, 1>2/5";
    let plan: Vec<u16> = start.into_iter().chain([0; 12]).collect();
    accepted(4, &format!("{table}, 1>2/8"), &plan, &[4, 1, 2, 3, 5]);
    // with 6 - 3 - 1 = 2 row 5 goes first
    let mut plan = plan[..28].to_vec();
    (plan[13], plan[17]) = (5, 1);
    accepted(4, &format!("{table}, 1>2/6"), &plan, &[5, 1, 2, 3, 4]);
}

#[test]
fn blocks_that_go_round() {
    // cells are due at 3 and 4
    let plan = [0, 1, 0, 0, 1, 1, 1, 0, 1, 1, 0, 0];
    let a = accepted(3, "1>1*2/4", &plan, &[4]);
    assert_eq!((a.last, a.sends, a.sum), (4, 6, 4));
    assert_eq!((a.looks, a.mean, a.share), (3 + 4, 4.0, 0.5));
    late(3, "1>1*2/3", 1, 0, 2);
    // slot 0: 1 and 2 against 1; slot 1: 1 against 0, so row 2 parts the block
    #[rustfmt::skip]
    let plan = [
        1, 0, 0, 0,
        2, 1, 0, 0,
        1, 2, 1, 0,
        0, 1, 0, 1,
        0, 0, 1, 0,
        0, 0, 0, 1,
    ];
    let a = accepted(4, "0>0*2/6, 0>2/3", &plan, &[6, 3]);
    assert_eq!((a.last, a.sends, a.sum), (6, 10, 9));
    assert_eq!(a.looks, (4 + 6) + 3);
    assert_eq!((a.mean, a.share), (4.5, 10.0 / 24.0));
}

#[test]
fn as_many_cells_as_there_may_be() {
    // link 1 of 2 is free in slot 0, and carries 1,023 cells in the others, which are there at 2 to 1,024
    let full = vec!["0>0*64/1024"; 15].join(", ");
    let answer = outcome(2, &format!("{full}, 0>0*63/1024")).answer;
    let looks = 1024 * 1025 / 2 - 1;
    assert_eq!((answer.number, answer.last), (0, 1024));
    assert_eq!((answer.sends, answer.looks), (2046, looks));
    // one cell more has not left its node at 1,023, and was looked at 1,024 times
    late(2, &format!("{full}, 0>0*64/1024"), 16, 1023, looks + 1024);
    refused(2, &format!("{full}, 0>0*64/1024, 1>1/2"), 11, 0);
}

#[test]
fn what_is_refused() {
    refused(4, "4>4/9", 3, 1);
    refused(4, "3>3*0/9", 10, 1);
    refused(4, "3>3*65/0", 10, 1);
    refused(4, "3>3/0", 6, 1);
    refused(4, "0>0/1025", 6, 1);
    refused(4, "1>1/9, 0>4/9", 4, 2);
}

/// A block alone leaves its node cell by cell, and its cells keep a link's distance all the way round.
#[test]
fn every_node_of_every_ring() {
    for nodes in 2..=32u16 {
        for node in 0..nodes {
            for len in [1, 2, 64] {
                let last = nodes + len - 1;
                let entry = |t: u16, p: u16| {
                    let cell = t.checked_sub((p + nodes - node) % nodes);
                    u16::from(cell.is_some_and(|cell| cell < len))
                };
                let slot = |t| (0..nodes).map(move |p| entry(t, p));
                let plan: Vec<u16> = (0..last).flat_map(slot).collect();
                let a = accepted(
                    nodes,
                    &format!("{node}>{node}*{len}/{last}"),
                    &plan,
                    &[last],
                );
                let sends = u32::from(nodes * len);
                assert_eq!((a.last, a.sends, a.sum), (last, sends, last.into()));
                assert_eq!(a.looks, (nodes..=last).map(u32::from).sum());
                let share = f64::from(sends) / f64::from(nodes * last);
                assert_eq!((a.mean, a.share), (last.into(), share));
                let hurried = last - 1;
                let table = format!("{node}>{node}*{len}/{hurried}");
                late(nodes, &table, 1, 0, len.into());
                crosses_every_link(
                    nodes,
                    Row {
                        src: node,
                        dst: node,
                        len,
                        due: last,
                    },
                );
            }
        }
    }
}

/// The loads of a table of this one row, before it and after it too.
fn crosses_every_link(nodes: u16, row: Row) {
    let mut table = [0; TABLE];
    assert_eq!(panel::open(&mut table, nodes).number, 0);
    let empty = table;
    assert_eq!(panel::add(&mut table, row).number, 0);
    for link in 0..40 {
        let load = if link < nodes { row.len } else { 0 };
        assert_eq!(panel::link_load(&table, link), load);
    }
    assert_eq!(
        panel::busiest(&table),
        Link {
            link: 0,
            load: row.len
        }
    );
    assert_eq!(panel::remove(&mut table, 1).number, 0);
    assert_eq!(table, empty);
}
