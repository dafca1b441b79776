//! Why a table is late: tables worked by hand, those that are refused, and random ones against the model, the search and
//! planning.

use panel_tests::cases::each;
use panel_tests::panel::{Reason, Row};
use panel_tests::random::Random;
use panel_tests::reason::agree_reason;
use panel_tests::reasons::{faulty, large, small};
use panel_tests::worked::rows;

/// Why a table is late, and how many cells of each row are counted: the panel's reason, which the model has agreed to.
fn explained(nodes: u16, rows: &[Row]) -> (Reason, Vec<u16>) {
    let mut found = agree_reason(&mut Random::new(31), nodes, rows, rows.len() + 4).unwrap();
    found.members.truncate(rows.len());
    (found.reason, found.members)
}

/// The table is late: so many cells must cross a link before a slot, and so many of each row are among them.
fn late(nodes: u16, table: &str, (cells, link, before): (u16, u16, u16), members: &[u16]) {
    let expected = Reason {
        cells,
        link,
        before,
        ..Reason::default()
    };
    let found = explained(nodes, &rows(table));
    assert_eq!(found, (expected, members.to_vec()), "{table}");
}

/// The table is not late, and no row is marked.
fn in_time(nodes: u16, table: &str) {
    let rows = rows(table);
    let nothing = (Reason::default(), vec![0; rows.len()]);
    assert_eq!(explained(nodes, &rows), nothing, "{table}");
}

/// Number and row of a refusal, with nothing else said.
fn refusal(nodes: u16, rows: &[Row], members_len: usize) -> (u16, u16) {
    let reason = agree_reason(&mut Random::new(32), nodes, rows, members_len)
        .unwrap()
        .reason;
    let Reason { number, row, .. } = reason;
    let expected = Reason {
        number,
        row,
        ..Reason::default()
    };
    assert_eq!(reason, expected);
    (number, row)
}

#[test]
fn three_cells_for_two_slots() {
    late(2, "1>0/2, 1>0/2, 1>0/2", (3, 1, 2), &[1, 1, 1]);
    in_time(2, "1>0/2, 1>0/2");
    in_time(2, "1>0/2, 1>0/2, 1>0/3");
    late(2, "1>0/2, 1>0/2, 1>0/3, 1>0/3", (4, 1, 3), &[1, 1, 1, 1]);
}

#[test]
fn too_far() {
    // two links in one slot: it would have to be under way before slot 0
    late(4, "0>2/1", (1, 0, 0), &[1]);
    late(4, "3>1/1", (1, 3, 0), &[1]);
    in_time(4, "0>2/2");
    // 31 links in 30 slots, from the last node
    late(32, "31>30/30", (1, 31, 0), &[1]);
    in_time(32, "31>30/31");
    // two cells have to be over link 0 before slot 0, and one of them over link 1 too
    late(4, "0>2/1, 0>3/1, 3>1/2", (1, 1, 0), &[0, 1, 0]);
}

#[test]
fn rows_that_are_not_among_them() {
    // another is due later, or starts behind the link, or ends before it
    late(4, "0>1/1, 0>1/9, 0>1/1", (2, 0, 1), &[1, 0, 1]);
    late(4, "1>2/1, 2>3/1, 0>1/1, 1>2/1", (2, 1, 1), &[1, 0, 0, 1]);
    // row 1 goes on for a link behind link 1, so it must cross that as early as those that are due a slot earlier
    late(4, "0>3/3, 1>2/2, 1>2/2, 1>3/9", (3, 1, 2), &[1, 1, 1, 0]);
    in_time(4, "0>3/4, 1>2/2, 1>2/2, 1>3/9");
}

#[test]
fn the_lowest_link_on_a_tie() {
    late(4, "2>3/1, 2>3/1, 1>2/1, 1>2/1", (2, 1, 1), &[0, 0, 1, 1]);
    late(3, "2>0/1, 2>0/1, 0>1/1, 0>1/1", (2, 0, 1), &[0, 0, 1, 1]);
    // link 3 has two before slot 0, and link 0, which they cross next, two before slot 1
    late(4, "3>1/1, 3>1/1", (2, 0, 1), &[1, 1]);
}

#[test]
fn the_fewest_cells() {
    let (three, two) = ("0>1/2, 0>1/2, 0>1/2", "2>3/1, 2>3/1");
    late(4, &format!("{three}, {two}"), (2, 2, 1), &[0, 0, 0, 1, 1]);
    // fewest cells, and not the earliest slot: three before slot 0, and two before slot 1
    late(
        4,
        "0>2/1, 0>2/1, 0>2/1, 3>0/1, 3>0/1",
        (2, 3, 1),
        &[0, 0, 0, 1, 1],
    );
    // nor the most that are too many
    late(
        2,
        "0>1/1, 0>1/1, 0>1/1, 0>1/1, 1>0/2, 1>0/2, 1>0/2",
        (3, 1, 2),
        &[0, 0, 0, 0, 1, 1, 1],
    );
}

#[test]
fn some_cells_of_a_row() {
    // they are due at 2, 3 and 4, and at 1 and 2
    late(2, "0>1*3/4, 0>1*2/2", (3, 0, 2), &[1, 2]);
    in_time(2, "0>1*3/5, 0>1*2/2");
    // at -1, 0, 1 and 2, two links away: three must be under way before slot 0; link 1, which is the last, has two of them
    late(3, "0>2*4/2", (2, 1, 0), &[2]);
    // due at 1 to 64, and one more at 40
    late(2, "1>0*64/64, 1>0/40", (41, 1, 40), &[40, 1]);
}

#[test]
fn a_full_turn() {
    late(4, "2>2/3", (1, 2, 0), &[1]);
    in_time(4, "2>2/4");
    late(4, "2>2*3/5", (1, 2, 0), &[1]);
    in_time(4, "2>2*3/6");
    // it crosses link 2 in slot 1 at the latest, as the third does, and the second in slot 0
    late(3, "1>1/3, 2>1/2, 2>0/2", (3, 2, 2), &[1, 1, 1]);
    in_time(3, "1>1/4, 2>1/2, 2>0/2");
    // from the last node, and as the last link before its own node
    late(2, "1>1/1", (1, 1, 0), &[1]);
    late(3, "0>0/3, 2>0/3, 2>0/3, 2>0/3", (4, 2, 3), &[1, 1, 1, 1]);
}

#[test]
fn the_last_slot_that_is_looked_at() {
    // up to it the link is just full, and one more cell is too many
    for due in 1..=60 {
        let block = format!("0>1*{due}/{due}");
        in_time(2, &block);
        late(
            2,
            &format!("{block}, 0>1/{due}"),
            (due + 1, 0, due),
            &[due, 1],
        );
    }
    // the largest due slot is another row's, or that of all
    late(
        4,
        "3>0/5, 1>2/700, 0>1*3/3, 0>1/3",
        (4, 0, 3),
        &[0, 0, 3, 1],
    );
    late(4, "0>1/9, 0>1*9/9", (10, 0, 9), &[1, 9]);
}

#[test]
fn as_many_cells_as_there_may_be() {
    let full = |dst: u16, due: u16| vec![Row::of_numbers([0, dst, 2, due]); 512];
    let nothing = (Reason::default(), vec![0; 512]);
    assert_eq!(explained(3, &full(1, 1024)), nothing);
    let (reason, members) = explained(3, &full(2, 1024));
    assert_eq!((reason.cells, reason.link, reason.before), (1024, 0, 1023));
    assert_eq!(members, vec![2; 512]);
    // link 0 has all first cells before slot 510
    let (reason, members) = explained(3, &full(1, 511));
    assert_eq!((reason.cells, reason.link, reason.before), (512, 0, 510));
    assert_eq!(members, vec![1; 512]);
}

#[test]
fn no_rows() {
    for nodes in 2..=32 {
        in_time(nodes, "");
        assert_eq!(refusal(nodes, &[], 0), (0, 0));
    }
}

#[test]
fn each_refusal_alone() {
    let good = rows("0>1/1, 3>2/9, 0>1/1");
    let with = |table: &str| [good[0], rows(table)[0], good[2]];
    for nodes in [0, 1, 33, 65535] {
        assert_eq!(refusal(nodes, &good, 3), (1, 0));
    }
    for count in [513, 514, 1024, 65_536, 66_048] {
        assert_eq!(refusal(4, &vec![good[0]; count], count), (2, 0));
    }
    assert_eq!(refusal(4, &with("4>2/9"), 3), (3, 2));
    assert_eq!(refusal(4, &with("3>4/9"), 3), (4, 2));
    assert_eq!(refusal(4, &with("3>2*0/9"), 3), (10, 2));
    assert_eq!(refusal(4, &with("3>2*65/9"), 3), (10, 2));
    assert_eq!(refusal(4, &with("3>2/0"), 3), (6, 2));
    assert_eq!(refusal(4, &with("3>2/1025"), 3), (6, 2));
    let many = vec![rows("3>2*64/9")[0]; 17];
    assert_eq!(refusal(4, &many, 17), (11, 0));
    assert_eq!(refusal(4, &good, 2), (8, 0));
}

#[test]
fn the_order_of_the_checks() {
    let worst = rows("65535>65535*65535/65535")[0];
    assert_eq!(refusal(33, &[worst; 513], 0), (1, 0));
    assert_eq!(refusal(32, &[worst; 513], 0), (2, 0));
    assert_eq!(refusal(32, &[worst; 512], 0), (3, 1));
    assert_eq!(refusal(32, &rows("0>65535*0/65535"), 0), (4, 1));
    assert_eq!(refusal(32, &rows("0>0*0/65535"), 0), (10, 1));
    assert_eq!(refusal(32, &rows("31>31/0"), 0), (6, 1));
    // 11 after all rows, the last one too, and before the list
    let mut many = vec![rows("0>31*64/1")[0]; 17];
    assert_eq!(refusal(32, &many, 0), (11, 0));
    many[16].due = 0;
    assert_eq!(refusal(32, &many, 0), (6, 17));
    many.truncate(16);
    assert_eq!(refusal(32, &many, 15), (8, 0));
    // a lower row's 6 stands before a higher row's 3
    assert_eq!(refusal(4, &rows("0>1/0, 4>1/1"), 0), (6, 1));
}

#[test]
fn lists_of_every_length() {
    for table in [
        "",
        "0>1/1",
        "0>1/1, 0>1/1, 2>3/5",
        "0>3/1, 2>1*9/5",
        "0>1/4, 2>3/9",
    ] {
        let rows = rows(table);
        for members_len in 0..rows.len() + 9 {
            let number = if members_len < rows.len() { 8 } else { 0 };
            let found = agree_reason(&mut Random::new(33), 4, &rows, members_len).unwrap();
            assert_eq!(found.reason.number, number, "{table}");
        }
    }
}

#[test]
fn random_small_tables() {
    let tally = each("reason", small, 11_000_000, 20_000);
    if std::env::var("SEED").is_err() {
        for kind in ["none", "before slot 0", "some rows", "all rows"] {
            assert!(tally[kind] >= 1_000, "an unfair share: {tally:?}");
        }
    }
}

#[test]
fn random_large_tables() {
    let tally = each("reason", large, 12_000_000, 400);
    if std::env::var("SEED").is_err() {
        assert!(
            tally["none"] >= 100 && tally["some rows"] >= 60,
            "an unfair share: {tally:?}"
        );
    }
}

#[test]
fn random_faults() {
    let tally = each("reason", faulty, 13_000_000, 1_000);
    if std::env::var("SEED").is_err() {
        for number in ["accepted", "1", "2", "3", "4", "6", "8", "10", "11"] {
            assert!(tally[number] >= 20, "too few {number}: {tally:?}");
        }
    }
}
