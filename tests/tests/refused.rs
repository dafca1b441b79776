//! Tables that are turned away, and areas of every length around the needed one.

use panel_tests::cases::{each, faulty, ANSWERS};
use panel_tests::compare::agree;
use panel_tests::model::{cells, entries};
use panel_tests::panel::{self, Answer, Row};
use panel_tests::random::Random;

fn row(src: u16, dst: u16, due: u16) -> Row {
    Row::single(src, dst, due)
}

fn block(src: u16, dst: u16, len: u16, due: u16) -> Row {
    Row { src, dst, len, due }
}

/// Number, row and slot of the answer, which the model has agreed to.
fn answer(nodes: u16, rows: &[Row], plan_len: usize, arrivals_len: usize) -> (u16, u16, u16) {
    let planned = agree(&mut Random::new(7), nodes, rows, plan_len, arrivals_len).unwrap();
    (
        planned.answer.number,
        planned.answer.row,
        planned.answer.slot,
    )
}

#[test]
fn random_faults() {
    let tally = each("refused", faulty, 2_000_000, 4_000);
    if std::env::var("SEED").is_err() {
        assert!(!tally.contains_key("5"), "{tally:?}");
        for number in ANSWERS.into_iter().filter(|&number| number != "5") {
            assert!(
                tally.get(number).is_some_and(|&k| k >= 50),
                "too few {number}: {tally:?}"
            );
        }
    }
}

#[test]
fn each_number_alone() {
    let good = [row(0, 1, 9), row(3, 2, 9), row(1, 0, 9)];
    let with = |r: Row| [good[0], r, good[2]];
    assert_eq!(answer(4, &good, 36, 3), (0, 0, 0));
    for nodes in [0, 1, 33, 65535] {
        assert_eq!(answer(nodes, &good, 36, 3), (1, 0, 0));
    }
    assert_eq!(answer(4, &[good[0]; 513], 36, 513), (2, 0, 0));
    assert_eq!(answer(4, &with(row(4, 2, 9)), 36, 3), (3, 2, 0));
    assert_eq!(answer(4, &with(row(3, 4, 9)), 36, 3), (4, 2, 0));
    assert_eq!(answer(4, &with(row(3, 3, 9)), 36, 3), (0, 0, 0));
    assert_eq!(answer(4, &with(row(3, 3, 3)), 36, 3), (9, 2, 0));
    assert_eq!(answer(4, &with(row(3, 2, 0)), 36, 3), (6, 2, 0));
    assert_eq!(answer(4, &with(row(3, 2, 1025)), 36, 3), (6, 2, 0));
    for len in [0, 65, 66, 256, 65535] {
        assert_eq!(answer(4, &with(block(3, 2, len, 9)), 36, 3), (10, 2, 0));
    }
    assert_eq!(answer(4, &with(block(3, 2, 7, 9)), 36, 3), (0, 0, 0));
    assert_eq!(answer(4, &with(block(3, 2, 64, 9)), 36, 3), (9, 2, 0));
    assert_eq!(
        answer(4, &[block(3, 2, 64, 1024); 17], 4096, 17),
        (11, 0, 0)
    );
    assert_eq!(answer(4, &good, 35, 3), (7, 0, 0));
    assert_eq!(answer(4, &good, 36, 2), (8, 0, 0));
    assert_eq!(answer(4, &with(row(3, 2, 2)), 36, 3), (9, 2, 0));
}

/// The answer's number, the looks that planning took, and the most that were said in advance.
fn looks(nodes: u16, rows: &[Row], plan_len: usize, arrivals_len: usize) -> (u16, u32, u32) {
    let planned = agree(&mut Random::new(7), nodes, rows, plan_len, arrivals_len).unwrap();
    let Answer { number, looks, .. } = planned.answer;
    (number, looks, panel::most_looks(nodes, rows))
}

#[test]
fn looks_of_each_number() {
    // four cells, there at 1, at 3 and 4, and at 3
    let good = [row(0, 1, 9), block(3, 2, 2, 11), row(1, 0, 9)];
    let with = |r: Row| [good[0], r, good[2]];
    assert_eq!(looks(4, &good, 44, 3), (0, 11, 4 * 12));
    assert_eq!(looks(4, &good, 43, 3), (7, 0, 4 * 12));
    assert_eq!(looks(4, &good, 44, 2), (8, 0, 4 * 12));
    assert_eq!(looks(4, &with(block(3, 2, 2, 3)), 36, 3), (9, 4, 4 * 10));
    for nodes in [0, 1, 33, 65535] {
        assert_eq!(looks(nodes, &good, 44, 3), (1, 0, 0));
    }
    assert_eq!(looks(4, &[good[0]; 513], 36, 513), (2, 0, 0));
    assert_eq!(looks(4, &with(row(4, 2, 9)), 44, 3), (3, 0, 0));
    assert_eq!(looks(4, &with(row(3, 4, 9)), 44, 3), (4, 0, 0));
    assert_eq!(looks(4, &with(row(3, 2, 1025)), 5000, 3), (6, 0, 0));
    assert_eq!(looks(4, &with(block(3, 2, 65, 9)), 44, 3), (10, 0, 0));
    assert_eq!(looks(4, &[block(3, 2, 64, 9); 17], 44, 17), (11, 0, 0));
}

#[test]
fn the_most_looks_go_by_the_largest_due_slot() {
    for place in 0..4 {
        let mut rows = [row(0, 1, 7); 4];
        rows[place] = block(2, 1, 5, 90);
        assert_eq!(panel::most_looks(3, &rows), (3 + 5) * 91);
        rows[place].due = 0;
        assert_eq!(panel::most_looks(3, &rows), 0);
    }
}

#[test]
fn the_order_of_the_checks() {
    let worst = block(65535, 65535, 65535, 65535);
    assert_eq!(answer(33, &[worst; 513], 0, 0), (1, 0, 0));
    assert_eq!(answer(32, &[worst; 513], 0, 0), (2, 0, 0));
    assert_eq!(answer(32, &[worst; 512], 0, 0), (3, 1, 0));
    assert_eq!(answer(32, &[block(0, 65535, 0, 65535)], 0, 0), (4, 1, 0));
    assert_eq!(answer(32, &[block(0, 0, 0, 65535)], 0, 0), (10, 1, 0));
    assert_eq!(answer(32, &[row(31, 31, 0)], 0, 0), (6, 1, 0));
    assert_eq!(answer(32, &[block(0, 31, 0, 65535)], 0, 0), (10, 1, 0));
    assert_eq!(answer(32, &[block(0, 31, 65, 0)], 0, 0), (10, 1, 0));
    assert_eq!(answer(32, &[row(0, 31, 65535)], 0, 0), (6, 1, 0));
    // 11 after all rows, the last one too, and before the areas
    let mut many = vec![block(0, 31, 64, 1); 17];
    assert_eq!(answer(32, &many, 0, 0), (11, 0, 0));
    many[16].due = 0;
    assert_eq!(answer(32, &many, 0, 0), (6, 17, 0));
    many[16].len = 65;
    assert_eq!(answer(32, &many, 0, 0), (10, 17, 0));
    many.truncate(16);
    assert_eq!(answer(32, &many, 0, 0), (7, 0, 0));
    assert_eq!(answer(32, &[row(0, 31, 1)], 31, 0), (7, 0, 0));
    assert_eq!(answer(32, &[row(0, 31, 1)], 32, 0), (8, 0, 0));
    assert_eq!(answer(32, &[row(0, 31, 1)], 32, 1), (9, 1, 0));
    // a lower row's 6 stands before a higher row's 3
    assert_eq!(answer(4, &[row(0, 1, 0), row(4, 1, 1)], 0, 0), (6, 1, 0));
    assert_eq!(
        answer(4, &[block(0, 1, 0, 1), row(4, 1, 1)], 0, 0),
        (10, 1, 0)
    );
}

#[test]
fn every_number_of_cells() {
    // as rows of 1 and of 64, and as 512 rows of 1 and more
    for total in (1..=1100).chain([2_048, 32_767, 32_768]) {
        let blocks = total / 64;
        let mut rows = vec![block(0, 1, 64, 1024); blocks];
        rows.resize(blocks + total % 64, row(0, 1, 1024));
        let number = if rows.len() > 512 {
            2
        } else if total > 1024 {
            11
        } else {
            0
        };
        assert_eq!(answer(2, &rows, 2048, rows.len()), (number, 0, 0));
    }
    for last in 1..=64 {
        let mut rows = vec![block(0, 1, 2, 1024); 512];
        (rows[0].len, rows[511].len) = (1, last);
        let number = if cells(&rows) > 1024 { 11 } else { 0 };
        assert_eq!(answer(2, &rows, 2048, 512), (number, 0, 0));
    }
}

#[test]
fn every_length() {
    for len in (0..=300).chain([512, 1_024, 32_768, 65_472, 65_535]) {
        let expected = match len {
            1..=64 => (0, 0, 0),
            _ => (10, 2, 0),
        };
        let rows = [row(0, 1, 90), block(1, 0, len, 90), row(0, 1, 90)];
        assert_eq!(answer(3, &rows, 270, 3), expected);
    }
}

#[test]
fn areas_of_every_length() {
    let rows = [row(0, 1, 2), row(0, 3, 3), row(2, 1, 5)];
    let late = [row(0, 1, 2), row(0, 3, 3), row(0, 1, 2), row(0, 1, 2)];
    for (rows, number) in [(&rows[..], 0), (&late[..], 9)] {
        let needed = entries(4, rows);
        for plan_len in 0..needed + 9 {
            for arrivals_len in 0..rows.len() + 5 {
                let expected = if plan_len < needed {
                    7
                } else if arrivals_len < rows.len() {
                    8
                } else {
                    number
                };
                assert_eq!(answer(4, rows, plan_len, arrivals_len).0, expected);
            }
        }
    }
}

#[test]
fn no_rows() {
    for nodes in 2..=32 {
        for (plan_len, arrivals_len) in [(0, 0), (0, 9), (9, 0), (9, 9)] {
            let planned = agree(&mut Random::new(8), nodes, &[], plan_len, arrivals_len).unwrap();
            assert_eq!(planned.answer, Answer::default());
        }
    }
    for nodes in [0, 1, 33, 65535] {
        assert_eq!(answer(nodes, &[], 0, 0), (1, 0, 0));
    }
}

#[test]
fn many_rows() {
    let good = row(0, 1, 1024);
    let full = vec![good; 512];
    assert_eq!(answer(2, &full, 2048, 512), (0, 0, 0));
    assert_eq!(answer(2, &full, 2047, 512), (7, 0, 0));
    assert_eq!(answer(2, &full, 2048, 511), (8, 0, 0));
    for count in [513, 514, 1024, 65_535, 65_536, 66_048, 100_000] {
        let rows = vec![good; count];
        assert_eq!(answer(2, &rows, 2048, count), (2, 0, 0));
        assert_eq!(answer(2, &rows, 0, 0), (2, 0, 0));
        assert_eq!(answer(1, &rows, 2048, count), (1, 0, 0));
    }
}

#[test]
fn full_tables_to_the_last_slot() {
    // one link carries 512 rows in 512 slots, and not in 511
    for (nodes, dst) in [(2, 1), (32, 31)] {
        let all = |due: u16| vec![row(0, dst, due); 512];
        let last = 511 + dst;
        let planned = agree(&mut Random::new(10), nodes, &all(last), 32 * 1024, 512).unwrap();
        assert_eq!((planned.answer.number, planned.answer.last), (0, last));
        assert!((dst..)
            .zip(&planned.arrivals)
            .all(|(at, &arrival)| at == arrival));
        assert_eq!(answer(nodes, &all(last - 1), 32 * 1024, 512), (9, 512, 511));
    }
}

#[test]
fn as_many_cells_as_there_may_be() {
    // one link carries 1,024 cells in 1,024 slots
    for (count, len) in [(16, 64), (32, 32), (512, 2)] {
        let rows = vec![block(0, 1, len, 1024); count];
        let planned = agree(&mut Random::new(27), 2, &rows, 2048, count).unwrap();
        assert_eq!((planned.answer.number, planned.answer.last), (0, 1024));
        assert_eq!(planned.answer.sends, 1024);
        assert_eq!(panel::most_looks(2, &rows), 1_049_600);
        // and no more: to node 2 of 3 the last cell comes a slot later
        let rows = vec![block(0, 2, len, 1024); count];
        assert_eq!(answer(3, &rows, 3072, count).0, 9);
    }
}
