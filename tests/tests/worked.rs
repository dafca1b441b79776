//! The worked tables: document 01's sweep table, and the examples of the paper (sections 2 and 3) that have a table here.

use panel_tests::panel::{Answer, Row};
use panel_tests::worked::{accepted, late, outcome, refused};
use std::mem::offset_of;

#[test]
fn the_sweep_table() {
    let a = accepted(
        4,
        "0>2/3, 0>1/2",
        &[1, 0, 0, 0, 2, 1, 0, 0, 0, 0, 0, 0],
        &[2, 2],
    );
    assert_eq!(
        a,
        Answer {
            number: 0,
            row: 0,
            slot: 0,
            last: 2,
            sends: 3,
            sum: 4,
            looks: 4,
            mean: 2.0,
            share: 0.375
        }
    );
    let b = accepted(
        4,
        "0>1/2, 0>3/3",
        &[2, 0, 0, 0, 1, 2, 0, 0, 0, 0, 2, 0],
        &[2, 3],
    );
    assert_eq!(
        b,
        Answer {
            number: 0,
            row: 0,
            slot: 0,
            last: 3,
            sends: 4,
            sum: 5,
            looks: 5,
            mean: 2.5,
            share: 4.0 / 12.0
        }
    );
    let c = accepted(4, "2>0/2, 2>3/2", &[0, 0, 1, 0, 0, 0, 2, 1], &[2, 2]);
    assert_eq!(c.looks, 4);
    // two cells at instant 0, and the one that stayed at instant 1
    late(4, "0>1/1, 0>1/1", 2, 1, 3);
    late(4, "0>2/1", 1, 0, 1);
    let f = accepted(2, "1>0/3, 1>0/3, 1>0/3", &[0, 1, 0, 2, 0, 3], &[1, 2, 3]);
    assert_eq!(f.looks, 6);
    late(2, "1>0/2, 1>0/2, 1>0/2", 3, 2, 3 + 2 + 1);
    assert_eq!(accepted(4, "", &[], &[]), Answer::default());
    refused(4, "0>0/1025", 6, 1);
    refused(2, "0>1/1025", 6, 1);
    let mut plan = vec![0; 2048];
    plan[0] = 1;
    let k = accepted(2, "0>1/1024", &plan, &[1]);
    assert_eq!(k.looks, 1);
    refused(33, "40>40/0", 1, 0);
}

/// Section 2, example 1 and table 1: farthest destination first, which is least slack with one due slot for all. The two
/// cells of a message are two rows here. N = 5; rows M11, M12: 0 to 2; M21, M22: 1 to 3; M3: 0 to 4.
#[test]
fn the_paper_s_table_1() {
    let table = "0>2/6, 0>2/6, 1>3/6, 1>3/6, 0>4/6";
    #[rustfmt::skip]
    let plan = [
        5, 3, 0, 0, 0,
        1, 5, 3, 0, 0,
        2, 4, 5, 0, 0,
        0, 1, 4, 5, 0,
        0, 2, 0, 0, 0,
        0, 0, 0, 0, 0,
    ];
    let a = accepted(5, table, &plan, &[4, 5, 2, 4, 4]);
    // the evacuation time and the average delay that section 2 defines
    assert_eq!((a.last, a.sends, a.sum, a.looks), (5, 12, 19, 19));
    assert_eq!((a.mean, a.share), (19.0 / 5.0, 12.0 / 25.0));
    // with M12's delivery at 5 as the due slot of all, the last slot has none to spare; with 4 there is no schedule
    let a = accepted(5, &table.replace("/6", "/5"), &plan[..25], &[4, 5, 2, 4, 4]);
    assert_eq!(a.last, 5);
    assert_eq!(outcome(5, &table.replace("/6", "/4")).answer.number, 9);
}

/// Section 3.1: earliest deadline first is not the best policy, since it leaves the distance out. Section 3.2 starts from
/// the two messages M1 = (0, 1, 0, 3, 5) and M2 = (0, 1, 0, 1, 2), which in evacuation mode stand alone: slack 2 and 1.
#[test]
fn the_paper_s_sections_3() {
    let a = accepted(
        4,
        "0>3/5, 0>1/2",
        &[2, 0, 0, 0, 1, 0, 0, 0, 0, 1, 0, 0, 0, 0, 1, 0, 0, 0, 0, 0],
        &[4, 1],
    );
    assert_eq!((a.last, a.sends, a.sum), (4, 4, 5));
    // the near message has the earlier deadline, and the far one must go first
    accepted(
        4,
        "0>1/2, 0>3/3",
        &[2, 0, 0, 0, 1, 2, 0, 0, 0, 0, 2, 0],
        &[2, 3],
    );
}

/// Section 3.1, theorem 1: where two rows share a node, the order of their slacks is that of equation (1), past node 0 too.
#[test]
fn the_paper_s_equation_1() {
    // at node 3 of 4: to 1 with due 5 is 5 - 1 - 4 = 0, and to 0 with due 3 is 3 - 0 - 4 = -1
    accepted(
        4,
        "3>1/5, 3>0/3",
        &[0, 0, 0, 2, 0, 0, 0, 1, 1, 0, 0, 0, 0, 0, 0, 0, 0, 0, 0, 0],
        &[3, 1],
    );
}

#[test]
fn the_declared_layout() {
    assert_eq!((size_of::<Row>(), align_of::<Row>()), (8, 2));
    assert_eq!((size_of::<Answer>(), align_of::<Answer>()), (40, 8));
    assert_eq!(
        (offset_of!(Answer, sum), offset_of!(Answer, looks)),
        (12, 16)
    );
    assert_eq!(
        (offset_of!(Answer, mean), offset_of!(Answer, share)),
        (24, 32)
    );
}
