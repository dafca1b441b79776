//! The deepest stack that each function of the archive uses, measured on a painted stack.
#![cfg(target_arch = "x86_64")]

use panel_tests::cases::{large_table, Dues, ANSWERS};
use panel_tests::catalogues::{any_asked, any_catalogue, any_room, Asked};
use panel_tests::edit::{Edit, Entered};
use panel_tests::edits::{any_area, edit_of};
use panel_tests::panel::{
    self, garboardle_add, garboardle_busiest, garboardle_catalogue, garboardle_change,
    garboardle_label, garboardle_link_load, garboardle_most_looks, garboardle_most_looks_table,
    garboardle_open, garboardle_plan, garboardle_plan_table, garboardle_read, garboardle_reason,
    garboardle_remove, garboardle_row_count, garboardle_row_of, garboardle_sentence,
    garboardle_write, Answer, ReadAnswer, Reason, Row, SentenceAnswer, Table, WriteAnswer,
};
use panel_tests::random::Random;
use panel_tests::texts::{any_table, any_text};

/// At most so many bytes, as docs/PANEL.md says.
const LIMIT: usize = 32 * 1024;

const STACK: usize = 256 * 1024;

const PAINTS: [u64; 2] = [0x5a5a_a5a5_5a5a_a5a5, 0xffff_0001_fffe_0203];

/// A painted stack, and the place of its top, which is even for sixteen bytes.
fn painted(paint: u64) -> (Vec<u64>, usize) {
    let stack = vec![paint; STACK / 8];
    let mut top = stack.len() - 2;
    if !(stack.as_ptr() as usize + 8 * top).is_multiple_of(16) {
        top -= 1;
    }
    (stack, top)
}

/// How many bytes below the top were used.
fn depth(stack: &[u64], top: usize, paint: u64) -> usize {
    let deepest = stack.iter().position(|&word| word != paint).unwrap();
    assert!(deepest > 0, "the stack was used up");
    8 * (top - deepest)
}

/// Calls the planner on a stack of its own, and says how many bytes of it were used, the two arguments on it and the return address too.
fn used(
    nodes: u16,
    rows: &[Row],
    plan: &mut [u16],
    arrivals: &mut [u16],
    paint: u64,
) -> (usize, Answer) {
    let (mut stack, top) = painted(paint);
    let mut answer = Answer::default();
    // the last two words of the arguments go by the stack, and the bits above a 16-bit argument are anyone's
    stack[top] = arrivals.as_mut_ptr() as u64;
    stack[top + 1] = arrivals.len() as u64;
    unsafe {
        std::arch::asm!(
            "xchg rsp, r12",
            "call {plan}",
            "mov rsp, r12",
            plan = sym garboardle_plan,
            inout("r12") stack.as_mut_ptr().add(top) => _,
            in("rdi") &mut answer,
            in("rsi") nodes as u64 | 0xdead_beef_cafe_0000,
            in("rdx") rows.as_ptr(),
            in("rcx") rows.len(),
            in("r8") plan.as_mut_ptr(),
            in("r9") plan.len(),
            clobber_abi("C"),
        );
    }
    (depth(&stack, top, paint) + 16, answer)
}

/// Calls a function that takes at most six words on a stack of its own: how many bytes it used, and the two words that it answers in.
fn used_by(function: *const (), words: [u64; 6], paint: u64) -> (usize, [u64; 2]) {
    used_with(function, words, paint, paint)
}

/// The same, with a seventh word, which goes by the stack and is not counted.
fn used_with(function: *const (), words: [u64; 6], last: u64, paint: u64) -> (usize, [u64; 2]) {
    let (mut stack, top) = painted(paint);
    let mut answer = [0; 2];
    stack[top] = last;
    unsafe {
        std::arch::asm!(
            "xchg rsp, r12",
            "call r13",
            "mov rsp, r12",
            inout("r12") stack.as_mut_ptr().add(top) => _,
            in("r13") function,
            in("rdi") words[0],
            in("rsi") words[1],
            inout("rdx") words[2] => answer[1],
            in("rcx") words[3],
            in("r8") words[4],
            in("r9") words[5],
            out("rax") answer[0],
            clobber_abi("C"),
        );
    }
    (depth(&stack, top, paint), answer)
}

/// The first numbers of an answer's two words.
fn numbers<const N: usize>(words: [u64; 2]) -> [u16; N] {
    std::array::from_fn(|i| (words[i / 4] >> (16 * (i % 4))) as u16)
}

/// A word with these numbers in its low bits, and paint above them, which is anyone's.
fn word(numbers: &[u16], paint: u64) -> u64 {
    let place = |(i, &number): (usize, &u16)| u64::from(number) << (16 * i);
    let low: u64 = numbers.iter().enumerate().map(place).sum();
    low | paint.checked_shl(16 * numbers.len() as u32).unwrap_or(0)
}

fn used_by_read(text: &[u8], rows: &mut [Row], paint: u64) -> (usize, ReadAnswer) {
    let words = [
        text.as_ptr() as u64,
        text.len() as u64,
        rows.as_mut_ptr() as u64,
        rows.len() as u64,
        0,
        0,
    ];
    let (bytes, answer) = used_by(garboardle_read as *const (), words, paint);
    let [number, line, nodes, rows] = numbers(answer);
    let answer = ReadAnswer {
        number,
        line,
        nodes,
        rows,
    };
    (bytes, answer)
}

fn used_by_write(nodes: u16, rows: &[Row], area: &mut [u8], paint: u64) -> (usize, WriteAnswer) {
    let words = [
        word(&[nodes], paint),
        rows.as_ptr() as u64,
        rows.len() as u64,
        area.as_mut_ptr() as u64,
        area.len() as u64,
        0,
    ];
    let (bytes, answer) = used_by(garboardle_write as *const (), words, paint);
    let [number] = numbers(answer);
    let length = answer[1] as usize;
    (bytes, WriteAnswer { number, length })
}

#[test]
fn reading_and_writing_too() {
    let mut random = Random::new(19);
    let (mut reading, mut writing, mut accepted) = (0, 0, [0; 2]);
    for _ in 0..400 {
        let (text, lent) = any_text(&mut random);
        let mut rows = random.records(lent);
        for paint in PAINTS {
            let (bytes, answer) = used_by_read(&text, &mut rows, paint);
            assert_eq!(answer, panel::read(&text, &mut rows));
            accepted[0] += usize::from(answer.number == 0);
            reading = bytes.max(reading);
        }
        let (nodes, rows, _, room) = any_table(&mut random);
        let mut area = random.bytes(room);
        for paint in PAINTS {
            let (bytes, answer) = used_by_write(nodes, &rows, &mut area, paint);
            assert_eq!(answer, panel::write(nodes, &rows, &mut area));
            accepted[1] += usize::from(answer.number == 0);
            writing = bytes.max(writing);
        }
    }
    println!("stack: {reading} bytes at the deepest for reading, {writing} for writing; accepted: {accepted:?}");
    assert!(accepted[0] > 0 && accepted[1] > 0);
    assert!(reading <= LIMIT && writing <= LIMIT);
}

/// The rows of a table for so many nodes: none, one or many.
fn any_rows(random: &mut Random, nodes: u16) -> Vec<Row> {
    let count = [0, 1, 40, 511, 512][random.within(0, 4)];
    let dues = [Dues::Loose, Dues::Tight, Dues::Cut][random.within(0, 2)];
    large_table(random, nodes, count, dues)
}

#[test]
fn at_most_32_kib() {
    let mut plan = vec![0; 32 * 1024];
    let mut arrivals = vec![0; 512];
    let mut deepest = 0;
    let mut numbers = [0; ANSWERS.len()];
    let mut random = Random::new(11);
    for round in 0..200 {
        let nodes = [2, 3, 17, 32, 33][round % 5];
        let mut rows = any_rows(&mut random, nodes);
        if random.once_in(10) {
            rows.resize(600, Row::single(0, 1, 1));
        }
        let lent = if random.once_in(10) { 0 } else { plan.len() };
        for paint in PAINTS {
            let (bytes, answer) = used(nodes, &rows, &mut plan[..lent], &mut arrivals, paint);
            assert_eq!(
                answer,
                panel::plan(nodes, &rows, &mut plan[..lent], &mut arrivals)
            );
            numbers[answer.number as usize] += 1;
            deepest = bytes.max(deepest);
        }
    }
    println!("stack: {deepest} bytes at the deepest; calls by answer: {numbers:?}");
    assert!(numbers[0] > 0 && numbers[9] > 0);
    assert!(deepest <= LIMIT);
}

fn used_by_edit(edit: Edit, table: &mut Table, paint: u64) -> (usize, [u16; 3]) {
    let number = |number: u16| word(&[number], paint);
    let row = |row: Row| word(&row.numbers(), paint);
    let (function, first, second) = match edit {
        Edit::Add(r) => (garboardle_add as *const (), row(r), paint),
        Edit::Change(k, r) => (garboardle_change as *const (), number(k), row(r)),
        Edit::Remove(k) => (garboardle_remove as *const (), number(k), paint),
    };
    let words = [table.as_mut_ptr() as u64, first, second, 0, 0, 0];
    let (bytes, answer) = used_by(function, words, paint);
    (bytes, numbers(answer))
}

fn used_by_open(nodes: u16, table: &mut Table, paint: u64) -> (usize, [u16; 3]) {
    let words = [table.as_mut_ptr() as u64, word(&[nodes], paint), 0, 0, 0, 0];
    let (bytes, answer) = used_by(garboardle_open as *const (), words, paint);
    (bytes, numbers(answer))
}

/// The deepest of the four functions that show something, each of which must answer as when it is called plainly.
fn used_by_showing(table: &Table, asked: u16, paint: u64) -> usize {
    let words = [table.as_ptr() as u64, word(&[asked], paint), 0, 0, 0, 0];
    let call = |function: *const ()| used_by(function, words, paint);
    let (count, answer) = call(garboardle_row_count as _);
    assert_eq!(numbers(answer), [panel::row_count(table)]);
    let (load, answer) = call(garboardle_link_load as _);
    assert_eq!(numbers(answer), [panel::link_load(table, asked)]);
    let (busiest, answer) = call(garboardle_busiest as _);
    let found = panel::busiest(table);
    assert_eq!(numbers(answer), [found.link, found.load]);
    let (row, answer) = call(garboardle_row_of as _);
    let a = panel::row_of(table, asked);
    assert_eq!(
        numbers(answer),
        [a.number, a.row, a.slot, a.src, a.dst, a.len, a.due]
    );
    count.max(load).max(busiest).max(row)
}

#[test]
fn editing_too() {
    let mut random = Random::new(24);
    let (mut editing, mut showing, mut opening, mut done) = (0, 0, 0, 0);
    for _ in 0..400 {
        let area = any_area(&mut random);
        let edit = edit_of(&mut random, &area);
        let asked = random.within(0, 40) as u16;
        for paint in PAINTS {
            showing = used_by_showing(&area, asked, paint).max(showing);
            let (mut table, mut plainly) = (area, area);
            let (bytes, answer) = used_by_edit(edit, &mut table, paint);
            let a = edit.call(&mut plainly);
            assert_eq!(answer, [a.number, a.row, a.slot]);
            assert_eq!(table, plainly);
            done += usize::from(a.number == 0);
            editing = bytes.max(editing);
            let (bytes, answer) = used_by_open(asked, &mut table, paint);
            let a = panel::open(&mut plainly, asked);
            assert_eq!(answer, [a.number, a.row, a.slot]);
            assert_eq!(table, plainly);
            opening = bytes.max(opening);
        }
    }
    println!("stack: {editing} bytes at the deepest for an edit, {opening} for opening, {showing} for showing; done: {done}");
    assert!(done > 0);
    assert!(editing.max(opening).max(showing) <= LIMIT);
}

#[test]
fn planning_an_edited_table_too() {
    let (mut plan, mut arrivals) = (vec![0; 32 * 1024], vec![0; 512]);
    let (mut deepest, mut tables) = (0, [0; ANSWERS.len()]);
    let mut random = Random::new(25);
    for round in 0..200 {
        let nodes = [2, 3, 17, 32][round % 4];
        let rows = any_rows(&mut random, nodes);
        let table = Entered { nodes, rows }.area();
        for paint in PAINTS {
            let mut answer = Answer::default();
            let words = [
                &raw mut answer as u64,
                table.as_ptr() as u64,
                plan.as_mut_ptr() as u64,
                plan.len() as u64,
                arrivals.as_mut_ptr() as u64,
                arrivals.len() as u64,
            ];
            let (bytes, _) = used_by(garboardle_plan_table as *const (), words, paint);
            assert_eq!(answer, panel::plan_table(&table, &mut plan, &mut arrivals));
            tables[answer.number as usize] += 1;
            deepest = bytes.max(deepest);
        }
    }
    println!("stack: {deepest} bytes at the deepest for planning an edited table; calls by answer: {tables:?}");
    assert!(tables[0] > 0 && tables[9] > 0);
    assert!(deepest <= LIMIT);
}

/// Asks for the most looks of a list of rows.
fn used_by_most_looks(nodes: u16, rows: &[Row], paint: u64) -> (usize, u32) {
    let (at, length) = (rows.as_ptr() as u64, rows.len() as u64);
    let words = [word(&[nodes], paint), at, length, 0, 0, 0];
    let (bytes, answer) = used_by(garboardle_most_looks as _, words, paint);
    (bytes, answer[0] as u32)
}

/// Asks for the most looks of an edited table.
fn used_by_most_looks_table(table: &Table, paint: u64) -> (usize, u32) {
    let words = [table.as_ptr() as u64, 0, 0, 0, 0, 0];
    let (bytes, answer) = used_by(garboardle_most_looks_table as _, words, paint);
    (bytes, answer[0] as u32)
}

#[test]
fn the_most_looks_too() {
    let mut random = Random::new(28);
    let (mut of_rows, mut of_table, mut not_0) = (0, 0, [0; 2]);
    for round in 0..200 {
        let nodes = [2, 3, 17, 32, 33][round % 5];
        let rows = any_rows(&mut random, nodes);
        let area = any_area(&mut random);
        for paint in PAINTS {
            let (bytes, most) = used_by_most_looks(nodes, &rows, paint);
            assert_eq!(most, panel::most_looks(nodes, &rows));
            not_0[0] += usize::from(most > 0);
            of_rows = bytes.max(of_rows);
            let (bytes, most) = used_by_most_looks_table(&area, paint);
            assert_eq!(most, panel::most_looks_table(&area));
            not_0[1] += usize::from(most > 0);
            of_table = bytes.max(of_table);
        }
    }
    println!("stack: {of_rows} bytes at the deepest for the most looks, {of_table} for those of an edited table; not 0: {not_0:?}");
    assert!(not_0[0] > 0 && not_0[1] > 0);
    assert!(of_rows <= LIMIT && of_table <= LIMIT);
}

/// Asks why a table is late.
fn used_by_reason(nodes: u16, rows: &[Row], members: &mut [u16], paint: u64) -> (usize, Reason) {
    let words = [
        word(&[nodes], paint),
        rows.as_ptr() as u64,
        rows.len() as u64,
        members.as_mut_ptr() as u64,
        members.len() as u64,
        0,
    ];
    let (bytes, answer) = used_by(garboardle_reason as _, words, paint);
    let [number, row, slot, cells, link, before] = numbers(answer);
    let reason = Reason {
        number,
        row,
        slot,
        cells,
        link,
        before,
    };
    (bytes, reason)
}

#[test]
fn the_reason_too() {
    let mut random = Random::new(29);
    let (mut deepest, mut late, mut refused) = (0, 0, 0);
    for round in 0..200 {
        let nodes = [2, 3, 17, 32, 33][round % 5];
        let rows = any_rows(&mut random, nodes);
        let lent = if random.once_in(10) { 0 } else { rows.len() };
        let before = random.pattern(lent);
        for paint in PAINTS {
            let (mut members, mut plainly) = (before.clone(), before.clone());
            let (bytes, reason) = used_by_reason(nodes, &rows, &mut members, paint);
            assert_eq!(reason, panel::reason(nodes, &rows, &mut plainly));
            assert_eq!(members, plainly);
            late += usize::from(reason.cells > 0);
            refused += usize::from(reason.number > 0);
            deepest = bytes.max(deepest);
        }
    }
    println!(
        "stack: {deepest} bytes at the deepest for the reason; late: {late}, refused: {refused}"
    );
    assert!(late > 0 && refused > 0);
    assert!(deepest <= LIMIT);
}

/// Asks for a sentence or a label; the sentence's last argument, on the stack, counts too.
fn used_by_asked(
    asked: Asked,
    text: &[u8],
    area: &mut [u8],
    paint: u64,
) -> (usize, SentenceAnswer) {
    let (lent, room) = (area.as_mut_ptr() as u64, area.len() as u64);
    let (at, length) = (text.as_ptr() as u64, text.len() as u64);
    let one = |number| word(&[number], paint);
    let (bytes, answer) = match asked {
        Asked::Sentence { number, row, slot } => {
            let words = [at, length, one(number), one(row), one(slot), lent];
            let (bytes, answer) = used_with(garboardle_sentence as _, words, room, paint);
            (bytes + 8, answer)
        }
        Asked::Label { field } => {
            let words = [at, length, one(field), lent, room, 0];
            used_by(garboardle_label as _, words, paint)
        }
    };
    let [number, row, slot] = numbers(answer);
    let length = answer[1] as usize;
    let answer = SentenceAnswer {
        number,
        row,
        slot,
        length,
    };
    (bytes, answer)
}

#[test]
fn catalogues_too() {
    let mut random = Random::new(26);
    let (mut judging, mut asking, mut written) = (0, 0, 0);
    for _ in 0..400 {
        let text = any_catalogue(&mut random);
        let asked = any_asked(&mut random);
        let room = any_room(&mut random, &text, asked);
        let before = random.bytes(room);
        for paint in PAINTS {
            let words = [text.as_ptr() as u64, text.len() as u64, 0, 0, 0, 0];
            let (bytes, answer) = used_by(garboardle_catalogue as _, words, paint);
            let a = panel::catalogue(&text);
            assert_eq!(numbers(answer), [a.number, a.row, a.slot]);
            judging = bytes.max(judging);
            let (mut area, mut plainly) = (before.clone(), before.clone());
            let (bytes, answer) = used_by_asked(asked, &text, &mut area, paint);
            assert_eq!(answer, asked.call(&text, &mut plainly));
            assert_eq!(area, plainly);
            written += usize::from(answer.number == 0);
            asking = bytes.max(asking);
        }
    }
    println!("stack: {judging} bytes at the deepest for judging a catalogue, {asking} for a sentence or a label; written: {written}");
    assert!(written > 0);
    assert!(judging.max(asking) <= LIMIT);
}
