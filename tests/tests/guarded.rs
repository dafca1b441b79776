//! The lent lists with pages on both sides that may not be touched: a read or a write past an end, by one byte, ends the test.
#![cfg(target_os = "linux")]

use panel_tests::area::Area;
use panel_tests::cases::{each, large_table, Dues, ANSWERS, UNDER_TEST};
use panel_tests::catalogue;
use panel_tests::catalogues::{any_asked, any_catalogue, any_room};
use panel_tests::desk::hold_shown;
use panel_tests::edits::{any_area, edit_of};
use panel_tests::model;
use panel_tests::panel::{self, Row, Table};
use panel_tests::random::Random;
use panel_tests::reason;
use panel_tests::text;
use panel_tests::texts::{any_table, any_text};
use std::ffi::c_void;
use std::io::Write;
use std::sync::atomic::Ordering;

extern "C" {
    fn mmap(
        at: *mut c_void,
        len: usize,
        rights: i32,
        flags: i32,
        file: i32,
        from: i64,
    ) -> *mut c_void;
    fn mprotect(at: *mut c_void, len: usize, rights: i32) -> i32;
    fn munmap(at: *mut c_void, len: usize) -> i32;
    fn signal(number: i32, handler: extern "C" fn(i32)) -> usize;
    fn write(file: i32, bytes: *const u8, len: usize) -> isize;
    fn _exit(status: i32) -> !;
}

const PAGE: usize = 4096;
const SIGSEGV: i32 = 11;
const NO_RIGHTS: i32 = 0;
const READ_AND_WRITE: i32 = 3;
const PRIVATE_AND_OF_NO_FILE: i32 = 0x22;

/// A copy of some entries between two pages without rights, at the end of its room or at the start.
struct Guarded<T> {
    room: *mut c_void,
    size: usize,
    first: *mut T,
    len: usize,
}

impl<T: Copy> Guarded<T> {
    fn new(entries: &[T], at_end: bool) -> Guarded<T> {
        let bytes = size_of_val(entries);
        let size = bytes.div_ceil(PAGE) * PAGE + 2 * PAGE;
        unsafe {
            let room = mmap(
                std::ptr::null_mut(),
                size,
                NO_RIGHTS,
                PRIVATE_AND_OF_NO_FILE,
                -1,
                0,
            );
            assert!(room as isize != -1);
            if bytes > 0 {
                assert_eq!(
                    mprotect(room.byte_add(PAGE), size - 2 * PAGE, READ_AND_WRITE),
                    0
                );
            }
            let first = room
                .byte_add(if at_end { size - PAGE - bytes } else { PAGE })
                .cast::<T>();
            first.copy_from_nonoverlapping(entries.as_ptr(), entries.len());
            Guarded {
                room,
                size,
                first,
                len: entries.len(),
            }
        }
    }

    fn entries(&mut self) -> &mut [T] {
        unsafe { std::slice::from_raw_parts_mut(self.first, self.len) }
    }
}

impl Guarded<u16> {
    fn table(&mut self) -> &mut Table {
        self.entries().try_into().unwrap()
    }
}

impl<T> Drop for Guarded<T> {
    fn drop(&mut self) {
        unsafe { munmap(self.room, self.size) };
    }
}

/// The nodes and rows of a table that may be refused, and how many rows it was made of.
fn any_rows(random: &mut Random) -> (u16, Vec<Row>, usize) {
    let nodes = [2, 3, 31, 32, 33][random.within(0, 4)];
    let count = [0, 1, 2, 300, 511, 512][random.within(0, 5)];
    let dues = [Dues::Loose, Dues::Tight, Dues::Cut][random.within(0, 2)];
    let mut rows = large_table(random, nodes, count, dues);
    if random.once_in(8) {
        rows.resize(
            [513, 600, 100_000][random.within(0, 2)],
            Row::single(0, 1, 1),
        );
    }
    if count > 0 && random.once_in(8) {
        let i = random.within(0, count - 1);
        rows[i].src = nodes;
    }
    (nodes, rows, count)
}

fn guarded(random: &mut Random) -> Result<&'static str, String> {
    let (nodes, rows, count) = any_rows(random);
    let needed = model::entries(nodes, &rows);
    let plan_len = if random.once_in(5) {
        random.within(0, needed)
    } else {
        needed
    };
    let arrivals_len = if random.once_in(5) {
        random.within(0, count)
    } else {
        rows.len()
    };

    let mut plan = random.pattern(plan_len);
    let mut arrivals = random.pattern(arrivals_len);
    let mut lent_rows = Guarded::new(&rows, random.once_in(2));
    let mut lent_plan = Guarded::new(&plan, random.once_in(2));
    let mut lent_arrivals = Guarded::new(&arrivals, random.once_in(2));
    let answer = panel::plan(
        nodes,
        lent_rows.entries(),
        lent_plan.entries(),
        lent_arrivals.entries(),
    );
    let expected = model::plan(nodes, &rows, &mut plan, &mut arrivals);
    if answer != expected
        || lent_plan.entries() != plan
        || lent_arrivals.entries() != arrivals
        || lent_rows.entries() != rows
    {
        return Err(format!("answers {answer:?}, and the model {expected:?}"));
    }
    let most = panel::most_looks(nodes, lent_rows.entries());
    if most != model::most_looks(nodes, &rows) || lent_rows.entries() != rows {
        return Err(format!("at most {most} looks, or other rows"));
    }
    Ok(ANSWERS[answer.number as usize])
}

fn guarded_reason(random: &mut Random) -> Result<&'static str, String> {
    let (nodes, rows, count) = any_rows(random);
    let members_len = if random.once_in(5) {
        random.within(0, count)
    } else {
        rows.len()
    };
    let mut members = random.pattern(members_len);
    let mut lent_rows = Guarded::new(&rows, random.once_in(2));
    let mut lent_members = Guarded::new(&members, random.once_in(2));
    let found = panel::reason(nodes, lent_rows.entries(), lent_members.entries());
    let expected = reason::reason(nodes, &rows, &mut members);
    if found != expected || lent_members.entries() != members || lent_rows.entries() != rows {
        return Err(format!("{found:?}, and the model {expected:?}"));
    }
    Ok(match found.number {
        0 if found.cells > 0 => "late",
        number => ANSWERS[number as usize],
    })
}

fn guarded_reading(random: &mut Random) -> Result<&'static str, String> {
    let (bytes, lent) = any_text(random);
    let mut rows = random.records(lent);
    let mut lent_bytes = Guarded::new(&bytes, random.once_in(2));
    let mut lent_rows = Guarded::new(&rows, random.once_in(2));
    let answer = panel::read(lent_bytes.entries(), lent_rows.entries());
    let expected = text::read(&bytes, &mut rows);
    if answer != expected || lent_rows.entries() != rows || lent_bytes.entries() != bytes {
        return Err(format!("answers {answer:?}, and the model {expected:?}"));
    }
    Ok(if answer.number == 0 {
        "read"
    } else {
        "not read"
    })
}

fn guarded_writing(random: &mut Random) -> Result<&'static str, String> {
    let (nodes, rows, _, room) = any_table(random);
    let mut area = random.bytes(room);
    let mut lent_rows = Guarded::new(&rows, random.once_in(2));
    let mut lent_area = Guarded::new(&area, random.once_in(2));
    let answer = panel::write(nodes, lent_rows.entries(), lent_area.entries());
    let expected = text::write(nodes, &rows, &mut area);
    if answer != expected || lent_area.entries() != area || lent_rows.entries() != rows {
        return Err(format!("answers {answer:?}, and the model {expected:?}"));
    }
    Ok(if answer.number == 0 {
        "written"
    } else {
        "not written"
    })
}

fn guarded_editing(random: &mut Random) -> Result<&'static str, String> {
    let mut area = Area(any_area(random));
    let mut lent = Guarded::new(&area.0, random.once_in(2));
    let table = lent.table();
    for _ in 0..6 {
        let edit = edit_of(random, table);
        let (answer, expected) = (edit.call(table), area.edit(edit));
        if answer != expected || *table != area.0 {
            return Err(format!(
                "{edit:?} answers {answer:?}, and the model {expected:?}"
            ));
        }
        hold_shown(random, table, &area)?;
    }
    let rows = area.rows();
    let needed = model::entries(area.nodes(), &rows).min(32 * 1024);
    let mut plan = random.pattern(needed);
    let mut arrivals = random.pattern(rows.len());
    let mut lent_plan = Guarded::new(&plan, random.once_in(2));
    let mut lent_arrivals = Guarded::new(&arrivals, random.once_in(2));
    let answer = panel::plan_table(table, lent_plan.entries(), lent_arrivals.entries());
    let expected = model::plan(area.nodes(), &rows, &mut plan, &mut arrivals);
    if answer != expected || lent_plan.entries() != plan || lent_arrivals.entries() != arrivals {
        return Err(format!("plans {answer:?}, and the model {expected:?}"));
    }
    let most = panel::most_looks_table(table);
    if most != model::most_looks(area.nodes(), &rows) {
        return Err(format!("at most {most} looks"));
    }
    let nodes = [1, 2, 32, 33][random.within(0, 3)];
    if panel::open(table, nodes) != area.open(nodes) || *table != area.0 {
        return Err(format!("opening for {nodes} nodes"));
    }
    Ok(if answer.number == 0 {
        "planned"
    } else {
        "not planned"
    })
}

fn guarded_catalogue(random: &mut Random) -> Result<&'static str, String> {
    let text = any_catalogue(random);
    let asked = any_asked(random);
    let room = any_room(random, &text, asked);
    let mut area = random.bytes(room);
    let mut lent_text = Guarded::new(&text, random.once_in(2));
    let mut lent_area = Guarded::new(&area, random.once_in(2));
    let verdict = panel::catalogue(lent_text.entries());
    let answer = asked.call(lent_text.entries(), lent_area.entries());
    let expected = asked.model(&text, &mut area);
    if verdict != catalogue::judge(&text) || answer != expected {
        return Err(format!("{asked:?}: {answer:?}, and the model {expected:?}"));
    }
    if lent_area.entries() != area || lent_text.entries() != text {
        return Err(format!("{asked:?}: another area, or another catalogue"));
    }
    Ok(if answer.number == 0 {
        "written"
    } else {
        "not written"
    })
}

/// A touch of a guarded page: says which table it was, and ends the process.
extern "C" fn touched(_: i32) {
    let mut line = [0; 160];
    let mut rest = &mut line[..];
    let seed = UNDER_TEST.load(Ordering::Relaxed);
    let _ = writeln!(rest, "an entry past a lent list was touched\nrepeat: SEED={seed} cargo test --release --offline --test guarded");
    let unused = rest.len();
    unsafe {
        write(2, line.as_ptr(), line.len() - unused);
        _exit(101);
    }
}

#[test]
fn nothing_past_the_lent_lists() {
    unsafe { signal(SIGSEGV, touched) };
    each("guarded", guarded, 3_000_000, 1_500);
    each("guarded", guarded_reason, 14_000_000, 600);
    each("guarded", guarded_reading, 6_000_000, 3_000);
    each("guarded", guarded_writing, 7_000_000, 3_000);
    each("guarded", guarded_editing, 8_300_000, 4_000);
    each("guarded", guarded_catalogue, 9_100_000, 4_000);
}
