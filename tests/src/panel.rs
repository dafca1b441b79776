//! The archive's functions, declared by hand as include/garboardle.h has them, and one safe function for each.

#[repr(C)]
#[derive(Clone, Copy, Debug, PartialEq, Eq)]
pub struct Row {
    pub src: u16,
    pub dst: u16,
    pub len: u16,
    pub due: u16,
}

impl Row {
    /// A row of one cell.
    pub const fn single(src: u16, dst: u16, due: u16) -> Row {
        Row {
            src,
            dst,
            len: 1,
            due,
        }
    }

    /// The numbers in the order in which they stand in an area.
    pub fn numbers(self) -> [u16; PER_ROW] {
        [self.src, self.dst, self.len, self.due]
    }

    pub fn of_numbers(numbers: [u16; PER_ROW]) -> Row {
        let [src, dst, len, due] = numbers;
        Row { src, dst, len, due }
    }
}

#[repr(C)]
#[derive(Clone, Copy, Debug, Default)]
pub struct Answer {
    pub number: u16,
    pub row: u16,
    pub slot: u16,
    pub last: u16,
    pub sends: u32,
    pub sum: u32,
    pub looks: u32,
    pub mean: f64,
    pub share: f64,
}

/// Equal bit for bit, the floats too.
impl PartialEq for Answer {
    fn eq(&self, other: &Answer) -> bool {
        let bits = |a: &Answer| {
            (
                a.number,
                a.row,
                a.slot,
                a.last,
                a.sends,
                a.sum,
                a.looks,
                a.mean.to_bits(),
                a.share.to_bits(),
            )
        };
        bits(self) == bits(other)
    }
}

#[repr(C)]
#[derive(Clone, Copy, Debug, Default, PartialEq, Eq)]
pub struct ReadAnswer {
    pub number: u16,
    pub line: u16,
    pub nodes: u16,
    pub rows: u16,
}

#[repr(C)]
#[derive(Clone, Copy, Debug, Default, PartialEq, Eq)]
pub struct WriteAnswer {
    pub number: u16,
    pub length: usize,
}

#[repr(C)]
#[derive(Clone, Copy, Debug, Default, PartialEq, Eq)]
pub struct Reason {
    pub number: u16,
    pub row: u16,
    pub slot: u16,
    pub cells: u16,
    pub link: u16,
    pub before: u16,
}

/// Numbers of one row.
pub const PER_ROW: usize = 4;

/// Numbers of an area that holds a table for editing.
pub const TABLE: usize = 2_082;

/// The place of link 0's load in such an area, and of row 1.
pub const LOADS: usize = 2;
pub const ROWS: usize = 34;

/// `struct garboardle_table` as the plain numbers that it is: nodes, rows, 32 loads, and 512 rows of four.
pub type Table = [u16; TABLE];

#[repr(C)]
#[derive(Clone, Copy, Debug, Default, PartialEq, Eq)]
pub struct EditAnswer {
    pub number: u16,
    pub row: u16,
    pub slot: u16,
}

#[repr(C)]
#[derive(Clone, Copy, Debug, Default, PartialEq, Eq)]
pub struct RowAnswer {
    pub number: u16,
    pub row: u16,
    pub slot: u16,
    pub src: u16,
    pub dst: u16,
    pub len: u16,
    pub due: u16,
}

#[repr(C)]
#[derive(Clone, Copy, Debug, Default, PartialEq, Eq)]
pub struct Link {
    pub link: u16,
    pub load: u16,
}

#[repr(C)]
#[derive(Clone, Copy, Debug, Default, PartialEq, Eq)]
pub struct SentenceAnswer {
    pub number: u16,
    pub row: u16,
    pub slot: u16,
    pub length: usize,
}

extern "C" {
    pub fn garboardle_plan(
        nodes: u16,
        rows: *const Row,
        rows_len: usize,
        plan: *mut u16,
        plan_len: usize,
        arrivals: *mut u16,
        arrivals_len: usize,
    ) -> Answer;

    pub fn garboardle_read(
        text: *const u8,
        text_len: usize,
        rows: *mut Row,
        rows_len: usize,
    ) -> ReadAnswer;

    pub fn garboardle_write(
        nodes: u16,
        rows: *const Row,
        rows_len: usize,
        area: *mut u8,
        area_len: usize,
    ) -> WriteAnswer;

    pub fn garboardle_most_looks(nodes: u16, rows: *const Row, rows_len: usize) -> u32;

    pub fn garboardle_reason(
        nodes: u16,
        rows: *const Row,
        rows_len: usize,
        members: *mut u16,
        members_len: usize,
    ) -> Reason;

    pub fn garboardle_open(table: *mut Table, nodes: u16) -> EditAnswer;
    pub fn garboardle_add(table: *mut Table, row: Row) -> EditAnswer;
    pub fn garboardle_change(table: *mut Table, number: u16, row: Row) -> EditAnswer;
    pub fn garboardle_remove(table: *mut Table, number: u16) -> EditAnswer;
    pub fn garboardle_row_count(table: *const Table) -> u16;
    pub fn garboardle_row_of(table: *const Table, number: u16) -> RowAnswer;
    pub fn garboardle_link_load(table: *const Table, link: u16) -> u16;
    pub fn garboardle_busiest(table: *const Table) -> Link;

    pub fn garboardle_plan_table(
        table: *const Table,
        plan: *mut u16,
        plan_len: usize,
        arrivals: *mut u16,
        arrivals_len: usize,
    ) -> Answer;

    pub fn garboardle_most_looks_table(table: *const Table) -> u32;

    pub fn garboardle_catalogue(catalogue: *const u8, catalogue_len: usize) -> EditAnswer;

    pub fn garboardle_sentence(
        catalogue: *const u8,
        catalogue_len: usize,
        number: u16,
        row: u16,
        slot: u16,
        area: *mut u8,
        area_len: usize,
    ) -> SentenceAnswer;

    pub fn garboardle_label(
        catalogue: *const u8,
        catalogue_len: usize,
        field: u16,
        area: *mut u8,
        area_len: usize,
    ) -> SentenceAnswer;
}

pub fn plan(nodes: u16, rows: &[Row], plan: &mut [u16], arrivals: &mut [u16]) -> Answer {
    // Safe: the function asks nothing but three slices that do not overlap, and borrows them for the call alone.
    unsafe {
        garboardle_plan(
            nodes,
            rows.as_ptr(),
            rows.len(),
            plan.as_mut_ptr(),
            plan.len(),
            arrivals.as_mut_ptr(),
            arrivals.len(),
        )
    }
}

pub fn most_looks(nodes: u16, rows: &[Row]) -> u32 {
    // Safe: the function asks nothing but a slice, and borrows it for the call alone.
    unsafe { garboardle_most_looks(nodes, rows.as_ptr(), rows.len()) }
}

pub fn reason(nodes: u16, rows: &[Row], members: &mut [u16]) -> Reason {
    // Safe: the function asks nothing but two slices that do not overlap, and borrows them for the call alone.
    unsafe {
        garboardle_reason(
            nodes,
            rows.as_ptr(),
            rows.len(),
            members.as_mut_ptr(),
            members.len(),
        )
    }
}

pub fn read(text: &[u8], rows: &mut [Row]) -> ReadAnswer {
    // Safe: the function asks nothing but two slices that do not overlap, and borrows them for the call alone.
    unsafe { garboardle_read(text.as_ptr(), text.len(), rows.as_mut_ptr(), rows.len()) }
}

pub fn write(nodes: u16, rows: &[Row], area: &mut [u8]) -> WriteAnswer {
    // Safe: the function asks nothing but two slices that do not overlap, and borrows them for the call alone.
    unsafe {
        garboardle_write(
            nodes,
            rows.as_ptr(),
            rows.len(),
            area.as_mut_ptr(),
            area.len(),
        )
    }
}

// Safe, all that follow: each function asks nothing but an area of that many numbers, and borrows it for the call alone.

pub fn open(table: &mut Table, nodes: u16) -> EditAnswer {
    unsafe { garboardle_open(table, nodes) }
}

pub fn add(table: &mut Table, row: Row) -> EditAnswer {
    unsafe { garboardle_add(table, row) }
}

pub fn change(table: &mut Table, number: u16, row: Row) -> EditAnswer {
    unsafe { garboardle_change(table, number, row) }
}

pub fn remove(table: &mut Table, number: u16) -> EditAnswer {
    unsafe { garboardle_remove(table, number) }
}

pub fn row_count(table: &Table) -> u16 {
    unsafe { garboardle_row_count(table) }
}

pub fn row_of(table: &Table, number: u16) -> RowAnswer {
    unsafe { garboardle_row_of(table, number) }
}

pub fn link_load(table: &Table, link: u16) -> u16 {
    unsafe { garboardle_link_load(table, link) }
}

pub fn busiest(table: &Table) -> Link {
    unsafe { garboardle_busiest(table) }
}

pub fn most_looks_table(table: &Table) -> u32 {
    unsafe { garboardle_most_looks_table(table) }
}

pub fn plan_table(table: &Table, plan: &mut [u16], arrivals: &mut [u16]) -> Answer {
    // Safe: the slices overlap neither each other nor the table.
    unsafe {
        garboardle_plan_table(
            table,
            plan.as_mut_ptr(),
            plan.len(),
            arrivals.as_mut_ptr(),
            arrivals.len(),
        )
    }
}

// Safe, all that follow: each function asks nothing but slices that do not overlap, and borrows them for the call alone.

pub fn catalogue(catalogue: &[u8]) -> EditAnswer {
    unsafe { garboardle_catalogue(catalogue.as_ptr(), catalogue.len()) }
}

pub fn sentence(
    catalogue: &[u8],
    number: u16,
    row: u16,
    slot: u16,
    area: &mut [u8],
) -> SentenceAnswer {
    unsafe {
        garboardle_sentence(
            catalogue.as_ptr(),
            catalogue.len(),
            number,
            row,
            slot,
            area.as_mut_ptr(),
            area.len(),
        )
    }
}

pub fn label(catalogue: &[u8], field: u16, area: &mut [u8]) -> SentenceAnswer {
    unsafe {
        garboardle_label(
            catalogue.as_ptr(),
            catalogue.len(),
            field,
            area.as_mut_ptr(),
            area.len(),
        )
    }
}
