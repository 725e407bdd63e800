//! The readers that are timed. Each reads all chosen cells of a table, from the opening on, and gives their checksum.

use crate::tables::{add, add_double, add_place, Table};
use fitsrs::hdu::data::bintable::{ColumnId, DataValue};
use fitsrs::{parse_header, row_of, TableData};
use std::hint::black_box;
use std::io::Cursor;

/// A sum over a header, a data area and indexes of columns, each by pointer and length, with the heap on or off, in the
/// plain or the scaled reading.
pub type Sum = unsafe extern "C" fn(
    *const u8,
    usize,
    *const u8,
    usize,
    *const usize,
    usize,
    bool,
    bool,
) -> u64;

/// A header, a data area and the buffer that it is written to, each by pointer and length.
pub type Turn = unsafe extern "C" fn(*const u8, usize, *const u8, usize, *mut u8, usize) -> u64;

mod library {
    #[rustfmt::skip]
    extern "C" {
        pub fn coentrift_sum_cells(header: *const u8, header_len: usize, area: *const u8, area_len: usize, cols: *const usize, ncols: usize, heap: bool, scaled: bool) -> u64;
        pub fn coentrift_sum_lent(header: *const u8, header_len: usize, area: *const u8, area_len: usize, cols: *const usize, ncols: usize, heap: bool, scaled: bool) -> u64;
        pub fn coentrift_sum_rows(header: *const u8, header_len: usize, area: *const u8, area_len: usize, cols: *const usize, ncols: usize, heap: bool, scaled: bool) -> u64;
        pub fn coentrift_layout(header: *const u8, header_len: usize, area: *const u8, area_len: usize) -> u64;
        pub fn coentrift_turn(header: *const u8, header_len: usize, from: *const u8, from_len: usize, to: *mut u8, to_len: usize) -> u64;
        pub fn coentrift_turn_back(header: *const u8, header_len: usize, from: *const u8, from_len: usize, to: *mut u8, to_len: usize) -> u64;
        pub fn coentrift_page(header: *const u8, header_len: usize, area: *const u8, area_len: usize, column: usize, row: usize, edition: u64, page: *mut u8, page_len: usize) -> u64;
        pub fn snprintf_page(items: *const u8, count: usize, row: usize, decimals: i32, page: *mut u8) -> u64;
        pub fn cfitsio_sum(bytes: *mut u8, len: usize, cols: *const usize, ncols: usize, whole_columns: i32) -> u64;
        pub fn cfitsio_open(bytes: *mut u8, len: usize) -> u64;
        pub fn thread_time() -> u64;
    }
}

/// The longest row, in cells, that coentrift_sum_rows takes.
pub const LONGEST_ROW: usize = 512;

pub const CELL_READ: Sum = library::coentrift_sum_cells;
pub const LENT_CELL_READ: Sum = library::coentrift_sum_lent;
pub const ROW_READ: Sum = library::coentrift_sum_rows;
pub const TURN: Turn = library::coentrift_turn;
pub const TURN_BACK: Turn = library::coentrift_turn_back;

pub fn ours(sum: Sum, table: &Table, choice: &[usize]) -> u64 {
    ours_in(sum, table, choice, false)
}

/// All columns, each cell with its scaled value.
pub fn ours_scaled(sum: Sum, table: &Table) -> u64 {
    ours_in(sum, table, &table.all_columns(), true)
}

fn ours_in(sum: Sum, table: &Table, choice: &[usize], scaled: bool) -> u64 {
    let (header, area) = (&table.header, &table.area);
    unsafe {
        sum(
            header.as_ptr(),
            header.len(),
            area.as_ptr(),
            area.len(),
            choice.as_ptr(),
            choice.len(),
            true,
            scaled,
        )
    }
}

pub fn our_layout(table: &Table) -> u64 {
    let (header, area) = (&table.header, &table.area);
    unsafe { library::coentrift_layout(header.as_ptr(), header.len(), area.as_ptr(), area.len()) }
}

/// Gives the number of a refusal, or 0.
pub fn our_turn(turn: Turn, header: &[u8], from: &[u8], to: &mut [u8]) -> u64 {
    unsafe {
        turn(
            header.as_ptr(),
            header.len(),
            from.as_ptr(),
            from.len(),
            to.as_mut_ptr(),
            to.len(),
        )
    }
}

/// The page of a row of a table's only column; gives the number of its bytes, or that of a refusal above 32 bits of 0.
pub fn our_page(table: &Table, row: usize, edition: u64, page: &mut [u8]) -> u64 {
    let (header, area) = (&table.header, &table.area);
    unsafe {
        library::coentrift_page(
            header.as_ptr(),
            header.len(),
            area.as_ptr(),
            area.len(),
            0,
            row,
            edition,
            page.as_mut_ptr(),
            page.len(),
        )
    }
}

/// The same by snprintf, with a zero behind the lines; gives the number of lines that were not cut at 27 bytes.
pub fn snprintf_page(table: &Table, row: usize, decimals: i32, page: &mut [u8]) -> u64 {
    let items = table.row(row);
    let count = items.len() / 4;
    assert!(count * 27 < page.len(), "the page is too short");
    unsafe { library::snprintf_page(items.as_ptr(), count, row, decimals, page.as_mut_ptr()) }
}

fn index(column: &ColumnId) -> usize {
    match column {
        ColumnId::Index(column) => *column,
        ColumnId::Name(_) => unreachable!("the crate gives columns by index"),
    }
}

/// A sum with a cell: its place, then its value's bits.
fn add_cell(sum: u32, row: usize, value: &DataValue) -> u32 {
    let placed = |column: &ColumnId, idx: &usize| add_place(sum, row, index(column), *idx);
    match value {
        DataValue::Short { value, column, idx } => {
            add(placed(column, idx), u32::from(*value as u16))
        }
        DataValue::Integer { value, column, idx } => add(placed(column, idx), *value as u32),
        DataValue::Float { value, column, idx } => add(placed(column, idx), value.to_bits()),
        DataValue::Double { value, column, idx } => add_double(placed(column, idx), *value),
        _ => unreachable!("the tables have I, J, E and D"),
    }
}

/// The same with the scaled value, which the crate does not have: it is worked out here.
fn add_scaled(sum: u32, row: usize, value: &DataValue, scalings: &[(f64, f64)]) -> u32 {
    let (column, idx, stored) = match value {
        DataValue::Short { value, column, idx } => (index(column), *idx, f64::from(*value)),
        DataValue::Integer { value, column, idx } => (index(column), *idx, f64::from(*value)),
        DataValue::Float { value, column, idx } => (index(column), *idx, f64::from(*value)),
        _ => unreachable!("the scaled columns are I, J and E"),
    };
    let (factor, zero) = scalings[column];
    add_double(add_place(sum, row, column, idx), zero + factor * stored)
}

fn fitsrs_table<'a>(table: &'a Table, choice: &[usize]) -> TableData<Cursor<&'a [u8]>> {
    let header = parse_header(&table.header).expect("the header is well formed");
    let mut data = TableData::new(Cursor::new(table.area.as_slice()), &header, 0);
    if choice.len() < table.all_columns().len() {
        let ids: Vec<ColumnId> = choice.iter().map(|c| ColumnId::Index(*c)).collect();
        data.select_fields(&ids);
    }
    data
}

fn sum_next(table: &Table, choice: &[usize], add: impl Fn(u32, usize, &DataValue) -> u32) -> u64 {
    let mut values = fitsrs_table(table, choice);
    let mut sum = 0;
    loop {
        let row = row_of(&values);
        let Some(value) = values.next() else {
            return sum.into();
        };
        sum = add(sum, row, &value);
    }
}

fn sum_rows(table: &Table, choice: &[usize], add: impl Fn(u32, usize, &DataValue) -> u32) -> u64 {
    let rows = fitsrs_table(table, choice).row_iter().enumerate();
    rows.fold(0, |sum, (row, values)| {
        values.iter().fold(sum, |sum, value| add(sum, row, value))
    })
    .into()
}

pub fn fitsrs_next(table: &Table, choice: &[usize]) -> u64 {
    sum_next(table, choice, add_cell)
}

pub fn fitsrs_rows(table: &Table, choice: &[usize]) -> u64 {
    sum_rows(table, choice, add_cell)
}

/// All columns, each cell with its scaled value.
pub fn fitsrs_next_scaled(table: &Table) -> u64 {
    let scalings = table.scalings();
    sum_next(table, &table.all_columns(), |sum, row, value| {
        add_scaled(sum, row, value, &scalings)
    })
}

pub fn fitsrs_rows_scaled(table: &Table) -> u64 {
    let scalings = table.scalings();
    sum_rows(table, &table.all_columns(), |sum, row, value| {
        add_scaled(sum, row, value, &scalings)
    })
}

/// Every record and then the layout; gives the number of columns.
pub fn fitsrs_header(table: &Table) -> u64 {
    let header = parse_header(black_box(&table.header)).expect("the header is well formed");
    header.get_xtension().get_num_cols() as u64
}

/// cfitsio wants a file that it could write to.
pub fn cfitsio(file: &mut [u8], choice: &[usize], whole_columns: bool) -> u64 {
    let (bytes, len) = (file.as_mut_ptr(), file.len());
    unsafe {
        library::cfitsio_sum(
            bytes,
            len,
            choice.as_ptr(),
            choice.len(),
            whole_columns.into(),
        )
    }
}

/// Gives the number of rows.
pub fn cfitsio_open(file: &mut [u8]) -> u64 {
    unsafe { library::cfitsio_open(file.as_mut_ptr(), file.len()) }
}

/// The processor time that this thread has used, in nanoseconds.
pub fn thread_time() -> u64 {
    unsafe { library::thread_time() }
}
