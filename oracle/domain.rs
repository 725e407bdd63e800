//! Random tables of the domain that the Rust and the port share, read by the supplied Rust sources in
//! random steps. Each answer is compared with a plain list of the table's cells, which this program
//! makes from the bytes alone.
//!
//! `domain SEED TABLES ALLOW`: ALLOW is `none`, or a kind of seek that the domain leaves out and that
//! is to be made all the same, `between-heap-items` or `before-first-read`. The status is 0 if there
//! was no difference, 1 if there was one.

#[allow(dead_code)]
mod common;

use common::{
    descriptor, item_width, letter_and_bytes, number, place, Header, Kind, Random, LETTERS, TRUE,
};
use fitsrs::hdu::data::bintable::{ColumnId, DataValue};
use fitsrs::{parse_header, row_of, set_heap, TableData};
use std::io::Cursor;
use std::ops::Range;
use std::panic::{catch_unwind, AssertUnwindSafe};

#[derive(Clone, Copy)]
struct Column {
    kind: Kind,
    letter: char,
    count: usize,
    start: usize,
}

impl Column {
    fn random(random: &mut Random, start: usize) -> Column {
        let letter = char::from(LETTERS[random.below(LETTERS.len())]);
        let (kind, count) = match random.below(4) {
            0 => (Kind::P, 1),
            1 => (Kind::Q, 1),
            _ => (Kind::Field, 1 + random.below(3)),
        };
        Column {
            kind,
            letter,
            count,
            start,
        }
    }

    fn width(&self) -> usize {
        match self.kind {
            Kind::Field => self.count * item_width(self.letter),
            Kind::P => 8,
            Kind::Q => 16,
        }
    }

    fn form(&self) -> String {
        match self.kind {
            Kind::Field => format!("{}{}", self.count, self.letter),
            Kind::P => format!("1P{}", self.letter),
            Kind::Q => format!("1Q{}", self.letter),
        }
    }
}

struct Table {
    columns: Vec<Column>,
    row_width: usize,
    rows: usize,
    theap: usize,
    heap_len: usize,
    /// The main table, a gap, and the heap.
    data: Vec<u8>,
}

impl Table {
    fn random(random: &mut Random) -> Table {
        let mut columns: Vec<Column> = vec![];
        let mut row_width = 0;
        for _ in 0..1 + random.below(5) {
            let column = Column::random(random, row_width);
            row_width += column.width();
            columns.push(column);
        }
        let rows = 1 + random.below(4);
        let theap = rows * row_width + random.below(5);
        let heap_len = 48 + random.below(20);
        let data = (0..theap + heap_len).map(|_| random.byte()).collect();
        let mut table = Table {
            columns,
            row_width,
            rows,
            theap,
            heap_len,
            data,
        };
        table.make_sound(random);
        table
    }

    /// Keeps the table in the domain: every logical is T, and every array lies in the heap and has an
    /// item. The heap is all T if a logical column points into it, since arrays may overlap.
    fn make_sound(&mut self, random: &mut Random) {
        let columns = self.columns.clone();
        let logical_array = |c: &Column| c.kind != Kind::Field && c.letter == 'L';
        if columns.iter().any(logical_array) {
            self.data[self.rows * self.row_width..].fill(TRUE);
        }
        for row in 0..self.rows {
            for column in &columns {
                let field = self.field(row, column);
                if column.kind != Kind::Field {
                    let count = 1 + random.below(3);
                    let room = self.heap_len - count * item_width(column.letter);
                    let descriptor = descriptor(column.kind, count, random.below(room + 1));
                    self.data[field].copy_from_slice(&descriptor);
                } else if column.letter == 'L' {
                    self.data[field].fill(TRUE);
                }
            }
        }
    }

    fn field(&self, row: usize, column: &Column) -> Range<usize> {
        let start = row * self.row_width + column.start;
        start..start + column.width()
    }

    fn header(&self) -> Header {
        Header {
            naxis1: self.row_width,
            naxis2: self.rows,
            pcount: self.data.len() - self.rows * self.row_width,
            theap: Some(self.theap),
            forms: self.columns.iter().map(Column::form).collect(),
            names: vec![],
        }
    }
}

/// What a reader is asked for: columns, or all of them, and arrays or descriptors.
struct Choice {
    /// As given to the crate: in any order, and now and then with an index that no column has.
    given: Option<Vec<usize>>,
    /// The chosen columns in order.
    columns: Vec<usize>,
    heap: bool,
}

impl Choice {
    fn random(random: &mut Random, fields: usize) -> Choice {
        let mut columns: Vec<usize> = (0..fields).collect();
        let mut given = None;
        if random.below(2) == 1 {
            let mut list = columns;
            for last in (1..fields).rev() {
                list.swap(last, random.below(last + 1));
            }
            list.truncate(1 + random.below(fields));
            columns = list.clone();
            columns.sort_unstable();
            if random.below(3) == 0 {
                let at = random.below(list.len() + 1);
                list.insert(at, fields + random.below(9));
            }
            given = Some(list);
        }
        let heap = random.below(2) == 1;
        Choice {
            given,
            columns,
            heap,
        }
    }
}

/// A cell as the plain list has it.
#[derive(Debug)]
struct Cell {
    column: usize,
    idx: usize,
    letter: char,
    bytes: Vec<u8>,
    /// Whether the cell before it is of the same array in the heap.
    inside_array: bool,
}

impl Table {
    /// The cells of a row, in order.
    fn cells(&self, row: usize, choice: &Choice) -> Vec<Cell> {
        let columns = choice.columns.iter();
        columns
            .flat_map(|&index| self.cells_of_field(row, index, choice.heap))
            .collect()
    }

    fn cells_of_field(&self, row: usize, index: usize, heap: bool) -> Vec<Cell> {
        let column = &self.columns[index];
        let field = self.field(row, column);
        let array = column.kind != Kind::Field;
        if array && !heap {
            return vec![Cell {
                column: index,
                idx: 0,
                letter: if column.kind == Kind::P { 'P' } else { 'Q' },
                bytes: self.data[field].to_vec(),
                inside_array: false,
            }];
        }
        let (count, start) = if array {
            let (count, offset) = self.data[field].split_at(column.width() / 2);
            (number(count), self.theap + number(offset))
        } else {
            (column.count, field.start)
        };
        let width = item_width(column.letter);
        let cell = |idx| Cell {
            column: index,
            idx,
            letter: column.letter,
            bytes: self.data[start + idx * width..start + (idx + 1) * width].to_vec(),
            inside_array: array && idx > 0,
        };
        (0..count).map(cell).collect()
    }
}

/// Nothing if the value is the cell, else what differs. A descriptor has no place in the crate.
fn compare(value: &DataValue, cell: &Cell) -> Result<(), String> {
    let (letter, bytes) = letter_and_bytes(value);
    let same_place = match place(value) {
        Some(place) => place == (cell.column, cell.idx),
        None => true,
    };
    if letter == cell.letter && bytes == cell.bytes && same_place {
        Ok(())
    } else {
        Err(format!("{value:?} in place of {cell:?}"))
    }
}

/// The kinds of seeks that the domain leaves out.
#[derive(Clone, Copy, PartialEq)]
enum Allow {
    None,
    BetweenHeapItems,
    BeforeFirstRead,
}

#[derive(Default)]
struct Totals {
    steps: u64,
    cells: u64,
}

type Open<'a> = TableData<&'a mut Cursor<Vec<u8>>>;

/// The crate at one table, and the place in the plain list where it should be.
struct Walk<'a> {
    plain: &'a [Vec<Cell>],
    row: usize,
    passed: usize,
    /// Whether the jump to the first chosen column, which the first read makes, is still to come.
    jump_pending: bool,
    totals: &'a mut Totals,
}

impl Walk<'_> {
    /// Row reads from the start of the table.
    fn row_reads<'t>(&mut self, table: Open<'t>, reads: usize) -> Result<Open<'t>, String> {
        let mut rows = table.row_iter();
        for _ in 0..reads {
            self.totals.steps += 1;
            self.jump_pending = false;
            match (rows.next(), self.plain.get(self.row)) {
                (None, None) => {}
                (Some(values), Some(cells)) if values.len() == cells.len() => {
                    for (value, cell) in values.iter().zip(cells) {
                        compare(value, cell)?;
                    }
                    self.totals.cells += cells.len() as u64;
                    self.row += 1;
                }
                (values, _) => return Err(format!("row {}: {values:?}", self.row)),
            }
        }
        Ok(rows.table_data())
    }

    fn seek(&mut self, table: &mut Open, to: usize) -> Result<(), String> {
        self.totals.steps += 1;
        let done = table.seek_to_row(to).is_ok();
        if done != (to < self.plain.len()) {
            return Err(format!("seek to row {to} answers {done}"));
        }
        if done {
            self.row = to;
            self.passed = 0;
        }
        Ok(())
    }

    fn cell_read(&mut self, table: &mut Open) -> Result<(), String> {
        self.totals.steps += 1;
        self.jump_pending = false;
        let at = row_of(table);
        let cells = match (table.next(), self.plain.get(self.row)) {
            (None, None) => return Ok(()),
            (Some(value), Some(cells)) if at == self.row => {
                compare(&value, &cells[self.passed])?;
                cells
            }
            (value, _) => return Err(format!("{value:?} of row {at}, not {}", self.row)),
        };
        self.totals.cells += 1;
        self.passed += 1;
        if self.passed == cells.len() {
            self.row += 1;
            self.passed = 0;
        }
        Ok(())
    }

    fn may_seek(&self, allow: Allow) -> bool {
        let next = self.plain.get(self.row).map(|cells| &cells[self.passed]);
        let inside_array = next.is_some_and(|cell| cell.inside_array);
        (!inside_array || allow == Allow::BetweenHeapItems)
            && (!self.jump_pending || allow == Allow::BeforeFirstRead)
    }
}

impl Choice {
    fn open<'t>(&self, reader: &'t mut Cursor<Vec<u8>>, table: &Table) -> Open<'t> {
        let header = table.header().bytes();
        let start = header.len() as u64;
        let parsed = parse_header(&header).expect("a good header");
        reader.set_position(start);
        let mut open = TableData::new(reader, &parsed, start);
        set_heap(&mut open, self.heap);
        if let Some(given) = &self.given {
            let ids: Vec<ColumnId> = given.iter().map(|index| ColumnId::Index(*index)).collect();
            open.select_fields(&ids);
        }
        open
    }
}

/// One random table, read in random steps; an error is the first difference.
fn try_table(random: &mut Random, allow: Allow, totals: &mut Totals) -> Result<(), String> {
    let table = Table::random(random);
    let choice = Choice::random(random, table.columns.len());
    let plain: Vec<Vec<Cell>> = (0..table.rows)
        .map(|row| table.cells(row, &choice))
        .collect();
    let mut file = table.header().bytes();
    file.extend(&table.data);
    // Bytes after the table, which belong to no cell.
    for _ in 0..random.below(100) {
        file.push(random.byte());
    }
    let mut reader = Cursor::new(file);
    let mut walk = Walk {
        plain: &plain,
        row: 0,
        passed: 0,
        jump_pending: choice.given.is_some() && table.columns[choice.columns[0]].start > 0,
        totals,
    };
    let row_reads = random.below(4) * random.below(2);
    let mut open = walk.row_reads(choice.open(&mut reader, &table), row_reads)?;
    for _ in 0..random.below(40) {
        if random.below(6) == 0 && walk.may_seek(allow) {
            walk.seek(&mut open, random.below(table.rows + 2))?;
        } else {
            walk.cell_read(&mut open)?;
        }
    }
    Ok(())
}

fn arguments() -> Option<(u64, u64, Allow)> {
    let mut words = std::env::args().skip(1);
    let seed = words.next()?.parse().ok().filter(|seed| *seed != 0)?;
    let tables = words.next()?.parse().ok()?;
    let allow = match words.next()?.as_str() {
        "none" => Allow::None,
        "between-heap-items" => Allow::BetweenHeapItems,
        "before-first-read" => Allow::BeforeFirstRead,
        _ => return None,
    };
    Some((seed, tables, allow))
}

fn main() {
    let Some((seed, tables, allow)) = arguments() else {
        eprintln!("domain SEED TABLES none|between-heap-items|before-first-read; no seed 0");
        std::process::exit(2);
    };
    // A panic of the crate is a difference, so it is not to be reported as well.
    std::panic::set_hook(Box::new(|_| {}));
    let mut random = Random::new(seed);
    let mut totals = Totals::default();
    let mut differences = 0;
    for table in 0..tables {
        let tried = catch_unwind(AssertUnwindSafe(|| {
            try_table(&mut random, allow, &mut totals)
        }));
        if let Err(text) = tried.unwrap_or_else(|_| Err("a panic".to_string())) {
            differences += 1;
            if differences == 1 {
                println!("first difference, in table {table}: {text}");
            }
        }
    }
    println!(
        "{tables} tables, {} steps, {} cells, {differences} differences",
        totals.steps, totals.cells
    );
    std::process::exit(i32::from(differences > 0));
}
