//! The Rust at one table: the answers to random steps of the domain, and the text that `replay` must print if
//! the port gives the same. Values, columns, indexes and rows are the Rust's; what it has no number for is
//! counted from its answers.

use crate::common::{letter_and_bytes, place, Kind, Random};
use crate::generate::Table;
use fitsrs::hdu::data::bintable::{ColumnId, DataValue};
use fitsrs::{column_of, layout_of, parse_header, row_of, set_heap, TableData};
use std::fmt::{Debug, Formatter};
use std::io::{Cursor, Read, Result, Seek, SeekFrom};

/// A file in memory, which shows none of its bytes: `column_of` has the whole table shown.
pub struct Reader<'a>(pub Cursor<&'a [u8]>);

impl Debug for Reader<'_> {
    fn fmt(&self, f: &mut Formatter<'_>) -> std::fmt::Result {
        f.write_str("Reader")
    }
}

impl Read for Reader<'_> {
    fn read(&mut self, buffer: &mut [u8]) -> Result<usize> {
        self.0.read(buffer)
    }
}

impl Seek for Reader<'_> {
    fn seek(&mut self, to: SeekFrom) -> Result<u64> {
        self.0.seek(to)
    }
}

pub type Open<'a> = TableData<Reader<'a>>;

/// The Rust's table over a whole file, at its first data byte.
pub fn open<'a>(file: &'a [u8], header: usize, given: Option<&[usize]>, heap: bool) -> Open<'a> {
    let parsed = parse_header(&file[..header]).expect("a good header");
    let mut bytes = Cursor::new(file);
    bytes.set_position(header as u64);
    let mut open = TableData::new(Reader(bytes), &parsed, header as u64);
    set_heap(&mut open, heap);
    if let Some(given) = given {
        let ids: Vec<ColumnId> = given.iter().map(|index| ColumnId::Index(*index)).collect();
        open.select_fields(&ids);
    }
    open
}

#[derive(Clone)]
pub struct Cell {
    pub row: usize,
    pub column: usize,
    pub idx: usize,
    pub letter: char,
    pub bytes: Vec<u8>,
}

impl Cell {
    /// The Rust gives no place with a descriptor: its column is the one that the Rust was at, its index 0.
    fn new(row: usize, column: Option<usize>, value: &DataValue) -> Cell {
        let (letter, bytes) = letter_and_bytes(value);
        let (column, idx) = match (place(value), column) {
            (Some(place), _) => place,
            (None, Some(column)) => (column, 0),
            (None, None) => unreachable!("a descriptor with the heap on"),
        };
        Cell {
            row,
            column,
            idx,
            letter,
            bytes,
        }
    }

    pub fn line(&self) -> String {
        let value = text(self.letter, &self.bytes);
        format!("cell {} {} {} {value}\n", self.row, self.column, self.idx)
    }
}

/// A name as the port hands it back: a quote is doubled in the header, and stays so.
pub fn doubled(name: &Option<String>) -> String {
    name.as_deref().unwrap_or_default().replace('\'', "''")
}

/// What `cells` prints of a table with all columns and the heap on, if it answers as the Rust does; cells past
/// the first so many are left out.
pub fn listing(mut open: Open, shown: usize) -> String {
    let layout = layout_of(&open);
    let fields = layout.columns.len();
    let mut text = format!(
        "table {fields} columns {} rows {} bytes\n",
        layout.naxis2, layout.naxis1
    );
    for (index, column) in layout.columns.iter().enumerate() {
        let name = doubled(&column.name);
        let name = if name.is_empty() { "-" } else { &name };
        let start = open.col_byte_offsets[index];
        text.push_str(&format!(
            "column {index} {} {} at {start} {name}\n",
            column.letter, column.count
        ));
    }
    for count in 0.. {
        let row = row_of(&open);
        match open.next() {
            Some(value) if count < shown => text.push_str(&Cell::new(row, None, &value).line()),
            Some(_) => {}
            None => {
                text.push_str(&format!("end {count}\n"));
                break;
            }
        }
    }
    text
}

fn hexadecimal(bytes: &[u8]) -> String {
    bytes.iter().map(|byte| format!("{byte:02x}")).collect()
}

/// A value as docs/FORMAT.md, section 16, has it.
fn text(letter: char, bytes: &[u8]) -> String {
    let signed = || {
        bytes
            .iter()
            .skip(1)
            .fold(i64::from(bytes[0] as i8), |n, byte| {
                n << 8 | i64::from(*byte)
            })
    };
    let unsigned = |part: &[u8]| {
        part.iter()
            .fold(0u64, |n, byte| n << 8 | u64::from(*byte))
            .to_string()
    };
    let (first, second) = bytes.split_at(bytes.len() / 2);
    match letter {
        'L' => char::from(bytes[0]).to_string(),
        'B' | 'A' | 'X' => bytes[0].to_string(),
        'I' | 'J' | 'K' => signed().to_string(),
        'E' | 'D' => hexadecimal(bytes),
        'C' | 'M' => format!("{} {}", hexadecimal(first), hexadecimal(second)),
        _ => format!("{} {}", unsigned(first), unsigned(second)),
    }
}

#[derive(Clone)]
pub enum Answer {
    Cell(Cell),
    Row(Vec<Cell>),
    Seek(usize),
    NoSuchRow(usize),
    End,
}

/// An answer and where the reader is after it.
#[derive(Clone)]
pub struct Told {
    pub answer: Answer,
    pub row: usize,
    pub passed: usize,
    pub count: u64,
}

impl Told {
    fn lines(&self) -> String {
        let answer = match &self.answer {
            Answer::Cell(cell) => cell.line(),
            Answer::Row(cells) => {
                let lines: String = cells.iter().map(Cell::line).collect();
                format!("row {}\n{lines}", cells.len())
            }
            Answer::Seek(row) => format!("seek {row}\n"),
            Answer::NoSuchRow(row) => format!("refused 12 {row}\n"),
            Answer::End => "end\n".to_string(),
        };
        format!("{answer}at {} {} {}\n", self.row, self.passed, self.count)
    }
}

/// What `replay` must print.
pub fn expected(told: &[Told]) -> String {
    told.iter().map(Told::lines).collect()
}

/// What `replay` reads of a file of steps.
const STEPS: usize = 65_536;

/// How many steps of each kind are made at most, and of how many cells a row may be to be read as one.
#[derive(Clone, Copy)]
pub struct Lengths {
    pub row_reads: usize,
    pub steps: usize,
    pub row_cells: usize,
}

/// The steps as `replay` reads them, and the Rust's answers.
pub struct Replayed {
    pub steps: String,
    pub told: Vec<Told>,
}

/// The table that is read, and what its answers so far tell.
struct Walk<'a> {
    table: &'a Table,
    steps: String,
    told: Vec<Told>,
    passed: usize,
    count: u64,
}

impl<'a> Walk<'a> {
    fn tell(&mut self, step: String, answer: Answer, row: usize) {
        self.steps.push_str(&step);
        self.told.push(Told {
            answer,
            row,
            passed: self.passed,
            count: self.count,
        });
    }

    /// The column that a descriptor is of; with the heap on there are none.
    fn column(&self, open: &Open) -> Option<usize> {
        (!self.table.choice.heap).then(|| column_of(open))
    }

    /// Row reads from a new reader, into lists that are long enough.
    fn row_reads(&mut self, open: Open<'a>, random: &mut Random, lengths: &Lengths) -> Open<'a> {
        let mut rows = open.row_iter();
        let reads = random.below(2) * random.below(lengths.row_reads + 1);
        for _ in 0..reads {
            let row = rows.get_row_idx();
            if row < self.table.rows && self.row_cells(row) > lengths.row_cells {
                break;
            }
            let cells = rows.next().map(|values| self.row_of_cells(row, &values));
            let (least, answer) = match cells {
                Some(cells) => {
                    self.count += cells.len() as u64;
                    (cells.len(), Answer::Row(cells))
                }
                None => (0, Answer::End),
            };
            let list = if random.below(3) == 0 {
                least
            } else {
                least + random.below(513 - least)
            };
            self.tell(format!("row {list}\n"), answer, rows.get_row_idx());
        }
        rows.table_data()
    }

    /// The length of a row, by the table's own bytes.
    fn row_cells(&self, row: usize) -> usize {
        let choice = &self.table.choice;
        let cells = |column: &usize| match self.table.columns[*column].kind {
            Kind::Field => self.table.columns[*column].count,
            _ if choice.heap => self.table.array_count(row, *column),
            _ => 1,
        };
        choice.columns.iter().map(cells).sum()
    }

    /// With the heap off the descriptors of a row are of the columns in their order.
    fn row_of_cells(&self, row: usize, values: &[DataValue]) -> Vec<Cell> {
        let table = self.table;
        let arrays = table
            .choice
            .columns
            .iter()
            .filter(|c| table.columns[**c].kind != Kind::Field);
        let mut arrays = arrays.copied();
        let cell = |value: &DataValue| {
            let column = if place(value).is_none() {
                arrays.next()
            } else {
                None
            };
            Cell::new(row, column, value)
        };
        values.iter().map(cell).collect()
    }

    fn seek(&mut self, open: &mut Open, to: usize) {
        let answer = match open.seek_to_row(to) {
            Ok(()) => {
                self.passed = 0;
                Answer::Seek(to)
            }
            Err(_) => Answer::NoSuchRow(to),
        };
        self.tell(format!("seek {to}\n"), answer, row_of(open));
    }

    fn cell_read(&mut self, open: &mut Open) {
        let row = row_of(open);
        let column = self.column(open);
        let answer = match open.next() {
            Some(value) => {
                self.count += 1;
                self.passed = if row_of(open) == row {
                    self.passed + 1
                } else {
                    0
                };
                Answer::Cell(Cell::new(row, column, &value))
            }
            None => Answer::End,
        };
        self.tell("cell\n".to_string(), answer, row_of(open));
    }

    /// The domain has no seek between the items of an array, and none before the first read of a given choice
    /// that starts past byte 0.
    fn may_seek(&self) -> bool {
        let choice = &self.table.choice;
        let reads = |told: &&Told| !matches!(told.answer, Answer::Seek(_) | Answer::NoSuchRow(_));
        match self.told.last().map(|told| &told.answer) {
            Some(Answer::Cell(cell)) if choice.heap => {
                self.table.columns[cell.column].kind == Kind::Field
                    || cell.idx + 1 == self.table.array_count(cell.row, cell.column)
            }
            _ => {
                choice.given.is_none()
                    || self.table.columns[choice.columns[0]].start == 0
                    || self.told.iter().any(|told| reads(&told))
            }
        }
    }
}

/// The lines of the choice and of the heap; what is so without them may be left out.
fn settings(random: &mut Random, table: &Table) -> String {
    let choose = match &table.choice.given {
        Some(given) => {
            let indexes: Vec<String> = given.iter().map(usize::to_string).collect();
            format!("choose {}\n", indexes.join(" "))
        }
        None => ["", "choose all\n"][random.below(2)].to_string(),
    };
    let heap = match table.choice.heap {
        true => ["", "heap on\n"][random.below(2)],
        false => "heap off\n",
    };
    choose + heap
}

fn seek_target(random: &mut Random, rows: usize) -> usize {
    match random.below(12) {
        0 => rows,
        1 => rows + 1 + random.below(1000),
        2 => usize::MAX - random.below(3),
        _ => random.below(rows),
    }
}

/// The Rust reads a table in random steps of the domain.
pub fn replay(random: &mut Random, table: &Table, file: &[u8], lengths: &Lengths) -> Replayed {
    let choice = &table.choice;
    let steps = settings(random, table);
    let mut walk = Walk {
        table,
        steps,
        told: vec![],
        passed: 0,
        count: 0,
    };
    let open = open(
        file,
        table.header.len(),
        choice.given.as_deref(),
        choice.heap,
    );
    let mut open = walk.row_reads(open, random, lengths);
    let often = 3 + random.below(40);
    for _ in 0..random.below(lengths.steps + 1) {
        let ended = walk
            .told
            .last()
            .is_some_and(|told| matches!(told.answer, Answer::End));
        let one_in = if ended { 2 } else { often };
        if random.below(one_in) == 0 && walk.may_seek() {
            walk.seek(&mut open, seek_target(random, table.rows));
        } else {
            walk.cell_read(&mut open);
        }
    }
    assert!(walk.steps.len() <= STEPS, "more steps than `replay` reads");
    Replayed {
        steps: walk.steps,
        told: walk.told,
    }
}
