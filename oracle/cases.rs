//! The cases of docs/DIFFERENCES.md, "Cells, choices and seeks", run on the supplied Rust sources. One
//! line a case: its number, the columns, the data, the steps, and after `=>` what the Rust answers.
//!
//! A number is the section's part and the row of that part's table, with a letter where a row has more
//! than one case; `n` stands for the remarks below the table. The data is NAXIS1 x NAXIS2 and the bytes
//! in hexadecimal. PCOUNT is the number of bytes after `heap`; `pad` fills the last block with zeros.
//! A value is written with its row, column and index; the row is the one that the Rust is at.

#[allow(dead_code)]
mod common;

use common::{place, Header, BLOCK};
use fitsrs::hdu::data::bintable::{ColumnId, DataValue};
use fitsrs::{parse_header, row_of, set_heap, TableData};
use std::fs;
use std::io::{Cursor, Error, Read, Result, Seek, SeekFrom};
use std::panic::{catch_unwind, AssertUnwindSafe};
use std::path::{Path, PathBuf};
use std::process::Command;
use std::sync::atomic::{AtomicUsize, Ordering};

/// Steps: `next N` cell reads, `all` cell reads up to None, `debug` one cell read shown as it is,
/// `row` one row read, `rows` row reads up to None by a new row iterator, `seek ROW`, `heap off`, and
/// `pick`, which is select_fields, with indices or `=NAME`.
const CASES: &str = "
# Values
1.1 | 1L | 1x1 46 | all
1.2 | 1L | 1x1 00 | all
1.3 | 1L | 1x1 01 | all
1.4 | 1PL | 8x1 00000003 00000000 heap 46 00 01 | all
1.5a | 8X | 1x2 01 02 | all
1.5b | 8X | 1x2 01 02 | rows
1.6a | 8X | 1x1 01 | all
1.6b | 8X | 1x1 01 | rows
1.7 | 8X 1B | 2x2 01 02 03 04 | all
1.8 | 8X 1B | 2x1 01 02 heap 0B 0C 0D 0E | all
1.9 | 0X 1B | 1x2 01 02 | all
1.10 | 16X | 2x2 01 02 03 04 | debug; debug; debug
1.11 | 1A | 1x1 FF | all
1.12a | 1E | 4x1 7F800001 | all
1.12b | 1D | 8x1 7FF0000000000001 | all
1.12c | 1C | 8x1 7F800001 FF800002 | all
1.12d | 1M | 16x1 7FF0000000000001 FFF0000000000002 | all
1.13 | 1I | 2x1 0001 | debug
1.14a | 1PI | 8x1 00000002 00000000 heap 0001 0002 | heap off; debug
1.14b | 1QI | 16x1 0000000000000002 FFFFFFFFFFFFFFFF heap 0001 0002 | heap off; debug
1.n | 1B 1I 1J 1K | 15x1 FF 8000 80000000 8000000000000000 | all

# Arrays of the heap
2.1 | 1PI | 8x1 00000002 00000000 heap 0001 0002 | all
2.2a | 1PI | 8x1 00000000 00000000 heap 0001 0002 | all; next 2
2.2b | 1PI | 8x1 00000000 00000000 heap 0001 0002 pad | all; next 2
2.2c | 1PI | 8x1 00000000 00000000 heap 0001 0002 | rows
2.2d | 1PI 1B | 9x1 00000000 00000000 09 heap 0001 0002 | all; next 2
2.2e | 1PI | 8x2 00000000 00000000 00000001 00000000 heap 0005 | all; next 2
2.3 | 1PB 1B | 9x1 00000000 EE6B2800 15 heap 01 pad | all; next 2
2.4a | 1PI | 8x1 00000003 00000000 heap 0001 0002 pad | all
2.4b | 1PI 1B | 9x2 00000003 00000000 15 00000001 00000000 16 heap 0001 0002 pad | all
2.5a | 1PI | 8x1 00000003 00000000 heap 0001 0002 | all; next 2
2.5b | 1PI 1B | 9x2 00000003 00000000 15 00000001 00000000 16 heap 0001 0002 | all; next 2
2.5c | 1I 1PI | 10x1 0009 00000003 00000000 heap 0001 0002 | rows
2.6 | 1PI | 8x2 00000003 00000000 00000001 00000000 heap 0005 | all; seek 1; next 3
2.7 | 1PB | 8x1 00000001 FFFFFFFF heap 07 | all
2.8 | 1PB | 8x1 FFFFFFFF 00000000 heap 07 | all
2.9a | 1QB | 16x1 0000000000000002 FFFFFFFFFFFFFFF0 heap 07 | all
2.9b | 1QB | 16x1 0000000000000002 FFFFFFFFFFFFFFF7 heap 07 | all
2.9c | 1QB | 16x1 0000000000000002 FFFFFFFFFFFFF4B0 heap 07 | all
2.10 | 1QB | 16x2 0000000000000001 8000000000000000 0000000000000001 0000000000000000 heap 07 | next 4
2.11 | 1QB | 16x2 0000000000000001 7FFFFFFFFFFFFFFF 0000000000000001 0000000000000000 heap 07 | next 4
2.12 | 1QK | 16x1 2000000000000000 0000000000000000 heap 0000000000000007 0000000000000008 | all
2.13 | 1QK | 16x1 2000000000000001 0000000000000000 heap 0000000000000007 0000000000000008 | all
2.14a | 1PX | 8x1 00000009 00000000 heap 01 02 pad | all
2.14b | 1QX | 16x1 0000000000000002 0000000000000000 heap 01 pad | all
2.na | 0PE | 8x1 00000001 00000000 heap 00000001 | all
2.nb | 2PE | 8x1 00000001 00000000 heap 00000001 | all
2.nc | 1PB | 8x1 00000001 00000000 heap 01 02 03 theap=10 | all

# Counts of 0 and empty tables
3.1a | 0E 1J | 4x2 00000001 00000002 | all
3.1b | 0E 1J | 4x2 00000001 00000002 | rows
3.2a | 1J 0E | 4x3 00000001 00000002 00000003 | all
3.2b | 1J 0E | 4x2 00000001 00000002 | all
3.2c | 1J 0E | 4x2 00000001 00000002 | rows
3.3 | 0E 1I | 2x3 0001 0002 0003 pad | all
3.4a | 0E | 0x3 | all
3.4b | 0E | 0x3 | rows
3.5a | 1I 1I | 4x0 heap 0001 0002 0003 0004 | pick 1; all
3.5b | 1I 1I | 4x0 heap 0001 0002 0003 0004 | pick 1; rows
3.6a | - | 0x3 | all
3.6b | - | 0x3 | rows
3.6c | - | 0x3 | seek 0
3.6d | - | 0x0 | all
3.6e | - | 0x0 | seek 0
3.na | 0E 1J | 4x2 00000001 00000002 | pick 1; all
3.nb | 1I 1J | 6x0 | all

# Choices
4.1a | 1I 1J | 6x2 0001 0000000A 0002 00000014 | pick 9; next 1
4.1b | 1I 1J | 6x2 0001 0000000A 0002 00000014 | pick 9; row
4.1c | 1I 1J | 6x2 0001 0000000A 0002 00000014 | pick 9; seek 0
4.1d | 1I 1J | 6x2 0001 0000000A 0002 00000014 | pick; next 1
4.1e | 1I 1J | 6x2 0001 0000000A 0002 00000014 | pick; row
4.1f | 1I 1J | 6x2 0001 0000000A 0002 00000014 | pick; seek 0
4.2 | 1I 1J | 6x2 0001 0000000A 0002 00000014 | pick 1 9; all
4.3a | 1I 1J | 6x2 0001 0000000A 0002 00000014 | pick 0 0; all
4.3b | 1I 1J | 6x2 0001 0000000A 0002 00000014 | pick 0 0; rows
4.4 | 1I 1J | 6x2 0001 0000000A 0002 00000014 | pick 0 0 1; all
4.5 | 1I 1J | 6x1 0001 0000000A pad | pick 1 1; all
4.6a | 1I=POS 1J=WT | 6x2 0001 0000000A 0002 00000014 | pick =WT; all
4.6b | 1I=POS 1J=WT | 6x2 0001 0000000A 0002 00000014 | pick =wt 0; all
4.6c | 1I=A 1J=A | 6x2 0001 0000000A 0002 00000014 | pick =A; all
4.7 | 1I 1J | 6x2 0001 0000000A 0002 00000014 | next 1; pick 0; next 1
4.8 | 1I 1J | 6x2 0001 0000000A 0002 00000014 | next 1; pick 0 1; all
4.9a | 1I 1J | 6x2 0001 0000000A 0002 00000014 | pick 1; next 1; pick 0; all
4.9b | 1I 1J | 6x2 0001 0000000A 0002 01020304 | pick 1; next 1; pick 0; all
4.10 | 1I 1J | 6x2 0001 0000000A 0002 00000014 pad | all; pick 0 1; next 4
4.11 | 1I 1PB | 10x1 0009 00000003 00000000 heap 0B 0C 0D 0E 0F 10 | next 2; pick 0 1; all
4.na | 1I 1J | 6x2 0001 0000000A 0002 00000014 | pick 1 0; all
4.nb | 1I 1J | 6x2 0001 0000000A 0002 00000014 | pick 1; pick 0; all
4.nc | 1I 1J | 6x2 0001 0000000A 0002 00000014 | next 2; pick 1; all

# Seeks and the end
5.1 | 1I 1I 1I | 6x2 0001 0002 0003 0004 0005 0006 | pick 1; seek 0; next 1
5.2a | 1I 1J | 6x2 0001 0000000A 0002 00000014 | pick 1; seek 1; next 1
5.2b | 1I 1J | 6x2 0001 0000000A 0002 00000014 pad | pick 1; seek 1; next 1
5.3a | 1PB | 8x2 00000003 00000000 00000001 00000003 heap 0B 0C 0D 0E | next 1; seek 0; all
5.3b | 1PB 2B | 10x2 00000003 00000000 1516 00000001 00000003 1718 heap 0B 0C 0D 0E | next 1; seek 0; all
5.4 | 1PB | 8x2 00000003 00000000 00000001 00000003 heap 0B 0C 0D 0E | next 1; seek 1; all
5.5a | 1I 1J | 6x2 0001 0000000A 0002 00000014 | next 1; seek 2; all
5.5b | 1I 1J | 6x2 0001 0000000A 0002 00000014 | next 1; seek 18446744073709551615; all
5.6 | 1I 1J | 6x2 0001 0000000A 0002 000000 | all; seek 0; next 3
5.7 | 1I 1J | 6x2 0001 0000000A 0002 00000014 badseek=1 | seek 1; next 4
5.8a | 1I 1J | 6x2 0001 0000000A 0002 00000014 badread=2 | next 6
5.8b | 1I 1J | 6x2 0001 0000000A 0002 00000014 badseek=1 | next 6
5.8c | 1I 1J | 6x2 0001 0000000A 0002 00000014 badseek=2 | next 6
5.na | 1I 1J | 6x2 0001 0000000A 0002 00000014 | all; seek 1; all; seek 0; all
5.nb | 3B | 3x2 01 02 03 04 05 06 | next 2; seek 0; all
5.nc | 1I 1J | 6x2 0001 0000000A 0002 00000014 | seek 1; all
5.nd | 1I 1J | 6x2 0001 0000000A 0002 00000014 | pick 0; seek 1; all
5.ne | 1I 1J | 6x2 0001 0000000A 0002 00000014 | all; next 2

# Rows and counts
6.1 | 1I 1J | 6x2 0001 0000000A 0002 00000014 | rows
6.2 | 1I 1J | 6x2 0001 0000000A 0002 00000014 | next 2; rows
6.3 | 1I 1J | 6x2 0001 0000000A 0002 00000014 | seek 1; rows
6.4 | 1I 1J | 6x2 0001 0000000A 0002 00000014 | all; rows
6.5 | 1I 1J | 6x2 0001 0000000A 0002 00000014 | row; seek 1; rows
6.6 | 1I 1J | 6x2 0001 0000000A 0002 000000 | rows
6.7a | 1I 1PI | 10x1 0009 00000003 00000000 heap 0005 | rows
6.7b | 1I 1PI | 10x1 0009 00000003 00000000 heap 0005 pad | rows
6.8 | 1I 2J | 10x2 0001 0000000A 0000000B 0002 00000014 00000015 | rows
6.na | 1PB 1B | 9x2 00000002 00000000 15 00000001 00000002 16 heap 0B 0C 0D | rows
6.nb | 1B 1PB | 9x2 15 00000002 00000000 16 00000001 00000002 heap 0B 0C 0D | rows
6.nc | 1I 1J | 6x2 0001 0000000A 0002 00000014 | next 1; rows
";

/// Longer lists are cut to this many values.
const SHOWN: usize = 6;

/// The warnings of the crate, of which `pick` tells the number.
static WARNINGS: AtomicUsize = AtomicUsize::new(0);

struct CountWarnings;

impl log::Log for CountWarnings {
    fn enabled(&self, _: &log::Metadata) -> bool {
        true
    }

    fn log(&self, _: &log::Record) {
        WARNINGS.fetch_add(1, Ordering::Relaxed);
    }

    fn flush(&self) {}
}

/// A file in memory. The reads and the seeks that are left to count down to a failure; 0 is never.
#[derive(Debug)]
struct Reader {
    bytes: Cursor<Vec<u8>>,
    bad_read: usize,
    bad_seek: usize,
}

fn count_down(left: &mut usize) -> Result<()> {
    let last = *left == 1;
    *left = left.saturating_sub(1);
    if last {
        Err(Error::other("fails once"))
    } else {
        Ok(())
    }
}

impl Read for Reader {
    fn read(&mut self, buffer: &mut [u8]) -> Result<usize> {
        count_down(&mut self.bad_read)?;
        self.bytes.read(buffer)
    }
}

impl Seek for Reader {
    fn seek(&mut self, to: SeekFrom) -> Result<u64> {
        count_down(&mut self.bad_seek)?;
        self.bytes.seek(to)
    }
}

fn number(text: &str) -> usize {
    text.parse().expect("a number")
}

fn hex_bytes(word: &str) -> impl Iterator<Item = u8> + '_ {
    let digits = (0..word.len()).step_by(2);
    digits.map(|at| u8::from_str_radix(&word[at..at + 2], 16).expect("hexadecimal bytes"))
}

fn header_of(columns: &str, shape: &str) -> Header {
    let (naxis1, naxis2) = shape.split_once('x').expect("NAXIS1 x NAXIS2");
    let columns = columns.split_whitespace().filter(|column| *column != "-");
    let (named, plain): (Vec<&str>, Vec<&str>) = columns.partition(|column| column.contains('='));
    let named = named.iter().filter_map(|column| column.split_once('='));
    let (mut forms, names): (Vec<String>, Vec<String>) = named
        .map(|(form, name)| (form.to_string(), name.to_string()))
        .unzip();
    forms.extend(plain.iter().map(|form| form.to_string()));
    Header {
        naxis1: number(naxis1),
        naxis2: number(naxis2),
        pcount: 0,
        theap: None,
        forms,
        names,
    }
}

/// The table of a case as a file, the length of its header, and the read and the seek that fail.
struct File {
    bytes: Vec<u8>,
    header: usize,
    bad_read: usize,
    bad_seek: usize,
}

fn file_of(columns: &str, data: &str) -> File {
    let (shape, words) = data.split_once(' ').unwrap_or((data, ""));
    let mut header = header_of(columns, shape);
    let (mut area, mut heap, mut pad, mut bad_read, mut bad_seek) = (vec![], None, false, 0, 0);
    for word in words.split_whitespace() {
        match word.split_once('=') {
            Some(("theap", n)) => header.theap = Some(number(n)),
            Some(("badread", n)) => bad_read = number(n),
            Some(("badseek", n)) => bad_seek = number(n),
            _ if word == "heap" => heap = Some(area.len()),
            _ if word == "pad" => pad = true,
            _ => area.extend(hex_bytes(word)),
        }
    }
    header.pcount = heap.map_or(0, |start| area.len() - start);
    if pad {
        area.resize(area.len().next_multiple_of(BLOCK), 0);
    }
    let mut bytes = header.bytes();
    let header = bytes.len();
    bytes.append(&mut area);
    File {
        bytes,
        header,
        bad_read,
        bad_seek,
    }
}

/// The table of a case, opened at its first row.
fn open(columns: &str, data: &str) -> TableData<Reader> {
    let file = file_of(columns, data);
    let parsed = parse_header(&file.bytes[..file.header]).expect("a good header");
    let start = file.header as u64;
    let mut bytes = Cursor::new(file.bytes);
    bytes.set_position(start);
    let reader = Reader {
        bytes,
        bad_read: file.bad_read,
        bad_seek: file.bad_seek,
    };
    TableData::new(reader, &parsed, start)
}

/// A value's letter and content; floats by their bits.
fn content(value: &DataValue) -> String {
    use DataValue::*;
    match value {
        Logical { value, .. } => format!("L {value}"),
        Bit { byte, .. } => format!("X {byte}"),
        UnsignedByte { value, .. } => format!("B {value}"),
        Short { value, .. } => format!("I {value}"),
        Integer { value, .. } => format!("J {value}"),
        Long { value, .. } => format!("K {value}"),
        Character { value, .. } => format!("A U+{:04X}", *value as u32),
        Float { value, .. } => format!("E {:08x}", value.to_bits()),
        Double { value, .. } => format!("D {:016x}", value.to_bits()),
        ComplexFloat { real, imag, .. } => {
            format!("C {:08x} {:08x}", real.to_bits(), imag.to_bits())
        }
        ComplexDouble { real, imag, .. } => {
            format!("M {:016x} {:016x}", real.to_bits(), imag.to_bits())
        }
        VariableLengthArray32 {
            num_elems,
            offset_byte,
        } => format!("P {num_elems} {offset_byte}"),
        VariableLengthArray64 {
            num_elems,
            offset_byte,
        } => format!("Q {num_elems} {offset_byte}"),
    }
}

fn show(row: usize, value: &DataValue) -> String {
    match place(value) {
        Some((column, idx)) => format!("{} at {row},{column},{idx}", content(value)),
        None => format!("{} at {row}", content(value)),
    }
}

/// The steps of a case on its table. The answers are kept outside, so that a panic leaves them.
struct Walk<'a> {
    table: TableData<Reader>,
    answers: &'a mut Vec<String>,
}

impl<'a> Walk<'a> {
    fn answer(&mut self, text: impl Into<String>) {
        self.answers.push(text.into());
    }

    fn step(mut self, step: &'static str) -> Self {
        let (name, rest) = step.split_once(' ').unwrap_or((step, ""));
        match name {
            "next" => (0..number(rest)).for_each(|_| self.next()),
            "all" => self.all(),
            "debug" => {
                let value = self.table.next();
                self.answer(format!("{value:?}"));
            }
            "row" => return self.rows(true),
            "rows" => return self.rows(false),
            "seek" => {
                let done = self.table.seek_to_row(number(rest)).is_ok();
                self.answer(if done { "ok" } else { "error" });
            }
            "heap" => set_heap(&mut self.table, rest != "off"),
            "pick" => self.pick(rest),
            _ => panic!("no step {step}"),
        }
        self
    }

    fn next(&mut self) {
        let row = row_of(&self.table);
        let value = self.table.next();
        self.answer(value.map_or("None".to_string(), |value| show(row, &value)));
    }

    fn all(&mut self) {
        let mut count = 0;
        let mut row = row_of(&self.table);
        while let Some(value) = self.table.next() {
            count += 1;
            if count <= SHOWN {
                self.answer(show(row, &value));
            }
            row = row_of(&self.table);
        }
        if count > SHOWN {
            self.answer(format!("and so on, {count} values"));
        }
        self.answer("None");
    }

    /// Row reads by a new row iterator, which takes the table and gives it back.
    fn rows(self, one: bool) -> Self {
        let Walk { table, answers } = self;
        let mut rows = table.row_iter();
        loop {
            let row = rows.get_row_idx();
            let Some(values) = rows.next() else {
                answers.push(format!("None, get_row_idx {row}"));
                break;
            };
            let values: Vec<String> = values.iter().map(|value| show(row, value)).collect();
            answers.push(format!("[{}]", values.join(", ")));
            if one {
                break;
            }
        }
        let table = rows.table_data();
        Walk { table, answers }
    }

    fn pick(&mut self, columns: &'static str) {
        let before = WARNINGS.load(Ordering::Relaxed);
        let ids: Vec<ColumnId> = columns
            .split_whitespace()
            .map(|column| match column.strip_prefix('=') {
                Some(name) => ColumnId::Name(name),
                None => ColumnId::Index(number(column)),
            })
            .collect();
        self.table.select_fields(&ids);
        let warnings = WARNINGS.load(Ordering::Relaxed) - before;
        if warnings > 0 {
            self.answer(format!("warnings {warnings}"));
        }
    }
}

/// The kind of a panic; its own words differ between compilers.
fn kind(panic: &(dyn std::any::Any + Send)) -> &'static str {
    let text = match panic.downcast_ref::<String>() {
        Some(text) => text.as_str(),
        None => panic.downcast_ref::<&str>().copied().unwrap_or(""),
    };
    if text.contains("overflow") {
        "panic: overflow"
    } else if text.contains("out of bounds") {
        "panic: index out of bounds"
    } else {
        "panic: other"
    }
}

fn answers_of(columns: &str, data: &str, steps: &'static str) -> Vec<String> {
    let mut answers = vec![];
    let table = open(columns, data);
    let done = catch_unwind(AssertUnwindSafe(|| {
        let walk = Walk {
            table,
            answers: &mut answers,
        };
        steps.split("; ").fold(walk, |walk, step| walk.step(step));
    }));
    if let Err(panic) = done {
        answers.push(kind(&*panic).to_string());
    }
    answers
}

/// The port's program `replay`, and the folder where it finds the table of a case.
struct Port {
    program: PathBuf,
    folder: PathBuf,
}

impl Port {
    /// What it prints for a list of steps, without the places, an answer each.
    fn answers(&self, steps: &str) -> Vec<String> {
        fs::write(self.folder.join("steps.txt"), steps).expect("a file that can be written");
        let output = Command::new(&self.program)
            .current_dir(&self.folder)
            .output();
        let output = output.expect("a program that can be run").stdout;
        let lines = String::from_utf8(output).expect("a text");
        let lines = lines.lines().filter(|line| !line.starts_with("at "));
        lines.map(str::to_string).collect()
    }

    /// A step up to the answer that no cell follows.
    fn up_to_end(&self, steps: &mut String, step: &str) {
        loop {
            steps.push_str(step);
            let answers = self.answers(steps);
            let last = answers.last().expect("an answer to each step");
            if last == "end" || last.starts_with("refused") {
                break;
            }
        }
    }

    /// The answers to a case, or why it cannot be put to the port.
    fn run(&self, file: &File, steps: &str) -> std::result::Result<Vec<String>, &'static str> {
        if file.bad_read + file.bad_seek > 0 {
            return Err("not here: there is no reader that could fail");
        }
        fs::write(self.folder.join("table.fits"), &file.bytes).expect("a file that can be written");
        let mut lines = String::new();
        let mut reading = false;
        for step in steps.split("; ") {
            let (name, rest) = step.split_once(' ').unwrap_or((step, ""));
            let setting = name == "heap" || name == "pick";
            if setting && reading {
                return Err("not here: a choice is made at opening");
            }
            reading |= !setting;
            match name {
                "next" => lines.push_str(&"cell\n".repeat(number(rest))),
                "all" => self.up_to_end(&mut lines, "cell\n"),
                "debug" => lines.push_str("cell\n"),
                "row" => lines.push_str("row 512\n"),
                "rows" => self.up_to_end(&mut lines, "row 512\n"),
                "pick" if rest.is_empty() => return Err("not here: `choose` has an index"),
                "pick" if rest.contains('=') => return Err("not here: a choice is by index"),
                "pick" => lines.push_str(&format!("choose {rest}\n")),
                _ => lines.push_str(&format!("{step}\n")),
            }
        }
        Ok(self.answers(&lines))
    }
}

/// The port's answers, or the Rust's if no program is given.
fn answer(port: Option<&Port>, columns: &str, data: &str, steps: &'static str) -> String {
    match port {
        None => answers_of(columns, data, steps).join("; "),
        Some(port) => match port.run(&file_of(columns, data), steps) {
            Ok(answers) => answers.join("; "),
            Err(why) => why.to_string(),
        },
    }
}

/// `cases` prints what the Rust answers; `cases PROGRAMS FOLDER` what the port's `replay` does, run in FOLDER.
fn main() {
    // A panic is an answer here, so it is not to be reported as well.
    std::panic::set_hook(Box::new(|_| {}));
    log::set_logger(&CountWarnings).expect("the only logger");
    log::set_max_level(log::LevelFilter::Warn);
    let words: Vec<String> = std::env::args().skip(1).collect();
    let port = match &words[..] {
        [programs, folder] => {
            fs::create_dir_all(folder).expect("a folder that can be made");
            let program = Path::new(programs).join("replay");
            let folder = PathBuf::from(folder);
            Some(Port { program, folder })
        }
        _ => None,
    };
    for line in CASES.lines() {
        let fields: Vec<&'static str> = line.split(" | ").collect();
        match fields[..] {
            [_, columns, data, steps] => {
                println!("{line} => {}", answer(port.as_ref(), columns, data, steps))
            }
            _ => println!("{line}"),
        }
    }
}
