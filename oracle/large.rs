//! The port and the Rust side by side through the port's static library: the random tables of `tables`, and
//! large ones. Lists of steps go through `coentrift_replay`, and the cells of a whole table through the
//! checksums, against the same sum over the Rust's cells. A row with more cells than the list of a row read
//! is compared by cell reads; the row reads must then end with refusal 14.
//!
//! `large SEED TABLES`. The status is 1 if something differs, or a changed byte goes unnoticed.
//! `large stack SEED` calls each function of the library on a thread with a stack of 256 KiB.

#[allow(dead_code)]
mod common;
mod generate;
#[allow(dead_code)]
mod kinds;
#[allow(dead_code)]
mod reader;
mod records;

use common::{item_width, place, Kind, Random};
use fitsrs::hdu::data::bintable::DataValue;
use fitsrs::{layout_of, row_of};
use generate::{Choice, Column, Sizes, Table};
use kinds::{difference, Case, FEW, KINDS};
use reader::{doubled, expected, open, Lengths, Open};
use std::thread;

type Sum = unsafe extern "C" fn(
    *const u8,
    usize,
    *const u8,
    usize,
    *const usize,
    usize,
    bool,
    bool,
) -> u64;

extern "C" {
    fn coentrift_replay(
        file: *const u8,
        file_len: usize,
        steps: *const u8,
        steps_len: usize,
        out: *mut u8,
        out_len: usize,
    ) -> usize;
    fn coentrift_layout(
        header: *const u8,
        header_len: usize,
        area: *const u8,
        area_len: usize,
    ) -> u64;
    fn coentrift_sum_cells(
        header: *const u8,
        header_len: usize,
        area: *const u8,
        area_len: usize,
        cols: *const usize,
        cols_len: usize,
        heap: bool,
        scaled: bool,
    ) -> u64;
    fn coentrift_sum_lent(
        header: *const u8,
        header_len: usize,
        area: *const u8,
        area_len: usize,
        cols: *const usize,
        cols_len: usize,
        heap: bool,
        scaled: bool,
    ) -> u64;
    fn coentrift_sum_rows(
        header: *const u8,
        header_len: usize,
        area: *const u8,
        area_len: usize,
        cols: *const usize,
        cols_len: usize,
        heap: bool,
        scaled: bool,
    ) -> u64;
}

/// The checksums of cells. The last goes by row reads.
const SUMS: [(&str, Sum); 3] = [
    ("coentrift_sum_cells", coentrift_sum_cells),
    ("coentrift_sum_lent", coentrift_sum_lent),
    ("coentrift_sum_rows", coentrift_sum_rows),
];

/// The longest row that the row reads have a list for, and the most bytes of a row.
const ROW: usize = 512;
const ROW_BYTES: usize = 1_048_576;

/// The stack that every function of the library must do with.
const STACK: usize = 256 << 10;

/// A refusal's number above a sum.
fn with_number(number: u64, sum: u32) -> u64 {
    number << 32 | u64::from(sum)
}

/// The port's text for a file and steps; there is room for more than is expected.
fn replayed(file: &[u8], steps: &[u8], room: usize) -> Vec<u8> {
    let mut out = vec![0; room];
    // SAFETY: each pointer comes with its length.
    let length = unsafe {
        coentrift_replay(
            file.as_ptr(),
            file.len(),
            steps.as_ptr(),
            steps.len(),
            out.as_mut_ptr(),
            out.len(),
        )
    };
    out.truncate(length);
    out
}

/// A checksum by the port, of plain reads. A choice of all columns is given as their list.
fn port_sum(sum: Sum, header: &[u8], area: &[u8], choice: &Choice) -> u64 {
    let columns = choice.given.as_ref().unwrap_or(&choice.columns);
    // SAFETY: each pointer comes with its length.
    unsafe {
        sum(
            header.as_ptr(),
            header.len(),
            area.as_ptr(),
            area.len(),
            columns.as_ptr(),
            columns.len(),
            choice.heap,
            false,
        )
    }
}

fn add(sum: u32, words: &[u32]) -> u32 {
    let next = |sum: u32, word: &u32| sum.wrapping_mul(31).wrapping_add(*word);
    words.iter().fold(sum, next)
}

fn halves(n: u64) -> [u32; 2] {
    [(n >> 32) as u32, n as u32]
}

/// The sum with a value of the Rust, by its 32-bit words.
fn add_value(sum: u32, value: &DataValue) -> u32 {
    use DataValue::*;
    match value {
        Logical { value, .. } => add(sum, &[if *value { 84 } else { 70 }]),
        Bit { byte, .. } => add(sum, &[u32::from(*byte)]),
        UnsignedByte { value, .. } => add(sum, &[u32::from(*value)]),
        Short { value, .. } => add(sum, &[u32::from(*value as u16)]),
        Integer { value, .. } => add(sum, &[*value as u32]),
        Long { value, .. } => add(sum, &halves(*value as u64)),
        Character { value, .. } => add(sum, &[u32::from(*value)]),
        Float { value, .. } => add(sum, &[value.to_bits()]),
        Double { value, .. } => add(sum, &halves(value.to_bits())),
        ComplexFloat { real, imag, .. } => add(sum, &[real.to_bits(), imag.to_bits()]),
        ComplexDouble { real, imag, .. } => {
            let sum = add(sum, &halves(real.to_bits()));
            add(sum, &halves(imag.to_bits()))
        }
        VariableLengthArray32 {
            num_elems,
            offset_byte,
        } => add(sum, &[*num_elems, *offset_byte]),
        VariableLengthArray64 {
            num_elems,
            offset_byte,
        } => {
            let sum = add(sum, &halves(*num_elems));
            add(sum, &halves(*offset_byte))
        }
    }
}

/// The sum of a layout, a word each: the sizes, then of each column its letter, that of an array's items or 0,
/// count and start, and the bytes of its name after their number.
fn rust_layout(table: &Table, file: &[u8]) -> u64 {
    let open = open(file, table.header.len(), None, true);
    let layout = layout_of(&open);
    let mut words = vec![
        layout.naxis1 as u32,
        layout.naxis2 as u32,
        layout.pcount as u32,
        layout.theap as u32,
        layout.columns.len() as u32,
    ];
    for (column, start) in layout.columns.iter().zip(&open.col_byte_offsets) {
        let element = column.element.bytes().next().unwrap_or(0);
        let name = doubled(&column.name);
        words.extend([column.letter as u32, element.into(), column.count as u32]);
        words.extend([*start as u32, name.len() as u32]);
        words.extend(name.bytes().map(u32::from));
    }
    with_number(0, add(0, &words))
}

fn port_layout(header: &[u8], area: &[u8]) -> u64 {
    // SAFETY: each pointer comes with its length.
    unsafe { coentrift_layout(header.as_ptr(), header.len(), area.as_ptr(), area.len()) }
}

/// Gives each value of the Rust its column and index. The Rust gives none with a descriptor: those of a row
/// are of the chosen columns in their order.
struct Places {
    arrays: Vec<usize>,
    row: usize,
    passed: usize,
}

impl Places {
    fn of(table: &Table) -> Places {
        let mut arrays = table.choice.columns.clone();
        arrays.retain(|column| table.columns[*column].kind != Kind::Field);
        Places {
            arrays,
            row: 0,
            passed: 0,
        }
    }

    fn next(&mut self, row: usize, value: &DataValue) -> (usize, usize) {
        if row != self.row {
            (self.row, self.passed) = (row, 0);
        }
        place(value).unwrap_or_else(|| {
            self.passed += 1;
            (self.arrays[self.passed - 1], 0)
        })
    }
}

fn add_cell(sum: u32, row: usize, place: (usize, usize), value: &DataValue) -> u32 {
    let words = [row, place.0, place.1].map(|n| n as u32);
    add_value(add(sum, &words), value)
}

fn opened<'a>(table: &Table, file: &'a [u8]) -> Open<'a> {
    let choice = &table.choice;
    open(
        file,
        table.header.len(),
        choice.given.as_deref(),
        choice.heap,
    )
}

/// What cell reads give by the Rust's cells: the sum of all, or of those before the array at `outside`, which
/// is a 13. With it the number of cells.
fn rust_cells(table: &Table, file: &[u8], outside: Option<(usize, usize)>) -> (u64, usize) {
    let mut open = opened(table, file);
    let mut places = Places::of(table);
    let (mut sum, mut cells) = (0, 0);
    loop {
        let row = row_of(&open);
        let Some(value) = open.next() else {
            return (with_number(0, sum), cells);
        };
        let place = places.next(row, &value);
        if outside == Some((row, place.0)) {
            return (with_number(13, sum), cells);
        }
        sum = add_cell(sum, row, place, &value);
        cells += 1;
    }
}

/// What row reads give by the Rust's rows: the sum of all rows, or of those before the row of the array that
/// is a 13, or before one with more cells than the list, which is a 14.
fn rust_rows(table: &Table, file: &[u8], outside: Option<usize>) -> u64 {
    let mut rows = opened(table, file).row_iter();
    let mut places = Places::of(table);
    let mut sum = 0;
    loop {
        let row = rows.get_row_idx();
        let Some(values) = rows.next() else {
            return with_number(0, sum);
        };
        if outside == Some(row) {
            return with_number(13, sum);
        }
        if values.len() > ROW {
            return with_number(14, sum);
        }
        for value in &values {
            sum = add_cell(sum, row, places.next(row, value), value);
        }
    }
}

#[derive(Default)]
struct Totals {
    steps: usize,
    most_steps: usize,
    longest_header: usize,
    summed: usize,
    changed: usize,
    refused: usize,
}

impl Totals {
    fn print(&self, what: &str) {
        println!(
            "{what}: {} steps, {} cells summed, {} refusals, 0 differences; {} changed bits noticed; at most {} \
             steps, a header of {} bytes",
            self.steps,
            self.summed,
            self.refused,
            self.changed,
            self.most_steps,
            self.longest_header
        );
    }
}

/// The same answers to the same steps.
fn compare_steps(case: &Case, totals: &mut Totals) -> Result<(), String> {
    let text = expected(&case.replayed.told);
    let steps = case.replayed.told.len();
    totals.steps += steps;
    totals.most_steps = totals.most_steps.max(steps);
    totals.longest_header = totals.longest_header.max(case.table.header.len());
    let steps = case.replayed.steps.as_bytes();
    let printed = replayed(&case.file, steps, text.len() + 4096);
    difference("coentrift_replay", &printed, &text)
}

/// One answer of the port beside the one that the Rust's cells lead to.
fn same(name: &str, ours: u64, theirs: u64, totals: &mut Totals) -> Result<(), String> {
    totals.refused += usize::from(theirs >> 32 > 0);
    if ours == theirs {
        return Ok(());
    }
    let shown = |answer: u64| format!("{} above {}", answer >> 32, answer as u32);
    Err(format!(
        "{name}: the port {}, the Rust {}",
        shown(ours),
        shown(theirs)
    ))
}

/// The same sums of a table with this data area, by each call; `outside` is the array that is a 13, if any.
/// The number of cells.
fn compare_sums(
    case: &Case,
    area: &[u8],
    outside: Option<(usize, usize)>,
    totals: &mut Totals,
) -> Result<usize, String> {
    let Table { header, choice, .. } = &case.table;
    let (by_cells, cells) = rust_cells(&case.table, &case.file, outside);
    let by_rows = rust_rows(&case.table, &case.file, outside.map(|place| place.0));
    if by_rows >> 32 == 0 && by_rows != by_cells {
        return Err("the Rust's rows are not its cells".to_string());
    }
    for ((name, sum), theirs) in SUMS.into_iter().zip([by_cells, by_cells, by_rows]) {
        totals.summed += cells;
        same(name, port_sum(sum, header, area, choice), theirs, totals)?;
    }
    Ok(cells)
}

/// The same steps and the same sums; the number of cells.
fn compare(case: &Case, random: &mut Random, totals: &mut Totals) -> Result<usize, String> {
    compare_steps(case, totals)?;
    let table = &case.table;
    let layout = rust_layout(table, &case.file);
    let ours = port_layout(&table.header, &table.area);
    same("coentrift_layout", ours, layout, totals)?;
    let cells = compare_sums(case, &table.area, None, totals)?;
    compare_outside(case, random, totals)?;
    compare_refusals(table, totals)?;
    unnoticed(table, random, totals)?;
    Ok(cells)
}

/// A followed array that ends past the heap ends the reads.
fn compare_outside(case: &Case, random: &mut Random, totals: &mut Totals) -> Result<(), String> {
    let table = &case.table;
    let arrays = Places::of(table).arrays;
    if !table.choice.heap || arrays.is_empty() {
        return Ok(());
    }
    let (row, column) = (random.below(table.rows), arrays[random.below(arrays.len())]);
    let mut area = table.area.clone();
    // Its count becomes 2^30 or more.
    area[table.field(row, column).start] = 0x40;
    compare_sums(case, &area, Some((row, column)), totals).map(|_| ())
}

/// A refusal of the entry or of the opening, with no cell: a header cut short, no data, no column chosen.
fn compare_refusals(table: &Table, totals: &mut Totals) -> Result<(), String> {
    let Table {
        header,
        area,
        choice,
        ..
    } = table;
    let cut = &header[..header.len() - 1];
    let none = Choice {
        given: Some(vec![]),
        ..choice.clone()
    };
    for (name, sum) in SUMS {
        for (number, header, area, choice) in [
            (1, cut, &area[..], choice),
            (10, &header[..], &[][..], choice),
            (11, &header[..], &area[..], &none),
        ] {
            let ours = port_sum(sum, header, area, choice);
            same(name, ours, with_number(number, 0), totals)?;
        }
    }
    for (number, header, area) in [(1, cut, &area[..]), (10, &header[..], &[][..])] {
        let ours = port_layout(header, area);
        same("coentrift_layout", ours, with_number(number, 0), totals)?;
    }
    Ok(())
}

/// One bit of a chosen field is changed; the sum must then differ.
fn unnoticed(table: &Table, random: &mut Random, totals: &mut Totals) -> Result<(), String> {
    let Table { header, choice, .. } = table;
    let field = |column: &&usize| table.columns[**column].kind == Kind::Field;
    let Some(column) = choice.columns.iter().find(field) else {
        return Ok(());
    };
    let field = table.field(random.below(table.rows), *column);
    let mut area = table.area.clone();
    area[field.start + random.below(field.len())] ^= 1 << random.below(8);
    totals.changed += 1;
    let sums = [&table.area, &area].map(|area| port_sum(coentrift_sum_cells, header, area, choice));
    if sums[0] == sums[1] {
        return Err("a changed bit goes unnoticed".to_string());
    }
    Ok(())
}

/// Columns of these forms, one behind the other.
fn columns(forms: &[(Kind, char, usize)]) -> Vec<Column> {
    let mut start = 0;
    let mut list = vec![];
    for (kind, letter, count) in forms {
        let column = Column {
            kind: *kind,
            letter: *letter,
            count: *count,
            start,
        };
        start += column.width();
        list.push(column);
    }
    list
}

/// 64 columns of all letters and counts that fill a row of 1,048,576 bytes.
fn widest_row() -> Vec<(Kind, char, usize)> {
    let mut forms: Vec<(Kind, char, usize)> = vec![];
    for (at, letter) in "BAIJKEDCM".chars().cycle().take(63).enumerate() {
        forms.push((Kind::Field, letter, 16_000 / item_width(letter) + at));
    }
    let width: usize = forms
        .iter()
        .map(|(_, letter, count)| count * item_width(*letter))
        .sum();
    forms.push((Kind::Field, 'B', ROW_BYTES - width));
    forms
}

struct Large {
    name: &'static str,
    forms: Vec<(Kind, char, usize)>,
    rows: usize,
    /// The longest array, and the least length of the heap.
    array: usize,
    heap: usize,
}

/// Of one kind: columns, rows, and small arrays if any.
fn plain(name: &'static str, forms: Vec<(Kind, char, usize)>, rows: usize) -> Large {
    Large {
        name,
        forms,
        rows,
        array: 3,
        heap: 16,
    }
}

fn large_tables() -> Vec<Large> {
    use Kind::{Field, P, Q};
    let letters = "LBAIJKEDCM";
    let one_each = letters.chars().cycle().take(64).map(|l| (Field, l, 1));
    let arrays = letters.chars().flat_map(|l| [(P, l, 1), (Q, l, 1)]);
    let wide = vec![(Field, 'E', 262_144)];
    let short = vec![(Field, 'I', 1), (Field, 'J', 1), (P, 'E', 1)];
    let long_arrays = vec![(P, 'J', 1), (Q, 'D', 1), (Field, 'B', 3)];
    vec![
        plain("a row of 1,048,576 bytes, one column", wide, 20),
        plain("a row of 1,048,576 cells", vec![(Field, 'B', ROW_BYTES)], 4),
        plain("a row of 1,048,576 bytes, 64 columns", widest_row(), 6),
        plain("16,777,216 rows", vec![(Field, 'B', 1)], 16_777_216),
        plain("a million rows", short, 1_000_000),
        plain("64 columns", one_each.collect(), 20_000),
        Large {
            array: 300_000,
            heap: 100_000_000,
            ..plain("a heap of 100 MB", long_arrays, 60)
        },
        Large {
            array: 3_000,
            heap: 1_000_000,
            ..plain("arrays of all letters", arrays.collect(), 300)
        },
    ]
}

/// A table of this kind; a line on what was the same.
fn compare_large(
    random: &mut Random,
    large: &Large,
    all: bool,
    totals: &mut Totals,
) -> Result<String, String> {
    let sizes = Sizes {
        array: large.array,
        heap: large.heap,
        gap: 1_000_000,
        ..FEW
    };
    let table = Table::of(random, &sizes, columns(&large.forms), large.rows, all);
    let lengths = Lengths {
        row_reads: 40,
        steps: 5_000,
        row_cells: ROW,
    };
    let case = Case::of(random, table, &lengths);
    let cells = compare(&case, random, totals)?;
    let Table {
        row_width,
        rows,
        heap,
        choice,
        ..
    } = &case.table;
    Ok(format!(
        "NAXIS1 {row_width}, {rows} rows, {} of {} columns, a heap of {heap} bytes, {}, {} steps, {cells} cells",
        choice.columns.len(),
        large.forms.len(),
        if choice.heap { "followed" } else { "not followed" },
        case.replayed.told.len(),
    ))
}

fn run(seed: u64, tables: usize) -> Result<(), String> {
    let (mut random, mut names) = (Random::new(seed), Random::second(seed));
    let mut totals = Totals::default();
    for number in 0..tables {
        let (sizes, lengths) = &KINDS[number % KINDS.len()];
        let case = Case::random(&mut random, &mut names, sizes, lengths);
        compare(&case, &mut random, &mut totals)
            .map_err(|text| format!("table {number}: {text}"))?;
    }
    totals.print(&format!("{tables} tables"));
    let mut totals = Totals::default();
    // First all columns with the heap, then any choice.
    let twice = [true, false].map(|all| large_tables().into_iter().map(move |large| (large, all)));
    for (large, all) in twice.into_iter().flatten() {
        let name = large.name;
        let done = compare_large(&mut random, &large, all, &mut totals);
        println!(
            "{name}: {}",
            done.map_err(|text| format!("{name}: {text}"))?
        );
    }
    totals.print("large tables");
    Ok(())
}

fn on_small_stack<T: Send>(run: impl FnOnce() -> T + Send) -> T {
    thread::scope(|scope| {
        let thread = thread::Builder::new().stack_size(STACK);
        let running = thread.spawn_scoped(scope, run).expect("a thread");
        running.join().expect("no panic")
    })
}

/// Each function of the library on a thread with a small stack, which must answer as on this one. Its name
/// comes first, since a stack that is too small ends the program.
fn small_stack(seed: u64) -> Result<(), String> {
    let mut random = Random::new(seed);
    let sizes = Sizes {
        other_records: 300,
        ..FEW
    };
    let forms = [(Kind::Field, 'B', ROW / 64); 64];
    let table = Table::of(&mut random, &sizes, columns(&forms), 20, true);
    let Table {
        header,
        area,
        choice,
        ..
    } = &table;
    let mut totals = Totals::default();
    for (name, sum) in SUMS {
        println!("{name}: a stack of {STACK} bytes");
        let run = || port_sum(sum, header, area, choice);
        same(name, on_small_stack(run), run(), &mut totals)?;
    }
    println!("coentrift_layout: a stack of {STACK} bytes");
    let run = || port_layout(header, area);
    same("coentrift_layout", on_small_stack(run), run(), &mut totals)?;
    let file = [&header[..], &area[..]].concat();
    let few = "heap off\ncell\nrow 512\nseek 7\ncell\nrow 512\n".to_string();
    // As many indexes as a file of steps has room for.
    let longest = format!("choose{}", " 0".repeat(32_765));
    for (what, steps) in [("steps", few), ("a choice of 32,765 indexes", longest)] {
        println!("coentrift_replay, {what}: a stack of {STACK} bytes");
        let run = || replayed(&file, steps.as_bytes(), 65_536);
        if on_small_stack(run) != run() {
            return Err("coentrift_replay: another text".to_string());
        }
    }
    Ok(())
}

fn main() {
    let words: Vec<String> = std::env::args().skip(1).collect();
    let number = |word: &String| word.parse::<u64>().unwrap_or(0);
    let done = match &words[..] {
        [word, seed] if word == "stack" && number(seed) > 0 => small_stack(number(seed)),
        [seed, tables] if number(seed) > 0 => run(number(seed), number(tables) as usize),
        _ => {
            eprintln!("large SEED TABLES, large stack SEED; no seed 0");
            std::process::exit(2);
        }
    };
    if let Err(text) = done {
        println!("a difference: {text}");
        std::process::exit(1);
    }
}
