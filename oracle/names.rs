//! Layouts and names beside the port's program `layout_cases`, which reads a file of headers with names to find.
//!
//! The Rust compares a name by its bytes, the port as the standard has it (4.0, 7.3.2): the two cases of a letter
//! are alike, and the first column that has the name in any case is found. So the Rust's answer is what must be
//! printed for a name that one column alone has in any case, and as it is sought, and for one that no column has.
//! For any other name that is what the rule gives over the Rust's names of the columns; these are counted apart.

use crate::common::Random;
use crate::generate::Table;
use crate::kinds::printed;
use crate::reader::{doubled, open, Open};
use crate::records::{flipped, quoted, shuffle, swapped, text};
use fitsrs::{layout_of, Layout};
use std::fs;
use std::path::Path;

/// A file has fewer bytes than this.
const FILE: usize = 524_288;
/// As many names of a header as the program can be told.
const NAMES: usize = 255;

/// The Rust's names of the columns.
pub type Columns = [Option<String>];

/// Finds a column by a name.
pub type Finder = fn(&Columns, &str) -> Option<usize>;

/// What a line is of, and so who says what it must be.
#[derive(Clone, Copy, PartialEq)]
pub enum Of {
    /// A layout and the names of its columns: the Rust.
    Layout,
    /// A name that one column alone has in any case, and that it has as it is sought: the Rust.
    OneColumn,
    /// A name that no column has in any case: the Rust.
    NoColumn,
    /// Any other name, where the Rust's answer is that of the rule too: the rule.
    RustToo,
    /// Any other name, where the Rust answers otherwise: the rule.
    RustNot,
}

const WORDS: [&str; 5] = [
    "lines of layouts and names beside the Rust",
    "names sought that one column alone has in any case, and has as it is sought, beside the Rust",
    "names sought that no column has in any case, beside the Rust",
    "other names sought, beside the rule of the standard alone, where the Rust answers so too",
    "other names sought, beside the rule of the standard alone, where the Rust answers otherwise",
];

/// Headers for one run of the program, and the lines that it must print.
#[derive(Default)]
pub struct Batch {
    file: Vec<u8>,
    pub lines: Vec<(Of, String)>,
    headers: usize,
}

fn byte(number: usize) -> u8 {
    u8::try_from(number).expect("fewer than 256")
}

fn opened(table: &Table) -> Open<'_> {
    open(&table.header, table.header.len(), None, true)
}

/// The names of the table, other texts like them, and texts of no column; the names first, if not all have room.
pub fn sought(random: &mut Random, table: &Table) -> Vec<String> {
    let columns = layout_of(&opened(table)).columns.into_iter();
    let names: Vec<String> = columns.filter_map(|column| column.name).collect();
    let mut list = vec![String::new(), quoted(random, 20), text(random, 20)];
    for name in &names {
        list.extend([
            name.clone(),
            swapped(name),
            flipped(random, name, |byte| byte.is_ascii_alphabetic()),
            flipped(random, name, |byte| !byte.is_ascii_alphabetic()),
            name.chars().skip(1).collect(),
            name.replace('\'', "''"),
        ]);
    }
    list.sort();
    list.dedup();
    shuffle(random, &mut list);
    list.sort_by_key(|text| !names.contains(text));
    list.truncate(NAMES);
    list
}

/// A case of the program: a header, the length of a data area, and names to find.
pub fn case(header: &[u8], area: usize, names: &[String]) -> Vec<u8> {
    let number = |n: usize| u32::try_from(n).expect("a small number").to_be_bytes();
    let mut case = [&number(header.len()), header, &number(area), &number(0)].concat();
    case.push(byte(names.len()));
    for name in names {
        case.push(byte(name.len()));
        case.extend(name.as_bytes());
    }
    case
}

/// The line of the name with this number.
pub fn find_line(number: usize, found: Option<usize>) -> String {
    let found = found.map_or("none".to_string(), |column| column.to_string());
    format!("find {number} full {found}")
}

/// What must be found, by the Rust's answer or by the rule.
fn right(columns: &Columns, by_rust: Option<usize>, name: &str) -> (Of, Option<usize>) {
    let same = |own: &String| own.eq_ignore_ascii_case(name);
    let alike = |own: &Option<String>| own.as_ref().is_some_and(same);
    let by_rule = columns.iter().position(alike);
    match columns.iter().filter(|own| alike(own)).count() {
        0 => (Of::NoColumn, by_rust),
        1 if by_rust.is_some() => (Of::OneColumn, by_rust),
        _ if by_rust == by_rule => (Of::RustToo, by_rule),
        _ => (Of::RustNot, by_rule),
    }
}

impl Batch {
    /// Of one table.
    pub fn of(table: &Table, names: &[String], wrong: Option<Finder>) -> Batch {
        let mut batch = Batch::default();
        batch.add(table, names, wrong);
        batch
    }

    pub fn is_full(&self) -> bool {
        self.file.len() + 100_000 > FILE
    }

    /// Adds a table's header with names, and what is right of it, or what a wrong finder says of the names.
    pub fn add(&mut self, table: &Table, names: &[String], wrong: Option<Finder>) {
        let open = opened(table);
        let layout = layout_of(&open);
        self.file
            .extend(case(&table.header, table.area.len(), names));
        let mut text = format!("case {}\naccepted\n", self.headers);
        text.push_str(&lines(&layout, &open.col_byte_offsets));
        let text = text.lines().map(|line| (Of::Layout, line.to_string()));
        self.lines.extend(text);
        let columns: Vec<Option<String>> = layout.columns.into_iter().map(|c| c.name).collect();
        for (index, name) in names.iter().enumerate() {
            let (of, found) = right(&columns, open.ctx.find_field_by_ttype(name), name);
            let found = wrong.map_or(found, |finder| finder(&columns, name));
            self.lines.push((of, find_line(index, found)));
        }
        self.headers += 1;
    }

    /// The lines of the program. It prints more: the bytes of fields, stretches, and names of a header cut short.
    pub fn printed(&self, programs: &Path, folder: &Path) -> Vec<String> {
        fs::write(folder.join("cases.bin"), &self.file).expect("a file that can be written");
        let printed = printed(programs, "layout_cases", folder);
        let printed = String::from_utf8_lossy(&printed);
        let kept = printed.lines().filter(|line| !line.contains(" cut"));
        kept.map(|line| without_bytes(line).to_string()).collect()
    }

    /// The lines that are not as they must be; all that are there too many are of layouts.
    pub fn differences(&self, printed: &[String]) -> Vec<(Of, String)> {
        let mut differences = vec![];
        for at in 0..self.lines.len().max(printed.len()) {
            let ours = printed.get(at);
            let (of, must) = match self.lines.get(at) {
                Some((of, line)) => (*of, Some(line)),
                None => (Of::Layout, None),
            };
            if ours != must {
                let what = WORDS[of as usize];
                let text = format!("{what}: the port {ours:?}, and must be {must:?}");
                differences.push((of, text));
            }
        }
        differences
    }
}

/// How many lines there are, and how many of them differ.
#[derive(Default)]
pub struct Totals {
    tables: usize,
    lines: [usize; WORDS.len()],
    differences: [usize; WORDS.len()],
}

impl Totals {
    /// Compares a batch with what the program prints of it, and prints the first difference.
    pub fn add(&mut self, batch: &Batch, programs: &Path, folder: &Path) {
        let differences = batch.differences(&batch.printed(programs, folder));
        if let Some((_, text)) = differences.first() {
            println!("the first difference in a file, {text}");
        }
        self.tables += batch.headers;
        for (of, _) in &batch.lines {
            self.lines[*of as usize] += 1;
        }
        for (of, _) in &differences {
            self.differences[*of as usize] += 1;
        }
    }

    /// Prints the numbers; that of all differences.
    pub fn print(&self) -> usize {
        println!("layout_cases: {} layouts and their names", self.tables);
        let counted = self.lines.iter().zip(&self.differences);
        for (what, (lines, differences)) in WORDS.iter().zip(counted) {
            println!("layout_cases: {lines} {what}: {differences} differences");
        }
        self.differences.iter().sum()
    }
}

fn without_bytes(line: &str) -> &str {
    match line.split_once(" bytes ") {
        Some((front, _)) if line.starts_with("column ") => front,
        _ => line,
    }
}

/// The layout's lines. After the last column's name comes that of no column.
fn lines(layout: &Layout, starts: &[usize]) -> String {
    let Layout {
        naxis1,
        naxis2,
        pcount,
        theap,
        columns,
    } = layout;
    let mut text = format!(
        "table {} columns {naxis2} rows {naxis1} bytes {pcount} pcount {theap} theap\n",
        columns.len()
    );
    for (index, column) in columns.iter().enumerate() {
        let form = format!("{}{}", column.letter, column.element);
        text.push_str(&format!(
            "column {index} {form} {} at {}\n",
            column.count, starts[index]
        ));
    }
    for (index, name) in columns
        .iter()
        .map(|column| doubled(&column.name))
        .enumerate()
    {
        let bytes: String = name.bytes().map(|byte| format!(" {byte}")).collect();
        text.push_str(&format!("name {index} full{bytes}\n"));
    }
    text + &format!("name {} full\n", columns.len())
}
