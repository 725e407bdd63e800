//! The port and the Rust side by side on random tables of the domain: the Rust's answers are written as the
//! text that the port's programs `replay` and `cells` must print, and compared with what they print.
//!
//! `tables compare SEED TABLES PROGRAMS FOLDER`: PROGRAMS has `replay` and `cells`, which are run in FOLDER.
//! `tables controls SEED TABLES PROGRAMS FOLDER`: the same against texts of wrong readers, and the columns that
//! wrong finders of names give, which must differ.
//! `tables vectors SEED CASES FOLDER`: small cases, each a folder with table.fits, steps.txt and expected.txt.
//! `tables names SEED TABLES PROGRAMS FOLDER`: layouts, names, and columns found by name, beside the port's
//! program `layout_cases`.
//! The status is 1 if a table differs, or a wrong reader or finder does not.

#[allow(dead_code)]
mod common;
mod generate;
mod kinds;
mod names;
mod reader;
mod records;
mod wrong;

use common::{Kind, Random};
use generate::Table;
use kinds::{difference, printed, Case, KINDS, VECTORS};
use names::Batch;
use reader::{expected, open, Answer, Lengths, Told};
use std::collections::HashMap;
use std::fs;
use std::panic::{catch_unwind, AssertUnwindSafe};
use std::path::Path;

#[derive(Default)]
struct Totals {
    steps: usize,
    cells: usize,
    layouts: usize,
    largest: Largest,
    /// The cells by their letter and by where they stood: in a field, or in an array of P or Q.
    forms: HashMap<(Kind, char), usize>,
    seeks: usize,
    no_such_rows: usize,
    ends: usize,
}

#[derive(Default)]
struct Largest {
    columns: usize,
    rows: usize,
    row_bytes: usize,
    row_cells: usize,
    header: usize,
    heap: usize,
    steps: usize,
}

impl Totals {
    fn add(&mut self, case: &Case) {
        let told = &case.replayed.told;
        self.steps += told.len();
        let largest = &mut self.largest;
        let table = &case.table;
        for told in told {
            let cells = match &told.answer {
                Answer::Cell(cell) => std::slice::from_ref(cell),
                Answer::Row(cells) => cells,
                _ => &[],
            };
            self.cells += cells.len();
            largest.row_cells = largest.row_cells.max(cells.len());
            for cell in cells {
                let kind = table.columns[cell.column].kind;
                *self.forms.entry((kind, cell.letter)).or_default() += 1;
            }
            self.seeks += usize::from(matches!(told.answer, Answer::Seek(_)));
            self.no_such_rows += usize::from(matches!(told.answer, Answer::NoSuchRow(_)));
            self.ends += usize::from(matches!(told.answer, Answer::End));
        }
        largest.columns = largest.columns.max(table.columns.len());
        largest.rows = largest.rows.max(table.rows);
        largest.row_bytes = largest.row_bytes.max(table.row_width);
        largest.header = largest.header.max(table.header.len());
        largest.heap = largest.heap.max(table.heap);
        largest.steps = largest.steps.max(told.len());
    }

    fn print(&self, tables: usize, differences: usize) {
        let Largest {
            columns,
            rows,
            row_bytes,
            row_cells,
            header,
            heap,
            steps,
        } = self.largest;
        println!(
            "largest: {columns} columns, {rows} rows, a row of {row_bytes} bytes, a row read of {row_cells} cells, \
             a header of {header} bytes, a heap of {heap}, {steps} steps"
        );
        println!(
            "{} kinds of cells, at least {} of each; {} seeks, {} refused, {} ends",
            self.forms.len(),
            self.forms.values().min().unwrap_or(&0),
            self.seeks,
            self.no_such_rows,
            self.ends
        );
        println!(
            "{tables} tables, {} steps and {} cells by replay; {} tables whole by cells; {differences} differences",
            self.steps, self.cells, self.layouts
        );
    }
}

fn compare_one(
    random: &mut Random,
    names: &mut Random,
    number: usize,
    programs: &Path,
    folder: &Path,
    totals: &mut Totals,
) -> Result<(), String> {
    let (sizes, lengths) = &KINDS[number % KINDS.len()];
    let case = Case::random(random, names, sizes, lengths);
    case.write(folder);
    totals.add(&case);
    difference(
        "replay",
        &printed(programs, "replay", folder),
        &expected(&case.replayed.told),
    )?;
    if case.table.all_sound {
        totals.layouts += 1;
        let expected = reader::listing(
            open(&case.file, case.table.header.len(), None, true),
            usize::MAX,
        );
        difference("cells", &printed(programs, "cells", folder), &expected)?;
    }
    Ok(())
}

/// The number of tables that differ. The folder of the first of them is kept.
fn compare(seed: u64, tables: usize, programs: &Path, folder: &Path) -> usize {
    let (mut random, mut names) = (Random::new(seed), Random::second(seed));
    let mut totals = Totals::default();
    let mut differences = 0;
    for table in 0..tables {
        let into = if differences == 0 {
            folder.join("first")
        } else {
            folder.join("next")
        };
        let tried = catch_unwind(AssertUnwindSafe(|| {
            compare_one(&mut random, &mut names, table, programs, &into, &mut totals)
        }));
        if let Err(text) = tried.unwrap_or_else(|_| Err("the Rust panics".to_string())) {
            differences += 1;
            if differences == 1 {
                println!(
                    "first difference, in table {table}, kept in {}: {text}",
                    into.display()
                );
            }
        }
    }
    totals.print(tables, differences);
    differences
}

/// On how many tables something wrong was wrong indeed, and on how many of these it was noticed.
type Made = (usize, usize);

/// The number of wrong texts that the comparison takes for right.
fn controls(seed: u64, tables: usize, programs: &Path, folder: &Path) -> usize {
    let (mut random, mut names) = (Random::new(seed), Random::second(seed));
    let mut made = vec![(0, 0); wrong::READERS.len()];
    for number in 0..tables {
        let (sizes, lengths) = &KINDS[number % KINDS.len()];
        let case = Case::random(&mut random, &mut names, sizes, lengths);
        case.write(folder);
        let right = expected(&case.replayed.told);
        let printed = printed(programs, "replay", folder);
        for (reader, (made, noticed)) in wrong::READERS.iter().zip(&mut made) {
            let told: Vec<Told> = (reader.1)(&case.replayed.told);
            let text = expected(&told);
            // On some tables a wrong reader is right: one row cannot be repeated.
            if text != right {
                *made += 1;
                *noticed += usize::from(difference("replay", &printed, &text).is_err());
            }
        }
    }
    let readers = wrong::READERS.iter().map(|reader| reader.0);
    missed("reader", readers, &made, tables)
}

/// The same with wrong finders of names.
fn name_controls(seed: u64, tables: usize, programs: &Path, folder: &Path) -> usize {
    let (mut random, mut names) = (Random::new(seed), Random::second(seed));
    let mut made = vec![(0, 0); wrong::FINDERS.len()];
    for number in 0..tables {
        let table = Table::named(&mut random, &mut names, &KINDS[number % KINDS.len()].0);
        let sought = names::sought(&mut names, &table);
        let right = Batch::of(&table, &sought, None);
        let printed = right.printed(programs, folder);
        for (finder, (made, noticed)) in wrong::FINDERS.iter().zip(&mut made) {
            let wrong = Batch::of(&table, &sought, Some(finder.1));
            if wrong.lines != right.lines {
                *made += 1;
                *noticed += usize::from(!wrong.differences(&printed).is_empty());
            }
        }
    }
    let finders = wrong::FINDERS.iter().map(|finder| finder.0);
    missed("finder", finders, &made, tables)
}

/// Prints what was made and noticed; the number of what was not noticed, or never made.
fn missed<'a>(
    what: &str,
    names: impl Iterator<Item = &'a str>,
    made: &[Made],
    tables: usize,
) -> usize {
    let mut missed = 0;
    for (name, (made, noticed)) in names.zip(made) {
        println!("wrong {what}, {name}: wrong on {made} of {tables} tables, noticed on {noticed}");
        missed += made - noticed + usize::from(*made == 0);
    }
    missed
}

/// The number of lines on layouts and names that differ. A batch is as many headers as the program reads.
fn names(seed: u64, tables: usize, programs: &Path, folder: &Path) -> usize {
    let (mut random, mut names) = (Random::new(seed), Random::second(seed));
    let mut batch = Batch::default();
    let mut totals = names::Totals::default();
    fs::create_dir_all(folder).expect("a folder that can be made");
    for number in 0..tables {
        let table = Table::named(&mut random, &mut names, &KINDS[number % KINDS.len()].0);
        let sought = names::sought(&mut names, &table);
        batch.add(&table, &sought, None);
        if batch.is_full() || number + 1 == tables {
            totals.add(&batch, programs, folder);
            batch = Batch::default();
        }
    }
    totals.print()
}

/// The tables keep the names that they come with, as those of the list in crates/vectors do.
fn vectors(seed: u64, cases: usize, folder: &Path) {
    let mut random = Random::new(seed);
    let mut written = 0;
    while written < cases {
        let table = Table::random(&mut random, &VECTORS);
        let case = Case::of(
            &mut random,
            table,
            &Lengths {
                row_reads: 6,
                steps: 40,
                row_cells: 30,
            },
        );
        let text = expected(&case.replayed.told);
        if case.replayed.told.is_empty() || text.len() > 3000 {
            continue;
        }
        let into = folder.join(format!("{written:03}"));
        case.write(&into);
        fs::write(into.join("expected.txt"), text).expect("a file that can be written");
        written += 1;
    }
    println!("{written} cases in {}", folder.display());
}

fn run() -> Option<usize> {
    let words: Vec<String> = std::env::args().skip(1).collect();
    let words: Vec<&str> = words.iter().map(String::as_str).collect();
    let seed = words.get(1)?.parse().ok().filter(|seed| *seed != 0)?;
    let tables = words.get(2)?.parse().ok()?;
    match words[..] {
        ["compare", _, _, programs, folder] => {
            // A panic of the Rust is a difference, so it is not to be reported as well.
            std::panic::set_hook(Box::new(|_| {}));
            Some(compare(
                seed,
                tables,
                Path::new(programs),
                Path::new(folder),
            ))
        }
        ["controls", _, _, programs, folder] => {
            let (programs, folder) = (Path::new(programs), Path::new(folder));
            let readers = controls(seed, tables, programs, folder);
            Some(readers + name_controls(seed, tables, programs, folder))
        }
        ["names", _, _, programs, folder] => {
            Some(names(seed, tables, Path::new(programs), Path::new(folder)))
        }
        ["vectors", _, _, folder] => {
            vectors(seed, tables, Path::new(folder));
            Some(0)
        }
        _ => None,
    }
}

fn main() {
    match run() {
        Some(0) => {}
        Some(_) => std::process::exit(1),
        None => {
            eprintln!("tables compare|controls|names SEED TABLES PROGRAMS FOLDER, or vectors SEED CASES FOLDER");
            std::process::exit(2);
        }
    }
}
