//! Wrong readers: each changes the Rust's answers as a reader with one fault would give them. And wrong finders of
//! a column by its name.

use crate::names::{Columns, Finder};
use crate::reader::{Answer, Cell, Told};
use std::collections::HashMap;

type WrongReader = fn(&[Told]) -> Vec<Told>;

pub const READERS: [(&str, WrongReader); 8] = [
    ("the neighbouring column's cell", neighbour),
    ("an item's bytes the other way round", swapped),
    ("the first row repeated", repeated),
    ("an end too early", early_end),
    ("a cell too many in the count", count),
    ("the index of an item from 1", index),
    ("one entry too many passed", passed),
    ("a row read that leaves out its last cell", short_row),
];

pub const FINDERS: [(&str, Finder); 7] = [
    ("the column after it", after),
    ("by the same bytes", by_bytes),
    ("by the same bytes before another case", by_bytes_first),
    ("the last column that is alike", last),
    ("every byte taken for a letter", folded::<0, 255>),
    ("@ and [ taken for letters", folded::<b'@', b'['>),
    ("Z and z apart", folded::<b'A', b'Y'>),
];

/// The answers with every cell changed, in order.
fn each_cell(told: &[Told], mut change: impl FnMut(&mut Cell)) -> Vec<Told> {
    let mut told = told.to_vec();
    for answer in told.iter_mut().map(|told| &mut told.answer) {
        match answer {
            Answer::Cell(cell) => change(cell),
            Answer::Row(cells) => cells.iter_mut().for_each(&mut change),
            _ => {}
        }
    }
    told
}

/// A cell of another column than the one before has the value of that one.
fn neighbour(told: &[Told]) -> Vec<Told> {
    let mut before: Option<Cell> = None;
    each_cell(told, |cell| {
        let own = cell.clone();
        if let Some(other) = before.as_ref().filter(|other| other.column != own.column) {
            cell.letter = other.letter;
            cell.bytes = other.bytes.clone();
        }
        before = Some(own);
    })
}

fn swapped(told: &[Told]) -> Vec<Told> {
    each_cell(told, |cell| cell.bytes.reverse())
}

fn repeated(told: &[Told]) -> Vec<Told> {
    let mut first = HashMap::new();
    each_cell(told, |cell| {
        let bytes = first
            .entry((cell.column, cell.idx))
            .or_insert_with(|| cell.bytes.clone());
        cell.bytes = bytes.clone();
    })
}

/// The last answer that has cells is the end, where the reader was before.
fn early_end(told: &[Told]) -> Vec<Told> {
    let mut told = told.to_vec();
    let with_cells = |told: &Told| matches!(told.answer, Answer::Cell(_) | Answer::Row(_));
    if let Some(last) = told.iter().rposition(with_cells) {
        told[last].answer = Answer::End;
    }
    told
}

fn count(told: &[Told]) -> Vec<Told> {
    let mut told = told.to_vec();
    for told in told.iter_mut().filter(|told| told.count > 0) {
        told.count += 1;
    }
    told
}

fn index(told: &[Told]) -> Vec<Told> {
    each_cell(told, |cell| cell.idx += 1)
}

fn passed(told: &[Told]) -> Vec<Told> {
    let mut told = told.to_vec();
    for told in told.iter_mut().filter(|told| told.passed > 0) {
        told.passed += 1;
    }
    told
}

fn short_row(told: &[Told]) -> Vec<Told> {
    let mut told = told.to_vec();
    for told in &mut told {
        if let Answer::Row(cells) = &mut told.answer {
            cells.pop();
        }
    }
    told
}

fn first(columns: &Columns, alike: impl Fn(&str) -> bool) -> Option<usize> {
    let mut columns = columns.iter().map(Option::as_deref);
    columns.position(|own| own.is_some_and(&alike))
}

fn after(columns: &Columns, name: &str) -> Option<usize> {
    folded::<b'A', b'Z'>(columns, name).map(|column| column + 1)
}

fn by_bytes(columns: &Columns, name: &str) -> Option<usize> {
    first(columns, |own| own == name)
}

fn by_bytes_first(columns: &Columns, name: &str) -> Option<usize> {
    by_bytes(columns, name).or_else(|| folded::<b'A', b'Z'>(columns, name))
}

fn last(columns: &Columns, name: &str) -> Option<usize> {
    let mut columns = columns.iter().map(Option::as_deref);
    columns.rposition(|own| own.is_some_and(|own| own.eq_ignore_ascii_case(name)))
}

/// The first column whose name is alike, if bit 5 says the case of the bytes from the first to the last.
fn folded<const FIRST: u8, const LAST: u8>(columns: &Columns, name: &str) -> Option<usize> {
    let fold = |byte: u8| match byte & !0x20 {
        upper if (FIRST..=LAST).contains(&upper) => upper,
        _ => byte,
    };
    let folded = |text: &str| text.bytes().map(fold).collect::<Vec<u8>>();
    first(columns, |own| folded(own) == folded(name))
}
