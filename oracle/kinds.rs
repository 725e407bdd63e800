//! The kinds of random tables, a table with the Rust's answers, and the comparison of two texts.

use crate::common::Random;
use crate::generate::{Sizes, Table};
use crate::reader::{replay, Lengths, Replayed};
use std::fs;
use std::path::Path;
use std::process::Command;

/// What the programs read of a file.
const FILE: usize = 65_536;
const HEADER: usize = 57_600;

pub const FEW: Sizes = Sizes {
    columns: 5,
    rows: 4,
    count: 3,
    array: 3,
    heap: 16,
    gap: 5,
    other_records: 12,
    header: HEADER,
    file: FILE,
};
/// Headers of one block.
pub const VECTORS: Sizes = Sizes {
    header: 2880,
    file: 5800,
    ..FEW
};

/// Small tables, wide ones, ones of long fields and arrays, of many rows, and of long headers.
pub const KINDS: [(Sizes, Lengths); 5] = [
    (
        FEW,
        Lengths {
            row_reads: 6,
            steps: 60,
            row_cells: 512,
        },
    ),
    (
        Sizes {
            columns: 64,
            rows: 20,
            count: 4,
            array: 6,
            gap: 100,
            other_records: 40,
            ..FEW
        },
        Lengths {
            row_reads: 22,
            steps: 1500,
            row_cells: 512,
        },
    ),
    (
        Sizes {
            columns: 3,
            rows: 12,
            count: 400,
            array: 400,
            gap: 1000,
            ..FEW
        },
        Lengths {
            row_reads: 14,
            steps: 3000,
            row_cells: 512,
        },
    ),
    (
        Sizes {
            columns: 3,
            rows: 3000,
            count: 2,
            ..FEW
        },
        Lengths {
            row_reads: 3010,
            steps: 3000,
            row_cells: 512,
        },
    ),
    (
        Sizes {
            columns: 20,
            rows: 10,
            other_records: 680,
            ..FEW
        },
        Lengths {
            row_reads: 12,
            steps: 300,
            row_cells: 512,
        },
    ),
];

pub struct Case {
    pub table: Table,
    pub file: Vec<u8>,
    pub replayed: Replayed,
}

impl Case {
    /// A table with names by a generator of their own.
    pub fn random(
        random: &mut Random,
        names: &mut Random,
        sizes: &Sizes,
        lengths: &Lengths,
    ) -> Case {
        let table = Table::named(random, names, sizes);
        Case::of(random, table, lengths)
    }

    /// A table, read in random steps.
    pub fn of(random: &mut Random, table: Table, lengths: &Lengths) -> Case {
        let file = [&table.header[..], &table.area[..]].concat();
        let replayed = replay(random, &table, &file, lengths);
        Case {
            table,
            file,
            replayed,
        }
    }

    pub fn write(&self, folder: &Path) {
        fs::create_dir_all(folder).expect("a folder that can be made");
        fs::write(folder.join("table.fits"), &self.file).expect("a file that can be written");
        fs::write(folder.join("steps.txt"), &self.replayed.steps)
            .expect("a file that can be written");
    }
}

/// The first line that differs.
pub fn difference(name: &str, printed: &[u8], expected: &str) -> Result<(), String> {
    if printed == expected.as_bytes() {
        return Ok(());
    }
    let printed = String::from_utf8_lossy(printed);
    let (mut ours, mut theirs) = (printed.lines(), expected.lines());
    for line in 1.. {
        match (ours.next(), theirs.next()) {
            (None, None) => break,
            (ours, theirs) if ours == theirs => {}
            (ours, theirs) => {
                return Err(format!(
                    "{name}, line {line}: the port {ours:?}, the Rust {theirs:?}"
                ))
            }
        }
    }
    Err(format!(
        "{name}: the line feeds differ, or bytes that are no text"
    ))
}

/// What a program of the port prints in a folder.
pub fn printed(programs: &Path, name: &str, folder: &Path) -> Vec<u8> {
    let output = Command::new(programs.join(name))
        .current_dir(folder)
        .output();
    let output = output.expect("a program that can be run");
    if !output.status.success() {
        return format!("{name} ended with {}", output.status).into_bytes();
    }
    output.stdout
}
