//! Times fitsrs, cfitsio and this reader on the same tables and headers, in one thread, and prints ns a cell and
//! ratios. Every run's checksum is compared with one that is made from the table's bytes alone. Then turning beside a
//! copy, and a profile page beside snprintf.

mod pages;
mod readers;
mod tables;
mod turning;

use readers::{
    cfitsio, cfitsio_open, fitsrs_header, fitsrs_next, fitsrs_next_scaled, fitsrs_rows,
    fitsrs_rows_scaled, our_layout, ours, ours_scaled, thread_time, CELL_READ, LENT_CELL_READ,
    LONGEST_ROW, ROW_READ,
};
use std::hint::black_box;
use std::time::{Duration, Instant};
use tables::{Column, Table};

/// A run is repeated at least so often and so long, but not once more after the most time.
const LEAST_REPEATS: usize = 3;
const LEAST_TIME: Duration = Duration::from_millis(300);
const MOST_TIME: Duration = Duration::from_millis(1000);

/// The best time of several runs, in nanoseconds. Each must give the answer.
fn best(reader: &str, answer: u64, mut run: impl FnMut() -> u64) -> f64 {
    let (begin, mut best, mut repeats) = (Instant::now(), u64::MAX, 0);
    while begin.elapsed() < MOST_TIME && (repeats < LEAST_REPEATS || begin.elapsed() < LEAST_TIME) {
        let start = thread_time();
        let got = black_box(run());
        best = best.min(thread_time() - start);
        repeats += 1;
        assert_eq!(got, answer, "{reader}: another answer");
    }
    best as f64
}

/// The same of a run that is so short that the clock would be felt: ten of them are one run.
fn best_of_ten(reader: &str, answer: u64, mut run: impl FnMut() -> u64) -> f64 {
    let ten = || (0..10).map(|_| black_box(run())).sum();
    best(reader, answer * 10, ten) / 10.0
}

/// ns a cell of each reader; 0 where it was not timed.
struct Figures {
    cell_read: f64,
    row_read: f64,
    row_iterator: f64,
    row_chunks: f64,
}

/// Each reader's ns a cell, alone and by those of a cell read and of a row read; nothing of one that was not timed.
fn print_readers(rows: &[(&str, f64)], cell_read: f64, row_read: f64) {
    println!(
        "  {:30} {:>10} {:>12} {:>12}",
        "", "ns a cell", "/ cell read", "/ row read"
    );
    for (reader, ns) in rows.iter().filter(|(_, ns)| *ns > 0.0) {
        let to_row_read = match row_read > 0.0 {
            true => format!("{:.2}", ns / row_read),
            false => "-".to_string(),
        };
        println!(
            "  {reader:30} {ns:10.2} {:12.2} {to_row_read:>12}",
            ns / cell_read
        );
    }
    println!();
}

fn time_table(name: &str, table: &Table, choice: &[usize]) -> Figures {
    let cells = table.cells(choice) as f64;
    let sum: u64 = table.sum_by_rows(choice).into();
    let column_sum: u64 = table.sum_by_columns(choice).into();
    let mut file = table.file();
    println!("{name}: {cells} cells");
    // A row that is longer than the list is read by cell reads alone.
    let listed = table.row_cells(choice) <= LONGEST_ROW;
    let time = |reader: &'static str, sum: u64, run: &mut dyn FnMut() -> u64| match reader {
        "ours, row read" if !listed => (reader, 0.0),
        _ => (reader, best(reader, sum, run) / cells),
    };
    let rows = [
        time("ours, cell read", sum, &mut || {
            ours(CELL_READ, table, choice)
        }),
        time("ours, cell read, lent cursor", sum, &mut || {
            ours(LENT_CELL_READ, table, choice)
        }),
        time("ours, row read", sum, &mut || ours(ROW_READ, table, choice)),
        time("fitsrs, next", sum, &mut || fitsrs_next(table, choice)),
        time("fitsrs, row iterator", sum, &mut || {
            fitsrs_rows(table, choice)
        }),
        time("cfitsio, whole columns", column_sum, &mut || {
            cfitsio(&mut file, choice, true)
        }),
        time("cfitsio, row chunks", sum, &mut || {
            cfitsio(&mut file, choice, false)
        }),
    ];
    let (cell_read, row_read) = (rows[0].1, rows[2].1);
    print_readers(&rows, cell_read, row_read);
    Figures {
        cell_read,
        row_read,
        row_iterator: rows[4].1,
        row_chunks: rows[6].1,
    }
}

/// Scaled reads of all columns, beside the plain ones and fitsrs, whose values are scaled as they come.
fn time_scaled(name: &str, table: &Table) {
    let choice = table.all_columns();
    let cells = table.cells(&choice) as f64;
    let plain_sum: u64 = table.sum_by_rows(&choice).into();
    let sum: u64 = table.scaled_sum().into();
    println!("{name}: {cells} cells");
    let time = |reader: &'static str, sum: u64, run: &mut dyn FnMut() -> u64| {
        (reader, best(reader, sum, run) / cells)
    };
    let rows = [
        time("ours, scaled cell read", sum, &mut || {
            ours_scaled(CELL_READ, table)
        }),
        time("ours, scaled row read", sum, &mut || {
            ours_scaled(ROW_READ, table)
        }),
        time("ours, cell read", plain_sum, &mut || {
            ours(CELL_READ, table, &choice)
        }),
        time("ours, row read", plain_sum, &mut || {
            ours(ROW_READ, table, &choice)
        }),
        time("fitsrs, next, then scaled", sum, &mut || {
            fitsrs_next_scaled(table)
        }),
        time("fitsrs, row iterator, scaled", sum, &mut || {
            fitsrs_rows_scaled(table)
        }),
    ];
    print_readers(&rows, rows[0].1, rows[1].1);
}

/// How many times faster the layout is than fitsrs's.
fn time_header(records: usize) -> f64 {
    let table = Table::new(vec![Column::of('E', 1); 64], 1, records);
    assert_eq!(table.header.len(), records * 80);
    let mut file = table.file();
    let sum: u64 = table.layout_sum().into();
    let layout = best_of_ten("our layout", sum, || our_layout(&table));
    let fitsrs = best_of_ten("fitsrs, header", 64, || fitsrs_header(&table));
    let cfitsio = best_of_ten("cfitsio, open", 1, || cfitsio_open(&mut file));
    println!("header of {records} records, 64 columns");
    println!("  {:30} {:>10} {:>12}", "", "ns", "/ ours");
    println!("  {:30} {layout:10.0} {:12.2}", "ours, layout", 1.0);
    println!(
        "  {:30} {fitsrs:10.0} {:12.2}",
        "fitsrs, records and BinTable",
        fitsrs / layout
    );
    println!(
        "  {:30} {cfitsio:10.0} {:12.2}\n",
        "cfitsio, open file, move to HDU",
        cfitsio / layout
    );
    fitsrs / layout
}

/// ns a cell of our cell read and row read, and of fitsrs's two, in columns of 1E.
fn time_growth(columns: usize, rows: usize, label: usize) -> Figures {
    let table = Table::new(vec![Column::of('E', 1); columns], rows, 0);
    let choice = table.all_columns();
    let cells = table.cells(&choice) as f64;
    let sum: u64 = table.sum_by_rows(&choice).into();
    let cell_read = best("our cell read", sum, || ours(CELL_READ, &table, &choice)) / cells;
    let row_read = best("our row read", sum, || ours(ROW_READ, &table, &choice)) / cells;
    let next = best("fitsrs, next", sum, || fitsrs_next(&table, &choice)) / cells;
    let row_iterator = best("fitsrs, rows", sum, || fitsrs_rows(&table, &choice)) / cells;
    println!("  {label:<10} {cell_read:10.2} {row_read:10.2} {next:10.2} {row_iterator:10.2}");
    Figures {
        cell_read,
        row_read,
        row_iterator,
        row_chunks: 0.0,
    }
}

fn growth_heading(title: &str, of: &str) {
    println!("{title}");
    println!(
        "  {of:10} {:>10} {:>10} {:>10} {:>10}",
        "cell read", "row read", "next", "rows"
    );
}

fn goal(text: &str, wanted: &str, seen: f64, met: bool) {
    println!(
        "  {text:44} {wanted:>12} {seen:10.2}  {}",
        if met { "met" } else { "not met" }
    );
}

/// The largest of some figures by the smallest.
fn spread(figures: &[f64]) -> f64 {
    let most = figures.iter().copied().fold(f64::MIN, f64::max);
    most / figures.iter().copied().fold(f64::MAX, f64::min)
}

fn main() {
    println!(
        "Each figure is the best of at least {LEAST_REPEATS} runs and {} ms, or of those that start within {} ms.\n",
        LEAST_TIME.as_millis(),
        MOST_TIME.as_millis()
    );
    let singles = Table::new(vec![Column::of('E', 1); 41], 100_000, 0);
    let one = time_table(
        "(i) 41 columns 1E, 100000 rows",
        &singles,
        &singles.all_columns(),
    );
    let letters = ['I', 'J', 'E', 'D'];
    let columns = (0..64).map(|c| Column::of(letters[c % 4], 1)).collect();
    let mixed = Table::new(columns, 50_000, 0);
    let two = time_table(
        "(ii) 64 columns of I, J, E, D, 50000 rows",
        &mixed,
        &mixed.all_columns(),
    );
    let long = Table::new(vec![Column::of('E', 262_144)], 20, 0);
    time_table(
        "(iii) one column 262144E, 20 rows, longer than the list of a row read (512), so cell reads alone",
        &long,
        &long.all_columns(),
    );
    let arrays = Table::new(vec![Column::array_of_j(100); 4], 10_000, 0);
    time_table(
        "(iv) 4 columns PJ, arrays of 100, 10000 rows",
        &arrays,
        &arrays.all_columns(),
    );
    let five = time_table("(v) columns 3, 20 and 37 of (i)", &singles, &[3, 20, 37]);
    let scaled = [
        ('E', "0.25", "-1.5"),
        ('I', "0.001", "20"),
        ('J', "1.25E-3", "-273.15"),
    ];
    let columns = (0..63).map(|c| {
        let (letter, tscal, tzero) = scaled[c % 3];
        Column::scaled(letter, tscal, tzero)
    });
    time_scaled(
        "(vi) 63 columns of E, I and J with TSCALn and TZEROn, 50000 rows, scaled reads",
        &Table::new(columns.collect(), 50_000, 0),
    );
    let headers = [144, 720].map(time_header);

    growth_heading(
        "growth, ns a cell, the opening included: 10 columns 1E",
        "cells",
    );
    let by_cells =
        [1_000, 10_000, 100_000, 1_000_000, 10_000_000].map(|n| time_growth(10, n / 10, n));
    growth_heading(
        "\ngrowth, ns a cell: 1000000 cells in columns 1E",
        "columns",
    );
    let by_columns = [1, 8, 16, 32, 64].map(|n| time_growth(n, 1_000_000 / n, n));
    let by_shape = turning::time_turning();
    let by_items = pages::time_pages();

    println!("\ngoals {:38} {:>12} {:>10}", "", "wanted", "seen");
    for (name, figures) in [("(i)", &one), ("(ii)", &two), ("(v)", &five)] {
        let (rust, c) = (
            figures.row_iterator / figures.row_read,
            figures.row_chunks / figures.row_read,
        );
        goal(
            &format!("{name} fitsrs's row iterator / row read"),
            "3 or more",
            rust,
            3.0 <= rust,
        );
        goal(
            &format!("{name} cfitsio's row chunks / row read"),
            "above 1",
            c,
            1.0 < c,
        );
    }
    for (records, ratio) in [144, 720].into_iter().zip(headers) {
        goal(
            &format!("fitsrs / layout, {records} records"),
            "5 or more",
            ratio,
            5.0 <= ratio,
        );
    }
    for (columns, limit) in [(1, 40.0), (4, 150.0)] {
        let seen = by_columns[columns].cell_read;
        let name = [
            "",
            "cell read, 8 columns, ns",
            "",
            "",
            "cell read, 64 columns, ns",
        ][columns];
        goal(name, &format!("below {limit}"), seen, seen < limit);
    }
    for (name, figures) in [
        (
            "cell read, 10^4 to 10^7 cells, most / least",
            by_cells[1..]
                .iter()
                .map(|f| f.cell_read)
                .collect::<Vec<_>>(),
        ),
        (
            "row read, 10^4 to 10^7 cells, most / least",
            by_cells[1..].iter().map(|f| f.row_read).collect(),
        ),
    ] {
        goal(name, "below 1.5", spread(&figures), spread(&figures) < 1.5);
    }
    for (shape, ratios) in by_shape {
        for (way, ratio) in ["turn", "back"].into_iter().zip(ratios) {
            goal(
                &format!("{way} / copy, {shape}"),
                "below 4",
                ratio,
                ratio < 4.0,
            );
        }
    }
    for (items, ratio) in by_items {
        goal(
            &format!("snprintf / page, {items}"),
            "above 1",
            ratio,
            1.0 < ratio,
        );
    }
}
