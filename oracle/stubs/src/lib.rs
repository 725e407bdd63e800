//! Stands for the crate's root. It decides no compared answer: `parse_header` only cuts the header
//! into records, and the functions after it open what the crate keeps to itself.
#![allow(dead_code, unused_imports)]

pub mod card;
pub mod error;
pub mod hdu;

pub use hdu::data::bintable::{TableData, TableRowData};

use card::Card;
use error::Error;
use hdu::header::extension::bintable::{BinTable, TFormType};
use hdu::header::{Header, Xtension};

/// Stands for the crate's loop over the records, which is not among the supplied sources: records of
/// 80 bytes, up to and with END. Every header of the programs is well formed and has an END, so
/// what the crate's own loop does with other headers does not matter here.
pub fn parse_header(bytes: &[u8]) -> Result<Header<BinTable>, Error> {
    let mut cards = vec![];
    for record in bytes.chunks_exact(80) {
        let record: &[u8; 80] = record.try_into().expect("chunks of 80 bytes");
        let card = Card::try_from(record)?;
        let last = card == Card::End;
        cards.push(card);
        if last {
            break;
        }
    }
    Header::parse(cards)
}

/// Opens the crate's own `read_the_heap`. A user of the crate cannot call it: the heap is then on.
pub fn set_heap<R>(table: &mut TableData<R>, on: bool) {
    table.read_the_heap(on)
}

/// Opens the row that the crate's table is at, which only its row iterator reads.
pub fn row_of<R>(table: &TableData<R>) -> usize {
    table.row_idx
}

/// The column that the crate's table is at. Its number is private, so it is taken from the text that the
/// table shows of itself.
pub fn column_of<R: std::fmt::Debug>(table: &TableData<R>) -> usize {
    let text = format!("{table:?}");
    let (_, rest) = text.split_once(" col_idx: ").expect("a field col_idx");
    let (digits, _) = rest.split_once(',').expect("a field after col_idx");
    table.cols_idx[digits.parse::<usize>().expect("a number")]
}

/// What the crate says of a table.
pub struct Layout {
    pub naxis1: u64,
    pub naxis2: u64,
    pub pcount: u64,
    pub theap: usize,
    pub columns: Vec<Column>,
}

/// A column: its letter, that of an array's items, its count and its name. The crate keeps no count for P and
/// Q, so 1 stands there.
pub struct Column {
    pub letter: char,
    pub element: String,
    pub count: usize,
    pub name: Option<String>,
}

pub fn layout_of<R>(table: &TableData<R>) -> Layout {
    let ctx = &table.ctx;
    let column = |(form, name): (&TFormType, &Option<String>)| {
        let (letter, count) = letter_and_count(form);
        let element = match form {
            TFormType::P { ty, .. } | TFormType::Q { ty, .. } => format!("{ty:?}"),
            _ => String::new(),
        };
        let name = name.clone();
        Column { letter, element, count, name }
    };
    Layout {
        naxis1: ctx.naxis1,
        naxis2: ctx.naxis2,
        pcount: ctx.get_num_bytes_data_block().wrapping_sub(ctx.naxis1.wrapping_mul(ctx.naxis2)),
        theap: ctx.theap,
        columns: ctx.tforms.iter().zip(&ctx.ttypes).map(column).collect(),
    }
}

fn letter_and_count(form: &TFormType) -> (char, usize) {
    match *form {
        TFormType::L { repeat_count } => ('L', repeat_count),
        TFormType::X { repeat_count } => ('X', repeat_count),
        TFormType::B { repeat_count } => ('B', repeat_count),
        TFormType::I { repeat_count } => ('I', repeat_count),
        TFormType::J { repeat_count } => ('J', repeat_count),
        TFormType::K { repeat_count } => ('K', repeat_count),
        TFormType::A { repeat_count } => ('A', repeat_count),
        TFormType::E { repeat_count } => ('E', repeat_count),
        TFormType::D { repeat_count } => ('D', repeat_count),
        TFormType::C { repeat_count } => ('C', repeat_count),
        TFormType::M { repeat_count } => ('M', repeat_count),
        TFormType::P { .. } => ('P', 1),
        TFormType::Q { .. } => ('Q', 1),
    }
}
