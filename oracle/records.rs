//! Random records of a header that is well formed by section 4 of the standard: values in fixed format where
//! it is required and else in either, comments, commentary records, and records of names that the reader
//! does not use.

use crate::common::{Random, BLOCK};

const RECORD: usize = 80;
const NAME: &[u8] = b"ABCDEFGHIJKLMNOPQRSTUVWXYZ0123456789-_";
/// The bytes beside the letters.
const BESIDE: &[u8] = b"@[\\]^_`{|}~";
/// Bit 5, which tells the two cases of a letter apart.
const CASE: u8 = 0x20;
/// Names that the reader uses, and the beginnings of those that the domain leaves out.
const KEPT: [&str; 16] = [
    "XTENSION", "BITPIX", "NAXIS", "PCOUNT", "GCOUNT", "TFIELDS", "THEAP", "TFORM", "TTYPE",
    "TSCAL", "TZERO", "TNULL", "CONTINUE", "HIERARCH", "END", "Z",
];

/// Whether a value may stand anywhere in its field, or must be where the standard has it.
#[derive(Clone, Copy, PartialEq)]
pub enum Format {
    Required,
    Either,
}

/// Any text that a record may hold.
pub fn text(random: &mut Random, longest: usize) -> String {
    let length = random.below(longest + 1);
    (0..length)
        .map(|_| char::from(32 + random.below(95) as u8))
        .collect()
}

/// The record of a value: bytes 1 to 10, the value, and now and then a comment.
fn record(random: &mut Random, name: &str, value: &str, format: Format, width: usize) -> String {
    let field = RECORD - 10;
    let free = format == Format::Either && random.below(2) == 1 && value.len() <= field;
    let mut record = if free {
        let before = random.below(field - value.len() + 1);
        format!("{name:8}= {:before$}{value}", "")
    } else {
        format!("{name:8}= {value:>width$}")
    };
    if record.len() < RECORD && random.below(2) == 1 {
        record.push_str(&" ".repeat(random.below(3)));
        record.push('/');
        record.push_str(&text(random, 60));
        record.truncate(RECORD);
    }
    record
}

/// An integer, now and then with a sign or zeros in front. Fixed format ends in byte 30.
pub fn integer(random: &mut Random, name: &str, value: usize, format: Format) -> String {
    let digits = match random.below(8) {
        0 => format!("+{value}"),
        1 => format!("{value:018}"),
        2 if value == 0 => "-0".to_string(),
        _ => value.to_string(),
    };
    record(random, name, &digits, format, 20)
}

/// A string, its quotes doubled already. Fixed format begins in byte 11.
pub fn string(random: &mut Random, name: &str, inside: &str, format: Format) -> String {
    record(random, name, &format!("'{inside}'"), format, 0)
}

/// A text for a string, with quotes doubled, slashes and spaces, that does not end in a space.
pub fn quoted(random: &mut Random, longest: usize) -> String {
    let mut inside = String::new();
    while inside.len() + 2 <= longest && random.below(12) > 0 {
        match random.below(8) {
            0 => inside.push_str("''"),
            1 => inside.push('/'),
            2 => inside.push(' '),
            3 => inside.push(char::from(33 + random.below(6) as u8)),
            _ => inside.push(char::from(NAME[random.below(NAME.len())])),
        }
    }
    inside.trim_end().to_string()
}

/// The text with bit 5 of one such byte changed, if it has such a byte. Texts are ASCII here and stay so.
pub fn flipped(random: &mut Random, text: &str, such: fn(u8) -> bool) -> String {
    let mut bytes = text.as_bytes().to_vec();
    let places: Vec<usize> = (0..bytes.len()).filter(|at| such(bytes[*at])).collect();
    if !places.is_empty() {
        bytes[places[random.below(places.len())]] ^= CASE;
    }
    String::from_utf8(bytes).expect("ASCII")
}

/// The text with the case of every letter changed.
pub fn swapped(text: &str) -> String {
    let swap = |letter: char| match letter {
        'A'..='Z' => letter.to_ascii_lowercase(),
        _ => letter.to_ascii_uppercase(),
    };
    text.chars().map(swap).collect()
}

/// The text with each letter in either case, and bytes beside the letters for half of its digits and lines.
fn varied(random: &mut Random, text: &str) -> String {
    let mut vary = |byte: u8| match random.below(2) {
        0 if byte.is_ascii_alphabetic() => byte ^ CASE,
        0 if NAME.contains(&byte) => BESIDE[random.below(BESIDE.len())],
        _ => byte,
    };
    text.bytes().map(|byte| char::from(vary(byte))).collect()
}

/// A name of a column, its quotes doubled already: a new one, or one like a name before, which is the same, or in
/// another case, or else in bit 5 of a byte beside the letters. It is printed ASCII.
fn name(random: &mut Random, before: &[String]) -> String {
    if before.is_empty() || random.below(4) > 0 {
        let text = quoted(random, 68);
        return match random.below(3) {
            0 => text,
            1 => swapped(&text),
            _ => varied(random, &text),
        };
    }
    let like = &before[random.below(before.len())];
    match random.below(4) {
        0 => like.clone(),
        1 => swapped(like),
        2 => flipped(random, like, |byte| byte.is_ascii_alphabetic()),
        _ => flipped(random, like, |byte| BESIDE.contains(&(byte ^ CASE))),
    }
}

/// A name that the reader does not use, and that no record before has.
fn unused_name(random: &mut Random, taken: &mut Vec<String>) -> String {
    loop {
        let length = 1 + random.below(8);
        let name: String = (0..length)
            .map(|_| char::from(NAME[random.below(NAME.len())]))
            .collect();
        if !KEPT.iter().any(|kept| name.starts_with(kept)) && !taken.contains(&name) {
            taken.push(name.clone());
            return name;
        }
    }
}

fn real(random: &mut Random) -> String {
    let sign = ["", "+", "-"][random.below(3)];
    let whole = random.below(1000);
    let part = [".", ".5", ".25"][random.below(3)];
    let exponent = ["", "E5", "E-07", "D+10", "D0"][random.below(5)];
    format!("{sign}{whole}{part}{exponent}")
}

/// A record that the reader has no use for: of commentary, or a value of any kind but a complex one, which the
/// Rust does not read.
pub fn other(random: &mut Random, taken: &mut Vec<String>) -> String {
    // Commentary may look like a value.
    let front = if random.below(4) == 0 { "= " } else { "" };
    let long = front.to_string() + &text(random, 70);
    match random.below(11) {
        0 => format!("COMMENT {long}"),
        1 => format!("HISTORY {long}"),
        2 => format!("        {long}"),
        3 => String::new(),
        4 => {
            let name = unused_name(random, taken);
            let long = long.trim_start_matches("= ");
            format!("{name:8}{long}")
        }
        // A used name without `= ` is commentary too.
        5 => format!(
            "{:8}=5 {}",
            ["NAXIS1", "TFORM1", "TTYPE2"][random.below(3)],
            text(random, 60)
        ),
        kind => {
            let name = unused_name(random, taken);
            let (value, width) = value(random, kind);
            record(random, &name, &value, Format::Either, width)
        }
    }
}

/// A string, a logical, an integer, a real number, or nothing; and the width of its fixed format.
fn value(random: &mut Random, kind: usize) -> (String, usize) {
    match kind {
        6 => {
            let inside = quoted(random, 60);
            (format!("'{inside}{:1$}'", "", random.below(4)), 0)
        }
        7 => (["T", "F"][random.below(2)].to_string(), 20),
        8 => {
            let sign = ["", "-", "+"][random.below(3)];
            (format!("{sign}{}{}", random.draw(), random.draw()), 20)
        }
        9 => (real(random), 20),
        _ => (String::new(), 20),
    }
}

/// The records and END, filled up with spaces to a whole number of blocks.
pub fn bytes(records: &[String]) -> Vec<u8> {
    let mut bytes = vec![];
    for record in records.iter().map(String::as_str).chain(["END"]) {
        assert!(
            record.len() <= RECORD,
            "a record of more than 80 bytes: {record}"
        );
        bytes.extend(format!("{record:RECORD$}").into_bytes());
    }
    bytes.resize(bytes.len().next_multiple_of(BLOCK), b' ');
    bytes
}

/// Gives the columns of a header that have a name other ones, in either case and often alike. The generator is one
/// of its own, so that the rest of a table is as without it.
pub fn rename(random: &mut Random, header: &mut [u8]) {
    let mut before = vec![];
    for record in header.chunks_exact_mut(RECORD) {
        if record.starts_with(b"TTYPE") && record[8..].starts_with(b"= ") {
            let keyword = String::from_utf8_lossy(&record[..8]);
            let name = name(random, &before);
            let renamed = string(random, &keyword, &name, Format::Either);
            record.copy_from_slice(format!("{renamed:RECORD$}").as_bytes());
            before.push(name);
        }
    }
}

/// The order of the records after the required ones is free.
pub fn shuffle<T>(random: &mut Random, list: &mut [T]) {
    for last in (1..list.len()).rev() {
        list.swap(last, random.below(last + 1));
    }
}
