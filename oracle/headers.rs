//! The cases of docs/DIFFERENCES.md, "Records and values" and "The table's header". One line a case: its
//! number, the records, and after `=>` what `cells` prints of the table, or would print with the Rust's
//! answers. The number is A or B for the list, and the row in it; `n` stands for the remarks below a list.
//!
//! The table has a row of one `1I` with the number 7 and is otherwise as the records say. A record stands in
//! place of the one of its name, or behind the others if there is none; with `+` in front it is behind them
//! in any case, and `-NAME` takes one out. `data N` is the length of the data, zeros behind the 7; `blocks N`
//! that of the header, with blank records. `\xNN` is a byte in hexadecimal, U+NNNN another character. With
//! `find NAME` as the last word the answer is the column that has the name, as `layout_cases` prints it.
//!
//! `headers` prints what the Rust answers; `headers PROGRAMS FOLDER` what the port's `cells` or `layout_cases`
//! does, run in FOLDER.

#[allow(dead_code)]
mod common;
#[allow(dead_code)]
mod generate;
#[allow(dead_code)]
mod kinds;
#[allow(dead_code)]
mod names;
#[allow(dead_code)]
mod reader;
#[allow(dead_code)]
mod records;

use fitsrs::parse_header;
use std::fs;
use std::panic::{catch_unwind, AssertUnwindSafe};
use std::path::Path;

const TABLE: [&str; 9] = [
    "XTENSION= 'BINTABLE'",
    "BITPIX  = 8",
    "NAXIS   = 2",
    "NAXIS1  = 2",
    "NAXIS2  = 1",
    "PCOUNT  = 0",
    "GCOUNT  = 1",
    "TFIELDS = 1",
    "TFORM1  = '1I'",
];

const CASES: &str = r"
# Records and values
A.1a | HIERARCH NAXIS1 = 5
A.1b | TTYPE1  = 'A' ; HIERARCH TTYPE1 = 'B'
A.2 | HIERARCH text
A.3 | KEY     = (1,2)
A.4 | TTYPE1  = 'A''B'
A.5 | TTYPE1  = '   '
A.6 | TTYPE1  = 'A&' ; CONTINUE  'B'
A.7a | +NAXIS2  = 1
A.7b | TTYPE1  = 'A' ; +TTYPE1  = 'B'
A.8a | +END     x ; TTYPE1  = 'A'
A.8b | + END ; TTYPE1  = 'A'
A.8c | +END\x09 ; TTYPE1  = 'A'
A.9a | + TTYPE1 = 'A'
A.9b | +TTYPE1\x09 = 'A'
A.10 | +\xFFKEY    = 1
A.11 | XTENSION  'BINTABLE'
A.12a | NAXIS2  = 0000000000000000001
A.12b | NAXIS2  = 9223372036854775808
A.13 | NAXIS2  = \x091
A.14a | NAXIS2  = 1.
A.14b | NAXIS2  = 1.0
A.14c | NAXIS2  = 1E0
A.14d | NAXIS2  = T
A.15a | TFORM1  = 1I
A.15b | TFORM1  = 1D ; NAXIS1  = 4 ; data 4
A.16 | NAXIS2  = 1 x
A.17a | NAXIS2  =
A.17b | TTYPE1  =
A.18a | TTYPE1  = 'a'b
A.18b | TTYPE1  = 'a' 'b'
A.19a | TTYPE1  = 'a
A.19b | TTYPE1  = 'a''
A.19c | TTYPE1  = '''
A.20 | TTYPE1  = '
A.21a | NAXIS2  = \x801
A.21b | TTYPE1  = \x80'A'
A.22 | TTYPE1  = 'a\x80b'
A.23 | blocks 21

# The table's header
B.1a | TFIELDS = 2
B.1b | TFIELDS = 2 ; NAXIS1  = 6 ; data 6
B.1c | TFIELDS = 3 ; NAXIS1  = 4 ; TFORM3  = '1I' ; data 4
B.2 | TFIELDS = 2 ; TFORM1  = 5 ; TFORM2  = '1I'
B.3a | TFIELDS = 2 ; TFORM1  = '3Z' ; TFORM2  = '1I'
B.3b | TFIELDS = 2 ; TFORM1  = '8' ; TFORM2  = '1I'
B.3c | TFIELDS = 2 ; TFORM1  = ' 1E' ; TFORM2  = '1I'
B.3d | TFIELDS = 2 ; TFORM1  = 'P' ; TFORM2  = '1I'
B.3e | TFIELDS = 2 ; TFORM1  = 'PZ' ; TFORM2  = '1I'
B.3f | TFIELDS = 2 ; TFORM1  = '' ; TFORM2  = '1I'
B.3g | TFIELDS = 2 ; TFORM1  = '0P' ; TFORM2  = '1I'
B.4 | TFORM1  = '9X' ; NAXIS1  = 1
B.5 | TFIELDS = 8 ; TFORM1  = '1X' ; TFORM2  = '1X' ; TFORM3  = '1X' ; TFORM4  = '1X' ; TFORM5  = '1X' ; TFORM6  = '1X' ; TFORM7  = '1X' ; TFORM8  = '1X' ; NAXIS1  = 1
B.6a | TFORM1  = '1X' ; NAXIS1  = 1
B.6b | TFORM1  = '9X' ; NAXIS1  = 2
B.7 | TFORM1  = '99999999999999999999E' ; NAXIS1  = 4 ; data 4
B.8a | TFORM1  = '0PE' ; NAXIS1  = 8 ; PCOUNT  = 4 ; data 12
B.8b | TFORM1  = '2PE' ; NAXIS1  = 8 ; PCOUNT  = 4 ; data 12
B.8c | TFORM1  = '8388609PE' ; NAXIS1  = 8 ; PCOUNT  = 4 ; data 12
B.9 | TFORM1  = '576460752303423489E' ; NAXIS1  = 4 ; data 4
B.10a | PCOUNT  = 4 ; THEAP   = 1 ; data 6
B.10b | PCOUNT  = 4 ; THEAP   = 7 ; data 6
B.11a | THEAP   = -1
B.11b | THEAP   = 'a'
B.12a | NAXIS1  = 1048577 ; TFORM1  = '1048577B' ; NAXIS2  = 0
B.12b | NAXIS2  = 16777217
B.12c | PCOUNT  = 2147483648
B.12d | TFIELDS = 65
B.12e | TFIELDS = 1000
B.12f | NAXIS1  = 4294967296 ; TFORM1  = '4294967296B' ; NAXIS2  = 4294967296
B.13a | XTENSION= 'IMAGE'
B.13b | -XTENSION
B.13c | XTENSION= 'FOO'
B.13d | XTENSION= BINTABLE
B.14 | XTENSION= ' BINTABLE'
B.15 | TTYPE1  = 5
B.16 | TTYPE1  = '   '
B.17 | data 1
B.18 | TTYPE1  = 'COMPRESSED_DATA' ; ZCMPTYPE= 'GZIP_1' ; ZBITPIX = 8 ; ZNAXIS  = 1 ; ZNAXIS1 = 1
B.19 | ZNAXIS  = 4611686018427387904
B.20 | TTYPE1  = 'A''B'
B.21a | TTYPE1  = 'Weight' ; find WEIGHT
B.21b | TTYPE1  = 'Weight' ; find Weight
B.22 | TFIELDS = 2 ; NAXIS1  = 4 ; TFORM2  = '1I' ; TTYPE1  = 'weight' ; TTYPE2  = 'WEIGHT' ; data 4 ; find WEIGHT
B.na | -BITPIX
B.nb | BITPIX  = '8'
B.nc | BITPIX  = 16
B.nd | NAXIS   = 3
B.ne | NAXIS1  = -1
B.nf | PCOUNT  = -1
B.ng | GCOUNT  = 2
B.nh | -TFIELDS
B.ni | TFIELDS = -1
B.nj | NAXIS1  = 3
B.nk | TFIELDS = 2 ; TFORM1  = '0PE' ; TFORM2  = '1I'
B.nl | TFORM1  = '0QD' ; NAXIS1  = 0 ; data 0
B.nm | TFORM1  = '2PE' ; NAXIS1  = 16 ; data 16
B.nn | TTYPE1  = '`' ; find @
B.no | TTYPE1  = '{' ; find [
";

/// Longer lists are cut to this many cells.
const SHOWN: usize = 6;

/// A text with its escaped bytes.
fn bytes_of(text: &str) -> Vec<u8> {
    let mut parts = text.split(r"\x");
    let mut bytes = parts.next().unwrap_or("").as_bytes().to_vec();
    for part in parts {
        let (digits, rest) = part.split_at(2);
        bytes.push(u8::from_str_radix(digits, 16).expect("a byte in hexadecimal"));
        bytes.extend(rest.as_bytes());
    }
    bytes
}

/// A record's 80 bytes, from a text with escaped bytes.
fn record_of(text: &str) -> Vec<u8> {
    let mut record = bytes_of(text);
    record.resize(80, b' ');
    record
}

/// The table of a case, and the length of its header.
fn file_of(words: &str) -> (Vec<u8>, usize) {
    let mut records: Vec<Vec<u8>> = TABLE.iter().map(|record| record_of(record)).collect();
    let (mut data, mut blocks) = (2, 1);
    for word in words.split(" ; ") {
        let same_name = |other: &Vec<u8>, record: &[u8]| other[..8] == record[..8];
        match (word.as_bytes()[0], word.split_once(' ')) {
            (_, Some(("data", length))) => data = length.parse().expect("a length"),
            (_, Some(("blocks", number))) => blocks = number.parse().expect("a number"),
            (b'+', _) => records.push(record_of(&word[1..])),
            (b'-', _) => records.retain(|other| !same_name(other, &record_of(&word[1..]))),
            _ => {
                let record = record_of(word);
                match records.iter().position(|other| same_name(other, &record)) {
                    Some(at) => records[at] = record,
                    None => records.push(record),
                }
            }
        }
    }
    // Blank records fill all blocks but the last, which has END.
    while records.len() < (blocks - 1) * 36 {
        records.push(record_of(""));
    }
    records.push(record_of("END"));
    let mut file = records.concat();
    file.resize(blocks * common::BLOCK, b' ');
    let header = file.len();
    file.extend([0, 7]);
    file.resize(header + data, 0);
    (file, header)
}

/// The Rust's answer. The crate's own loop over the records is not among the sources.
fn rust(file: &[u8], header: usize, sought: Option<&str>) -> String {
    let answer = catch_unwind(AssertUnwindSafe(|| {
        if parse_header(&file[..header]).is_err() {
            return "error\n".to_string();
        }
        let open = reader::open(file, header, None, true);
        match sought {
            Some(name) => names::find_line(0, open.ctx.find_field_by_ttype(name)),
            None => reader::listing(open, SHOWN),
        }
    }));
    answer.unwrap_or_else(|_| "panic\n".to_string())
}

/// The port's answer, by the programs in the first folder, run in the second.
fn port(file: &[u8], header: usize, sought: Option<&str>, folders: [&Path; 2]) -> Vec<u8> {
    let [programs, folder] = folders;
    let run = |program, name, bytes| {
        fs::write(folder.join(name), bytes).expect("a file that can be written");
        kinds::printed(programs, program, folder)
    };
    let Some(name) = sought else {
        return run("cells", "table.fits", file);
    };
    let (header, area) = file.split_at(header);
    let case = names::case(header, area.len(), &[name.to_string()]);
    let printed = run("layout_cases", "cases.bin", &case);
    let mut lines = printed.split(|byte| *byte == b'\n');
    let found = lines.find(|line| line.starts_with(b"find 0 full"));
    found.unwrap_or(b"no line").to_vec()
}

/// A byte of the port's text, or a character of the Rust's; what is no printed ASCII by its number.
fn shown(character: u32) -> String {
    match u8::try_from(character) {
        Ok(b'\n') => "; ".to_string(),
        Ok(byte @ 32..=126) => char::from(byte).to_string(),
        Ok(byte) => format!("\\x{byte:02X}"),
        Err(_) => format!("U+{character:04X}"),
    }
}

fn main() {
    // A panic is an answer here, so it is not to be reported as well.
    std::panic::set_hook(Box::new(|_| {}));
    let words: Vec<String> = std::env::args().skip(1).collect();
    for line in CASES.lines() {
        let Some((_, records)) = line.split_once(" | ") else {
            println!("{line}");
            continue;
        };
        let (records, sought) = match records.split_once(" ; find ") {
            Some((records, name)) => (records, Some(name)),
            None => (records, None),
        };
        let (file, header) = file_of(records);
        let answer: String = match &words[..] {
            [programs, folder] => {
                fs::create_dir_all(folder).expect("a folder that can be made");
                let folders = [Path::new(programs), Path::new(folder)];
                let printed = port(&file, header, sought, folders);
                let shown = printed.into_iter().map(|byte| shown(u32::from(byte)));
                shown.collect()
            }
            _ => rust(&file, header, sought)
                .chars()
                .map(|c| shown(u32::from(c)))
                .collect(),
        };
        println!("{line} => {}", answer.trim_end_matches("; "));
    }
}
