//! Random tables of the whole domain that the Rust and the port share: the header's records, the data area,
//! the choice of columns and the heap setting.

use crate::common::{descriptor, item_width, number, Kind, Random, BLOCK, LETTERS, TRUE};
use crate::records::{bytes, integer, other, quoted, rename, shuffle, string, Format};
use std::ops::Range;

/// The largest of each that a table may have; `file` is header and data area together.
#[derive(Clone, Copy)]
pub struct Sizes {
    pub columns: usize,
    pub rows: usize,
    pub count: usize,
    pub array: usize,
    /// The least length of a heap.
    pub heap: usize,
    pub gap: usize,
    pub other_records: usize,
    pub header: usize,
    pub file: usize,
}

#[derive(Clone)]
pub struct Column {
    pub kind: Kind,
    pub letter: char,
    pub count: usize,
    pub start: usize,
}

impl Column {
    fn random(random: &mut Random, start: usize, sizes: &Sizes) -> Column {
        let letter = char::from(LETTERS[random.below(LETTERS.len())]);
        let (kind, count) = match random.below(4) {
            0 => (Kind::P, 1),
            1 => (Kind::Q, 1),
            _ => (Kind::Field, 1 + random.below(sizes.count)),
        };
        Column {
            kind,
            letter,
            count,
            start,
        }
    }

    pub fn width(&self) -> usize {
        match self.kind {
            Kind::Field => self.count * item_width(self.letter),
            Kind::P => 8,
            Kind::Q => 16,
        }
    }

    /// The form: a count of 1 may be left out, zeros may stand in front, and a rest is not looked at.
    fn form(&self, random: &mut Random) -> String {
        let digits = match random.below(4) {
            0 if self.count == 1 => String::new(),
            1 => format!("{:04}", self.count),
            _ => self.count.to_string(),
        };
        let letter = self.letter;
        let form = match self.kind {
            Kind::Field => format!("{digits}{letter}"),
            Kind::P => format!("{digits}P{letter}"),
            Kind::Q => format!("{digits}Q{letter}"),
        };
        let rest = match (random.below(6), self.kind, letter) {
            (0, Kind::Field, 'A') => "8",
            (0 | 1, Kind::P | Kind::Q, _) => "(20)",
            (2, ..) => "      ",
            _ => "",
        };
        form + rest
    }
}

/// What is opened: columns, or all of them, and arrays or descriptors.
#[derive(Clone)]
pub struct Choice {
    /// As it is given: in any order, and now and then with indexes that no column has.
    pub given: Option<Vec<usize>>,
    /// The chosen columns in order.
    pub columns: Vec<usize>,
    pub heap: bool,
}

impl Choice {
    fn all(fields: usize) -> Choice {
        Choice {
            given: None,
            columns: (0..fields).collect(),
            heap: true,
        }
    }

    fn random(random: &mut Random, fields: usize) -> Choice {
        let heap = random.below(3) > 0;
        let mut columns: Vec<usize> = (0..fields).collect();
        if random.below(2) == 0 {
            return Choice {
                given: None,
                columns,
                heap,
            };
        }
        shuffle(random, &mut columns);
        columns.truncate(1 + random.below(fields));
        let mut given = columns.clone();
        for unknown in [fields, fields + 1 + random.below(900), usize::MAX] {
            if random.below(6) == 0 {
                given.insert(random.below(given.len() + 1), unknown);
            }
        }
        columns.sort_unstable();
        Choice {
            given: Some(given),
            columns,
            heap,
        }
    }
}

pub struct Table {
    pub columns: Vec<Column>,
    pub row_width: usize,
    pub rows: usize,
    pub theap: usize,
    pub heap: usize,
    pub header: Vec<u8>,
    /// The main table, a gap, the heap, and bytes that belong to no table.
    pub area: Vec<u8>,
    pub choice: Choice,
    /// Whether every array is sound and not empty, those that are not followed too.
    pub all_sound: bool,
}

/// The main table's length, and THEAP, and the length of all, PCOUNT included.
struct Shape {
    main: usize,
    theap: usize,
    total: usize,
}

impl Table {
    /// A table that keeps to the sizes.
    pub fn random(random: &mut Random, sizes: &Sizes) -> Table {
        loop {
            let table = Table::try_random(random, sizes);
            let length = table.header.len() + table.area.len();
            if length <= sizes.file && table.header.len() <= sizes.header {
                return table;
            }
        }
    }

    /// The same table with names of either case, many of them alike, which another generator makes.
    pub fn named(random: &mut Random, names: &mut Random, sizes: &Sizes) -> Table {
        let mut table = Table::random(random, sizes);
        rename(names, &mut table.header);
        table
    }

    fn try_random(random: &mut Random, sizes: &Sizes) -> Table {
        let mut columns: Vec<Column> = vec![];
        let mut row_width = 0;
        for _ in 0..1 + random.below(sizes.columns) {
            let column = Column::random(random, row_width, sizes);
            row_width += column.width();
            columns.push(column);
        }
        let rows = 1 + random.below(sizes.rows);
        Table::of(random, sizes, columns, rows, false)
    }

    /// A table of these columns, one behind the other, and of so many rows; all of it is opened, or any choice.
    pub fn of(
        random: &mut Random,
        sizes: &Sizes,
        columns: Vec<Column>,
        rows: usize,
        all: bool,
    ) -> Table {
        let row_width = columns.iter().map(Column::width).sum();
        let shape = shape(random, sizes, &columns, rows * row_width);
        let header = header(random, sizes, &columns, (row_width, rows), &shape);
        let choice = if all {
            Choice::all(columns.len())
        } else {
            Choice::random(random, columns.len())
        };
        let area = (0..shape.total).map(|_| random.byte()).collect();
        let heap = shape.total - shape.theap;
        let all_sound = true;
        let mut table = Table {
            columns,
            row_width,
            rows,
            theap: shape.theap,
            heap,
            header,
            area,
            choice,
            all_sound,
        };
        table.set_fields(random, sizes);
        table.add_bytes_after(random);
        table
    }

    pub fn field(&self, row: usize, column: usize) -> Range<usize> {
        let start = row * self.row_width + self.columns[column].start;
        start..start + self.columns[column].width()
    }

    /// The count of the array that a descriptor names.
    pub fn array_count(&self, row: usize, column: usize) -> usize {
        let field = &self.area[self.field(row, column)];
        number(&field[..field.len() / 2])
    }

    fn followed(&self, column: usize) -> bool {
        self.choice.heap && self.choice.columns.contains(&column)
    }

    /// Sets what may not be left to chance: logicals are T, followed arrays are sound and not empty; and now
    /// and then an item with the bits of a least or greatest number, or of a NaN.
    fn set_fields(&mut self, random: &mut Random, sizes: &Sizes) {
        for row in 0..self.rows {
            for column in 0..self.columns.len() {
                let Column { kind, letter, .. } = self.columns[column];
                let field = self.field(row, column);
                if kind != Kind::Field {
                    self.set_descriptor(random, sizes, (row, column));
                } else if letter == 'L' {
                    self.area[field].fill(TRUE);
                } else if random.below(4) == 0 {
                    let width = item_width(letter);
                    let at = field.start + width * random.below(field.len() / width);
                    self.area[at..at + width].copy_from_slice(&special(random, width));
                }
            }
        }
    }

    fn set_descriptor(&mut self, random: &mut Random, sizes: &Sizes, place: (usize, usize)) {
        let Column { kind, letter, .. } = self.columns[place.1];
        let field = self.field(place.0, place.1);
        if !self.followed(place.1) && random.below(2) == 0 {
            // Nobody follows it, so it may say anything.
            self.all_sound = false;
            if random.below(3) == 0 {
                self.area[field].fill(0);
            }
            return;
        }
        let width = item_width(letter);
        let count = 1 + random.below(sizes.array.min(self.heap / width));
        let room = self.heap - count * width;
        let offset = if random.below(6) == 0 {
            room
        } else {
            random.below(room + 1)
        };
        self.area[field].copy_from_slice(&descriptor(kind, count, offset));
        if letter == 'L' {
            let start = self.theap + offset;
            self.area[start..start + count].fill(TRUE);
        }
    }

    /// Bytes behind the table: none, the fill of its last block, or any.
    fn add_bytes_after(&mut self, random: &mut Random) {
        match random.below(3) {
            0 => {}
            1 => {
                let length = self.area.len().next_multiple_of(BLOCK);
                self.area.resize(length, 0);
            }
            _ => {
                for _ in 0..random.below(100) {
                    self.area.push(random.byte());
                }
            }
        }
    }
}

/// The heap has room for an item at least, if there are arrays; PCOUNT may be more than they need.
fn shape(random: &mut Random, sizes: &Sizes, columns: &[Column], main: usize) -> Shape {
    let arrays = columns.iter().any(|column| column.kind != Kind::Field);
    if !arrays && random.below(2) == 0 {
        return Shape {
            main,
            theap: main,
            total: main,
        };
    }
    let theap = main + random.below(2) * random.below(sizes.gap + 1);
    let heap = sizes.heap + random.below(16 * sizes.array);
    Shape {
        main,
        theap,
        total: theap + heap,
    }
}

/// The bits of a least or greatest number, of an infinity, or of a NaN.
fn special(random: &mut Random, width: usize) -> Vec<u8> {
    let (first, second, rest) = [
        (0x00, 0x00, 0x00),
        (0xFF, 0xFF, 0xFF),
        (0x80, 0x00, 0x00),
        (0x7F, 0xFF, 0xFF),
        (0x7F, 0x80, 0x00),
        (0x7F, 0x80, 0x01),
        (0x7F, 0xF0, 0x00),
        (0xFF, 0xF0, 0x01),
    ][random.below(8)];
    let mut bytes = vec![rest; width];
    bytes[0] = first;
    if width > 1 {
        bytes[1] = second;
    }
    bytes
}

/// The required records in their order, then all others in any.
fn header(
    random: &mut Random,
    sizes: &Sizes,
    columns: &[Column],
    (naxis1, naxis2): (usize, usize),
    shape: &Shape,
) -> Vec<u8> {
    let mut records = vec![string(random, "XTENSION", "BINTABLE", Format::Required)];
    for (name, value) in [
        ("BITPIX", 8),
        ("NAXIS", 2),
        ("NAXIS1", naxis1),
        ("NAXIS2", naxis2),
        ("PCOUNT", shape.total - shape.main),
        ("GCOUNT", 1),
        ("TFIELDS", columns.len()),
    ] {
        records.push(integer(random, name, value, Format::Required));
    }
    let mut rest = other_records(random, sizes, columns, shape);
    shuffle(random, &mut rest);
    records.append(&mut rest);
    bytes(&records)
}

/// THEAP, forms, names, and what the reader does not use.
fn other_records(
    random: &mut Random,
    sizes: &Sizes,
    columns: &[Column],
    shape: &Shape,
) -> Vec<String> {
    let mut records = vec![];
    if shape.total > shape.main && (shape.theap > shape.main || random.below(2) == 0) {
        records.push(integer(random, "THEAP", shape.theap, Format::Either));
    }
    for (index, column) in columns.iter().enumerate() {
        let keyword = format!("TFORM{}", index + 1);
        let form = column.form(random);
        records.push(string(random, &keyword, &form, Format::Required));
        if random.below(5) > 0 {
            let keyword = format!("TTYPE{}", index + 1);
            let name = quoted(random, 68);
            records.push(string(random, &keyword, &name, Format::Either));
        }
    }
    let mut taken = vec![];
    for _ in 0..random.below(sizes.other_records + 1) {
        records.push(other(random, &mut taken));
    }
    records
}
