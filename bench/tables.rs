//! The tables that are read, turned or printed: their bytes, and from those alone the checksums of their cells and
//! their bytes turned.

const BLOCK: usize = 2880;

/// A column of one form letter, B, I, J, E or D, with `count` items, or with an array of `count` J items in each row.
#[derive(Clone, Copy)]
pub struct Column {
    letter: char,
    count: usize,
    is_array: bool,
    scaling: Option<Scaling>,
}

/// The factor and the zero of a column, as the header has them.
#[derive(Clone, Copy)]
struct Scaling {
    tscal: &'static str,
    tzero: &'static str,
}

pub struct Table {
    columns: Vec<Column>,
    rows: usize,
    row_width: usize,
    pub header: Vec<u8>,
    /// The main table and the heap.
    pub area: Vec<u8>,
}

/// A xorshift generator, so that every run has the same tables.
pub struct Random(u64);

impl Random {
    pub fn draw(&mut self) -> u64 {
        self.0 ^= self.0 << 13;
        self.0 ^= self.0 >> 7;
        self.0 ^= self.0 << 17;
        self.0.wrapping_mul(0x2545_F491_4F6C_DD1D)
    }

    /// The bytes of an item. Floats are finite.
    fn item(&mut self, letter: char) -> Vec<u8> {
        let bits = self.draw();
        match letter {
            'I' => (bits as u16).to_be_bytes().to_vec(),
            'J' => (bits as u32).to_be_bytes().to_vec(),
            'E' => (bits as i32 as f32 / 65536.0).to_be_bytes().to_vec(),
            _ => (bits as i64 as f64 / 65536.0).to_be_bytes().to_vec(),
        }
    }
}

pub fn add(sum: u32, word: u32) -> u32 {
    sum.wrapping_mul(31).wrapping_add(word)
}

/// A sum with the bits of a double, the high word first.
pub fn add_double(sum: u32, value: f64) -> u32 {
    let bits = value.to_bits();
    add(add(sum, (bits >> 32) as u32), bits as u32)
}

/// A sum with the place of a cell.
pub fn add_place(sum: u32, row: usize, column: usize, idx: usize) -> u32 {
    add(add(add(sum, row as u32), column as u32), idx as u32)
}

fn name(column: usize) -> String {
    format!("COLUMN{}", column + 1)
}

fn record(name: &str, value: &str) -> String {
    format!("{:80}", format!("{name:8}= {value}"))
}

fn integer(name: &str, value: usize) -> String {
    record(name, &format!("{value:20}"))
}

/// Records filled up with spaces to a whole number of blocks.
fn blocks(records: Vec<String>) -> Vec<u8> {
    let text = records.concat();
    let length = text.len().next_multiple_of(BLOCK);
    format!("{text:length$}").into_bytes()
}

impl Column {
    pub fn of(letter: char, count: usize) -> Column {
        Column {
            letter,
            count,
            is_array: false,
            scaling: None,
        }
    }

    pub fn array_of_j(count: usize) -> Column {
        Column {
            is_array: true,
            ..Column::of('J', count)
        }
    }

    /// A column with TSCALn and TZEROn.
    pub fn scaled(letter: char, tscal: &'static str, tzero: &'static str) -> Column {
        Column {
            scaling: Some(Scaling { tscal, tzero }),
            ..Column::of(letter, 1)
        }
    }

    /// The factor and the zero.
    fn scaling(&self) -> (f64, f64) {
        let number = |text: &str| text.parse().expect("the text is a number");
        self.scaling
            .map_or((1.0, 0.0), |s| (number(s.tscal), number(s.tzero)))
    }

    fn form(&self) -> String {
        if self.is_array {
            format!("1PJ({})", self.count)
        } else {
            format!("{}{}", self.count, self.letter)
        }
    }

    fn item_width(&self) -> usize {
        match self.letter {
            'B' => 1,
            'I' => 2,
            'D' => 8,
            _ => 4,
        }
    }

    fn width(&self) -> usize {
        if self.is_array {
            8
        } else {
            self.count * self.item_width()
        }
    }
}

impl Table {
    /// A table of random items. Its header has `records` records with END, or as many as it needs.
    pub fn new(columns: Vec<Column>, rows: usize, records: usize) -> Table {
        let mut random = Random(88172645463325252);
        let mut main = vec![];
        let mut heap = vec![];
        for _ in 0..rows {
            for column in &columns {
                let to: &mut Vec<u8> = if column.is_array {
                    &mut heap
                } else {
                    &mut main
                };
                let from = to.len();
                for _ in 0..column.count {
                    to.extend(random.item(column.letter));
                }
                if column.is_array {
                    main.extend((column.count as u32).to_be_bytes());
                    main.extend((from as u32).to_be_bytes());
                }
            }
        }
        let row_width = columns.iter().map(Column::width).sum();
        let header = header(&columns, row_width, rows, heap.len(), records);
        main.extend(heap);
        Table {
            columns,
            rows,
            row_width,
            header,
            area: main,
        }
    }

    /// A table of one column of random bytes, which are a multiple of eight.
    pub fn of_bytes(rows: usize, row_width: usize) -> Table {
        let mut random = Random(88172645463325252);
        let words = 0..rows * row_width / 8;
        let columns = vec![Column::of('B', row_width)];
        Table {
            header: header(&columns, row_width, rows, 0, 0),
            columns,
            rows,
            row_width,
            area: words.flat_map(|_| random.draw().to_be_bytes()).collect(),
        }
    }

    /// A table of one column of E items, whose bits are drawn.
    pub fn of_floats(rows: usize, count: usize, bits: impl Fn(&mut Random) -> u32) -> Table {
        let mut random = Random(88172645463325252);
        let items = 0..rows * count;
        let columns = vec![Column::of('E', count)];
        Table {
            header: header(&columns, count * 4, rows, 0, 0),
            columns,
            rows,
            row_width: count * 4,
            area: items
                .flat_map(|_| bits(&mut random).to_be_bytes())
                .collect(),
        }
    }

    /// The bytes of a row.
    pub fn row(&self, row: usize) -> &[u8] {
        &self.area[row * self.row_width..(row + 1) * self.row_width]
    }

    /// The main table with byte p of row r at p * rows + r.
    pub fn turned(&self) -> Vec<u8> {
        let mut turned = vec![0; self.rows * self.row_width];
        for (r, row) in self.area.chunks_exact(self.row_width).enumerate() {
            for (p, byte) in row.iter().enumerate() {
                turned[p * self.rows + r] = *byte;
            }
        }
        turned
    }

    /// The whole file, with a primary HDU that has no data.
    pub fn file(&self) -> Vec<u8> {
        let mut bytes = blocks(vec![
            record("SIMPLE", &format!("{:>20}", "T")),
            integer("BITPIX", 8),
            integer("NAXIS", 0),
            record("EXTEND", &format!("{:>20}", "T")),
            format!("{:80}", "END"),
        ]);
        bytes.extend(&self.header);
        bytes.extend(&self.area);
        bytes.resize(bytes.len().next_multiple_of(BLOCK), 0);
        bytes
    }

    pub fn all_columns(&self) -> Vec<usize> {
        (0..self.columns.len()).collect()
    }

    pub fn row_cells(&self, choice: &[usize]) -> usize {
        choice.iter().map(|c| self.columns[*c].count).sum()
    }

    pub fn cells(&self, choice: &[usize]) -> usize {
        self.row_cells(choice) * self.rows
    }

    /// The sum of the layout: the sizes, then of each column its letters, count and start, and its name after
    /// the name's length.
    pub fn layout_sum(&self) -> u32 {
        let main = self.rows * self.row_width;
        let mut words = vec![
            self.row_width,
            self.rows,
            self.area.len() - main,
            main,
            self.columns.len(),
        ];
        let mut start = 0;
        for (index, column) in self.columns.iter().enumerate() {
            let letter = column.letter as usize;
            let name = name(index);
            words.extend(match column.is_array {
                true => ['P' as usize, letter, 1, start, name.len()],
                false => [letter, 0, column.count, start, name.len()],
            });
            words.extend(name.bytes().map(usize::from));
            start += column.width();
        }
        words.iter().fold(0, |sum, word| add(sum, *word as u32))
    }

    /// The sum of the chosen cells, row by row.
    pub fn sum_by_rows(&self, choice: &[usize]) -> u32 {
        let rows = 0..self.rows;
        rows.fold(0, |sum, row| {
            choice
                .iter()
                .fold(sum, |sum, c| self.add_field(sum, row, *c))
        })
    }

    /// The same, column by column.
    pub fn sum_by_columns(&self, choice: &[usize]) -> u32 {
        let rows = 0..self.rows;
        choice.iter().fold(0, |sum, c| {
            rows.clone()
                .fold(sum, |sum, row| self.add_field(sum, row, *c))
        })
    }

    /// The factor and the zero of each column.
    pub fn scalings(&self) -> Vec<(f64, f64)> {
        self.columns.iter().map(Column::scaling).collect()
    }

    /// The sum of the cells of all columns, row by row, each with its scaled value. No column is an array.
    pub fn scaled_sum(&self) -> u32 {
        let mut sum = 0;
        for row in 0..self.rows {
            let mut at = row * self.row_width;
            for (c, column) in self.columns.iter().enumerate() {
                let (factor, zero) = column.scaling();
                for i in 0..column.count {
                    let value = zero + factor * self.stored(at, column.letter);
                    sum = add_double(add_place(sum, row, c, i), value);
                    at += column.item_width();
                }
            }
        }
        sum
    }

    /// The number of an item.
    fn stored(&self, at: usize, letter: char) -> f64 {
        match letter {
            'I' => f64::from(self.word(at, 2) as u16 as i16),
            'J' => f64::from(self.word(at, 4) as i32),
            'E' => f64::from(f32::from_bits(self.word(at, 4))),
            _ => unreachable!("the scaled columns are I, J and E"),
        }
    }

    fn add_field(&self, sum: u32, row: usize, c: usize) -> u32 {
        let column = self.columns[c];
        let start: usize = self.columns[..c].iter().map(Column::width).sum();
        let mut at = row * self.row_width + start;
        if column.is_array {
            at = self.rows * self.row_width + self.word(at + 4, 4) as usize;
        }
        let width = column.item_width();
        (0..column.count).fold(sum, |sum, i| {
            let sum = add_place(sum, row, c, i);
            match width {
                8 => add(
                    add(sum, self.word(at + i * 8, 4)),
                    self.word(at + i * 8 + 4, 4),
                ),
                _ => add(sum, self.word(at + i * width, width)),
            }
        })
    }

    /// A big-endian number.
    fn word(&self, at: usize, width: usize) -> u32 {
        self.area[at..at + width]
            .iter()
            .fold(0, |n, byte| n << 8 | u32::from(*byte))
    }
}

fn header(
    columns: &[Column],
    row_width: usize,
    rows: usize,
    heap_len: usize,
    records: usize,
) -> Vec<u8> {
    let mut list = vec![
        record("XTENSION", "'BINTABLE'"),
        integer("BITPIX", 8),
        integer("NAXIS", 2),
        integer("NAXIS1", row_width),
        integer("NAXIS2", rows),
        integer("PCOUNT", heap_len),
        integer("GCOUNT", 1),
        integer("TFIELDS", columns.len()),
    ];
    for (i, column) in columns.iter().enumerate() {
        list.push(record(
            &format!("TTYPE{}", i + 1),
            &format!("'{}' / name", name(i)),
        ));
        list.push(record(
            &format!("TFORM{}", i + 1),
            &format!("'{:8}' / form", column.form()),
        ));
        if let Some(Scaling { tscal, tzero }) = column.scaling {
            list.push(record(&format!("TSCAL{}", i + 1), &format!("{tscal:>20}")));
            list.push(record(&format!("TZERO{}", i + 1), &format!("{tzero:>20}")));
        }
    }
    while list.len() + 1 < records {
        let n = list.len();
        list.push(record(
            &format!("KEY{n}"),
            &format!("{n:20} / another record"),
        ));
    }
    list.push(format!("{:80}", "END"));
    blocks(list)
}
