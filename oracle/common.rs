//! What the programs need in common: random numbers, items and descriptors, the bytes of a plain header, and
//! the place, letter and bytes of a value of the crate.

use fitsrs::hdu::data::bintable::{ColumnId, DataValue};

pub const BLOCK: usize = 2880;
/// The letters of the domain: all but X. A logical is always T there.
pub const LETTERS: &[u8] = b"LBAIJKEDCM";
pub const TRUE: u8 = b'T';

/// A xorshift generator, so that a seed gives the same tables everywhere.
pub struct Random(u64);

impl Random {
    /// The seed is not 0.
    pub fn new(seed: u64) -> Random {
        Random(seed.wrapping_mul(0x9E37_79B9_7F4A_7C15))
    }

    /// A second generator of a seed.
    pub fn second(seed: u64) -> Random {
        Random::new(seed.rotate_left(32))
    }

    pub fn draw(&mut self) -> u64 {
        self.0 ^= self.0 << 13;
        self.0 ^= self.0 >> 7;
        self.0 ^= self.0 << 17;
        self.0.wrapping_mul(0x2545_F491_4F6C_DD1D) >> 11
    }

    pub fn below(&mut self, bound: usize) -> usize {
        (self.draw() % bound as u64) as usize
    }

    pub fn byte(&mut self) -> u8 {
        self.draw() as u8
    }
}

#[derive(Clone, Copy, PartialEq, Eq, Hash)]
pub enum Kind {
    Field,
    P,
    Q,
}

pub fn item_width(letter: char) -> usize {
    match letter {
        'L' | 'B' | 'A' => 1,
        'I' => 2,
        'J' | 'E' => 4,
        'K' | 'D' | 'C' => 8,
        _ => 16,
    }
}

pub fn descriptor(kind: Kind, count: usize, offset: usize) -> Vec<u8> {
    match kind {
        Kind::P => [(count as u32).to_be_bytes(), (offset as u32).to_be_bytes()].concat(),
        _ => [(count as u64).to_be_bytes(), (offset as u64).to_be_bytes()].concat(),
    }
}

pub fn number(bytes: &[u8]) -> usize {
    bytes.iter().fold(0, |n, byte| n << 8 | usize::from(*byte))
}

/// What the header of a table says.
pub struct Header {
    pub naxis1: usize,
    pub naxis2: usize,
    pub pcount: usize,
    pub theap: Option<usize>,
    pub forms: Vec<String>,
    pub names: Vec<String>,
}

impl Header {
    /// The records, filled up with spaces to a whole number of blocks.
    pub fn bytes(&self) -> Vec<u8> {
        let records = self.records();
        let text: String = records.iter().map(|r| format!("{r:80}")).collect();
        let length = text.len().next_multiple_of(BLOCK);
        format!("{text:length$}").into_bytes()
    }

    fn records(&self) -> Vec<String> {
        let mut records = vec![
            "XTENSION= 'BINTABLE'".to_string(),
            "BITPIX  = 8".to_string(),
            "NAXIS   = 2".to_string(),
            format!("NAXIS1  = {}", self.naxis1),
            format!("NAXIS2  = {}", self.naxis2),
            format!("PCOUNT  = {}", self.pcount),
            "GCOUNT  = 1".to_string(),
            format!("TFIELDS = {}", self.forms.len()),
        ];
        records.extend(self.theap.map(|theap| format!("THEAP   = {theap}")));
        for (column, form) in self.forms.iter().enumerate() {
            records.push(format!("TFORM{:<3}= '{form}'", column + 1));
        }
        for (column, name) in self.names.iter().enumerate() {
            records.push(format!("TTYPE{:<3}= '{name}'", column + 1));
        }
        records.push("END".to_string());
        records
    }
}

/// The column and the index that the crate gives with a value; it gives none with a descriptor.
pub fn place(value: &DataValue) -> Option<(usize, usize)> {
    use DataValue::*;
    match value {
        Logical { column, idx, .. }
        | Bit { column, idx, .. }
        | UnsignedByte { column, idx, .. }
        | Short { column, idx, .. }
        | Integer { column, idx, .. }
        | Long { column, idx, .. }
        | Character { column, idx, .. }
        | Float { column, idx, .. }
        | Double { column, idx, .. }
        | ComplexFloat { column, idx, .. }
        | ComplexDouble { column, idx, .. } => match column {
            ColumnId::Index(index) => Some((*index, *idx)),
            ColumnId::Name(_) => unreachable!("the crate gives columns by index"),
        },
        VariableLengthArray32 { .. } | VariableLengthArray64 { .. } => None,
    }
}

/// The letter of a value of the crate, and the bytes that it stands for in a table.
pub fn letter_and_bytes(value: &DataValue) -> (char, Vec<u8>) {
    use DataValue::*;
    match value {
        Logical { value, .. } => ('L', vec![if *value { TRUE } else { b'F' }]),
        Bit { byte, .. } => ('X', vec![*byte]),
        UnsignedByte { value, .. } => ('B', vec![*value]),
        Short { value, .. } => ('I', value.to_be_bytes().to_vec()),
        Integer { value, .. } => ('J', value.to_be_bytes().to_vec()),
        Long { value, .. } => ('K', value.to_be_bytes().to_vec()),
        // A byte is the character of the same number; a longer character is no byte of a table.
        Character { value, .. } => ('A', u8::try_from(*value).into_iter().collect()),
        Float { value, .. } => ('E', value.to_bits().to_be_bytes().to_vec()),
        Double { value, .. } => ('D', value.to_bits().to_be_bytes().to_vec()),
        ComplexFloat { real, imag, .. } => {
            let parts = [real, imag].map(|part| part.to_bits().to_be_bytes());
            ('C', parts.concat())
        }
        ComplexDouble { real, imag, .. } => {
            let parts = [real, imag].map(|part| part.to_bits().to_be_bytes());
            ('M', parts.concat())
        }
        VariableLengthArray32 {
            num_elems: count,
            offset_byte: offset,
        } => ('P', [count, offset].map(|n| n.to_be_bytes()).concat()),
        VariableLengthArray64 {
            num_elems: count,
            offset_byte: offset,
        } => ('Q', [count, offset].map(|n| n.to_be_bytes()).concat()),
    }
}
