//! Builds the bytes of a section from a description, sound or damaged on purpose.
//!
//! It goes from values to bytes and never the other way, and shares no code with the reader: what one of them has
//! wrong about a field shows as a difference between the two.
#![forbid(unsafe_code)]

const HEADER_LENGTH: usize = 28;
const ENTRY_LENGTH: usize = 20;

pub const SORTED: u8 = 0x1;
pub const FRAME_POINTER: u8 = 0x2;
pub const RELATIVE: u8 = 0x4;

#[derive(Clone, Copy, Debug, PartialEq, Eq)]
pub enum Machine {
    Amd64,
    Aarch64,
    Aarch64Big,
}

impl Machine {
    pub const ALL: [Machine; 3] = [Machine::Amd64, Machine::Aarch64, Machine::Aarch64Big];

    pub fn tag(self) -> &'static str {
        match self {
            Machine::Amd64 => "amd64",
            Machine::Aarch64 => "aarch64",
            Machine::Aarch64Big => "aarch64be",
        }
    }

    /// The highest offset count that document 01 allows.
    pub fn most_offsets(self) -> u8 {
        match self {
            Machine::Amd64 => 2,
            Machine::Aarch64 | Machine::Aarch64Big => 3,
        }
    }
}

/// A section to be built. Everything that follows from something else (counts, lengths, offsets) is worked out unless
/// it is claimed to be another value.
#[derive(Clone, Debug)]
pub struct Section {
    pub big: bool,
    pub magic: [u8; 2],
    pub version: u8,
    pub flags: u8,
    pub abi: u8,
    pub fixed_fp: i8,
    pub fixed_ra: i8,
    pub auxiliary: Vec<u8>,
    pub functions: Vec<Function>,
    /// The function whose rows are placed behind those of all others.
    pub placed_last: Option<usize>,
    /// Unused bytes at the end of the row area.
    pub tail: Vec<u8>,
    /// Only so many bytes of the row area are kept.
    pub kept: Option<usize>,
    pub claims: Claims,
}

/// Header fields that are written instead of the true ones.
#[derive(Clone, Debug, Default)]
pub struct Claims {
    pub auxiliary: Option<u8>,
    pub functions: Option<u32>,
    pub rows: Option<u32>,
    pub row_bytes: Option<u32>,
    pub table_offset: Option<u32>,
    pub area_offset: Option<u32>,
}

#[derive(Clone, Copy, Debug, PartialEq, Eq)]
pub enum Start {
    /// The field itself.
    Field(i32),
    /// The effective start; the field is worked out from it.
    Effective(i64),
}

#[derive(Clone, Copy, Debug, PartialEq, Eq)]
pub enum FirstRow {
    /// Where the function's own rows were placed.
    Own,
    /// Where another function's rows were placed; their number is the other's too.
    SharedWith(usize),
    At(u32),
    /// So many bytes behind the end of the row area.
    PastEnd(u32),
}

#[derive(Clone, Debug)]
pub struct Function {
    pub start: Start,
    pub size: u32,
    pub first_row: FirstRow,
    /// Written instead of the true number of rows.
    pub claimed_rows: Option<u32>,
    pub row_type: u8,
    pub repeated: bool,
    pub key_b: bool,
    /// Bits 6 and 7 of the info byte.
    pub high_bits: u8,
    pub repeat: u8,
    pub padding: u16,
    /// Unused bytes of the row area before the rows.
    pub gap: Vec<u8>,
    pub rows: Vec<Row>,
}

#[derive(Clone, Debug)]
pub struct Row {
    pub start: u32,
    pub sp_base: bool,
    /// The count and the offset size of the info byte, which may lie about the offsets.
    pub count: u8,
    pub size_code: u8,
    pub signed: bool,
    pub offsets: Vec<i32>,
}

impl Row {
    /// A row from SP with these offsets, each of 1, 2 or 4 bytes for the size code 0, 1 or 2.
    pub fn new(start: u32, size_code: u8, offsets: &[i32]) -> Row {
        Row { start, sp_base: true, count: offsets.len() as u8, size_code, signed: false, offsets: offsets.to_vec() }
    }

    fn info(&self) -> u8 {
        u8::from(self.sp_base) | (self.count & 0xf) << 1 | (self.size_code & 0x3) << 5 | u8::from(self.signed) << 7
    }

    /// How many bytes the row takes where its start has so many.
    pub fn length(&self, start_width: usize) -> usize {
        start_width + 1 + self.offsets.len() * width_of(self.size_code)
    }

    fn write(&self, to: &mut Writer, start_width: usize) {
        to.put(i64::from(self.start), start_width);
        to.put(i64::from(self.info()), 1);
        for &offset in &self.offsets {
            to.put(i64::from(offset), width_of(self.size_code));
        }
    }
}

impl Function {
    pub fn new(start: i64, size: u32, row_type: u8, rows: Vec<Row>) -> Function {
        Function {
            start: Start::Effective(start),
            size,
            first_row: FirstRow::Own,
            claimed_rows: None,
            row_type,
            repeated: false,
            key_b: false,
            high_bits: 0,
            repeat: 0,
            padding: 0,
            gap: Vec::new(),
            rows,
        }
    }

    pub fn start_width(&self) -> usize {
        width_of(self.row_type)
    }

    fn info(&self) -> u8 {
        (self.row_type & 0xf) | u8::from(self.repeated) << 4 | u8::from(self.key_b) << 5 | (self.high_bits & 0x3) << 6
    }
}

impl Section {
    /// A sound section without functions.
    pub fn new(machine: Machine) -> Section {
        let (big, abi, fixed_ra) = match machine {
            Machine::Aarch64Big => (true, 1, 0),
            Machine::Aarch64 => (false, 2, 0),
            Machine::Amd64 => (false, 3, -8),
        };
        Section {
            big,
            magic: if big { [0xde, 0xe2] } else { [0xe2, 0xde] },
            version: 2,
            flags: 0,
            abi,
            fixed_fp: 0,
            fixed_ra,
            auxiliary: Vec::new(),
            functions: Vec::new(),
            placed_last: None,
            tail: Vec::new(),
            kept: None,
            claims: Claims::default(),
        }
    }

    pub fn bytes(&self) -> Vec<u8> {
        let area = self.area();
        let mut to = Writer::new(self.big);
        self.write_header(&mut to, area.bytes.len());
        to.bytes.extend(&self.auxiliary);
        for index in 0..self.functions.len() {
            self.write_entry(&mut to, index, &area);
        }
        to.bytes.extend(&area.bytes);
        to.bytes
    }

    /// Puts a function's rows at the end of the row area and ends the area inside one of them, so many bytes of it
    /// being kept.
    pub fn end_inside_row(&mut self, function: usize, row: usize, bytes_of_row: usize) {
        self.placed_last = Some(function);
        self.kept = None;
        let target = &self.functions[function];
        let width = target.start_width();
        let before: usize = target.rows[..row].iter().map(|r| r.length(width)).sum();
        self.kept = Some(self.area().first[function] + before + bytes_of_row);
    }

    /// Where a function's start field stands in the section.
    pub fn field_position(&self, function: usize) -> i64 {
        (HEADER_LENGTH + self.auxiliary.len() + ENTRY_LENGTH * function) as i64
    }

    /// A function's effective start.
    pub fn effective_start(&self, function: usize) -> i64 {
        match self.functions[function].start {
            Start::Effective(start) => start,
            Start::Field(field) => i64::from(field) + self.start_base(function),
        }
    }

    // What a start field counts from.
    fn start_base(&self, function: usize) -> i64 {
        if self.flags & RELATIVE != 0 {
            self.field_position(function)
        } else {
            0
        }
    }

    fn start_field(&self, function: usize) -> i32 {
        match self.functions[function].start {
            Start::Field(field) => field,
            Start::Effective(start) => {
                (start - self.start_base(function)).try_into().expect("the start can be written as a field")
            }
        }
    }

    // The rows that a function's entry counts.
    fn rows_of(&self, function: usize) -> u32 {
        let own = &self.functions[function];
        let rows = match own.first_row {
            FirstRow::SharedWith(other) => &self.functions[other].rows,
            _ => &own.rows,
        };
        own.claimed_rows.unwrap_or(rows.len() as u32)
    }

    fn area(&self) -> Area {
        let mut to = Writer::new(self.big);
        let mut first = vec![0; self.functions.len()];
        let others = (0..self.functions.len()).filter(|&index| self.placed_last != Some(index));
        for index in others.chain(self.placed_last) {
            let function = &self.functions[index];
            to.bytes.extend(&function.gap);
            first[index] = to.bytes.len();
            for row in &function.rows {
                row.write(&mut to, function.start_width());
            }
        }
        let mut bytes = to.bytes;
        bytes.extend(&self.tail);
        bytes.truncate(self.kept.unwrap_or(bytes.len()));
        Area { bytes, first }
    }

    fn write_header(&self, to: &mut Writer, row_bytes: usize) {
        let functions = self.functions.len();
        let row_sum: u64 = (0..functions).map(|i| u64::from(self.rows_of(i))).sum();
        let claims = &self.claims;
        to.bytes.extend(self.magic);
        to.bytes.extend([self.version, self.flags, self.abi]);
        to.put(i64::from(self.fixed_fp), 1);
        to.put(i64::from(self.fixed_ra), 1);
        let auxiliary = self.auxiliary.len() as u8;
        to.put(i64::from(claims.auxiliary.unwrap_or(auxiliary)), 1);
        let words = [
            (claims.functions, functions as u64),
            (claims.rows, row_sum),
            (claims.row_bytes, row_bytes as u64),
            (claims.table_offset, 0),
            (claims.area_offset, (ENTRY_LENGTH * functions) as u64),
        ];
        for (claimed, actual) in words {
            to.put(claimed.map_or(actual as i64, i64::from), 4);
        }
    }

    fn write_entry(&self, to: &mut Writer, index: usize, area: &Area) {
        let function = &self.functions[index];
        let first_row = match function.first_row {
            FirstRow::Own => area.first[index] as u32,
            FirstRow::SharedWith(other) => area.first[other] as u32,
            FirstRow::At(offset) => offset,
            FirstRow::PastEnd(bytes) => area.bytes.len() as u32 + bytes,
        };
        to.put(i64::from(self.start_field(index)), 4);
        to.put(i64::from(function.size), 4);
        to.put(i64::from(first_row), 4);
        to.put(i64::from(self.rows_of(index)), 4);
        to.put(i64::from(function.info()), 1);
        to.put(i64::from(function.repeat), 1);
        to.put(i64::from(function.padding), 2);
    }
}

struct Area {
    bytes: Vec<u8>,
    /// Where each function's own rows begin.
    first: Vec<usize>,
}

// Bytes of a field by its code; a code that document 01 does not know is written as one byte.
fn width_of(code: u8) -> usize {
    match code {
        1 => 2,
        2 => 4,
        _ => 1,
    }
}

struct Writer {
    big: bool,
    bytes: Vec<u8>,
}

impl Writer {
    fn new(big: bool) -> Writer {
        Writer { big, bytes: Vec::new() }
    }

    /// The lowest bytes of a number, in the section's order.
    fn put(&mut self, number: i64, width: usize) {
        let at = self.bytes.len();
        self.bytes.extend(&number.to_le_bytes()[..width]);
        if self.big {
            self.bytes[at..].reverse();
        }
    }
}
