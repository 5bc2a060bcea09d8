//! What `list` prints of a section: a line for each function and each row, in columns; or two numbers of a refused one.
#![forbid(unsafe_code)]

use crate::reader::{self, Base, Block, Header, Line, Place, Refusal, Row};

/// The width of a row's columns before the mark, which stands two blanks behind them whether or not all are filled.
const BEFORE_MARK: usize = 69;

/// What `list` prints of a section.
pub fn listing(section: &[u8]) -> String {
    match reader::listing(section) {
        Ok(lines) => text_of(section, &lines),
        Err(refusal) => numbers(refusal),
    }
}

/// What `list` prints of one function: nothing where there is none of that index.
pub fn listing_of(section: &[u8], index: u64) -> String {
    match reader::listing(section) {
        Ok(lines) => text_of(section, function_of(&lines, index)),
        Err(refusal) => numbers(refusal),
    }
}

// The line of a function and those of its rows.
fn function_of(lines: &[Line], index: u64) -> &[Line] {
    let is_wanted = |line: &Line| matches!(line, Line::Function { index: own, .. } if *own == index);
    let is_function = |line: &Line| matches!(line, Line::Function { .. });
    let Some(begin) = lines.iter().position(is_wanted) else { return &[] };
    let rows = lines[begin + 1..].iter().position(is_function).unwrap_or(lines.len() - begin - 1);
    &lines[begin..=begin + rows]
}

fn numbers(Refusal { number, index }: Refusal) -> String {
    format!("{number} {index}\n")
}

// The rows of AMD64 place no RA.
fn text_of(section: &[u8], lines: &[Line]) -> String {
    let header = Header::read(section).expect("an accepted section has a header");
    lines.iter().map(|line| line_of(line, header.abi != 3)).collect()
}

fn line_of(line: &Line, places_ra: bool) -> String {
    match *line {
        Line::Function { index, start, size, block } => {
            let sign = if start < 0 { '-' } else { '+' };
            let place = format!("start {sign}0x{:08x}  size {size:>10}", start.unsigned_abs());
            format!("function {index:>6}  {place}{}\n", block_of(block))
        }
        Line::Row(row) => row_of(&row, places_ra),
    }
}

fn block_of(block: Block) -> String {
    match block {
        Block::Plain => String::new(),
        Block::Repeated(size) => format!("  block {size:>3}"),
    }
}

fn row_of(row: &Row, places_ra: bool) -> String {
    let base = match row.base {
        Base::Fp => "FP",
        Base::Sp => "SP",
    };
    let ra = if places_ra { place_of("RA", row.ra) } else { String::new() };
    let columns = format!("  row {:>10}  {base}  CFA {:>+11}{ra}", row.start, row.cfa_offset) + &place_of("FP", row.fp);
    if row.signed {
        format!("{columns:<BEFORE_MARK$}  signed\n")
    } else {
        format!("{columns}\n")
    }
}

fn place_of(name: &str, place: Place) -> String {
    match place {
        Place::Register => String::new(),
        Place::AtOffset(offset) => format!("  {name} {offset:>+11}"),
    }
}

#[cfg(test)]
mod tests {
    use super::*;
    use crate::cases::{corpus_section, S};
    use crate::in_repository;
    use crate::maker::{self, Function, Machine, Section};
    use std::fs;

    const FIRST_OF_S: &str = "\
function      0  start +0x00001000  size         32
  row          0  SP  CFA          +8
  row          4  FP  CFA         +16  FP         -16
";
    const SECOND_OF_S: &str = "\
function      1  start +0x00001040  size         16
  row          0  SP  CFA          +8
";

    #[test]
    fn s_is_listed_in_columns() {
        assert_eq!(listing(&S), format!("{FIRST_OF_S}{SECOND_OF_S}"));
        assert_eq!([0, 1, 2, u64::MAX].map(|index| listing_of(&S, index)), [FIRST_OF_S, SECOND_OF_S, "", ""]);
    }

    #[test]
    fn a_refused_section_is_two_numbers() {
        let mut overlapping = S;
        overlapping[48..50].copy_from_slice(&[0x1f, 0x10]);
        for (section, expected) in [(&S[..77], "8 0\n"), (&[], "1 0\n"), (&overlapping, "14 1\n")] {
            assert_eq!([listing(section), listing_of(section, 0), listing_of(section, 7)], [expected; 3]);
        }
    }

    #[test]
    fn a_section_of_no_functions_is_no_lines() {
        for machine in Machine::ALL {
            assert_eq!(listing(&Section::new(machine).bytes()), "");
        }
    }

    fn row(start: u32, sp_base: bool, signed: bool, offsets: &[i32]) -> maker::Row {
        maker::Row { sp_base, signed, ..maker::Row::new(start, 2, offsets) }
    }

    const MARKED: &str = "\
function      0  start -0x80000000  size 4294967295
  row          0  SP  CFA          +0
  row          4  SP  CFA          +0                                  signed
  row          8  SP  CFA         +32  RA          -8                  signed
  row         12  FP  CFA         +32  RA         -24  FP         -32  signed
  row 4294967294  FP  CFA         +32  RA         -24  FP         -32
  row 4294967295  SP  CFA -2147483648  RA          +0  FP +2147483647  signed
";

    #[test]
    fn signed_rows_have_their_mark_in_one_column() {
        let rows = vec![
            row(0, true, false, &[0]),
            row(4, true, true, &[0]),
            row(8, true, true, &[32, -8]),
            row(12, false, true, &[32, -24, -32]),
            row(u32::MAX - 1, false, false, &[32, -24, -32]),
            row(u32::MAX, true, true, &[i32::MIN, 0, i32::MAX]),
        ];
        for machine in [Machine::Aarch64, Machine::Aarch64Big] {
            let mut section = Section::new(machine);
            section.functions = vec![Function::new(i32::MIN.into(), u32::MAX, 2, rows.clone())];
            assert_eq!(listing(&section.bytes()), MARKED);
        }
        let marks = MARKED.lines().filter_map(|line| line.find("signed"));
        assert_eq!(marks.collect::<Vec<_>>(), [71; 4]);
    }

    const BLOCKS: &str = "\
function      0  start -0x00000001  size          0  block   1
function      1  start +0x00000000  size        112  block 255
  row          0  SP  CFA          +8
  row         11  SP  CFA         +16  FP          -1
function      2  start +0x7fffffff  size         16
";

    // The mark of an AMD64 row, and the repeat size of a plain function, mean nothing and are not told.
    #[test]
    fn blocks_stand_behind_the_size() {
        let rows = vec![row(0, true, true, &[8]), row(11, true, false, &[16, -1])];
        let function =
            |start, size, repeated, repeat, rows| Function { repeated, repeat, ..Function::new(start, size, 0, rows) };
        let mut section = Section::new(Machine::Amd64);
        section.functions = vec![
            function(-1, 0, true, 1, Vec::new()),
            function(0, 112, true, 255, rows),
            function(i32::MAX.into(), 16, false, 16, Vec::new()),
        ];
        assert_eq!(listing(&section.bytes()), BLOCKS);
        let second = BLOCKS.find("function      1").expect("a second function");
        assert_eq!(listing_of(&section.bytes(), 0), BLOCKS[..second]);
        let third = BLOCKS.find("function      2").expect("a third function");
        assert_eq!([1, 2].map(|index| listing_of(&section.bytes(), index)), [&BLOCKS[second..third], &BLOCKS[third..]]);
    }

    #[test]
    fn the_stored_listings_are_those_of_their_sections() {
        for name in ["amd64_plt_so", "aarch64_gcc_o"] {
            let path = in_repository("vectors/corpus/listings").join(format!("{name}.txt"));
            let stored = fs::read_to_string(&path).unwrap_or_else(|error| panic!("{}: {error}", path.display()));
            assert_eq!(listing(&corpus_section(name)), stored, "{name}");
        }
    }
}
