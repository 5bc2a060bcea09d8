//! The lines of the table.

use suntimpani_tests::large::Long;
use suntimpani_tests::timing::Times;

const DASH: &str = "-";

/// What one call costs in one section.
pub struct Line {
    call: &'static str,
    section: String,
    library: Times,
    reader: Times,
    libsframe: Option<Times>,
}

impl Line {
    pub fn new(call: &'static str, section: &str, library: Times, reader: Times, libsframe: Option<Times>) -> Line {
        Line { call, section: section.to_string(), library, reader, libsframe }
    }

    pub fn print(&self) {
        let ratio = |others: &Times| format!("{:.2}", self.library.ratio_to(others));
        let (by_libsframe, to_libsframe) = match &self.libsframe {
            Some(times) => (duration(times.median()), ratio(times)),
            None => (DASH.to_string(), DASH.to_string()),
        };
        let (library, reader) = (duration(self.library.median()), duration(self.reader.median()));
        print_cells([self.call, &self.section, &library, &reader, &ratio(&self.reader), &by_libsframe, &to_libsframe]);
    }
}

pub fn print_head() {
    print_cells(["call", "section", "library", "reader", "lib/reader", "libsframe", "lib/libsframe"]);
}

/// What a find costs in one function of many rows.
pub struct RowsLine {
    /// How many rows, how many bytes a start and an offset have, and how the rows are written.
    name: [String; 4],
    asked: &'static str,
    /// The library's times, the reader's, those of the reader that decodes every row and, where there are any,
    /// libsframe's.
    times: Vec<Times>,
    /// How many rows a find passes.
    passed: f64,
}

impl RowsLine {
    pub fn new(long: &Long, asked: &'static str, times: Vec<Times>, passed: f64) -> RowsLine {
        let written = if long.alike { "alike" } else { "in turn" };
        let [start, offset] = [long.row_type, long.size_code].map(|code| (1 << code).to_string());
        RowsLine { name: [long.rows.to_string(), start, offset, written.to_string()], asked, times, passed }
    }

    pub fn print(&self) {
        let [rows, start, offset, written] = &self.name;
        let [library, reader, decoding] = [0, 1, 2].map(|way| &self.times[way]);
        let ratio = |times: &Times| format!("{:.2}", times.ratio_to(reader));
        let libsframe = self.times.get(3).map(|times| (duration(times.median()), ratio(times)));
        let (libsframe, libsframe_ratio) = libsframe.unwrap_or((DASH.to_string(), DASH.to_string()));
        print_rows_cells([
            rows,
            start,
            offset,
            written,
            self.asked,
            &duration(library.median()),
            &format!("{:.2} ns", library.median() / self.passed),
            &duration(reader.median()),
            &ratio(library),
            &duration(decoding.median()),
            &ratio(decoding),
            &libsframe,
            &libsframe_ratio,
        ]);
    }
}

pub fn print_rows_head() {
    print_rows_cells([
        "rows",
        "start",
        "offset",
        "written",
        "asked",
        "library",
        "a row",
        "reader",
        "lib/reader",
        "decoding",
        "dec/reader",
        "libsframe",
        "libsframe/reader",
    ]);
}

fn print_rows_cells(cells: [&str; 13]) {
    let [rows, start, offset, written, asked, library, a_row, reader, ratio, ..] = cells;
    let [.., decoding, decoding_ratio, libsframe, libsframe_ratio] = cells;
    print!("{rows:>7}  {start:>5}  {offset:>6}  {written:<7}  {asked:<11}  {library:>8}  {a_row:>7}  {reader:>8}");
    println!("  {ratio:>10}  {decoding:>8}  {decoding_ratio:>10}  {libsframe:>9}  {libsframe_ratio:>16}");
}

/// What a mapped section costs that is asked many times.
pub struct ResidentLine {
    pub section: String,
    pub asked: &'static str,
    pub asks: usize,
    /// The nanoseconds of all asks, the first time and again.
    pub first: f64,
    pub again: f64,
    /// KiB, as far as the asks had come and, last, after one lookup.
    pub resident: [usize; 5],
}

impl ResidentLine {
    pub fn print(&self) {
        let of_one = |nanoseconds: f64| duration(nanoseconds / self.asks as f64);
        let [first, again] = [self.first, self.again].map(of_one);
        let resident = self.resident.map(|kib| kib.to_string());
        let times = [&self.section, self.asked, &duration(self.first), &first, &again];
        print_resident_cells(times, resident.each_ref().map(String::as_str));
    }
}

pub fn print_resident_head() {
    let told = ["KiB: 1 ask", "100 asks", "10,000", "a million", "1 lookup"];
    print_resident_cells(["mapped section", "PCs", "a million", "an ask", "again"], told);
}

fn print_resident_cells(cells: [&str; 5], resident: [&str; 5]) {
    let [section, asked, all, first, again] = cells;
    print!("{section:<31}  {asked:<9}  {all:>9}  {first:>8}  {again:>8}");
    resident.iter().for_each(|kib| print!("  {kib:>10}"));
    println!();
}

/// What a run of `sframe why` takes beside one of `sframe lookup`.
pub struct WhyLine {
    pub section: String,
    pub answer: &'static str,
    /// Of both.
    pub times: Vec<Times>,
    /// The least limit of the stack of both, in KiB.
    pub stack: [u32; 2],
}

pub fn print_why_head() {
    print_why(["run", "section", "answer", "why", "lookup", "why, stack", "lookup, stack"]);
}

impl WhyLine {
    pub fn print(&self) {
        let [why, lookup] = [0, 1].map(|way| duration(self.times[way].median()));
        let [by_why, by_lookup] = self.stack.map(|limit| format!("{limit} KiB"));
        print_why(["why", &self.section, self.answer, &why, &lookup, &by_why, &by_lookup]);
    }
}

fn print_why(cells: [&str; 7]) {
    let [run, section, answer, why, lookup, by_why, by_lookup] = cells;
    println!("{run:<6}  {section:<55}  {answer:<6}  {why:>8}  {lookup:>8}  {by_why:>10}  {by_lookup:>13}");
}

/// A line of a call's stack, in the library's column.
pub fn print_stack(call: &str, calls: usize, bytes: usize) {
    let (measured, bytes) = (format!("{call}, the most of {calls} calls"), format!("{bytes} B"));
    print_cells(["stack", &measured, &bytes, DASH, DASH, DASH, DASH]);
}

fn print_cells(cells: [&str; 7]) {
    let [call, section, library, reader, to_reader, libsframe, to_libsframe] = cells;
    println!(
        "{call:<6}  {section:<55}  {library:>8}  {reader:>8}  {to_reader:>10}  {libsframe:>9}  {to_libsframe:>13}"
    );
}

// Nanoseconds, with three digits or so.
fn duration(nanoseconds: f64) -> String {
    match nanoseconds {
        n if n < 1e3 => format!("{n:.1} ns"),
        n if n < 1e6 => format!("{:.1} us", n / 1e3),
        n => format!("{:.2} ms", n / 1e6),
    }
}
