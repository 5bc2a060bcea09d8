//! How often each of the eight calls was compared, by the number that it answered with.
#![forbid(unsafe_code)]

use std::collections::BTreeMap;
use std::fmt;

/// Stands in a number's place where a section has no function with the index, where it leaves no rows to be read, and
/// where there are no more rows: the answer has no number of its own then, or 0, as it has where there is one.
pub const NONE: u64 = u64::MAX;

/// The highest number.
const HIGHEST: u64 = 45;

/// How many calls there are.
const COUNT: usize = 8;

/// The eight calls of the library, in the order of the table's columns.
#[derive(Clone, Copy, Debug, PartialEq, Eq)]
pub enum Call {
    Check,
    FunctionAt,
    RowsOf,
    NextRow,
    Lookup,
    Ask,
    Caller,
    Trace,
}

impl Call {
    pub const ALL: [Call; COUNT] = [
        Call::Check,
        Call::FunctionAt,
        Call::RowsOf,
        Call::NextRow,
        Call::Lookup,
        Call::Ask,
        Call::Caller,
        Call::Trace,
    ];

    pub fn name(self) -> &'static str {
        ["check", "function_at", "rows_of", "next_row", "lookup", "ask", "caller", "trace"][self as usize]
    }

    /// Whether the call may answer with a number; 0 is accepted, known, found, a row or a caller.
    pub fn gives(self, number: u64) -> bool {
        let of_section = match self {
            Call::FunctionAt | Call::Ask => (1..=8).contains(&number),
            Call::RowsOf | Call::NextRow => false,
            Call::Check | Call::Lookup | Call::Caller | Call::Trace => (1..=15).contains(&number),
        };
        let others: &[u64] = match self {
            Call::Check => &[0],
            Call::FunctionAt | Call::RowsOf | Call::NextRow => &[0, NONE],
            Call::Lookup => &[0, 21, 22, 23],
            Call::Ask => &[0, 21, 23, 44, 45],
            Call::Caller => &[0, 21, 22, 23, 24, 25, 26, 27, 28, 41],
            Call::Trace => &[21, 22, 23, 24, 25, 26, 27, 28, 30, 31, 41, 42, 43],
        };
        of_section || others.contains(&number)
    }
}

/// How often each call answered with each number, and how many twins were asked.
#[derive(Clone, Debug, Default, PartialEq, Eq)]
pub struct Counts {
    by_number: BTreeMap<u64, [u64; COUNT]>,
    /// Sections that differ from one that was asked in bytes that are not named.
    pub twins: u64,
    /// Those of them that a lookup tells from it.
    pub told_apart: u64,
}

impl Counts {
    pub fn count(&mut self, call: Call, number: u64) {
        self.by_number.entry(number).or_default()[call as usize] += 1;
    }

    /// These and others together.
    pub fn with(mut self, others: &Counts) -> Counts {
        for (number, counts) in &others.by_number {
            let sums = self.by_number.entry(*number).or_default();
            sums.iter_mut().zip(counts).for_each(|(sum, count)| *sum += count);
        }
        self.twins += others.twins;
        self.told_apart += others.told_apart;
        self
    }

    /// How many calls were compared.
    pub fn calls(&self) -> u64 {
        self.by_number.values().flatten().sum()
    }

    fn of(&self, call: Call, number: u64) -> u64 {
        self.by_number.get(&number).map_or(0, |counts| counts[call as usize])
    }

    /// What a call answers with too seldom, or may never answer with and did: none where the comparison tried enough.
    pub fn lacking(&self, enough: u64) -> Vec<String> {
        let above = self.by_number.keys().copied().filter(|number| (HIGHEST + 1..NONE).contains(number));
        let numbers: Vec<u64> = every_number().chain(above).collect();
        let cells = Call::ALL.into_iter().flat_map(|call| numbers.iter().map(move |number| (call, *number)));
        let lacks = |(call, number): &(Call, u64)| {
            let count = self.of(*call, *number);
            if call.gives(*number) {
                count < enough
            } else {
                count > 0
            }
        };
        let said =
            |(call, number): (Call, u64)| format!("{} {}: {}", call.name(), shown(number), self.of(call, number));
        cells.filter(lacks).map(said).collect()
    }
}

fn every_number() -> impl Iterator<Item = u64> {
    (0..=HIGHEST).chain([NONE])
}

fn shown(number: u64) -> String {
    if number == NONE {
        "none".to_string()
    } else {
        number.to_string()
    }
}

// A line for each number, a column for each call; a stroke where the call never answers with the number.
impl fmt::Display for Counts {
    fn fmt(&self, to: &mut fmt::Formatter) -> fmt::Result {
        write!(to, "number")?;
        Call::ALL.iter().try_for_each(|call| write!(to, "{:>12}", call.name()))?;
        for number in every_number().filter(|&number| Call::ALL.iter().any(|call| call.gives(number))) {
            write!(to, "\n{:>6}", shown(number))?;
            self.cells(to, number)?;
        }
        write!(to, "\n   all")?;
        let sum = |call: Call| self.by_number.values().map(|counts| counts[call as usize]).sum::<u64>();
        Call::ALL.iter().try_for_each(|&call| write!(to, "{:>12}", sum(call)))
    }
}

impl Counts {
    fn cells(&self, to: &mut fmt::Formatter, number: u64) -> fmt::Result {
        for call in Call::ALL {
            let count = self.of(call, number);
            if call.gives(number) || count > 0 {
                write!(to, "{count:>12}")?;
            } else {
                write!(to, "{:>12}", "-")?;
            }
        }
        Ok(())
    }
}

#[cfg(test)]
mod tests {
    use super::*;

    fn every_number_once() -> Counts {
        let mut counts = Counts::default();
        for call in Call::ALL {
            every_number().filter(|&number| call.gives(number)).for_each(|number| counts.count(call, number));
        }
        counts
    }

    #[test]
    fn what_came_too_seldom_is_named() {
        assert_eq!(every_number_once().lacking(1), Vec::<String>::new());
        let mut counts = every_number_once().with(&every_number_once());
        assert_eq!(counts.lacking(2), Vec::<String>::new());
        counts.count(Call::Trace, 43);
        assert_eq!(counts.lacking(3).len(), counts.by_number.values().flatten().filter(|&&count| count == 2).count());
    }

    #[test]
    fn what_may_never_come_is_named() {
        let mut counts = every_number_once();
        counts.count(Call::Check, 21);
        counts.count(Call::FunctionAt, 9);
        counts.count(Call::NextRow, 1);
        counts.count(Call::Lookup, 46);
        counts.count(Call::Ask, 22);
        counts.count(Call::Ask, 9);
        counts.count(Call::Caller, NONE);
        assert_eq!(
            counts.lacking(1),
            [
                "check 21: 1",
                "function_at 9: 1",
                "next_row 1: 1",
                "lookup 46: 1",
                "ask 9: 1",
                "ask 22: 1",
                "caller none: 1"
            ]
        );
    }

    #[test]
    fn the_table_has_a_line_for_each_number() {
        let table = every_number_once().to_string();
        let lines: Vec<&str> = table.lines().collect();
        assert_eq!(lines.len(), 1 + 1 + 15 + 8 + 2 + 5 + 1 + 1);
        let line = |first: &str, cells: [&str; COUNT]| {
            cells.iter().fold(format!("{first:>6}"), |line, cell| format!("{line}{cell:>12}"))
        };
        assert_eq!(lines[0], line("number", Call::ALL.map(Call::name)));
        assert_eq!(lines[1], line("0", ["1", "1", "1", "1", "1", "1", "1", "-"]));
        assert_eq!(lines[29], line("43", ["-", "-", "-", "-", "-", "-", "-", "1"]));
        assert_eq!(lines[30], line("44", ["-", "-", "-", "-", "-", "1", "-", "-"]));
        assert_eq!(lines[32], line("none", ["-", "1", "1", "1", "-", "-", "-", "-"]));
        assert_eq!(lines[33], line("all", ["16", "10", "2", "2", "19", "13", "25", "28"]));
    }
}
