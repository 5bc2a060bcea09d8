//! The row for a PC by a scan that decodes every row on the way, as the request to pass rows by their length found it:
//! the same row, to be timed beside the others.
#![forbid(unsafe_code)]

use super::lookup::{distance, Checked, Outcome};
use std::hint::black_box;

impl Checked<'_> {
    /// The row for a PC that the function with this index covers; every row up to it is decoded.
    pub fn row_by_decoding(&self, function: u64, address: u64, pc: u64) -> Outcome {
        let entry = self.parts().entry(function as usize);
        let o = entry.offset_of(distance(address, pc));
        // A row that nobody looks at need not be decoded: each is made to be looked at.
        let rows = (0..).zip(self.parts().rows(&entry)).map(black_box);
        match rows.take_while(|(_, row)| row.start <= o).last() {
            None => Outcome::NoRow { function },
            Some((number, row)) => Outcome::Found { function, number, row },
        }
    }
}

#[cfg(test)]
mod tests {
    use super::*;
    use crate::cases;

    #[test]
    fn every_stored_question_that_one_function_answers_is_answered_alike() {
        let (mut found, mut none) = (0, 0);
        for case in cases::all() {
            let Ok(checked) = Checked::open(&case.section) else { continue };
            for question in &case.questions {
                let right = question.expected.outcome;
                let (function, times) = match right {
                    Outcome::Found { function, .. } => (function, &mut found),
                    Outcome::NoRow { function } => (function, &mut none),
                    _ => continue,
                };
                let row = checked.row_by_decoding(function, question.address, question.pc);
                assert_eq!(row, right, "{}, PC {:x}", case.name, question.pc);
                *times += 1;
            }
        }
        assert!(found > 1_000 && none > 20, "{found} rows were found, {none} times there was none");
    }
}
