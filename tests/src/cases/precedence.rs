//! Cases in which two or more rules are broken at once, and the first in document 01's order must win.

use super::{case, refused, sound, Case};
use crate::maker::{FirstRow, Machine, Section, Start};
use crate::reader::Verdict;

pub fn all() -> Vec<Case> {
    let mut cases = headers();
    cases.extend(one_entry());
    cases.extend(two_entries());
    cases.extend(with_the_sum());
    cases.extend(rows());
    cases
}

type HeaderDamage = (u64, fn(&mut Section));

const HEADER_DAMAGES: [HeaderDamage; 6] = [
    (3, |s| s.magic = [0xff, 0xff]),
    (4, |s| s.version = 3),
    (5, |s| s.flags |= 0x80),
    (6, |s| s.abi = 4),
    (7, |s| s.fixed_fp = 1),
    (8, |s| s.claims.table_offset = Some(4)),
];

// Every pair of header rules, every tail of them together, and each with an entry and the sum broken too.
fn headers() -> Vec<Case> {
    let everything = [0xff; 27];
    let mut cases = vec![Case::new("1_all_wrong", everything.to_vec(), refused(1, 0))];
    for (place, &(number, first)) in HEADER_DAMAGES.iter().enumerate() {
        let later = &HEADER_DAMAGES[place + 1..];
        for &(other, second) in later {
            let mut section = sound(Machine::Amd64);
            first(&mut section);
            second(&mut section);
            cases.push(case(format!("{number}_and_{other}"), &section, refused(number, 0)));
        }
        for machine in Machine::ALL {
            let mut section = sound(machine);
            first(&mut section);
            later.iter().for_each(|(_, damage)| damage(&mut section));
            section.functions[0].high_bits = 3;
            section.claims.rows = Some(0);
            let name = format!("{number}_and_all_later_{}", machine.tag());
            cases.push(case(name, &section, refused(number, 0)));
        }
    }
    cases
}

type EntryDamage = (u64, fn(&mut Section, usize));

/// One damage for each rule of an entry; none undoes another, in the same entry or in the next.
const ENTRY_DAMAGES: [EntryDamage; 6] = [
    (9, |s, entry| s.functions[entry].high_bits = 1),
    (10, |s, entry| s.functions[entry].repeated = true),
    (11, |s, entry| s.functions[entry].first_row = FirstRow::PastEnd(1)),
    (12, |s, entry| s.functions[entry].rows[2].size_code = 3),
    (13, |s, entry| s.functions[entry].rows[2].start = s.functions[entry].rows[1].start),
    (14, |s, entry| s.functions[entry].start = Start::Effective(s.effective_start(entry - 1) + 0xff)),
];

fn one_entry() -> Vec<Case> {
    let mut cases = Vec::new();
    for (place, &(number, first)) in ENTRY_DAMAGES.iter().enumerate() {
        for &(other, second) in &ENTRY_DAMAGES[place + 1..] {
            let mut section = sound(Machine::Aarch64);
            first(&mut section, 2);
            second(&mut section, 2);
            cases.push(case(format!("{number}_and_{other}_in_one_entry"), &section, refused(number, 2)));
        }
    }
    cases
}

// The lower entry wins, whatever the numbers are.
fn two_entries() -> Vec<Case> {
    let mut cases = Vec::new();
    for (number, first) in ENTRY_DAMAGES {
        for (other, second) in ENTRY_DAMAGES {
            let mut section = sound(Machine::Amd64);
            first(&mut section, 1);
            second(&mut section, 2);
            cases.push(case(format!("{number}_before_{other}_of_next_entry"), &section, refused(number, 1)));
            let mut apart = sound(Machine::Aarch64Big);
            first(&mut apart, 1);
            second(&mut apart, 3);
            cases.push(case(format!("{number}_before_{other}_of_last_entry"), &apart, refused(number, 1)));
        }
    }
    cases
}

// A wrong sum is found last, also where the broken entry is the last.
fn with_the_sum() -> Vec<Case> {
    let mut cases = Vec::new();
    for (number, damage) in ENTRY_DAMAGES {
        let mut section = sound(Machine::Amd64);
        damage(&mut section, 3);
        section.claims.rows = Some(15);
        cases.push(case(format!("{number}_of_last_entry_and_15"), &section, refused(number, 3)));
    }
    cases
}

type RowDamage = fn(&mut Section);

/// Damage of rows 2 and 3 of entry 1, whose row starts have two bytes.
const ROW_DAMAGES: [(&str, RowDamage, Verdict); 14] = [
    ("12_size_3_and_13_in_one_row", |s| together(s, &[bad_size, low_start]), refused(12, 1)),
    ("12_count_0_and_13_in_one_row", |s| together(s, &[no_offsets, low_start]), refused(12, 1)),
    ("12_size_3_and_offsets_past", |s| together(s, &[bad_size, end_before_offsets]), refused(12, 1)),
    ("12_count_0_at_end", |s| together(s, &[no_offsets, end_before_offsets]), refused(12, 1)),
    ("12_count_15_of_4_bytes_past", |s| together(s, &[most_offsets, end_before_offsets]), refused(12, 1)),
    ("12_13_and_offsets_past", |s| together(s, &[bad_size, low_start, end_before_offsets]), refused(12, 1)),
    ("11_fixed_part_and_13", |s| together(s, &[low_start, end_before_info]), refused(11, 1)),
    ("11_fixed_part_and_12", |s| together(s, &[bad_size, end_before_info]), refused(11, 1)),
    ("11_offsets_and_13", |s| together(s, &[low_start, end_before_offsets]), refused(11, 1)),
    ("11_offsets_one_short_and_13", |s| together(s, &[low_start, end_one_short]), refused(11, 1)),
    ("13_before_12_of_next_row", |s| together(s, &[row_before_low, bad_size]), refused(13, 1)),
    ("13_before_11_fixed_next", |s| together(s, &[row_before_low, end_before_info]), refused(13, 1)),
    ("13_before_11_offsets_next", |s| together(s, &[row_before_low, end_before_offsets]), refused(13, 1)),
    ("12_before_11_of_next_row", |s| together(s, &[row_before_bad, end_before_info]), refused(12, 1)),
];

fn rows() -> Vec<Case> {
    let mut cases = Vec::new();
    for (name, damage, expected) in ROW_DAMAGES {
        for machine in Machine::ALL {
            let mut section = sound(machine);
            damage(&mut section);
            // The rules after it are broken too.
            section.functions[1].start = Start::Effective(0);
            section.functions[2].high_bits = 1;
            cases.push(case(format!("{name}_{}", machine.tag()), &section, expected));
        }
    }
    cases
}

fn together(section: &mut Section, damages: &[RowDamage]) {
    damages.iter().for_each(|damage| damage(section));
}

fn bad_size(section: &mut Section) {
    section.functions[1].rows[3].size_code = 3;
}

fn no_offsets(section: &mut Section) {
    section.functions[1].rows[3].count = 0;
}

fn most_offsets(section: &mut Section) {
    (section.functions[1].rows[3].count, section.functions[1].rows[3].size_code) = (15, 2);
}

fn low_start(section: &mut Section) {
    section.functions[1].rows[3].start = section.functions[1].rows[2].start;
}

fn row_before_low(section: &mut Section) {
    section.functions[1].rows[2].start = section.functions[1].rows[1].start;
}

fn row_before_bad(section: &mut Section) {
    section.functions[1].rows[2].count = 0;
}

fn end_before_info(section: &mut Section) {
    section.end_inside_row(1, 3, 2);
}

fn end_before_offsets(section: &mut Section) {
    section.end_inside_row(1, 3, 3);
}

fn end_one_short(section: &mut Section) {
    let length = section.functions[1].rows[3].length(2);
    section.end_inside_row(1, 3, length - 1);
}
