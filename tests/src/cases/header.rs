//! Cases of rules 1 and 3 to 8: the header alone, on both sides of every edge.

use super::{asked_at_edges, case, refused, sound, Case, ACCEPTED};
use crate::maker::{Machine, Section};
use crate::reader::Verdict;
use Machine::{Aarch64, Aarch64Big, Amd64};

type Edit = fn(&mut Section);

pub fn all() -> Vec<Case> {
    let mut cases = lengths();
    cases.extend(FIELDS.iter().map(|&(name, machine, edit, expected)| {
        let mut section = sound(machine);
        edit(&mut section);
        case(name, &section, expected)
    }));
    cases.extend(flags());
    cases.extend(wrapped_lengths());
    cases
}

// Sections cut short or made longer as a whole, after they were built.
fn lengths() -> Vec<Case> {
    let mut cases = Vec::new();
    for machine in Machine::ALL {
        let tag = machine.tag();
        let empty = Section::new(machine).bytes();
        let whole = sound(machine).bytes();
        let longer = [&whole[..], &[0]].concat();
        let one_less = &whole[..whole.len() - 1];
        let sections = [
            ("1_no_bytes", &whole[..0], refused(1, 0)),
            ("1_one_byte", &whole[..1], refused(1, 0)),
            ("1_27_of_28_bytes", &empty[..27], refused(1, 0)),
            ("ok_28_bytes_no_functions", &empty[..], ACCEPTED),
            ("8_28_bytes_of_more", &whole[..28], refused(8, 0)),
            ("8_one_byte_short", one_less, refused(8, 0)),
            ("8_one_byte_long", &longer[..], refused(8, 0)),
            ("ok_sound", &whole[..], ACCEPTED),
        ];
        let stored =
            sections.map(|(name, section, expected)| Case::new(format!("{name}_{tag}"), section.to_vec(), expected));
        cases.extend(stored);
    }
    cases
}

const FIELDS: &[(&str, Machine, Edit, Verdict)] = &[
    ("3_magic_first_byte", Amd64, |s| s.magic = [0xe3, 0xde], refused(3, 0)),
    ("3_magic_second_byte", Amd64, |s| s.magic = [0xe2, 0xdf], refused(3, 0)),
    ("3_magic_big_first_byte", Aarch64Big, |s| s.magic = [0xdf, 0xe2], refused(3, 0)),
    ("3_magic_big_second_byte", Aarch64Big, |s| s.magic = [0xde, 0xe3], refused(3, 0)),
    ("3_magic_e2_twice", Aarch64, |s| s.magic = [0xe2, 0xe2], refused(3, 0)),
    ("3_magic_de_twice", Aarch64Big, |s| s.magic = [0xde, 0xde], refused(3, 0)),
    ("3_magic_zero", Amd64, |s| s.magic = [0, 0], refused(3, 0)),
    ("4_version_0", Amd64, |s| s.version = 0, refused(4, 0)),
    ("4_version_1", Aarch64, |s| s.version = 1, refused(4, 0)),
    ("4_version_3", Aarch64Big, |s| s.version = 3, refused(4, 0)),
    ("4_version_255", Amd64, |s| s.version = 255, refused(4, 0)),
    ("6_abi_0", Amd64, |s| s.abi = 0, refused(6, 0)),
    ("6_abi_0_big", Aarch64Big, |s| s.abi = 0, refused(6, 0)),
    ("6_abi_4", Amd64, |s| s.abi = 4, refused(6, 0)),
    ("6_abi_4_big", Aarch64Big, |s| s.abi = 4, refused(6, 0)),
    ("6_abi_255", Aarch64, |s| s.abi = 255, refused(6, 0)),
    ("6_abi_1_little", Aarch64, |s| s.abi = 1, refused(6, 0)),
    ("6_abi_2_big", Aarch64Big, |s| s.abi = 2, refused(6, 0)),
    ("6_abi_3_big", Aarch64Big, |s| s.abi = 3, refused(6, 0)),
    ("6_magic_of_the_other_order_amd64", Amd64, |s| s.magic = [0xde, 0xe2], refused(6, 0)),
    ("6_magic_of_the_other_order_aarch64", Aarch64, |s| s.magic = [0xde, 0xe2], refused(6, 0)),
    ("6_magic_of_the_other_order_aarch64be", Aarch64Big, |s| s.magic = [0xe2, 0xde], refused(6, 0)),
    ("7_fixed_ra_0_amd64", Amd64, |s| s.fixed_ra = 0, refused(7, 0)),
    ("7_fixed_ra_8_amd64", Amd64, |s| s.fixed_ra = 8, refused(7, 0)),
    ("7_fixed_ra_minus_7_amd64", Amd64, |s| s.fixed_ra = -7, refused(7, 0)),
    ("7_fixed_ra_minus_9_amd64", Amd64, |s| s.fixed_ra = -9, refused(7, 0)),
    ("7_fixed_fp_1_amd64", Amd64, |s| s.fixed_fp = 1, refused(7, 0)),
    ("7_fixed_fp_minus_16_amd64", Amd64, |s| s.fixed_fp = -16, refused(7, 0)),
    ("7_fixed_swapped_amd64", Amd64, |s| (s.fixed_fp, s.fixed_ra) = (-8, 0), refused(7, 0)),
    ("7_fixed_ra_minus_8_aarch64", Aarch64, |s| s.fixed_ra = -8, refused(7, 0)),
    ("7_fixed_fp_minus_8_aarch64", Aarch64, |s| s.fixed_fp = -8, refused(7, 0)),
    ("7_fixed_ra_minus_8_aarch64be", Aarch64Big, |s| s.fixed_ra = -8, refused(7, 0)),
    ("7_fixed_fp_1_aarch64be", Aarch64Big, |s| s.fixed_fp = 1, refused(7, 0)),
    // Another ABI asks other fixed offsets of the same bytes.
    ("7_abi_2_with_amd64_offsets", Amd64, |s| s.abi = 2, refused(7, 0)),
    ("7_abi_3_with_aarch64_offsets", Aarch64, |s| s.abi = 3, refused(7, 0)),
    ("8_table_offset_1", Amd64, |s| s.claims.table_offset = Some(1), refused(8, 0)),
    ("8_table_offset_20_big", Aarch64Big, |s| s.claims.table_offset = Some(20), refused(8, 0)),
    ("8_table_offset_2_24", Aarch64, |s| s.claims.table_offset = Some(1 << 24), refused(8, 0)),
    ("8_table_offset_most", Amd64, |s| s.claims.table_offset = Some(u32::MAX), refused(8, 0)),
    ("8_area_offset_0", Amd64, |s| s.claims.area_offset = Some(0), refused(8, 0)),
    ("8_area_offset_one_below", Amd64, |s| s.claims.area_offset = Some(79), refused(8, 0)),
    ("8_area_offset_one_above", Aarch64, |s| s.claims.area_offset = Some(81), refused(8, 0)),
    ("8_area_offset_an_entry_above", Aarch64Big, |s| s.claims.area_offset = Some(100), refused(8, 0)),
    ("8_row_bytes_0", Amd64, |s| s.claims.row_bytes = Some(0), refused(8, 0)),
    ("8_row_bytes_most", Aarch64Big, |s| s.claims.row_bytes = Some(u32::MAX), refused(8, 0)),
    ("8_functions_one_below", Amd64, |s| s.claims.functions = Some(3), refused(8, 0)),
    ("8_functions_one_above", Aarch64Big, |s| s.claims.functions = Some(5), refused(8, 0)),
    ("8_functions_0", Aarch64, |s| s.claims.functions = Some(0), refused(8, 0)),
    ("8_auxiliary_1_that_is_not_there", Amd64, |s| s.claims.auxiliary = Some(1), refused(8, 0)),
    ("8_auxiliary_255_that_is_not_there", Aarch64Big, |s| s.claims.auxiliary = Some(255), refused(8, 0)),
    ("8_auxiliary_not_counted", Aarch64, |s| (s.auxiliary, s.claims.auxiliary) = (vec![0; 4], Some(0)), refused(8, 0)),
];

// Every flag alone and every set of the known ones; the entries are in order, so that sorted is true of them. Each
// known set is asked on one machine.
fn flags() -> Vec<Case> {
    let unknown = (3..8).map(|bit| (format!("5_flag_bit_{bit}"), 1 << bit));
    let with_known = [("5_flags_0f".to_string(), 0x0f), ("5_flags_ff".to_string(), 0xff)];
    let mut cases = Vec::new();
    for (turn, machine) in Machine::ALL.into_iter().enumerate() {
        let with = |flags: u8| {
            let mut section = sound(machine);
            section.flags = flags;
            section
        };
        for flags in 0..8 {
            let name = format!("ok_flags_{flags}_{}", machine.tag());
            let asked = usize::from(flags) % 3 == turn;
            let known = with(flags);
            cases.push(if asked { asked_at_edges(name, &known) } else { case(name, &known, ACCEPTED) });
        }
        for (name, flags) in unknown.clone().chain(with_known.clone()) {
            cases.push(case(format!("{name}_{}", machine.tag()), &with(flags), refused(5, 0)));
        }
    }
    cases
}

// Sections whose parts add up to their length, or whose table ends at the row area, only if 2^32 is dropped. 20 times
// 2^30 is 5 times 2^32, so that n and n + 2^30 have one 20n between them there.
fn wrapped_lengths() -> Vec<Case> {
    let wrapped: [(&str, Edit); 5] = [
        ("8_functions_2_30_above", |s| s.claims.functions = Some(4 + (1 << 30))),
        ("8_functions_2_31_above", |s| s.claims.functions = Some(4 + (1 << 31))),
        ("8_functions_3_2_30_above", |s| s.claims.functions = Some(4 + (3 << 30))),
        // 28 + 20 - 20 bytes, where the row bytes are 2^32 - 20.
        ("8_row_bytes_2_32_less_20", |s| header_alone(s, 1, u32::MAX - 19)),
        // 20n is 2^32 - 16, and the row bytes are the 16.
        ("8_table_of_2_32_less_16", |s| header_alone(s, 214_748_364, 16)),
    ];
    let mut cases = Vec::new();
    for machine in Machine::ALL {
        for (name, edit) in wrapped {
            let mut section = sound(machine);
            edit(&mut section);
            cases.push(case(format!("{name}_{}", machine.tag()), &section, refused(8, 0)));
        }
    }
    cases
}

// A header alone that claims a table, in the right place, and row bytes.
fn header_alone(section: &mut Section, functions: u32, row_bytes: u32) {
    section.functions.clear();
    section.claims.functions = Some(functions);
    section.claims.area_offset = Some(20 * functions);
    section.claims.row_bytes = Some(row_bytes);
}
