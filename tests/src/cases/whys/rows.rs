//! A row with the next one's start, and 23 with the first one's: by the offset used, which is a remainder in repeated
//! blocks, and by the rows of one function alone.

use super::{section_of, Scene, Why, MARKS};
use crate::cases::function_at;
use crate::maker::{FirstRow, Function, Section};
use crate::obvious::described;
use crate::reader::{self, FoundRow, LookupWhy, StepWhy, Unfound};
use Said::{NoRow, Row};

/// A function: its start and size, the size of its blocks where they are repeated, and where its rows start.
type Listed = (i64, u32, Option<u8>, &'static [u32]);

/// What the author reads in document 01 of a place.
#[derive(Clone, Copy)]
enum Said {
    /// The function, the offset used, the row's number, and the next row's start.
    Row(u64, u32, u64, Option<u32>),
    /// The function, the offset used, and its first row's start.
    NoRow(u64, u32, Option<u32>),
}

type Table = (&'static str, &'static [Listed], &'static [(i128, Said)]);

pub fn all() -> Vec<Why> {
    let tables = TABLES.iter().enumerate().flat_map(|(turn, table)| of_table(turn, table));
    tables.chain(shared()).chain(plain_with_a_repeat_size()).collect()
}

fn of_table(turn: usize, (name, functions, places): &Table) -> Vec<Why> {
    let functions = functions.iter().zip(1..).map(|(listed, tag)| function(tag, listed)).collect();
    said(name, turn, &section_of(turn, turn % 4 != 3, functions), places)
}

fn function(tag: i32, (start, size, repeat, starts): &Listed) -> Function {
    let mut function = function_at(tag, *start, *size, starts);
    (function.repeated, function.repeat) = (repeat.is_some(), repeat.unwrap_or(0));
    function
}

// Each place with a mark, and where it is looked up from the place behind it without one.
fn said(name: &str, turn: usize, section: &Section, places: &[(i128, Said)]) -> Vec<Why> {
    let (scene, functions) = (Scene::of(format!("row_{name}"), section), described(section));
    let whys = |(number, (d, said)): (usize, &(i128, Said))| match stated(&functions, *said) {
        Err(why) => scene.unfound(*d, turn + number, &why),
        Ok(row) => {
            let (mut marked, mut later) = (scene.at(*d, MARKS[(turn + number) % MARKS.len()]), scene.at(*d + 1, 0));
            marked.lookup = LookupWhy::Found(row);
            state_row(&mut marked.step, row);
            state_row(&mut later.step, row);
            [marked, later]
        }
    };
    places.iter().enumerate().flat_map(whys).collect()
}

// What comes of the row is left to the definition.
fn state_row(step: &mut StepWhy, row: FoundRow) {
    match step {
        StepWhy::Found { found, .. } => *found = row,
        other => panic!("a row is stated, and the definition has {other:?}"),
    }
}

fn stated(functions: &[reader::Function], said: Said) -> Result<FoundRow, Unfound> {
    match said {
        Row(function, offset, number, next) => {
            let row = functions[function as usize].rows[number as usize];
            Ok(FoundRow { function, offset, number, row, next })
        }
        NoRow(function, offset, first) => Err(Unfound::NoRow { function, offset, first }),
    }
}

const LOWEST: i64 = i32::MIN as i64;

const TABLES: [Table; 18] = [
    (
        "three",
        &[(0, 16, None, &[0, 4, 8])],
        &[
            (0, Row(0, 0, 0, Some(4))),
            (3, Row(0, 3, 0, Some(4))),
            (4, Row(0, 4, 1, Some(8))),
            (7, Row(0, 7, 1, Some(8))),
            (8, Row(0, 8, 2, None)),
            (15, Row(0, 15, 2, None)),
        ],
    ),
    (
        "late",
        &[(-0x10, 16, None, &[4, 8])],
        &[
            (-0x10, NoRow(0, 0, Some(4))),
            (-0xd, NoRow(0, 3, Some(4))),
            (-0xc, Row(0, 4, 0, Some(8))),
            (-8, Row(0, 8, 1, None)),
        ],
    ),
    (
        "none",
        &[(0, 16, None, &[]), (0x20, 16, None, &[0]), (0x40, 1, None, &[])],
        &[
            (0, NoRow(0, 0, None)),
            (15, NoRow(0, 15, None)),
            (0x20, Row(1, 0, 0, None)),
            (0x2f, Row(1, 15, 0, None)),
            (0x40, NoRow(2, 0, None)),
        ],
    ),
    // Behind the last row stand those of the next function.
    (
        "neighbours",
        &[(0, 8, None, &[0]), (8, 8, None, &[3, 5]), (16, 8, None, &[0, 2]), (24, 8, None, &[7])],
        &[
            (0, Row(0, 0, 0, None)),
            (7, Row(0, 7, 0, None)),
            (8, NoRow(1, 0, Some(3))),
            (10, NoRow(1, 2, Some(3))),
            (11, Row(1, 3, 0, Some(5))),
            (13, Row(1, 5, 1, None)),
            (16, Row(2, 0, 0, Some(2))),
            (23, Row(2, 7, 1, None)),
            (30, NoRow(3, 6, Some(7))),
            (31, Row(3, 7, 0, None)),
        ],
    ),
    (
        "past_the_size",
        &[(0, 4, None, &[0, 4, 9]), (4, 4, None, &[4]), (8, 4, None, &[3, 200])],
        &[
            (3, Row(0, 3, 0, Some(4))),
            (4, NoRow(1, 0, Some(4))),
            (7, NoRow(1, 3, Some(4))),
            (10, NoRow(2, 2, Some(3))),
            (11, Row(2, 3, 0, Some(200))),
        ],
    ),
    // Rows at 8 and 12 are never reached, and the first of them is the next one all the same.
    (
        "blocks_of_8",
        &[(13, 30, Some(8), &[0, 4, 8, 12])],
        &[
            (13, Row(0, 0, 0, Some(4))),
            (17, Row(0, 4, 1, Some(8))),
            (20, Row(0, 7, 1, Some(8))),
            (21, Row(0, 0, 0, Some(4))),
            (25, Row(0, 4, 1, Some(8))),
            (42, Row(0, 5, 1, Some(8))),
        ],
    ),
    (
        "blocks_of_12",
        &[(-5, 40, Some(12), &[3, 6, 11])],
        &[
            (-5, NoRow(0, 0, Some(3))),
            (-3, NoRow(0, 2, Some(3))),
            (-2, Row(0, 3, 0, Some(6))),
            (5, Row(0, 10, 1, Some(11))),
            (6, Row(0, 11, 2, None)),
            (7, NoRow(0, 0, Some(3))),
            (9, NoRow(0, 2, Some(3))),
            (10, Row(0, 3, 0, Some(6))),
            (34, Row(0, 3, 0, Some(6))),
        ],
    ),
    (
        "blocks_of_1",
        &[(0, 5, Some(1), &[0, 1]), (5, 5, Some(1), &[1])],
        &[(0, Row(0, 0, 0, Some(1))), (4, Row(0, 0, 0, Some(1))), (5, NoRow(1, 0, Some(1))), (9, NoRow(1, 0, Some(1)))],
    ),
    (
        "blocks_of_255",
        &[(0, 600, Some(255), &[0, 254])],
        &[
            (253, Row(0, 253, 0, Some(254))),
            (254, Row(0, 254, 1, None)),
            (255, Row(0, 0, 0, Some(254))),
            (509, Row(0, 254, 1, None)),
            (510, Row(0, 0, 0, Some(254))),
            (599, Row(0, 89, 0, Some(254))),
        ],
    ),
    (
        "blocks_without_rows",
        &[(0, 10, Some(4), &[])],
        &[(0, NoRow(0, 0, None)), (3, NoRow(0, 3, None)), (4, NoRow(0, 0, None)), (9, NoRow(0, 1, None))],
    ),
    ("one_block_not_full", &[(0, 5, Some(16), &[0, 4, 7])], &[(3, Row(0, 3, 0, Some(4))), (4, Row(0, 4, 1, Some(7)))]),
    (
        "highest_of_1_byte",
        &[(0, 0x200, None, &[1, 0xff])],
        &[
            (0, NoRow(0, 0, Some(1))),
            (1, Row(0, 1, 0, Some(0xff))),
            (0xfe, Row(0, 0xfe, 0, Some(0xff))),
            (0xff, Row(0, 0xff, 1, None)),
            (0x1ff, Row(0, 0x1ff, 1, None)),
        ],
    ),
    (
        "highest_of_2_bytes",
        &[(0, 0x20000, None, &[0, 0xff, 0x100, 0xffff])],
        &[
            (0xfe, Row(0, 0xfe, 0, Some(0xff))),
            (0xff, Row(0, 0xff, 1, Some(0x100))),
            (0x100, Row(0, 0x100, 2, Some(0xffff))),
            (0xfffe, Row(0, 0xfffe, 2, Some(0xffff))),
            (0xffff, Row(0, 0xffff, 3, None)),
            (0x1ffff, Row(0, 0x1ffff, 3, None)),
        ],
    ),
    (
        "highest_of_4_bytes",
        &[(LOWEST, u32::MAX, None, &[0x1_0000, 0x8000_0000, 0xffff_ffff])],
        &[
            (LOWEST as i128, NoRow(0, 0, Some(0x1_0000))),
            (LOWEST as i128 + 0xffff, NoRow(0, 0xffff, Some(0x1_0000))),
            (LOWEST as i128 + 0x1_0000, Row(0, 0x1_0000, 0, Some(0x8000_0000))),
            (-1, Row(0, 0x7fff_ffff, 0, Some(0x8000_0000))),
            (0, Row(0, 0x8000_0000, 1, Some(0xffff_ffff))),
            (0x7fff_fffe, Row(0, 0xffff_fffe, 1, Some(0xffff_ffff))),
        ],
    ),
    (
        "blocks_in_the_widest",
        &[(LOWEST, u32::MAX, Some(200), &[0, 100])],
        // 2^31 is 48 more than a multiple of 200, and 2^32 - 2 is 94 more.
        &[
            (-1, Row(0, 47, 0, Some(100))),
            (0, Row(0, 48, 0, Some(100))),
            (52, Row(0, 100, 1, None)),
            (0x7fff_fffe, Row(0, 94, 0, Some(100))),
        ],
    ),
    (
        "highest_first_row",
        &[(0, 0x100, None, &[0xff]), (0x100, u32::MAX, None, &[u32::MAX])],
        &[
            (0xfe, NoRow(0, 0xfe, Some(0xff))),
            (0xff, Row(0, 0xff, 0, None)),
            (0x100, NoRow(1, 0, Some(u32::MAX))),
            (0x1_0000_00fe, NoRow(1, 0xffff_fffe, Some(u32::MAX))),
        ],
    ),
    (
        "of_one_byte",
        &[(7, 1, None, &[0, 1]), (8, 1, None, &[1]), (9, 1, None, &[])],
        &[(7, Row(0, 0, 0, Some(1))), (8, NoRow(1, 0, Some(1))), (9, NoRow(2, 0, None))],
    ),
    (
        "size_0_inside",
        &[(0, 0, None, &[0]), (0, 0, None, &[2]), (0, 8, None, &[0, 4]), (8, 0, None, &[0])],
        &[(0, Row(2, 0, 0, Some(4))), (4, Row(2, 4, 1, None)), (7, Row(2, 7, 1, None))],
    ),
];

// Two functions with the same rows, of which the second has blocks: each counts by itself.
fn shared() -> Vec<Why> {
    let mut functions = vec![function(1, &(0, 16, None, &[0, 5])), function(2, &(16, 16, Some(6), &[]))];
    functions[1].first_row = FirstRow::SharedWith(0);
    let places = [
        (4, Row(0, 4, 0, Some(5))),
        (5, Row(0, 5, 1, None)),
        (16, Row(1, 0, 0, Some(5))),
        (21, Row(1, 5, 1, None)),
        (22, Row(1, 0, 0, Some(5))),
    ];
    said("shared", 2, &section_of(2, true, functions), &places)
}

// A repeat size without repeated blocks means nothing.
fn plain_with_a_repeat_size() -> Vec<Why> {
    let mut functions = vec![function(1, &(0, 16, None, &[0, 9])), function(2, &(16, 16, None, &[6]))];
    (functions[0].repeat, functions[1].repeat) = (8, 1);
    let places =
        [(8, Row(0, 8, 0, Some(9))), (9, Row(0, 9, 1, None)), (21, NoRow(1, 5, Some(6))), (22, Row(1, 6, 0, None))];
    said("plain_with_a_repeat_size", 3, &section_of(3, true, functions), &places)
}
