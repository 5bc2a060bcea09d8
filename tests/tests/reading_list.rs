//! docs/PROMISES.md begins with the lists of the definitions that must be believed: one for the three demands, one for the
//! listing, one for the rows that are passed, one for signed return addresses, one for an asked address, and one for why.
//! Each must be closed: what a file of it uses of ours stands on it, further up, or on a list before it; and each file has
//! as many lines as the list says, and all have what the page says.

use std::fs;
use suntimpani_tests::in_repository;

/// The one file that is used and need not be read: any other decision of the same would do.
const REPLACEABLE: &str = "crates/promises/specs/Inner/Deciding.antt";

/// What the files of the second list use to say what is ours, and what our contracts allow. The page names them.
const OURS: [&str; 5] = [
    "crates/accept/specs/Computed/Checks.antt",
    "crates/listing/specs/Computed/Reader.antt",
    "crates/promises/specs/Determined.antt",
    "crates/promises/specs/ReaderSays.antt",
    "crates/promises/specs/Inner/Lent.antt",
];

/// What the files of the third list and the fourth use to say what our contracts allow. The page names it.
const CONTRACTS: &str = "crates/promises/specs/StatedContracts.antt";

/// What the files of the fifth list use of the second, to say what stands in a struct, and to say what is ours and what
/// our contracts allow. The page names them.
const OURS_TO_ASK: [&str; 6] = [
    "crates/ask/specs/Computed/Ask.antt",
    "crates/promises/specs/StatedContracts.antt",
    "crates/promises/specs/Determined.antt",
    "crates/promises/specs/Exported.antt",
    "crates/suntimpani/specs/Flat.antt",
    "crates/suntimpani/specs/Read.antt",
];

/// What the files of the sixth list use to say what our contracts allow. The page names them.
const OURS_TO_EXPLAIN: [&str; 3] = [
    "crates/explain/specs/Told.antt",
    "crates/promises/specs/StatedContracts.antt",
    "crates/promises/specs/Determined.antt",
];

/// A row of a list: a file and its lines.
#[derive(Debug, PartialEq)]
struct Listed {
    file: String,
    lines: usize,
}

/// The rows of a list: "| 1 | `crates/numbers/specs/Field.antt` | what it says | 25 |".
fn listed_in(part: &str) -> Vec<Listed> {
    let row = |line: &str| {
        let cells: Vec<&str> = line.trim_matches('|').split('|').map(str::trim).collect();
        let [_, file, _, lines] = cells[..] else { return None };
        let file = file.trim_matches('`').to_string();
        Some(Listed { file, lines: lines.parse().ok()? })
    };
    part.lines().filter_map(row).filter(|listed| listed.file.ends_with(".antt")).collect()
}

/// The number that a part of the page begins with, as "1,649 lines".
fn lines_said(part: &str) -> Option<usize> {
    let (number, _) = part.split_once(" lines")?;
    number.replace(',', "").parse().ok()
}

/// The parts of the page that have a list, each from the number of its lines on: "read these, in this order, and no others: 1,649
/// lines".
fn parts(page: &str) -> Vec<&str> {
    page.split("and no others: ").skip(1).collect()
}

/// The file of definitions of ours that a line of antt uses, if it uses one: "use Rattle.low.specs.Field.{field_of}". What is
/// declared in code, or is the contract of a function there, has no file of definitions, and what is of `std` is the
/// toolchain's.
fn used_by(line: &str) -> Option<String> {
    let path = line.strip_prefix("use Rattle.")?;
    let (name, module) = path.split_once(".specs.")?;
    let module = module.split([' ', '{']).next()?.trim_end_matches('.');
    (name != "std" && !module.starts_with("declared.") && !module.starts_with("contracts."))
        .then(|| format!("crates/{name}/specs/{}.antt", module.replace('.', "/")))
}

/// What is wrong with a list, given those before it, what need not be read, and the text of each file.
fn faults(before: &[Listed], list: &[Listed], unread: &[&str], text_of: impl Fn(&str) -> String) -> Vec<String> {
    let mut faults = Vec::new();
    for (place, listed) in list.iter().enumerate() {
        let text = text_of(&listed.file);
        if text.lines().count() != listed.lines {
            faults.push(format!("{} has {} lines", listed.file, text.lines().count()));
        }
        let above = |used: &String| before.iter().chain(&list[..place]).any(|earlier| earlier.file == *used);
        let above = |used: &String| above(used) || unread.contains(&used.as_str());
        let missing = text.lines().filter_map(used_by).filter(|used| !above(used));
        faults.extend(missing.map(|used| format!("{} uses {used}, which does not stand above it", listed.file)));
    }
    faults
}

/// That a part of the page says how many lines its list has, and that these files of `promises` are on it.
fn hold(part: &str, promised: &[&str]) {
    let list = listed_in(part);
    assert_eq!(lines_said(part), Some(list.iter().map(|listed| listed.lines).sum()));
    for promise in promised {
        let file = format!("crates/promises/specs/{promise}.antt");
        assert!(list.iter().any(|listed| listed.file == file), "{file} is not on the list");
    }
}

#[test]
fn the_lists_are_closed_and_as_long_as_they_say() {
    let page = fs::read_to_string(in_repository("docs/PROMISES.md")).expect("the page");
    let text_of =
        |file: &str| fs::read_to_string(in_repository(file)).unwrap_or_else(|error| panic!("{file}: {error}"));
    let [demands, listing, passed, signed, asked, why] = parts(&page)[..] else {
        panic!("the page has {} lists", parts(&page).len())
    };
    let first = listed_in(demands);
    assert_eq!(faults(&[], &first, &[REPLACEABLE], text_of), [""; 0]);
    assert_eq!(faults(&first, &listed_in(listing), &OURS, text_of), [""; 0]);
    assert_eq!(faults(&first, &listed_in(passed), &[CONTRACTS], text_of), [""; 0]);
    assert_eq!(faults(&first, &listed_in(signed), &[CONTRACTS], text_of), [""; 0]);
    assert_eq!(faults(&first, &listed_in(asked), &OURS_TO_ASK, text_of), [""; 0]);
    assert_eq!(faults(&first, &listed_in(why), &OURS_TO_EXPLAIN, text_of), [""; 0]);
    hold(demands, &["Demand1", "Demand2", "Demand3"]);
    hold(listing, &["FunctionCall", "ListingCall", "RowsCall"]);
    hold(passed, &["PassedRows"]);
    hold(signed, &["SignedAddresses"]);
    hold(asked, &["AskCall"]);
    hold(why, &["ExplainCall"]);
    let unread = OURS.iter().chain([&CONTRACTS]).chain(&OURS_TO_ASK).chain(&OURS_TO_EXPLAIN);
    assert_eq!(unread.filter(|file| !page.contains(**file)).count(), 0, "the page names what is ours");
}

// ---- that faults are found

const PAGE: &str =
    "read these files, in this order, and no others: 1,003 lines\n\n| | Read | What | Lines |\n|---|---|---|---|\n\
                    | 1 | `crates/low/specs/A.antt` | a | 1 |\n| 2 | `crates/high/specs/B.antt` | b | 2 |\n\n\
                    and these after it, and no others: 3 lines\n\n| | Read | What | Lines |\n|---|---|---|---|\n\
                    | 1 | `crates/top/specs/D.antt` | d | 3 |\n";

fn text_of(file: &str) -> String {
    match file {
        "crates/low/specs/A.antt" => "use Rattle.low.specs.declared.field.Order.{Order}\n",
        "crates/high/specs/B.antt" => "use Rattle.low.specs.A.{a}\nuse Rattle.low.specs.A as low\n",
        "crates/top/specs/D.antt" => {
            "use Rattle.low.specs.A.{a}\nuse Rattle.high.specs.B.{b}\nuse Rattle.low.specs.E.{e}\n"
        }
        _ => "",
    }
    .to_string()
}

/// The faults of the first list of a page.
fn of_first(page: &str) -> Vec<String> {
    faults(&[], &listed_in(parts(page)[0]), &[], text_of)
}

/// Those of its second list, where these files need not be read.
fn of_second(page: &str, unread: &[&str]) -> Vec<String> {
    faults(&listed_in(parts(page)[0]), &listed_in(parts(page)[1]), unread, text_of)
}

#[test]
fn a_list_is_read() {
    assert_eq!(parts(PAGE).into_iter().map(lines_said).collect::<Vec<_>>(), [Some(1003), Some(3)]);
    assert_eq!(of_first(PAGE), [""; 0]);
    assert_eq!(of_second(PAGE, &["crates/low/specs/E.antt"]), [""; 0]);
    assert_eq!(used_by("use Rattle.low.specs.Inner.C.{c}").as_deref(), Some("crates/low/specs/Inner/C.antt"));
    assert_eq!(used_by("use Rattle.std.specs.Prelude.{length}"), None);
    assert_eq!(used_by("use Rattle.low.specs.contracts.reader.next as next"), None);
}

#[test]
fn a_file_that_is_missing_or_stands_too_late_is_found() {
    let without = PAGE.replace("| 1 | `crates/low/specs/A.antt` | a | 1 |\n", "");
    let said = "crates/high/specs/B.antt uses crates/low/specs/A.antt, which does not stand above it";
    assert_eq!(of_first(&without), [said, said]);
    let turned =
        PAGE.replace("A.antt", "C.antt").replace("high/specs/B", "low/specs/A").replace("low/specs/C", "high/specs/B");
    assert_eq!(of_first(&turned).len(), 4);
}

#[test]
fn a_file_that_is_missing_on_both_lists_is_found() {
    let said = |file| format!("crates/top/specs/D.antt uses {file}, which does not stand above it");
    assert_eq!(of_second(PAGE, &[]), [said("crates/low/specs/E.antt")]);
    let without = PAGE.replace("| 2 | `crates/high/specs/B.antt` | b | 2 |\n", "");
    assert_eq!(of_second(&without, &["crates/low/specs/E.antt"]), [said("crates/high/specs/B.antt")]);
}

#[test]
fn another_number_of_lines_is_found() {
    let other = PAGE.replace("| b | 2 |", "| b | 3 |").replace("| d | 3 |", "| d | 2 |");
    assert_eq!(of_first(&other), ["crates/high/specs/B.antt has 2 lines"]);
    assert_eq!(of_second(&other, &["crates/low/specs/E.antt"]), ["crates/top/specs/D.antt has 3 lines"]);
}

#[test]
#[should_panic(expected = "left: Some(3)")]
fn another_sum_of_lines_is_found() {
    hold(&parts(PAGE)[1].replace("| d | 3 |", "| d | 2 |"), &[]);
}

#[test]
#[should_panic(expected = "crates/promises/specs/Demand9.antt is not on the list")]
fn a_promise_that_is_not_on_the_list_is_found() {
    hold(parts(PAGE)[1], &["Demand9"]);
}
