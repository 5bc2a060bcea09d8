//! The pages cite definitions and theorems by name and file. Each name must be declared in the file that is cited with it, and
//! a theorem of the crate `promises` in no other file, so that a search for its name finds one statement.
//!
//! docs/SPECIFICATION.md has numbered rules, and every number that a call gives at the one rule under which it is given. Its
//! table of numbers, its rules, docs/REFUSALS.md and the stored cases must agree, and a rule that is cited must be there.
//!
//! Every link of a page leads to a file or a folder of the repository, and to a heading where it names one. A name or a path
//! that docs/DECISIONS.md or docs/ARCHITECTURE.md has in backquotes is somewhere in the repository. The map of the crates,
//! in docs/ARCHITECTURE.md a picture and a table, is that of crates.txt.

use std::collections::{BTreeMap, BTreeSet};
use std::fs;
use std::path::Path;
use suntimpani_tests::cases::{self, S};
use suntimpani_tests::reader::function_at;
use suntimpani_tests::{in_repository, large};

// ---- names and files

/// A name and the file that a page cites it with.
#[derive(Debug, PartialEq)]
struct Cited {
    name: String,
    file: String,
}

/// The words of a text that stand in backquotes, each with what stands between it and the one before.
fn quoted(text: &str) -> Vec<(&str, &str)> {
    let mut parts = text.split('`');
    let mut words = Vec::new();
    while let (Some(between), Some(word)) = (parts.next(), parts.next()) {
        words.push((between, word));
    }
    words
}

fn is_file(word: &str) -> bool {
    word.starts_with("crates/") && word.ends_with(".antt")
}

/// A name of antt: no path, no command, and no placeholder in capitals.
fn is_name(word: &str) -> bool {
    let first = word.split(['-', '_']).next();
    let placeholder = first.is_some_and(|first| first.len() > 1 && first == first.to_uppercase());
    !placeholder
        && word.chars().all(|c| c.is_alphanumeric() || "-_".contains(c))
        && word.chars().any(char::is_alphabetic)
}

/// "`a`, `b` in `file`", "`a` of `file`" and "`a` and `b` (`file`)": every name since the last file, or since the sentence
/// began, goes with the next file.
fn cited_before_files(text: &str) -> Vec<Cited> {
    let mut cited = Vec::new();
    let mut waiting: Vec<String> = Vec::new();
    for (between, word) in quoted(text) {
        if between.contains(". ") || between.contains(": ") && !is_file(word) {
            waiting.clear();
        }
        if is_file(word) && [" in ", " of ", " ("].iter().any(|joins| between.ends_with(joins)) {
            cited.extend(waiting.drain(..).map(|name| Cited { name, file: word.to_string() }));
        } else if is_name(word) {
            waiting.push(word.to_string());
        }
    }
    cited
}

/// The citations of one line of a page: those before their files and, in a row of a table that ends with a theorem and its
/// file, those of the theorem.
fn cited_in(line: &str) -> Vec<Cited> {
    let cells: Vec<&str> = line.split('|').map(str::trim).collect();
    let mut cited: Vec<Cited> = cells.iter().flat_map(|cell| cited_before_files(cell)).collect();
    if cells.len() >= 4 {
        let (theorems, file) = (cells[cells.len() - 3], cells[cells.len() - 2]);
        if let Some((_, file)) = quoted(file).into_iter().find(|(_, word)| is_file(word)) {
            let names = quoted(theorems).into_iter().map(|(_, word)| word).filter(|word| is_name(word));
            cited.extend(names.map(|name| Cited { name: name.to_string(), file: file.to_string() }));
        }
    }
    cited
}

/// Whether a text of antt declares a name: a signature, a record, a data type or a field. A name with a parenthesis behind
/// it that no mark stands before, and no colon behind, is a call that begins its line.
fn declares(text: &str, name: &str) -> bool {
    text.lines().any(|line| {
        let marks = ["unfoldable", "abbrev", "pub", "record", "data"];
        let is_marked = line.split_whitespace().next().is_some_and(|first| marks.contains(&first));
        let mut words = line.split_whitespace().skip_while(|word| marks.contains(word));
        let is_declared = |next: &str| next == ":" || next.starts_with('(') && (is_marked || line.contains(" : "));
        words.next() == Some(name) && words.next().is_some_and(is_declared)
    })
}

/// Every file under a folder whose name ends so, by its path below the repository.
fn files_below(folder: &Path, below: &str, ending: &str, found: &mut Vec<(String, String)>) {
    for entry in fs::read_dir(folder).expect("a folder of the repository") {
        let path = entry.expect("an entry").path();
        let name = format!("{below}/{}", path.file_name().expect("a name").to_string_lossy());
        if path.is_dir() {
            // What the toolchain keeps of a crate is no part of it.
            if !name.ends_with("/out") {
                files_below(&path, &name, ending, found);
            }
        } else if name.ends_with(ending) {
            found.push((name, fs::read_to_string(&path).expect("a text")));
        }
    }
}

fn files_of(folder: &str, ending: &str) -> Vec<(String, String)> {
    let mut found = Vec::new();
    files_below(&in_repository(folder), folder, ending, &mut found);
    found
}

fn page(path: &str) -> String {
    fs::read_to_string(in_repository(path)).unwrap_or_else(|error| panic!("{path}: {error}"))
}

/// What is wrong with a citation, given every file.
fn fault(cited: &Cited, files: &[(String, String)]) -> Option<String> {
    let Some((_, text)) = files.iter().find(|(file, _)| *file == cited.file) else {
        return Some(format!("{} is cited, and is no file", cited.file));
    };
    if !declares(text, &cited.name) {
        return Some(format!("{} does not declare {}", cited.file, cited.name));
    }
    let is_theorem = |file: &str| file.contains("/proofs/");
    let again =
        |(file, text): &&(String, String)| *file != cited.file && is_theorem(file) && declares(text, &cited.name);
    if cited.file.starts_with("crates/promises/proofs/") {
        return files.iter().find(again).map(|(file, _)| format!("{} is declared in {file} too", cited.name));
    }
    None
}

#[test]
fn what_the_pages_cite_is_there() {
    let files = files_of("crates", ".antt");
    let mut faults = Vec::new();
    let mut count = 0;
    for path in ["docs/PROMISES.md", "docs/REFUSALS.md", "docs/SPECIFICATION.md"] {
        let cited: Vec<Cited> = page(path).lines().flat_map(cited_in).collect();
        count += cited.len();
        faults.extend(cited.iter().filter_map(|cited| fault(cited, &files)).map(|said| format!("{path}: {said}")));
        assert!(!cited.is_empty(), "{path}: no citation was seen");
    }
    assert!(faults.is_empty(), "{}", faults.join("\n"));
    assert!(count >= 100, "only {count} citations were seen: is the form of the tables still read?");
}

#[test]
fn every_theorem_of_promises_is_stated_once() {
    let files = files_of("crates", ".antt");
    let stated = |(file, text): &(String, String)| -> Vec<Cited> {
        let public = text.lines().filter_map(|line| line.trim_start().strip_prefix("pub "));
        let names = public
            .filter_map(|rest| rest.split_whitespace().find(|word| !["record", "data"].contains(word)))
            .filter(|name| *name != "use" && *name != "mod");
        names.map(|name| Cited { name: name.to_string(), file: file.clone() }).collect()
    };
    let theorems: Vec<Cited> =
        files.iter().filter(|(file, _)| file.starts_with("crates/promises/proofs/")).flat_map(stated).collect();
    let faults: Vec<String> = theorems.iter().filter_map(|theorem| fault(theorem, &files)).collect();
    assert!(theorems.len() >= 100 && faults.is_empty(), "{} theorems\n{}", theorems.len(), faults.join("\n"));
}

fn some_files() -> Vec<(String, String)> {
    let file = |name: &str, text: &str| (name.to_string(), text.to_string());
    vec![
        file("crates/promises/proofs/A.antt", "pub kept : Promised\nkept = refl\n  pub of_module : T\n"),
        file("crates/trace/proofs/B.antt", "pub of_module : T\npub other : T\n"),
        file(
            "crates/trace/specs/C.antt",
            "pub record Left (t : T) : Type 0 where\n  pub field : T\nabbrev pub Short : Type 0\n",
        ),
    ]
}

fn said_of(line: &str) -> Vec<String> {
    cited_in(line).iter().filter_map(|cited| fault(cited, &some_files())).collect()
}

#[test]
fn a_citation_in_a_table_is_read() {
    let line = "| \"a sentence\" | `Left`, `Short` in `crates/trace/specs/C.antt` | `kept` | `crates/promises/proofs/A.antt` |";
    assert_eq!(cited_in(line).len(), 3);
    assert_eq!(said_of(line), Vec::<String>::new());
}

#[test]
fn a_citation_in_a_sentence_is_read() {
    let line = "It is refused: `other` and `of_module` (`crates/trace/proofs/B.antt`), and `field` in `crates/trace/specs/C.antt`.";
    assert_eq!(cited_in(line).len(), 3);
    assert_eq!(said_of(line), Vec::<String>::new());
}

#[test]
fn a_name_that_is_not_there_is_found() {
    let line = "| x | `Left`, `Gone` in `crates/trace/specs/C.antt` | `missing` | `crates/promises/proofs/A.antt` |";
    assert_eq!(said_of(line).len(), 2);
    assert_eq!(said_of("`Left` in `crates/trace/specs/D.antt`").len(), 1);
}

#[test]
fn a_theorem_of_promises_that_is_stated_twice_is_found() {
    assert_eq!(said_of("| x | | `of_module` | `crates/promises/proofs/A.antt` |").len(), 1);
    assert_eq!(said_of("| x | | `of_module` | `crates/trace/proofs/B.antt` |").len(), 0);
}

#[test]
fn a_placeholder_is_no_name() {
    assert!(!is_name("FUNCTION_determined") && is_name("trace_determined") && is_name("Rule15") && is_name("d"));
}

// ---- rules and numbers

/// What stands in bold on a page of numbered rules: the rules, each with the number of the section it stands in, and the
/// numbers that calls give, each with the rule it stands at.
#[derive(Default)]
struct Bold {
    rules: Vec<(u64, String)>,
    numbers: Vec<(u64, String)>,
}

/// A row of the table of numbers: the calls that give a number, and its rule.
struct Row {
    number: u64,
    calls: String,
    rule: String,
}

/// The number in the heading of a section, as "## 3 Checks of a section"; other headings have none, and count as 0.
fn section_of(heading: &str) -> u64 {
    heading.trim_start_matches('#').split_whitespace().next().and_then(|word| word.parse().ok()).unwrap_or(0)
}

/// The lines of a page, each with the section that it stands in.
fn in_sections(page: &str) -> impl Iterator<Item = (u64, &str)> {
    page.lines().scan(0, |section, line| {
        if line.starts_with("## ") {
            *section = section_of(line);
        }
        Some((*section, line))
    })
}

/// The place of a rule, as "3.2".
fn is_place(word: &str) -> bool {
    let is_number = |part: &str| !part.is_empty() && part.bytes().all(|sign| sign.is_ascii_digit());
    word.split_once('.').is_some_and(|(section, rule)| is_number(section) && is_number(rule))
}

fn bold_of(page: &str) -> Bold {
    let mut bold = Bold::default();
    for (section, line) in in_sections(page) {
        for word in line.split("**").skip(1).step_by(2) {
            if is_place(word) {
                bold.rules.push((section, word.to_string()));
            } else if let Ok(number) = word.parse() {
                let rule = bold.rules.last().map_or("no rule", |(_, rule)| rule);
                bold.numbers.push((number, rule.to_string()));
            }
        }
    }
    bold
}

fn cells(line: &str) -> Vec<&str> {
    line.strip_prefix('|').map_or(Vec::new(), |rest| rest.split('|').map(str::trim).collect())
}

/// The table of numbers, which is section 8.
fn table_of(page: &str) -> Vec<Row> {
    let rows = in_sections(page).filter(|(section, _)| *section == 8).map(|(_, line)| cells(line));
    let row = |cells: Vec<&str>| match cells[..] {
        [number, _, calls, rule, ..] => {
            number.parse().ok().map(|number| Row { number, calls: calls.to_string(), rule: rule.to_string() })
        }
        _ => None,
    };
    rows.filter_map(row).collect()
}

/// The numbers that have a row of their own in a page's tables. A row for several, "21 to 28", is about rows that are there.
fn numbers_of_rows(page: &str) -> Vec<u64> {
    page.lines().filter_map(|line| cells(line).first()?.parse().ok()).collect()
}

fn twice(numbers: &[u64], of: &str) -> Vec<String> {
    let again =
        |(at, number): (usize, &u64)| numbers[..at].contains(number).then(|| format!("{number}: twice in {of}"));
    numbers.iter().enumerate().filter_map(again).collect()
}

/// Where the table of numbers, the rules of sections 3 to 6 and the tables of REFUSALS differ.
fn number_faults(specification: &str, refusals: &str) -> Vec<String> {
    let (table, given) = (table_of(specification), bold_of(specification).numbers);
    let (listed, refused) = (table.iter().map(|row| row.number).collect::<Vec<_>>(), numbers_of_rows(refusals));
    let mut faults = [twice(&listed, "the table"), twice(&refused, "REFUSALS")].concat();
    for Row { number, rule, .. } in &table {
        let at: Vec<&str> = given.iter().filter(|(other, _)| other == number).map(|(_, at)| at.as_str()).collect();
        if at != rule.split(", ").collect::<Vec<_>>() {
            faults.push(format!("{number}: the table says {rule}, and it stands at [{}]", at.join(", ")));
        }
        if !refused.contains(number) {
            faults.push(format!("{number}: not in REFUSALS"));
        }
    }
    let unlisted = given.iter().map(|(number, _)| number).chain(&refused).filter(|number| !listed.contains(number));
    faults.extend(unlisted.collect::<BTreeSet<_>>().into_iter().map(|number| format!("{number}: not in the table")));
    let elsewhere =
        given.iter().filter(|(_, rule)| !["3.", "4.", "5.", "6."].iter().any(|begin| rule.starts_with(begin)));
    faults.extend(elsewhere.map(|(number, rule)| format!("{number}: stands at {rule}, outside sections 3 to 6")));
    faults
}

/// Rules that are not numbered one after the other in their section.
fn order_faults(page: &str) -> Vec<String> {
    let mut faults = Vec::new();
    let mut before = (0, 0);
    for (section, rule) in bold_of(page).rules {
        before = (section, if section == before.0 { before.1 + 1 } else { 1 });
        if rule != format!("{}.{}", before.0, before.1) {
            faults.push(format!("{rule} stands where {}.{} would", before.0, before.1));
        }
    }
    faults
}

/// The places that a page of rules names anywhere.
fn places_named(page: &str) -> Vec<&str> {
    let words = page.split_whitespace().map(|word| word.trim_matches(|sign: char| !sign.is_ascii_digit()));
    words.filter(|word| is_place(word)).collect()
}

/// The places that a text cites of the specification: "SPECIFICATION 3.2", "[SPECIFICATION](SPECIFICATION.md) 3.2 and 4.1".
fn places_cited(text: &str) -> Vec<&str> {
    let listed = |rest| {
        let rest = str::trim_start_matches(rest, ".md").trim_start_matches(['`', ')']);
        let words = rest.split_whitespace().map(|word| word.trim_end_matches(['.', ',', ';', ':', ')', '"']));
        words.take_while(|word| is_place(word) || ["and", "to"].contains(word)).filter(|word| is_place(word))
    };
    text.split("SPECIFICATION").skip(1).flat_map(listed).collect()
}

fn missing_places(cited: &[&str], specification: &str) -> Vec<String> {
    let rules = bold_of(specification).rules;
    let missing = cited.iter().filter(|place| !rules.iter().any(|(_, rule)| rule == *place));
    missing.map(|place| format!("there is no {place}")).collect()
}

/// Which calls give each number, in the stored cases and in a section that is too long to be stored.
fn givers() -> BTreeMap<u64, BTreeSet<&'static str>> {
    let mut givers = BTreeMap::<u64, BTreeSet<&str>>::new();
    let mut gives = |call, number| givers.entry(number).or_default().insert(call);
    for case in cases::all().iter().chain([&large::at_the_limit(1)]) {
        gives("check", case.expected.number());
        gives("function", function_at(&case.section, 0).number);
        for asked in &case.questions {
            gives("lookup", asked.expected.refusal());
            gives("ask", case.asked_of(asked).refusal());
        }
        for (_, walked) in &case.walks {
            gives("step", walked.step.number());
            gives("trace", walked.traced.ending.number());
        }
    }
    // 0 is no number of a refusal or an ending.
    givers.remove(&0);
    givers
}

#[test]
fn every_number_has_a_rule_a_line_of_the_table_and_a_line_of_refusals() {
    let (specification, refusals) = (page("docs/SPECIFICATION.md"), page("docs/REFUSALS.md"));
    assert_eq!(number_faults(&specification, &refusals), [""; 0]);
    assert!(table_of(&specification).len() >= 28, "is the form of the table still read?");
}

#[test]
fn the_calls_that_give_a_number_are_those_of_the_table() {
    let by_table = table_of(&page("docs/SPECIFICATION.md")).into_iter().map(|row| (row.number, row.calls));
    let join = |calls: BTreeSet<&str>| calls.into_iter().collect::<Vec<_>>().join(", ");
    let by_cases = givers().into_iter().map(|(number, calls)| (number, join(calls)));
    assert_eq!(by_table.collect::<BTreeMap<_, _>>(), by_cases.collect());
}

#[test]
fn the_rules_are_numbered_and_those_that_are_cited_are_there() {
    let specification = page("docs/SPECIFICATION.md");
    let mut faults = order_faults(&specification);
    faults.extend(missing_places(&places_named(&specification), &specification));
    let mut texts: Vec<(String, String)> = [("crates", ".antt"), ("crates", ".rt"), ("docs", ".md"), ("include", ".h")]
        .into_iter()
        .flat_map(|(folder, ending)| files_of(folder, ending))
        .collect();
    texts.extend(["README.md", "CHANGELOG.md"].map(|path| (path.to_string(), page(path))));
    let cited: Vec<&str> = texts.iter().flat_map(|(_, text)| places_cited(text)).collect();
    faults.extend(missing_places(&cited, &specification));
    assert_eq!(faults, [""; 0]);
    assert!(cited.len() >= 3, "is the form of a citation still read?");
}

#[test]
fn section_s_of_the_page_is_that_of_the_cases() {
    let page = page("docs/SPECIFICATION.md");
    let shown =
        in_sections(&page).filter(|(section, _)| *section == 7).filter_map(|(_, line)| line.strip_prefix("    "));
    let bytes = shown.flat_map(str::split_whitespace).map(|byte| u8::from_str_radix(byte, 16).expect("a byte"));
    assert_eq!(bytes.collect::<Vec<_>>(), S);
}

/// A small page of rules, and the tables that go with it.
const RULES: &str = "
A whole number in bold is one that a call gives.

## 3 Checks

| Place | No. | Given exactly when |
|---|---|---|
| **3.1** | **1** | it is short |
| **3.2** | **2** | it is long |

**3.3** Check 1 is tried before 2, with **all** that follows 3.1.

## 4 Finding

**4.1** Where one covers, o is 3. **21**: none does (3.1).

## 8 Table of numbers

| No. | In short | Given by | Rule |
|---|---|---|---|
| 1 | short | check, lookup | 3.1 |
| 2 | long | check, lookup | 3.2 |
| 21 | none | lookup | 4.1 |
";
const REFUSED: &str = "
| No. | Given exactly when |
|---|---|
| 1 | it is short |
| 2 | it is long |

| No. | Given exactly when |
|---|---|
| 21 | none covers |
| 21 to 28 | the step is refused |
";

/// What is wrong with the numbers after a change of a part of these texts.
fn number_faults_after(part: &str, other: &str) -> Vec<String> {
    assert!([RULES, REFUSED].iter().any(|text| text.contains(part)), "{part} is in neither text");
    number_faults(&RULES.replace(part, other), &REFUSED.replace(part, other))
}

#[test]
fn a_page_of_rules_is_read() {
    let Bold { rules, numbers } = bold_of(RULES);
    assert_eq!(rules.iter().map(|(_, rule)| rule.as_str()).collect::<Vec<_>>(), ["3.1", "3.2", "3.3", "4.1"]);
    assert_eq!(numbers.iter().map(|(number, _)| *number).collect::<Vec<_>>(), [1, 2, 21]);
    assert_eq!(
        table_of(RULES).iter().map(|row| row.calls.as_str()).collect::<Vec<_>>()[1..],
        ["check, lookup", "lookup"]
    );
    assert_eq!(number_faults_after("it is short", "it has no byte"), [""; 0]);
    assert_eq!(order_faults(RULES), [""; 0]);
    assert_eq!(missing_places(&places_named(RULES), RULES), [""; 0]);
}

#[test]
fn a_number_that_one_of_the_three_lacks_is_found() {
    let unlisted = ["2: not in the table"];
    assert_eq!(number_faults_after("| 2 | long | check, lookup | 3.2 |\n", ""), unlisted);
    assert_eq!(number_faults_after("| 2 | it is long |\n", ""), ["2: not in REFUSALS"]);
    let unruled = ["21: the table says 4.1, and it stands at []"];
    assert_eq!(number_faults_after("**21**: none does", "None does"), unruled);
    let added = ["22: not in the table"];
    assert_eq!(number_faults_after("| 21 | none covers |\n", "| 21 | none covers |\n| 22 | two do |\n"), added);
    assert_eq!(number_faults_after("none does (3.1).", "none does. **22**: two do."), added);
    let row = "| 22 | two | lookup | 4.1 |\n";
    let alone = ["22: the table says 4.1, and it stands at []", "22: not in REFUSALS"];
    assert_eq!(
        number_faults_after("| 21 | none | lookup | 4.1 |\n", &format!("| 21 | none | lookup | 4.1 |\n{row}")),
        alone
    );
}

#[test]
fn a_number_that_stands_twice_or_elsewhere_is_found() {
    let moved = ["21: the table says 4.2, and it stands at [4.1]"];
    assert_eq!(number_faults_after("| 21 | none | lookup | 4.1 |", "| 21 | none | lookup | 4.2 |"), moved);
    let twice = ["1: the table says 3.1, and it stands at [3.1, 4.1]"];
    assert_eq!(number_faults_after("o is 3.", "o is 3. **1**: it is short."), twice);
    let repeated = "| 2 | it is long |\n";
    assert_eq!(number_faults_after(repeated, &repeated.repeat(2)), ["2: twice in REFUSALS"]);
    let repeated = "| 2 | long | check, lookup | 3.2 |\n";
    assert_eq!(number_faults_after(repeated, &repeated.repeat(2)), ["2: twice in the table"]);
    let early =
        ["1: the table says 3.1, and it stands at [no rule, 3.1]", "1: stands at no rule, outside sections 3 to 6"];
    assert_eq!(number_faults_after("A whole number", "**1** or another whole number"), early);
}

#[test]
fn a_rule_out_of_its_order_is_found() {
    assert_eq!(order_faults(&RULES.replace("**3.3**", "**3.4**")), ["3.4 stands where 3.3 would"]);
    assert_eq!(order_faults(&RULES.replace("**4.1**", "**3.4**")), ["3.4 stands where 4.1 would"]);
    assert_eq!(order_faults(&RULES.replace("**3.2**", "3.2")), ["3.3 stands where 3.2 would"]);
}

#[test]
fn a_rule_that_is_cited_and_is_not_there_is_found() {
    assert_eq!(missing_places(&places_named(&RULES.replace("(3.1)", "(3.9)")), RULES), ["there is no 3.9"]);
    let cited = "[SPECIFICATION](SPECIFICATION.md) 3.1, 3.3 and 4.2. Then 9.9; SPECIFICATION 3.2 to 3.5).";
    assert_eq!(places_cited(cited), ["3.1", "3.3", "4.2", "3.2", "3.5"]);
    assert_eq!(missing_places(&places_cited(cited), RULES), ["there is no 4.2", "there is no 3.5"]);
    assert_eq!(
        places_cited("[`docs/SPECIFICATION.md`](docs/SPECIFICATION.md) 4.1 says so, GNU ld 2.44 does not"),
        ["4.1"]
    );
}

// ---- links

/// What pages speak of: every path of the repository, and the text of every page by its path.
struct Repository {
    paths: BTreeSet<String>,
    pages: BTreeMap<String, String>,
}

/// Folders of the repository that git does not keep.
const NOT_KEPT: [&str; 3] = [".git", "target", "out"];

/// Every path below a folder, files and folders; that of the repository itself is empty.
fn paths_below(below: &str, found: &mut BTreeSet<String>) {
    for entry in fs::read_dir(in_repository(below)).expect("a folder of the repository") {
        let entry = entry.expect("an entry");
        let name = entry.file_name().into_string().expect("a name");
        if NOT_KEPT.contains(&name.as_str()) {
            continue;
        }
        let path = if below.is_empty() { name } else { format!("{below}/{name}") };
        if entry.path().is_dir() {
            paths_below(&path, found);
        }
        found.insert(path);
    }
}

fn whole_repository() -> Repository {
    let mut paths = BTreeSet::from([String::new()]);
    paths_below("", &mut paths);
    let pages = paths.iter().filter(|path| path.ends_with(".md")).map(|path| (path.clone(), page(path))).collect();
    Repository { paths, pages }
}

/// The lines of a page that do not stand in a fenced block.
fn unfenced(page: &str) -> impl Iterator<Item = &str> {
    let lines = page.lines().scan(false, |fenced, line| {
        let is_fence = line.trim_start().starts_with("```");
        *fenced ^= is_fence;
        Some((!*fenced && !is_fence).then_some(line))
    });
    lines.flatten()
}

/// A line without what stands in backquotes. One that has no other to go with it is a sign like any other.
fn outside_code(line: &str) -> String {
    let parts: Vec<&str> = line.split('`').collect();
    let is_text = |at: usize| at.is_multiple_of(2) || at + 1 == parts.len();
    parts.iter().enumerate().filter(|(at, _)| is_text(*at)).map(|(_, part)| *part).collect()
}

/// Where the links of a page lead, as they are written. What stands in backquotes is no link, but may be a link's text.
fn links_of(page: &str) -> Vec<String> {
    let links = |line: String| -> Vec<String> {
        let behind = line.split("](").skip(1).filter_map(|rest| rest.split_once(')'));
        behind.map(|(link, _)| link.to_string()).collect()
    };
    unfenced(page).map(outside_code).flat_map(links).collect()
}

/// The anchors of a page's headings, by GitHub's rule: in lower case, without punctuation, blanks as hyphens; one that is
/// there already gets a number behind it.
fn anchors_of(page: &str) -> BTreeSet<String> {
    let mut anchors = BTreeSet::new();
    let titles = unfenced(page).filter(|line| line.starts_with('#')).map(|line| line.trim_start_matches('#'));
    for title in titles.filter_map(|title| title.strip_prefix(' ')) {
        let kept = title.trim().chars().filter(|&sign| sign.is_alphanumeric() || [' ', '-', '_'].contains(&sign));
        let plain = kept.collect::<String>().to_lowercase().replace(' ', "-");
        let numbered = (1..).map(|number| format!("{plain}-{number}"));
        let free = std::iter::once(plain.clone()).chain(numbered).find(|anchor| !anchors.contains(anchor));
        anchors.extend(free);
    }
    anchors
}

/// The path that a link leads to from a page, or nothing where it leaves the repository.
fn led_to(from: &str, path: &str) -> Option<String> {
    if path.is_empty() {
        return Some(from.to_string());
    }
    let mut parts: Vec<&str> = from.split('/').collect();
    parts.pop();
    for part in path.split('/') {
        match part {
            "" | "." => {}
            ".." => {
                parts.pop()?;
            }
            part => parts.push(part),
        }
    }
    Some(parts.join("/"))
}

/// What is wrong with a link of a page.
fn link_fault(from: &str, link: &str, repository: &Repository) -> Option<String> {
    if link.contains("://") || link.starts_with("mailto:") {
        return None;
    }
    let (path, anchor) = link.split_once('#').map_or((link, None), |(path, anchor)| (path, Some(anchor)));
    let Some(path) = led_to(from, path) else {
        return Some(format!("{from}: {link} leads out of the repository"));
    };
    if !repository.paths.contains(&path) {
        return Some(format!("{from}: {link} leads to {path}, which is not there"));
    }
    let anchor = anchor?;
    match repository.pages.get(&path) {
        None => Some(format!("{from}: {link} names a heading, and {path} is no page")),
        Some(page) if anchors_of(page).contains(anchor) => None,
        Some(_) => Some(format!("{from}: {path} has no heading #{anchor}")),
    }
}

fn link_faults(repository: &Repository) -> Vec<String> {
    let of_page = |(from, page): (&String, &String)| -> Vec<String> {
        links_of(page).iter().filter_map(|link| link_fault(from, link, repository)).collect()
    };
    repository.pages.iter().flat_map(of_page).collect()
}

#[test]
fn every_link_leads_to_what_is_there() {
    let repository = whole_repository();
    assert_eq!(link_faults(&repository), [""; 0]);
    let links = repository.pages.values().map(|page| links_of(page).len()).sum::<usize>();
    assert!(repository.pages.len() >= 25 && links >= 100, "is the form of a link still read?");
}

#[test]
fn readme_links_to_every_page_of_docs() {
    let readme = links_of(&page("README.md"));
    let pages = whole_repository().pages.into_keys().filter(|path| path.starts_with("docs/"));
    let unlinked = |path: &String| !path.starts_with("docs/landings/") && !readme.contains(path);
    assert_eq!(pages.filter(unlinked).collect::<Vec<_>>(), [""; 0]);
    assert!(readme.contains(&"docs/landings".to_string()));
}

/// A small repository of two pages, a folder and a file.
fn small_repository() -> Repository {
    let first = "# A page\n\n[`code`](docs/second.md), [here](#a-page), [there](docs/second.md#more-of-it) and [a file](src/lib.rt).\n";
    let second = "# Second\n\n## More of it\n\n[back](../first.md#a-page), [a folder](../src/) and [all](..); \
                  [elsewhere](https://example.org/first.md#nothing).\n\n```text\n# No heading [x](no_link)\n```\n\n`[y](no_link)`\n";
    let pages = [("first.md", first), ("docs/second.md", second)];
    let paths = ["", "docs", "docs/second.md", "first.md", "src", "src/lib.rt"];
    Repository {
        paths: paths.map(str::to_string).into(),
        pages: pages.map(|(path, text)| (path.to_string(), text.to_string())).into(),
    }
}

/// What is wrong with its links after a change of a part of a page.
fn link_faults_after(path: &str, part: &str, other: &str) -> Vec<String> {
    let mut repository = small_repository();
    let page = repository.pages.get_mut(path).expect("a page");
    assert!(page.contains(part), "{part} is not in {path}");
    *page = page.replace(part, other);
    link_faults(&repository)
}

#[test]
fn a_link_is_read() {
    let repository = small_repository();
    assert_eq!(links_of(&repository.pages["first.md"]).len(), 4);
    assert_eq!(links_of(&repository.pages["docs/second.md"]).len(), 4);
    assert_eq!(links_of("`a` [b](c), a sign ` alone, [`d`](e) and [f](g)"), ["c", "e", "g"]);
    assert_eq!(link_faults(&repository), [""; 0]);
}

#[test]
fn a_link_to_nothing_is_found() {
    let gone = ["first.md: docs/third.md leads to docs/third.md, which is not there"];
    assert_eq!(link_faults_after("first.md", "(docs/second.md)", "(docs/third.md)"), gone);
    let gone = ["docs/second.md: first.md#a-page leads to docs/first.md, which is not there"];
    assert_eq!(link_faults_after("docs/second.md", "(../first.md#", "(first.md#"), gone);
    let out = ["docs/second.md: ../../src/ leads out of the repository"];
    assert_eq!(link_faults_after("docs/second.md", "(../src/)", "(../../src/)"), out);
}

#[test]
fn an_anchor_without_a_heading_is_found() {
    let lost = ["first.md: docs/second.md has no heading #more-of-it"];
    assert_eq!(link_faults_after("docs/second.md", "## More of it", "## Less of it"), lost);
    assert_eq!(link_faults_after("docs/second.md", "## More of it", "## More of it?"), [""; 0]);
    let cased = ["first.md: first.md has no heading #A-page"];
    assert_eq!(link_faults_after("first.md", "(#a-page)", "(#A-page)"), cased);
    let fenced = ["first.md: docs/second.md has no heading #no-heading-xno_link"];
    assert_eq!(link_faults_after("first.md", "#more-of-it", "#no-heading-xno_link"), fenced);
    let no_page = ["first.md: src/lib.rt#top names a heading, and src/lib.rt is no page"];
    assert_eq!(link_faults_after("first.md", "(src/lib.rt)", "(src/lib.rt#top)"), no_page);
}

#[test]
fn anchors_are_those_of_github() {
    let page =
        "# What `sframe why` prints\n## 0.5.1, 2026-11-17\n### The insurer's five questions\n## Twice\n### Twice\n\
                #No heading\n    # No heading either\n## 27 beside 28: a_b - c\n";
    let anchors = [
        "051-2026-11-17",
        "27-beside-28-a_b---c",
        "the-insurers-five-questions",
        "twice",
        "twice-1",
        "what-sframe-why-prints",
    ];
    assert_eq!(anchors_of(page), anchors.map(str::to_string).into());
}

// ---- names and paths in backquotes

/// Where the names of a page are looked for: the words of all sources, the names of files, and the stored cases.
struct Known {
    words: BTreeSet<String>,
    paths: BTreeSet<String>,
    cases: Vec<String>,
}

/// The endings of the files whose words are names.
const SOURCES: [&str; 7] = [".antt", ".rt", ".edit", ".rs", ".c", ".h", ".py"];

fn words_of(text: &str) -> impl Iterator<Item = &str> {
    text.split(|sign: char| !(sign.is_alphanumeric() || sign == '-' || sign == '_'))
}

fn all_known() -> Known {
    let paths = whole_repository().paths;
    let mut words = BTreeSet::new();
    // This file has made-up names, for its own tests.
    let is_source = |path: &str| SOURCES.iter().any(|ending| path.ends_with(ending)) && path != "tests/tests/pages.rs";
    for path in &paths {
        words.extend(words_of(path).map(str::to_string));
        if is_source(path) {
            words.extend(words_of(&page(path)).map(str::to_string));
        }
    }
    let cases = cases::all().iter().map(|case| case.name.clone()).collect();
    Known { words, paths, cases }
}

/// Whether a path is that of a pattern, in which "*" stands for any one part.
fn is_of(pattern: &str, path: &str) -> bool {
    let (pattern, path) = (pattern.split('/').collect::<Vec<_>>(), path.split('/').collect::<Vec<_>>());
    pattern.len() == path.len() && pattern.iter().zip(path).all(|(part, name)| *part == "*" || *part == name)
}

/// Whether something of the repository has this path: from its first folder on, or from that of a crate.
fn has_path(path: &str, known: &Known) -> bool {
    let path = path.trim_end_matches('/');
    let in_crate = format!("crates/*/{path}");
    known.paths.iter().any(|other| is_of(path, other) || is_of(&in_crate, other))
}

/// Whether a word in backquotes is somewhere. One that is no name, no case and no path, as a command, is not looked for.
fn is_known(word: &str, known: &Known) -> bool {
    let is_sign = |sign: char| sign.is_alphanumeric() || "-_./*:".contains(sign);
    if !word.chars().all(is_sign) || word.starts_with('-') || word.contains("..") {
        return true;
    }
    if word.starts_with("ok_") || word.starts_with(|sign: char| sign.is_ascii_digit()) {
        return match word.strip_suffix('*') {
            Some(begin) => known.cases.iter().any(|case| case.starts_with(begin)),
            None => known.cases.iter().any(|case| case == word),
        };
    }
    if word.contains('/') {
        return word.starts_with("target/") || has_path(word, known);
    }
    if word.contains('.') {
        return known.paths.iter().any(|path| path.rsplit('/').next() == Some(word));
    }
    word.split("::").all(|part| known.words.contains(part))
}

fn unknown_in(page: &str, known: &Known) -> Vec<String> {
    let in_backquotes = |line| quoted(line).into_iter().map(|(_, word)| word).collect::<Vec<_>>();
    let words = unfenced(page).flat_map(in_backquotes);
    words.filter(|word| !is_known(word, known)).map(|word| format!("{word} is nowhere")).collect()
}

#[test]
fn names_of_decisions_and_of_the_map_are_somewhere() {
    let known = all_known();
    for (path, least) in [("docs/DECISIONS.md", 500), ("docs/ARCHITECTURE.md", 150)] {
        let text = page(path);
        assert_eq!(unknown_in(&text, &known), [""; 0], "{path}");
        let seen = unfenced(&text).map(|line| quoted(line).len()).sum::<usize>();
        assert!(seen >= least, "{path}: only {seen} names were seen");
    }
}

#[test]
fn a_name_that_is_nowhere_is_found() {
    let known = Known {
        words: words_of("unfoldable pub callerSp : Registers\nhalving-finds-covering = refl Step Caller")
            .map(str::to_string)
            .collect(),
        paths: [
            "LICENSE",
            "crates/trace/specs/computed/Trace.antt",
            "crates/trace/specs/computed",
            "crates/ask/must-fail",
        ]
        .map(str::to_string)
        .into(),
        cases: ["ok_find_0_a", "14_size_0"].map(str::to_string).into(),
    };
    let there = "`callerSp`, `halving-finds-covering`, `Step::Caller`, `crates/trace/specs/computed`, `specs/computed/`, \
                 `crates/*/must-fail`, `Trace.antt`, `ok_find_0_*`, `14_size_0`, `make run`, `looked up: ..`, `-O2`, `target/bin`";
    assert_eq!(unknown_in(there, &known), [""; 0]);
    assert_eq!(unknown_in("```text\n`gone`\n```\n", &known), [""; 0]);
    let gone = ["callerSP", "halving", "Step::Other", "crates/trace/specs/Trace.antt", "specs/inner", "crates/*/src"];
    let more = ["Walk.antt", "ok_find_1_*", "14_size_1", "14_size", "bin/sframe"];
    for word in gone.into_iter().chain(more) {
        assert_eq!(unknown_in(&format!("It is so: `{word}`."), &known), [format!("{word} is nowhere")]);
    }
}

// ---- the map of the crates

/// What each crate knows.
type Knows = BTreeMap<String, BTreeSet<String>>;

/// The toolchain's own crates, which the picture leaves out.
const TOOLCHAIN: [&str; 1] = ["io"];

/// "NAME: the crates that it knows", all of them.
fn listed_of(text: &str) -> Knows {
    let lines = text.lines().filter(|line| !line.starts_with('#')).filter_map(|line| line.split_once(':'));
    // "NAME staticlib: ..", of a library for C.
    let lines = lines.map(|(name, known)| (name.trim_end_matches(" staticlib"), known));
    lines.map(|(name, known)| (name.to_string(), known.split_whitespace().map(str::to_string).collect())).collect()
}

/// What a crate knows directly, and what those know, and so on.
fn with_all(mut knows: Knows) -> Knows {
    loop {
        let before = knows.clone();
        for known in knows.values_mut() {
            let further: Vec<String> = known.iter().filter_map(|name| before.get(name)).flatten().cloned().collect();
            known.extend(further);
        }
        if knows == before {
            return knows;
        }
    }
}

/// The names of a line of the picture, each with its place.
fn placed(line: &str) -> Vec<(usize, &str)> {
    let mut next = 0;
    let words = line.split(' ').map(|word| {
        let place = next;
        next += word.len() + 1;
        (place, word)
    });
    words.filter(|(_, word)| word.starts_with(|sign: char| sign.is_ascii_alphabetic())).collect()
}

/// The picture: along its top the crates that join several; below, each crate right of the one that it hangs from, with an
/// "o" in the columns of those that know it.
fn drawn_of(page: &str) -> Knows {
    let picture = page.split("```text\n").nth(1).and_then(|rest| rest.split_once("```")).expect("a picture").0;
    let mut lines = picture.lines();
    let columns = placed(lines.next().expect("the top of the picture"));
    let mut knows: Knows = columns.iter().map(|(_, name)| (name.to_string(), BTreeSet::new())).collect();
    let mut above: Vec<(usize, &str)> = Vec::new();
    for line in lines {
        let Some(&(place, name)) = placed(line).first().filter(|(place, _)| *place < columns[0].0) else { continue };
        above.retain(|(other, _)| *other < place);
        let known = knows.entry(name.to_string()).or_default();
        known.extend(above.last().map(|(_, other)| other.to_string()));
        above.push((place, name));
        for (_, joining) in columns.iter().filter(|(column, _)| line.as_bytes().get(*column) == Some(&b'o')) {
            knows.entry(joining.to_string()).or_default().insert(name.to_string());
        }
    }
    knows
}

/// The table: "| `section` | what it is for | `numbers` |".
fn tabled_of(page: &str) -> Knows {
    let row = |line| match cells(line)[..] {
        [name, _, known, ""] if name.starts_with('`') => {
            let known = quoted(known).into_iter().map(|(_, word)| word.to_string()).collect();
            Some((name.trim_matches('`').to_string(), known))
        }
        _ => None,
    };
    page.lines().filter_map(row).collect()
}

/// Where the picture and the table of a page are not crates.txt.
fn map_faults(page: &str, listed: &str) -> Vec<String> {
    let listed = listed_of(listed);
    let mut ours = listed.clone();
    ours.values_mut().for_each(|known| known.retain(|name| !TOOLCHAIN.contains(&name.as_str())));
    let mut faults = Vec::new();
    for (what, said, listed) in [("picture", drawn_of(page), ours), ("table", tabled_of(page), listed)] {
        let said = with_all(said);
        let names: BTreeSet<&String> = said.keys().chain(listed.keys()).collect();
        let differs = names.into_iter().filter(|name| said.get(*name) != listed.get(*name));
        faults.extend(differs.map(|name| format!("{name}: the {what} knows {:?}", said.get(name))));
    }
    faults
}

#[test]
fn the_map_is_that_of_crates_txt() {
    let (page, listed) = (page("docs/ARCHITECTURE.md"), page("crates.txt"));
    assert_eq!(map_faults(&page, &listed), [""; 0]);
    assert!(listed_of(&listed).len() >= 21, "is crates.txt still read?");
}

const LISTED: &str =
    "# NAME: crates\nlow:\nmiddle: low\nhigh: low middle\nshown: low middle high io\nalone staticlib: low\n";
const MAP: &str = "
```text
             shown  alone
             |      |
low ---------|------o
|            |
+- middle    |
   |         |
   +- high --o
```

| Crate | What it is for | Knows |
|---|---|---|
| `low` | numbers | – |
| `middle` | sections | `low` |
| `high` | answers | `middle` |
| `shown` | a program | `high`, and the toolchain's `io` |
| `alone` | another | `low` |
";

fn map_faults_after(part: &str, other: &str) -> Vec<String> {
    assert!(MAP.contains(part), "{part} is not in the map");
    map_faults(&MAP.replace(part, other), LISTED)
}

#[test]
fn a_map_is_read() {
    assert_eq!(map_faults(MAP, LISTED), [""; 0]);
    assert_eq!(drawn_of(MAP)["shown"], BTreeSet::from(["high".to_string()]));
    assert_eq!(drawn_of(MAP)["high"], BTreeSet::from(["middle".to_string()]));
}

#[test]
fn another_map_is_found() {
    assert_eq!(map_faults_after("high --o", "high --|"), ["shown: the picture knows Some({})"]);
    let further = ["shown: the picture knows Some({\"low\", \"middle\"})"];
    assert_eq!(map_faults_after("   +- high --o", "   +- high   |").len(), 1);
    assert_eq!(map_faults_after("+- middle    |", "+- middle ---o").len(), 0);
    assert_eq!(
        map_faults_after("+- middle    |\n   |         |\n   +- high --o", "+- middle ---o\n   |\n   +- high"),
        further
    );
    let hangs = map_faults_after("   +- high --o", "+- high -----o");
    assert_eq!(
        hangs,
        ["high: the picture knows Some({\"low\"})", "shown: the picture knows Some({\"high\", \"low\"})"]
    );
    let unlisted = map_faults(MAP, &LISTED.replace("alone staticlib: low\n", ""));
    assert_eq!(unlisted.len(), 2);
    assert_eq!(map_faults_after("| `alone` | another | `low` |\n", ""), ["alone: the table knows None"]);
    let fewer = ["shown: the table knows Some({\"high\", \"low\", \"middle\"})"];
    assert_eq!(map_faults_after("`high`, and the toolchain's `io`", "`high`"), fewer);
}
