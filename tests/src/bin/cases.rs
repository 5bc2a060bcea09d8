//! Makes what is stored of the independent reader: the cases of the programs `replay` and `reasons` with what they must
//! print of them, and the pages of `sframe why`.
//!
//!     cases write   writes every file
//!     cases test    fails where a stored file is not byte for byte what would be written

use std::fs;
use std::process::ExitCode;
use suntimpani_tests::cases::{self, Case, Question, Why};
use suntimpani_tests::walk::Walk;
use suntimpani_tests::{in_repository, pack, reader, reasons, shown};

const PACK: &str = "crates/replay/data/cases";
const EXPECTED: &str = "crates/replay/stdout";
const RECORDS: &str = "crates/reasons/data/cases";
const LINES: &str = "crates/reasons/stdout";

fn main() -> ExitCode {
    let arguments: Vec<String> = std::env::args().skip(1).collect();
    let done = match arguments.iter().map(String::as_str).collect::<Vec<_>>()[..] {
        ["write"] => each(made(), write),
        ["test"] => each(made(), test),
        _ => Err("usage: cases write | cases test".to_string()),
    };
    match done {
        Ok(said) => {
            println!("{said}");
            ExitCode::SUCCESS
        }
        Err(fault) => {
            eprintln!("cases: {fault}");
            ExitCode::FAILURE
        }
    }
}

/// Files that are made together, and a line on what they hold.
struct Made {
    holds: String,
    files: Vec<File>,
}

struct File {
    path: String,
    /// One behind the other, each with the name of what it belongs to.
    parts: Vec<(String, Vec<u8>)>,
}

impl File {
    fn bytes(&self) -> Vec<u8> {
        self.parts.iter().flat_map(|(_, bytes)| bytes).copied().collect()
    }

    // The part that a byte belongs to.
    fn part_at(&self, at: usize) -> &str {
        let mut end = 0;
        let ends_behind = |(_, bytes): &&(String, Vec<u8>)| {
            end += bytes.len();
            at < end
        };
        self.parts.iter().find(ends_behind).map_or("what follows the last part", |(name, _)| name)
    }
}

fn made() -> [Made; 3] {
    [of_cases(), of_whys(), of_pages()]
}

fn of_cases() -> Made {
    let cases = cases::all();
    let part = |case: &Case, text: String| (case.name.clone(), text.into_bytes());
    let pack: Vec<_> = cases.iter().map(|case| (case.name.clone(), packed(case))).collect();
    let answers = cases.iter().map(|case| part(case, expected(case)));
    let expected: Vec<_> = answers.chain(cases.iter().map(|case| part(case, expected_asked(case)))).collect();
    let (questions, walks) = (counted(&cases, |case| case.questions.len()), counted(&cases, |case| case.walks.len()));
    let asked_in = cases.iter().filter(|case| !case.questions.is_empty()).count();
    Made {
        holds: format!(
            "{} cases with {questions} questions in {asked_in} of them, each asked in two ways, and {walks} walks",
            cases.len()
        ),
        files: vec![below(pack::LIMIT, PACK, pack), below(pack::EXPECTED_LIMIT, EXPECTED, expected)],
    }
}

fn counted(cases: &[Case], count: fn(&Case) -> usize) -> usize {
    cases.iter().map(count).sum()
}

fn below(limit: usize, path: &str, parts: Vec<(String, Vec<u8>)>) -> File {
    let length: usize = parts.iter().map(|(_, bytes)| bytes.len()).sum();
    assert!(length < limit, "{path} has {length} bytes, too many");
    File { path: path.to_string(), parts }
}

fn packed(case: &Case) -> Vec<u8> {
    let questions: Vec<(u64, u64)> = case.questions.iter().map(|asked| (asked.address, asked.pc)).collect();
    let walks: Vec<&Walk> = case.walks.iter().map(|(walk, _)| walk).collect();
    let mut one = Vec::new();
    pack::put_case(&mut one, &case.name, &case.section, &questions, &walks);
    one
}

// What the reader says, once it is seen to be what the case's author states.
fn expected(case: &Case) -> String {
    let name = &case.name;
    let verdict = reader::check(&case.section);
    assert_eq!(verdict, case.expected, "{name}: the reader and the case's author disagree");
    let mut text = pack::line(name, verdict);
    for &Question { address, pc, expected, .. } in &case.questions {
        let answer = reader::lookup(&case.section, address, pc);
        assert_eq!(answer, expected, "{name} at {address:x}, PC {pc:x}: the reader and the author disagree");
        text += &pack::answer_line(address, pc, &answer);
    }
    for (walk, expected) in &case.walks {
        let walked = walk.by_reader(&case.section);
        assert_eq!(walked, *expected, "{name}, {walk:x?}: the reader and the author disagree");
        text += &pack::walk_lines(walk, &walked);
    }
    text
}

// The same of what is asked without a check of the whole section, behind all cases; nothing where there is no question.
fn expected_asked(case: &Case) -> String {
    let (name, questions) = (&case.name, &case.questions);
    let mut text = if questions.is_empty() { String::new() } else { pack::asked_head(name) };
    for question @ &Question { address, pc, .. } in questions {
        let asked = reader::ask(&case.section, address, pc);
        let expected = case.asked_of(question);
        assert_eq!(asked, expected, "{name} asked at {address:x}, PC {pc:x}: the reader and the author disagree");
        text += &pack::asked_line(address, pc, &asked);
    }
    text
}

fn of_whys() -> Made {
    let whys = cases::whys();
    let records: Vec<_> = whys.iter().map(|why| (why.name.clone(), record(why))).collect();
    let lines: Vec<_> = whys.iter().map(|why| (why.name.clone(), lines(why).into_bytes())).collect();
    let files = vec![below(reasons::MOST_BYTES, RECORDS, records), below(reasons::EXPECTED_LIMIT, LINES, lines)];
    Made { holds: format!("{} records, each a lookup and a step to be explained", whys.len()), files }
}

fn record(why: &Why) -> Vec<u8> {
    let mut bytes = Vec::new();
    why.record.put(&mut bytes);
    bytes
}

// What the reader says, once it is seen to be what the author states.
fn lines(Why { name, record, lookup, step }: &Why) -> String {
    assert_eq!(record.lookup(), *lookup, "{name}: the reader and the author disagree");
    assert_eq!(record.step(), *step, "{name}: the reader and the author disagree");
    record.lines()
}

fn of_pages() -> Made {
    let file = |name: &str, bytes| File {
        path: format!("{}/{name}", shown::FOLDER),
        parts: vec![(format!("the file {name}"), bytes)],
    };
    let pages = shown::PAGES.map(|page| file(&page.file(), page.text().into_bytes()));
    let made = shown::made().map(|(name, bytes)| file(name, bytes));
    let holds = format!("{} pages of 'sframe why', and {} files for them", pages.len(), made.len());
    Made { holds, files: pages.into_iter().chain(made).collect() }
}

// What is said of all, a line each.
fn each(made: [Made; 3], done: fn(&File) -> Result<&'static str, String>) -> Result<String, String> {
    let mut lines = Vec::new();
    for Made { holds, files } in made {
        let said = files.iter().map(done).collect::<Result<Vec<_>, String>>()?;
        let length: usize = files.iter().map(|file| file.bytes().len()).sum();
        lines.push(format!("{holds}: {} files, {length} bytes, {}", files.len(), said[0]));
    }
    Ok(lines.join("\n"))
}

fn write(file: &File) -> Result<&'static str, String> {
    let path = in_repository(&file.path);
    let folder = path.parent().expect("a stored file lies in a folder");
    fs::create_dir_all(folder).map_err(|error| format!("{}: {error}", file.path))?;
    fs::write(&path, file.bytes()).map_err(|error| format!("{}: {error}", file.path))?;
    Ok("written")
}

fn test(file: &File) -> Result<&'static str, String> {
    let (path, made) = (&file.path, file.bytes());
    let stored = fs::read(in_repository(path)).map_err(|error| format!("{path}: {error}"))?;
    match first_difference(&stored, &made) {
        None => Ok("stored as made"),
        Some(at) => {
            let (has, needs, part) = (stored.len(), made.len(), file.part_at(at));
            Err(format!("{path}: byte {at} differs, in {part} ({has} bytes stored, {needs} made)"))
        }
    }
}

fn first_difference(stored: &[u8], made: &[u8]) -> Option<usize> {
    let differs = stored.iter().zip(made).position(|(a, b)| a != b);
    let shorter = stored.len().min(made.len());
    differs.or((stored.len() != made.len()).then_some(shorter))
}
