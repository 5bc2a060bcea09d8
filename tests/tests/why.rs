//! `sframe why`: the pages of vectors/why are what the independent reader says and what the program prints when it is
//! run as they say; and every record that is stored for the program `reasons` is explained in the program's words.

use std::collections::BTreeSet;
use std::fs;
use suntimpani_tests::cases::{self, Why};
use suntimpani_tests::in_repository;
use suntimpani_tests::program::{on_two_threads, run_in, Folder};
use suntimpani_tests::reader::{Process, Registers};
use suntimpani_tests::reasons::Record;
use suntimpani_tests::shown::{self, FOLDER, PAGES};
use suntimpani_tests::words::{self, hints};

fn stored(name: &str) -> Vec<u8> {
    let path = in_repository(FOLDER).join(name);
    fs::read(&path).unwrap_or_else(|error| panic!("{}: {error}", path.display()))
}

#[test]
fn every_page_is_what_the_reader_says() {
    for page in PAGES {
        let text = String::from_utf8(stored(&page.file())).expect("a page is text");
        assert_eq!(text, page.text(), "{}", page.0);
    }
    for (name, bytes) in shown::made() {
        assert_eq!(stored(name), bytes, "{name}");
    }
}

// The arguments are those of the page's own first line.
#[test]
fn every_page_is_what_the_program_prints() {
    for page in PAGES {
        let text = String::from_utf8(stored(&page.file())).expect("a page is text");
        let (command, expected) = text.split_once('\n').expect("a page has lines");
        let arguments = command.strip_prefix("$ sframe ").unwrap_or_else(|| panic!("{}: {command}", page.0));
        let arguments: Vec<&str> = arguments.split(' ').collect();
        let (said, complained) = run_in(&in_repository(FOLDER), &arguments);
        let hint = hints::beside(arguments[1], &stored(arguments[1]), expected);
        assert_eq!((said.as_str(), complained), (expected, hint), "{}", page.0);
    }
}

#[test]
fn the_folder_has_the_pages_and_what_they_ask_about() {
    let files = fs::read_dir(in_repository(FOLDER)).expect("the folder is there");
    let found: BTreeSet<String> =
        files.map(|file| file.expect("a file").file_name().into_string().expect("a name")).collect();
    let pages = PAGES.iter().map(|page| page.file()).chain(shown::made().map(|(name, _)| name.to_string()));
    assert_eq!(found, pages.chain(["README.md".to_string()]).collect());
}

// README.md has its own command above the same lines; what `make run` prints of a step it is held to by the gate.
#[test]
fn readme_shows_a_page() {
    let readme = fs::read_to_string(in_repository("README.md")).expect("the page");
    let text = String::from_utf8(stored("found.txt")).expect("a page is text");
    let shown = text.replace("../recorder", "vectors/recorder");
    let indented: String = shown.lines().map(|line| format!("    {line}\n")).collect();
    assert!(readme.contains(&indented), "{indented}");
}

#[test]
fn every_stored_record_is_explained_in_words() {
    on_two_threads("why", &cases::whys(), |folder, why| explained(folder, why));
}

// Both forms, the numbers as they are usually given.
fn explained(folder: &Folder, why: &Why) {
    let Record { section, stack, process, registers } = &why.record;
    let Process { section: address, stack: stack_address, mask } = process;
    let Registers { pc, sp, fp, lr, first } = registers;
    folder.put("section", section);
    folder.put("stack", stack);
    let numbers = [address, stack_address, pc, sp, fp, lr, first, mask].map(|number| format!("{number:x}"));
    let [address, stack_address, behind @ ..] = numbers.each_ref().map(String::as_str);
    let lookup = words::why_lookup(section, process.section, registers.pc);
    let hint = |said: &str| hints::beside("section", section, said);
    folder.says(&["why", "section", address, behind[0]], &lookup, &hint(&lookup));
    let step = words::why_step(section, stack, *process, *registers);
    folder.says(&[&["why", "section", address, "stack", stack_address][..], &behind].concat(), &step, &hint(&step));
}
