//! The command `sframe` and the proved program behind it, on the lines of tests/command_line/table.txt: what each says on
//! its two outputs, to the last byte, and the status that the command ends with. Then what no line of a table can say:
//! outputs that nobody reads, limits on the stack, and the command as it is installed.

use std::collections::BTreeMap;
use std::fs;
use std::io::Read;
use std::os::unix::fs::symlink;
use std::path::{Path, PathBuf};
use std::process::{Command, Output, Stdio};
use suntimpani_tests::cases::{corpus_section, S};
use suntimpani_tests::in_repository;
use suntimpani_tests::program::{program, text, Folder};
use suntimpani_tests::words::wrong;

/// A line as it is typed, and what comes of it.
#[derive(Debug, PartialEq)]
struct Line {
    typed: String,
    output: String,
    error: String,
    status: i32,
}

/// The lines of a table: "$ " and what is typed; what is said, "! " in front of what goes to standard error; "[status]".
fn lines_of(table: &str) -> Vec<Line> {
    let mut lines = Vec::new();
    let mut line: Option<Line> = None;
    for row in table.lines() {
        if line.is_none() && (row.is_empty() || row.starts_with("# ")) {
            continue;
        }
        if let Some(typed) = row.strip_prefix("$ ") {
            assert!(line.is_none(), "{line:?} has no status");
            line = Some(Line { typed: typed.to_string(), output: String::new(), error: String::new(), status: 0 });
            continue;
        }
        let mut open = line.take().unwrap_or_else(|| panic!("{row} belongs to no line"));
        if let Some(status) = row.strip_prefix('[').and_then(|rest| rest.strip_suffix(']')) {
            lines.push(Line { status: status.parse().expect("a status"), ..open });
            continue;
        }
        match row.strip_prefix("! ") {
            Some(said) => open.error += &format!("{said}\n"),
            None => open.output += &format!("{row}\n"),
        }
        line = Some(open);
    }
    assert!(line.is_none(), "{line:?} has no status");
    lines
}

/// Section S with no start filled in, as an assembler leaves it: both functions begin at the section's first byte.
fn unlinked() -> Vec<u8> {
    let mut section = S;
    section[3] = 0;
    section[28..32].fill(0);
    section[48..52].fill(0);
    section.to_vec()
}

/// A folder with the files that the table names.
fn prepared(test: &str) -> Folder {
    let folder = Folder::of(test);
    let mut stack = [0; 64];
    stack[..3].copy_from_slice(&[0x08, 0x10, 0x40]);
    let mut third = S;
    third[2] = 3;
    let files: [(&str, &[u8]); 10] = [
        ("S", &S),
        ("cut", &S[..77]),
        ("empty", &[]),
        ("elf", b"\x7fELF\x02\x01\x01 and so on, for more than 28 bytes"),
        ("first", &corpus_section("v1_amd64_hand_o")),
        ("third", &third),
        ("unlinked.o", &unlinked()),
        ("stack", &stack),
        ("shorter", &stack[..63]),
        ("with blank", &S),
    ];
    files.iter().for_each(|(name, bytes)| folder.put(name, bytes));
    fs::create_dir_all(folder.path().join("folder")).expect("a folder");
    folder
}

/// A folder of commands that has `sframe` as a link to this file.
fn commands_with(folder: &Folder, name: &str, sframe: &Path) -> PathBuf {
    let commands = folder.path().join(name);
    fs::create_dir_all(&commands).expect("a folder");
    symlink(sframe, commands.join("sframe")).expect("a link");
    commands
}

/// A shell in the folder, which finds the commands first.
fn shell(folder: &Folder, commands: &Path, line: &str) -> Command {
    let mut shell = Command::new("sh");
    let path = format!("{}:{}", commands.display(), std::env::var("PATH").expect("a PATH"));
    shell.args(["-c", line]).current_dir(folder.path()).env("PATH", path).stdin(Stdio::null());
    shell
}

fn run(folder: &Folder, commands: &Path, line: &Line) -> Line {
    let Output { status, stdout, stderr } = shell(folder, commands, &line.typed).output().expect("sh starts");
    let status = status.code().unwrap_or_else(|| panic!("{}: {status}", line.typed));
    Line { typed: line.typed.clone(), output: text(stdout), error: text(stderr), status }
}

fn table() -> Vec<Line> {
    lines_of(&fs::read_to_string(in_repository("tests/command_line/table.txt")).expect("the table"))
}

#[test]
fn the_command_answers_every_line_and_ends_with_its_status() {
    let folder = prepared("command");
    let commands = commands_with(&folder, "commands", &in_repository("bin/sframe"));
    table().iter().for_each(|line| assert_eq!(&run(&folder, &commands, line), line));
}

// It says the same by itself, and has no status.
#[test]
fn the_proved_program_answers_every_line() {
    let folder = prepared("proved");
    let direct = program("sframe");
    let commands = folder.path().join("commands");
    fs::create_dir_all(&commands).expect("a folder");
    let words: Vec<_> = [direct.get_program()].into_iter().chain(direct.get_args()).collect();
    let words: Vec<String> = words.iter().map(|word| format!("'{}'", word.to_string_lossy())).collect();
    let script = commands.join("sframe");
    fs::write(&script, format!("#!/bin/sh\nexec {} \"$@\"\n", words.join(" "))).expect("a script");
    make_executable(&script);
    for line in table() {
        assert_eq!(run(&folder, &commands, &line), Line { status: 0, ..line });
    }
}

fn make_executable(file: &Path) {
    use std::os::unix::fs::PermissionsExt;
    fs::set_permissions(file, fs::Permissions::from_mode(0o755)).expect("a mode");
}

#[test]
fn the_table_has_good_bad_and_strange_lines() {
    let table = table();
    let mut by_status = BTreeMap::new();
    table.iter().for_each(|line| *by_status.entry(line.status).or_insert(0) += 1);
    assert!(table.len() >= 40, "{}", table.len());
    assert!([0, 1, 2].iter().all(|status| by_status.get(status).is_some_and(|count| *count >= 12)), "{by_status:?}");
    let mut typed: Vec<&str> = table.iter().map(|line| line.typed.as_str()).collect();
    typed.sort_unstable();
    typed.dedup();
    assert_eq!(typed.len(), table.len(), "a line stands twice");
}

// ---- what no line of the table can say

// The command is read from as far as its first line, and no further.
#[test]
fn a_reader_that_goes_away_is_told() {
    let folder = prepared("pipe");
    let commands = commands_with(&folder, "commands", &in_repository("bin/sframe"));
    let section = in_repository("vectors/recorder/section.sframe");
    // Enough that it does not fit into a pipe that nobody empties.
    let pcs = "559a1c5ad3de ".repeat(1_000);
    let line = format!("exec sframe lookup '{}' 559a1c5b0670 {pcs}", section.display());
    let mut running =
        shell(&folder, &commands, &line).stdout(Stdio::piped()).stderr(Stdio::piped()).spawn().expect("sh starts");
    let mut first = [0; 3];
    running.stdout.take().expect("a pipe").read_exact(&mut first).expect("the first bytes");
    let ended = running.wait_with_output().expect("it ends");
    assert_eq!((&first, text(ended.stderr)), (b"PC ", wrong::unwritten("Broken pipe")));
    assert_eq!(ended.status.code(), Some(2));
}

// Descriptor 9 of whoever starts the command or the program stays as it is.
#[test]
fn no_other_descriptor_is_written_to() {
    let folder = prepared("descriptors");
    let commands = commands_with(&folder, "commands", &in_repository("bin/sframe"));
    let direct = program("sframe");
    let typed = format!("'{}' check S 8>eight 9>nine", direct.get_program().to_string_lossy());
    let lines = ["sframe check S 8>eight 9>nine", "sframe check nofile 8>eight 9>nine"];
    for line in lines.into_iter().chain(cfg!(target_arch = "x86_64").then_some(&typed[..])) {
        let ended = shell(&folder, &commands, line).output().expect("sh starts");
        assert!(ended.status.code().is_some(), "{line}");
        for file in ["eight", "nine"] {
            assert_eq!(fs::read(folder.path().join(file)).expect("a file"), b"", "{line}: {file}");
        }
    }
}

// What the command tells the program by its last argument cannot be told by a person.
#[test]
fn the_mark_of_the_command_is_an_argument_like_any_other() {
    let folder = prepared("mark");
    let commands = commands_with(&folder, "commands", &in_repository("bin/sframe"));
    for (typed, error) in [
        ("sframe status-on-9", wrong::unknown("status-on-9")),
        ("sframe check S status-on-9", wrong::count("check")),
        ("sframe check status-on-9", wrong::missing("status-on-9")),
    ] {
        let line = Line { typed: typed.to_string(), output: String::new(), error, status: 2 };
        assert_eq!(run(&folder, &commands, &line), line);
    }
}

// A hard limit cannot be raised: with too little room the command says so, and is never killed. The environment lies on
// the stack too.
#[test]
fn no_limit_kills_the_command() {
    let folder = prepared("limits");
    let commands = commands_with(&folder, "commands", &in_repository("bin/sframe"));
    let accepted = "accepted: AMD64, 2 functions, 3 rows, sorted\n";
    for (kilobytes, room) in [(300, false), (1_000, true), (7_150, true), (8_192, true)] {
        let line = format!("ulimit -S -s {kilobytes} && ulimit -H -s {kilobytes} && sframe check S");
        let said = shell(&folder, &commands, &line).output().expect("sh starts");
        let answer = if room { (Some(0), accepted.to_string()) } else { (Some(2), String::new()) };
        assert_eq!((said.status.code(), text(said.stdout)), answer, "{kilobytes}");
        let error = if room { String::new() } else { wrong::no_room(1_024 * kilobytes) };
        assert_eq!(text(said.stderr), error);
    }
    let mut crowded = shell(&folder, &commands, "ulimit -S -s 8192 && sframe check S");
    (0..15).for_each(|number| {
        crowded.env(format!("CROWD_{number}"), "x".repeat(100_000));
    });
    let said = crowded.output().expect("sh starts");
    assert_eq!((said.status.code(), text(said.stdout)), (Some(0), accepted.to_string()));
}

// The command raises the limit itself, as far as it may.
#[test]
fn the_longest_files_are_read_under_the_usual_limit() {
    let folder = prepared("longest");
    let commands = commands_with(&folder, "commands", &in_repository("bin/sframe"));
    let mut section = long_section(16_777_216);
    folder.put("longest", &section);
    section.push(0);
    folder.put("longer", &section);
    let said = |line: &str| {
        let said = shell(&folder, &commands, &format!("ulimit -S -s 8192 && {line}")).output().expect("sh starts");
        (said.status.code(), text(said.stdout), text(said.stderr))
    };
    let accepted = "accepted: AMD64, 2 functions, 3 rows, sorted\n".to_string();
    assert_eq!(said("sframe check longest"), (Some(0), accepted.clone(), String::new()));
    assert_eq!(said("cat longest | sframe check -"), (Some(0), accepted, String::new()));
    let two = "refused: 2, more than 16,777,216 bytes\n".to_string();
    assert_eq!(said("sframe check longer"), (Some(1), two, String::new()));
    let too_long = wrong::too_long("longer", 16_777_216);
    let walk = "sframe caller longest 400000 longer 7000 401044 7000 7030 0 1";
    assert_eq!(said(walk), (Some(2), String::new(), too_long));
}

/// Section S with unused row bytes behind it: it is accepted only where all of it is read.
fn long_section(bytes: u32) -> Vec<u8> {
    let mut section = S.to_vec();
    section.resize(bytes as usize, 0);
    section[16..20].copy_from_slice(&(bytes - 68).to_le_bytes());
    section
}

// What is read from a pipe cannot be read again for a larger room: neither by its name, nor as standard input. A file that
// is standard input is read from where it stands.
#[test]
fn a_pipe_is_read_whole() {
    let folder = prepared("pipes");
    let commands = commands_with(&folder, "commands", &in_repository("bin/sframe"));
    let accepted = "accepted: AMD64, 2 functions, 3 rows, sorted\n";
    for bytes in [1_000, 100_000, 2_000_000] {
        folder.put("long", &long_section(bytes));
        folder.put("behind", &[&[7; 10][..], &long_section(bytes)].concat());
        for typed in [
            "mkfifo pipe && { cat long >pipe & } && sframe check pipe; status=$?; wait; rm pipe; exit $status",
            "cat long | sframe check /dev/stdin",
            "cat long | sframe check -",
            "{ head -c 10 >/dev/null; sframe check -; } <behind",
            "sframe check long",
        ] {
            let (typed, output) = (typed.to_string(), accepted.to_string());
            let line = Line { typed, output, error: String::new(), status: 0 };
            assert_eq!(run(&folder, &commands, &line), line, "{bytes}");
        }
    }
}

// A proved program that is killed says no 0 at its end, and one that is not there says nothing.
#[test]
fn a_program_that_does_not_come_to_its_end_is_told() {
    let folder = prepared("killed");
    let installed = folder.path().join("installed");
    fs::create_dir_all(&installed).expect("a folder");
    fs::copy(in_repository("bin/sframe"), installed.join("sframe")).expect("a copy");
    let said = || {
        let said = shell(&folder, &installed, "sframe check S").output().expect("sh starts");
        (said.status.code(), text(said.stdout), text(said.stderr))
    };
    let (status, output, error) = said();
    assert_eq!((status, output.as_str()), (Some(2), ""));
    assert!(error.starts_with("sframe: the proved program is not there: "), "{error}");
    let proved = installed.join("sframe-proved");
    for (script, ends) in [
        ("kill -SEGV $$", (Some(2), "")),
        ("printf half; kill -KILL $$", (Some(2), "half")),
        ("printf 1 >&9; kill -KILL $$", (Some(2), "")),
        ("printf whole; printf 10 >&9", (Some(1), "whole")),
        ("printf 120 >&9", (Some(2), "")),
        ("test \"$3\" = status-on-9 && printf 0 >&9", (Some(0), "")),
    ] {
        fs::write(&proved, format!("#!/bin/sh\n{script}\n")).expect("a script");
        make_executable(&proved);
        let (status, output, error) = said();
        assert_eq!((status, output.as_str()), ends, "{script}");
        let untold = script.contains("kill");
        assert_eq!(error.contains("sframe: the proved program did not come to its end\n"), untold, "{script}: {error}");
    }
}

// ---- the command as it is installed

fn make(arguments: &[&str]) -> Output {
    let mut make = Command::new("make");
    // What a make above this test was told is not for this one.
    make.args(["-s", "--no-print-directory"]).args(arguments).current_dir(in_repository("")).env_remove("MAKEFLAGS");
    make.output().expect("make starts")
}

fn files_below(folder: &Path) -> Vec<String> {
    let mut files = Vec::new();
    for entry in fs::read_dir(folder).into_iter().flatten() {
        let path = entry.expect("an entry").path();
        if path.is_dir() {
            let name = path.file_name().expect("a name").to_string_lossy().to_string();
            files.extend(files_below(&path).iter().map(|file| format!("{name}/{file}")));
        } else {
            files.push(path.file_name().expect("a name").to_string_lossy().to_string());
        }
    }
    files.sort();
    files
}

// Nothing is proved again for it, and what it puts there goes again.
#[test]
fn what_is_installed_answers_and_goes_again() {
    let folder = prepared("install");
    let root = folder.path().join("root");
    let at = format!("DESTDIR={}", root.display());
    let installed = make(&["install", &at, "PREFIX=/some/prefix"]);
    assert!(installed.status.success(), "{}", text(installed.stderr));
    assert_eq!(text(installed.stderr), "", "nothing is proved again");
    let below = root.join("some/prefix");
    let files = ["bin/sframe", "bin/sframe-proved", "include/suntimpani.h", "lib/libsuntimpani.a"];
    assert_eq!(files_below(&below), [&files[..], &["lib/pkgconfig/suntimpani.pc"]].concat());
    if cfg!(target_arch = "x86_64") {
        let line = Line {
            typed: "sframe check S && sframe check cut".to_string(),
            output: "accepted: AMD64, 2 functions, 3 rows, sorted\nrefused: 8, the function table, the row area and \
                     the length do not fit together\n"
                .to_string(),
            error: String::new(),
            status: 1,
        };
        assert_eq!(run(&folder, &below.join("bin"), &line), line);
    }
    assert!(make(&["uninstall", &at, "PREFIX=/some/prefix"]).status.success());
    assert_eq!(files_below(&root), [""; 0]);
}

#[test]
fn a_missing_toolchain_is_told() {
    let folder = prepared("toolchain");
    let commands = folder.path().join("few");
    fs::create_dir_all(&commands).expect("a folder");
    for tool in ["bash", "env", "dirname", "cat"] {
        let found = std::env::var("PATH").expect("a PATH");
        let found = found.split(':').map(|folder| Path::new(folder).join(tool)).find(|file| file.is_file());
        symlink(found.unwrap_or_else(|| panic!("no {tool}")), commands.join(tool)).expect("a link");
    }
    let mut prove = Command::new(in_repository("tools/prove"));
    let said = prove.args(["check", "sframe"]).env("PATH", &commands).output().expect("it starts");
    assert_eq!(said.status.code(), Some(1));
    assert!(text(said.stderr).starts_with("'rt' is not found. It is the command of the Rattle toolchain"));
}

// ---- that faults are found

const TABLE: &str = "\
# two lines
$ sframe check S
accepted
[0]

$ sframe check nofile
! sframe: nofile

half
[2]
";

#[test]
fn a_table_is_read() {
    let lines = lines_of(TABLE);
    let line = |typed: &str, output: &str, error: &str, status| Line {
        typed: typed.to_string(),
        output: output.to_string(),
        error: error.to_string(),
        status,
    };
    let second = line("sframe check nofile", "\nhalf\n", "sframe: nofile\n", 2);
    assert_eq!(lines, [line("sframe check S", "accepted\n", "", 0), second]);
}

#[test]
#[should_panic(expected = "has no status")]
fn a_line_without_a_status_is_found() {
    lines_of(&TABLE.replace("[0]\n", ""));
}

// Each of these slips of a program makes a line of the table another.
#[test]
fn a_line_that_comes_out_otherwise_is_found() {
    let folder = prepared("slips");
    let scripts = ["echo accepted", "echo accepted >&2", "echo accepted; exit 1", "echo accepted; echo more"];
    let expected = &lines_of(TABLE)[0];
    let told = scripts.map(|script| {
        let commands = folder.path().join(script.replace([' ', '>', ';', '&'], "_"));
        fs::create_dir_all(&commands).expect("a folder");
        fs::write(commands.join("sframe"), format!("#!/bin/sh\n{script}\n")).expect("a script");
        make_executable(&commands.join("sframe"));
        run(&folder, &commands, expected) == *expected
    });
    assert_eq!(told, [true, false, false, false]);
}
