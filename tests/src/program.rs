//! The program `sframe`, run as people run it: in a folder of its own, and what it says to both of its outputs; and how
//! a program is started.
#![forbid(unsafe_code)]

use crate::in_repository;
use std::path::{Path, PathBuf};
use std::process::{self, Command};
use std::{fs, thread};

/// A folder of one test, in which the program is run; it is removed with its files at the end.
pub struct Folder(PathBuf);

impl Folder {
    /// # Panics
    /// Where the folder cannot be made.
    pub fn of(test: &str) -> Folder {
        let path = std::env::temp_dir().join(format!("suntimpani-program-{}-{test}", process::id()));
        fs::create_dir_all(&path).expect("a temporary folder");
        Folder(path)
    }

    pub fn path(&self) -> &Path {
        &self.0
    }

    /// # Panics
    /// Where the file cannot be written.
    pub fn put(&self, name: &str, bytes: &[u8]) {
        fs::write(self.0.join(name), bytes).expect("a temporary file");
    }

    /// The program's standard output and standard error.
    ///
    /// # Panics
    /// Where the program does not start, or does not come to its end.
    pub fn run(&self, arguments: &[&str]) -> (String, String) {
        run_in(&self.0, arguments)
    }

    /// The same under a limit of so many kilobytes for its stack. What is on it beside, the environment above all, is made
    /// alike.
    ///
    /// # Panics
    /// Where the program does not start, is killed, or the limit cannot be set.
    pub fn run_with_stack(&self, kilobytes: u64, arguments: &[&str]) -> (String, String) {
        let direct = program("sframe");
        let mut limited = Command::new("sh");
        limited.args(["-c", "ulimit -S -s \"$0\" && exec \"$@\"", &kilobytes.to_string()]);
        limited.arg(direct.get_program()).args(direct.get_args()).args(arguments);
        limited.current_dir(&self.0).env_clear().env("PATH", std::env::var_os("PATH").unwrap_or_default());
        let run = limited.output().expect("sh starts");
        assert_eq!(run.status.code(), Some(0), "{kilobytes} kB, {arguments:?}: {}", run.status);
        (text(run.stdout), text(run.stderr))
    }

    /// # Panics
    /// Where the program says anything else to one of its outputs.
    pub fn says(&self, arguments: &[&str], output: &str, error: &str) {
        let (said, complained) = self.run(arguments);
        assert_eq!(complained, error, "{arguments:?}: standard error");
        // Line by line, since a listing may be long and one line of it tells the fault.
        let lines = said.split_inclusive('\n').zip(output.split_inclusive('\n'));
        for (number, (line, expected)) in (1..).zip(lines) {
            assert_eq!(line, expected, "{arguments:?}: line {number}");
        }
        assert_eq!(said.len(), output.len(), "{arguments:?}: bytes");
    }

    /// # Panics
    /// Where the program says anything else, or anything to standard error.
    pub fn answers(&self, arguments: &[&str], expected: &str) {
        self.says(arguments, expected, "");
    }

    /// # Panics
    /// Where the program says anything else, or anything to standard output.
    pub fn refuses(&self, arguments: &[&str], expected: &str) {
        self.says(arguments, "", expected);
    }
}

impl Drop for Folder {
    fn drop(&mut self) {
        // What cannot be removed is left to the system's own care of the folder.
        let _ = fs::remove_dir_all(&self.0);
    }
}

/// Tries all items, every other one on a second thread with a folder of its own: under an emulator a run takes long.
///
/// # Panics
/// Where the trial of an item does.
pub fn on_two_threads<T: Sync>(test: &str, items: &[T], try_one: impl Fn(&Folder, &T) + Sync) {
    let try_from = |first: usize| {
        let folder = Folder::of(&format!("{test}-{first}"));
        items.iter().skip(first).step_by(2).for_each(|item| try_one(&folder, item));
    };
    thread::scope(|scope| {
        scope.spawn(|| try_from(1));
        try_from(0);
    });
}

/// The standard output and standard error of `sframe` in a folder.
///
/// # Panics
/// Where the program does not start, or does not come to its end.
pub fn run_in(folder: &Path, arguments: &[&str]) -> (String, String) {
    let run = program("sframe").args(arguments).current_dir(folder).output().expect("the program starts");
    assert!(run.status.code().is_some(), "{arguments:?}: {}", run.status);
    (text(run.stdout), text(run.stderr))
}

/// A program of target/bin, which is compiled for x86-64; elsewhere it is started under an emulator.
///
/// # Panics
/// Where the program is not there.
pub fn program(name: &str) -> Command {
    let program = in_repository("target/bin").join(name);
    assert!(program.is_file(), "target/bin/{name} is not there: run 'make target/bin/{name}'");
    if cfg!(target_arch = "x86_64") {
        return Command::new(program);
    }
    let mut launcher = Command::new(in_repository("tests/run_program"));
    launcher.arg(name);
    launcher
}

/// A count as it is given to the program, in both of its forms by turns.
pub fn counted(number: u64) -> String {
    match number % 2 {
        0 => format!("{number}"),
        _ => format!("{number:019}"),
    }
}

/// What a program wrote, as text.
///
/// # Panics
/// Where it is not UTF-8.
pub fn text(bytes: Vec<u8>) -> String {
    String::from_utf8(bytes).expect("a program prints UTF-8")
}

#[cfg(test)]
mod tests {
    use super::*;
    use std::sync::Mutex;

    #[test]
    fn every_item_is_tried_once() {
        for count in [0, 1, 2, 7] {
            let tried = Mutex::new(Vec::new());
            let items: Vec<usize> = (0..count).collect();
            on_two_threads(&format!("items-{count}"), &items, |folder, item| {
                folder.put("item", b"");
                assert!(folder.path().join("item").is_file());
                tried.lock().expect("no trial panics").push(*item);
            });
            let mut tried = tried.into_inner().expect("no trial panics");
            tried.sort_unstable();
            assert_eq!(tried, items);
        }
    }
}
