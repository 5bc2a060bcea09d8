//! Holds what crates/promises states against the public functions of the libraries: each has a statement about its own
//! contract, each that asks something of its callers is shown to ask for what can be, and docs/PROMISES.md says why it
//! asks. What the prover cannot see is found here: a function that nothing is stated of. A static library has no function
//! of its own: each is one of a library, says what that one says, and calls it.

use std::fs;
use std::path::{Path, PathBuf};
use suntimpani_tests::in_repository;

// ---- the scan of sources

/// A public function, as a source declares it: a method has the type that it is one of.
#[derive(Debug, PartialEq)]
struct Found {
    name: String,
    owner: Option<String>,
    requires: bool,
}

/// The same, with the names under which are cited what the toolchain makes of its contract, and the contract itself; and
/// of a function with a reference inside a struct the name that specs/ReaderSays.antt gives to its clauses. A method has
/// its type as owner.
struct Function {
    name: String,
    cited: String,
    contract: String,
    clauses: Option<String>,
    owner: Option<String>,
    requires: bool,
}

/// A source of a library: its module, with a dot between the parts and empty for the root, and its text.
struct Source {
    module: String,
    text: String,
}

/// The text without comments and without what stands between quotes, so that neither is taken for code.
fn bare(text: &str) -> String {
    let mut kept = String::new();
    let mut rest = text;
    while let Some(sign) = rest.chars().next() {
        let skipped = match sign {
            '/' if rest.starts_with("//") => rest.find('\n').unwrap_or(rest.len()),
            '/' if rest.starts_with("/*") => rest.find("*/").map_or(rest.len(), |end| end + 2),
            '"' => quoted(rest),
            '\'' if rest.starts_with("'\"'") => 3,
            _ => 0,
        };
        if skipped == 0 {
            kept.push(sign);
        }
        rest = &rest[skipped.max(sign.len_utf8())..];
    }
    kept
}

/// How many bytes the string has that the text begins with.
fn quoted(text: &str) -> usize {
    let mut escaped = false;
    for (at, sign) in text.char_indices().skip(1) {
        if sign == '"' && !escaped {
            return at + 1;
        }
        escaped = sign == '\\' && !escaped;
    }
    text.len()
}

/// The names and numbers of a text, and every other sign by itself.
fn words(text: &str) -> Vec<&str> {
    let belongs = |sign: char| sign.is_alphanumeric() || sign == '_';
    let mut words = Vec::new();
    let mut rest = text.trim_start();
    while let Some(sign) = rest.chars().next() {
        let name = rest.find(|sign| !belongs(sign)).unwrap_or(rest.len());
        let (word, after) = rest.split_at(name.max(sign.len_utf8()));
        words.push(word);
        rest = after.trim_start();
    }
    words
}

fn public_functions(text: &str) -> Vec<Found> {
    let bare = bare(text);
    let words = words(&bare);
    let mut found = Vec::new();
    let mut owner = None;
    let mut depth = 0;
    for at in 0..words.len() {
        match words[at] {
            "{" => depth += 1,
            "}" => depth -= 1,
            "impl" if depth == 0 => owner = words.get(at + 1).map(|name| name.to_string()),
            "pub" => {
                let owner = if depth == 0 { None } else { owner.clone() };
                found.extend(named(&words[at + 1..]).map(|(name, requires)| Found { name, owner, requires }));
            }
            _ => {}
        }
    }
    found
}

/// The name of the function that the words after a `pub` declare, if they do, and whether it has a `requires`.
fn named(words: &[&str]) -> Option<(String, bool)> {
    // `extern "C"` stands here without its quotes.
    let at = words.iter().position(|word| !["const", "unsafe", "extern"].contains(word))?;
    match words[at..] {
        ["fn", name, ..] => Some((name.to_string(), has_requires(&words[at + 2..]))),
        _ => None,
    }
}

/// The traits whose methods a source writes by itself, each with its type. A caller reaches such a method with no `pub`.
fn traits_written(text: &str) -> Vec<String> {
    let bare = bare(text);
    let words = words(&bare);
    let begins = |at: usize| at == 0 || ["{", "}", "]", ";", "unsafe"].contains(&words[at - 1]);
    let impls = (0..words.len()).filter(|&at| words[at] == "impl" && begins(at));
    let heads = impls.map(|at| words[at + 1..].iter().copied().take_while(|word| *word != "{").collect());
    heads.filter(|head: &Vec<&str>| head.contains(&"for")).map(|head| head.join(" ")).collect()
}

/// Whether a `requires` stands between a function's name and its body. An `ensures` is braced as a body is.
fn has_requires(words: &[&str]) -> bool {
    let mut at = 0;
    while at < words.len() && words[at] != "{" {
        match words[at] {
            "requires" => return true,
            "ensures" => at += braced(&words[at..]),
            _ => at += 1,
        }
    }
    false
}

/// How many words there are up to the end of the first braces.
fn braced(words: &[&str]) -> usize {
    let mut depth = 0;
    for (at, word) in words.iter().enumerate() {
        match *word {
            "{" => depth += 1,
            "}" if depth == 1 => return at + 1,
            "}" => depth -= 1,
            _ => {}
        }
    }
    words.len()
}

/// Whether a source declares a type.
fn declares(source: &Source, name: &str) -> bool {
    let bare = bare(&source.text);
    words(&bare).windows(2).any(|two| ["struct", "enum"].contains(&two[0]) && two[1] == name)
}

/// The public functions of a library. A method is cited under its type, in the module that declares the type.
fn functions_of(library: &str, sources: &[Source]) -> Vec<Function> {
    let mut functions = Vec::new();
    for source in sources {
        for Found { name, owner, requires } in public_functions(&source.text) {
            let home = owner.as_ref().and_then(|owner| sources.iter().find(|source| declares(source, owner)));
            let module = &home.unwrap_or(source).module;
            let parts = [module.as_str(), owner.as_deref().unwrap_or(""), name.as_str()];
            let path: Vec<&str> = parts.into_iter().filter(|part| !part.is_empty()).collect();
            let path = path.join(".");
            let cited = format!("Rattle.{library}.proofs.{path}");
            let contract = format!("Rattle.{library}.specs.contracts.{path}");
            functions.push(Function { contract, cited, clauses: None, owner, name, requires });
        }
    }
    functions
}

// ---- the scan of statements

/// A file of proofs: its lines, and its text with single spaces; both without comments.
struct Proofs {
    lines: Vec<String>,
    squeezed: String,
}

impl Proofs {
    fn of(text: &str) -> Proofs {
        let mut code = String::new();
        let mut rest = text;
        while let Some(start) = rest.find("{-") {
            code.push_str(&rest[..start]);
            rest = rest[start..].find("-}").map_or("", |end| &rest[start + end + 2..]);
        }
        code.push_str(rest);
        // A name stands between these where a part of it is a word of the language.
        let code = code.replace(['«', '»'], "");
        let lines = code.lines().map(|line| line.split("--").next().unwrap_or("").trim_end().to_string());
        let lines: Vec<String> = lines.collect();
        let squeezed = lines.join(" ").split_whitespace().collect::<Vec<_>>().join(" ");
        Proofs { lines, squeezed }
    }

    fn uses(&self, line: &str) -> bool {
        self.lines.iter().any(|other| other == line)
    }

    /// Whether a name is used here from a module of `promises`.
    fn uses_of(&self, module: &str, name: &str) -> bool {
        let head = format!("use Rattle.promises.specs.{module}.{{");
        let names = self.lines.iter().filter_map(|line| line.strip_prefix(&head)?.strip_suffix('}'));
        names.flat_map(|names| names.split(", ")).any(|other| other == name)
    }

    /// The name that is given here to a function's own clauses, if one is.
    fn clauses_of(&self, function: &Function) -> Option<String> {
        let Function { name, contract, .. } = function;
        let given = format!(" 𝓤 𝓛 = {name}.clauses 𝓛");
        let clauses = self.lines.iter().find_map(|line| line.strip_suffix(&given))?;
        let of_function = self.uses(&format!("use {contract} as {name}"))
            && self.uses(&format!("abbrev pub {clauses} : Stated {name}.ended"))
            && self.uses_of("ByClauses", "Stated");
        of_function.then(|| clauses.to_string())
    }

    /// What a public theorem states, if it is here: all up to its proof, which begins with its name, or with what it
    /// opens. It begins its line, since inside a module it would have the module's hypotheses.
    fn stated(&self, theorem: &str) -> Option<&str> {
        self.lines.iter().find(|line| line.starts_with(&format!("pub {theorem} ")))?;
        let head = format!("pub {theorem} : ");
        let start = self.squeezed.find(&head)? + head.len();
        let rest = &self.squeezed[start..];
        let end = [format!(" {theorem} "), " unfolding ".to_string()];
        let length = end.iter().filter_map(|end| rest.find(end)).min()?;
        Some(&rest[..length])
    }

    /// The names of the public theorems.
    fn theorems(&self) -> Vec<&str> {
        let words: Vec<&str> = self.squeezed.split(' ').collect();
        words.windows(3).filter(|three| three[0] == "pub" && three[2] == ":").map(|three| three[1]).collect()
    }
}

/// Whether a file says that a function determines its reply, and cites that function's own contract for it.
fn says_determined(proofs: &Proofs, function: &Function) -> bool {
    let Function { name, cited, .. } = function;
    let statement = format!("Determined {name}-kinds.ps {name}-kinds.r {name}-reads.Learnt");
    let by_kinds = proofs.stated(&format!("{name}_determined")) == Some(&statement)
        && proofs.uses("use Rattle.promises.specs.Determined.{Determined}")
        && proofs.uses(&format!("use {cited}.Kinds as {name}-kinds"))
        && proofs.uses(&format!("use {cited}.Reads as {name}-reads"));
    by_kinds || says_determined_by_clauses(proofs, function)
}

/// The same of a function with a reference inside a struct, of whose contract the toolchain makes the clauses alone.
fn says_determined_by_clauses(proofs: &Proofs, function: &Function) -> bool {
    let Function { name, contract, clauses, .. } = function;
    clauses.as_ref().is_some_and(|clauses| {
        proofs.stated(&format!("{name}_determined")) == Some(&format!("DeterminedBy {name}.ended {clauses}"))
            && proofs.uses_of("ByClauses", "DeterminedBy")
            && proofs.uses_of("ReaderSays", clauses)
            && proofs.uses(&format!("use {contract} as {name}"))
    })
}

/// Whether a file says of what a function asks, and of no other, that it can be met.
fn says_met(proofs: &Proofs, function: &Function) -> bool {
    let Function { name, cited, .. } = function;
    let asked = format!("{name}-reads.Asked");
    let cites = |stated: &str| stated.split(' ').any(|word| word.trim_start_matches('(') == asked);
    proofs.stated(&format!("{name}_met")).is_some_and(cites)
        && proofs.uses(&format!("use {cited}.Reads as {name}-reads"))
}

/// Whether a file says that the code of a function returns, of that function's own contract and name, in every environment
/// of the machine that is wired for its code. The file cites the function under an alias.
fn says_returns(proofs: &Proofs, function: &Function, said: &Returned) -> bool {
    let Returned { theorem, alias: of } = said;
    let Function { cited, contract, clauses, .. } = function;
    let wired = |stated: &str| format!("(γ : Env) → Wired γ {of}.Symbol.code → {stated} (γ {of}.Symbol.name)");
    let states = |stated: &str| proofs.stated(theorem) == Some(&wired(stated));
    let by_kinds = proofs.uses_of("Returns", "Returns")
        && states(&format!("Returns {of}.Kinds.ps {of}.Kinds.r {of}.Reads.Learnt"));
    let by_clauses = clauses.as_ref().is_some_and(|clauses| {
        proofs.uses_of("ByClauses", "ReturnsBy")
            && proofs.uses_of("ReaderSays", clauses)
            && proofs.uses(&format!("use {contract} as {of}-contract"))
            && states(&format!("ReturnsBy {of}-contract.ended {clauses}"))
    });
    (by_kinds || by_clauses)
        && proofs.uses("use prog.Routine.{Env}")
        && proofs.uses("use prog.Wired.{Wired}")
        && proofs.uses(&format!("use {cited} as {of}"))
}

/// The calls that people make: those that are exported, those that say why, and the readers of rows and lines.
const CALLS: [&str; 15] = [
    "check",
    "function_at",
    "lookup",
    "ask",
    "step",
    "trace",
    "explain_lookup",
    "explain_step",
    "place_of",
    "row_turn",
    "reader_of",
    "next_row",
    "cursor_of",
    "cursor_at",
    "next_line",
];

/// The theorem that says that a function returns, and the alias of the function in it.
struct Returned {
    theorem: String,
    alias: String,
}

/// The names under which it is said that a function returns: an exported one's, or those of a call which people make.
fn returns_of(function: &Function) -> Option<Returned> {
    let name = &function.name;
    let exported = name.strip_prefix("suntimpani_");
    let exported = exported.map(|call| (format!("exported_{call}_returns"), format!("exported-{call}")));
    let called = || CALLS.contains(&&**name).then(|| (format!("{name}_returns"), name.clone()));
    exported.or_else(called).map(|(theorem, alias)| Returned { theorem, alias })
}

/// Of which functions nothing says that they return, where it must be said.
fn unreturned(functions: &[Function], proofs: &Proofs) -> Vec<String> {
    let said = |function: &&Function| returns_of(function).is_some_and(|said| !says_returns(proofs, function, &said));
    functions.iter().filter(said).map(|function| format!("{}: nothing states that it returns", function.name)).collect()
}

/// The rows of a document's tables that begin with a name: the name, and the head of the table.
fn rows(document: &str) -> Vec<(&str, &str)> {
    let mut rows = Vec::new();
    let mut head = "";
    let mut before = "";
    for line in document.lines() {
        if !before.starts_with('|') {
            head = line;
        }
        if let Some((name, _)) = line.strip_prefix("| `").and_then(|rest| rest.split_once("` |")) {
            rows.push((name, head));
        }
        before = line;
    }
    rows
}

/// What is missing of a function, or is said of another in its name.
fn missing(function: &Function, proofs: &[Proofs], document: &str) -> Vec<String> {
    let name = &function.name;
    let mut missing = Vec::new();
    if !proofs.iter().any(|proofs| says_determined(proofs, function)) {
        missing.push(format!("{name}: nothing states that it determines its reply"));
    }
    if function.requires && !proofs.iter().any(|proofs| says_met(proofs, function)) {
        missing.push(format!("{name}: nothing states that its `requires` can be met"));
    }
    if function.requires && !rows(document).iter().any(|(other, _)| other == name) {
        missing.push(format!("{name}: the document does not say why it asks"));
    }
    missing
}

/// What is said of functions that there are not, or that ask nothing.
fn stale(functions: &[Function], proofs: &[Proofs], document: &str) -> Vec<String> {
    let known = |name: &str, asks: bool| functions.iter().any(|other| other.name == name && (other.requires || !asks));
    let mut stale = Vec::new();
    for theorem in proofs.iter().flat_map(Proofs::theorems) {
        let about = theorem.strip_suffix("_determined").map(|name| (name, false));
        let about = about.or(theorem.strip_suffix("_met").map(|name| (name, true)));
        if about.is_some_and(|(name, asks)| !known(name, asks)) {
            stale.push(format!("{theorem}: it is about no function"));
        }
    }
    for (name, head) in rows(document) {
        if head.starts_with("| Function |") && !known(name, head.contains("`requires`")) {
            stale.push(format!("{name}: the document's row is about no function"));
        }
    }
    stale
}

fn faults(functions: &[Function], proofs: &[Proofs], document: &str) -> Vec<String> {
    let mut faults: Vec<String> = functions.iter().flat_map(|function| missing(function, proofs, document)).collect();
    faults.extend(stale(functions, proofs, document));
    faults
}

/// A program's public functions answer nothing that could be stated: the document says of each that it is excepted, and
/// of no other.
fn excepted_faults(functions: &[Found], document: &str) -> Vec<String> {
    let excepted: Vec<&str> =
        rows(document).into_iter().filter(|(_, head)| head.starts_with("| Excepted |")).map(|(name, _)| name).collect();
    let silent = functions.iter().filter(|function| !excepted.contains(&function.name.as_str()));
    let mut faults: Vec<String> = silent.map(|function| format!("{}: it is not excepted", function.name)).collect();
    let gone = excepted.iter().filter(|name| !functions.iter().any(|function| function.name == **name));
    faults.extend(gone.map(|name| format!("{name}: no program has what is excepted")));
    faults
}

// ---- the static libraries

/// A public function: its name, all that is said of it before its body, and its body, each with one space between words.
#[derive(Debug, PartialEq)]
struct Text {
    name: String,
    said: String,
    body: String,
}

fn texts_of(source: &str) -> Vec<Text> {
    let bare = bare(source);
    let words = words(&bare);
    let mut texts = Vec::new();
    for at in (0..words.len()).filter(|&at| words[at] == "pub") {
        let Some((name, _)) = named(&words[at + 1..]) else { continue };
        let rest = &words[at..][words[at..].iter().position(|word| *word == name).unwrap_or(0)..];
        let (said, behind) = rest.split_at(before_body(rest));
        // The layout puts a comma behind the last parameter where each has its line.
        let said = said.join(" ").replace(", )", ")");
        texts.push(Text { name, said, body: behind[..braced(behind)].join(" ") });
    }
    texts
}

/// How many words there are before a function's body. A clause is braced as a body is.
fn before_body(words: &[&str]) -> usize {
    let mut at = 0;
    while at < words.len() && words[at] != "{" {
        at += if ["requires", "ensures"].contains(&words[at]) { braced(&words[at..]) } else { 1 };
    }
    at
}

/// What is wrong with the functions of a static library: each must be a public function of the library, with the same
/// parameters and clauses, and its body one call of that one.
fn export_faults(exports: &str, library: &str, source: &str) -> Vec<String> {
    let owned = texts_of(source);
    let fault = |export: Text| {
        let Text { name, said, body } = export;
        let Some(other) = owned.iter().find(|other| other.name == name) else {
            return Some(format!("{name}: {library} has no such function"));
        };
        if other.said != said {
            return Some(format!("{name}: it says something else than that of {library}"));
        }
        let call = format!("{{ {library} : : {name} ( {} ) }}", parameters_in(&said).join(" , "));
        (body != call).then(|| format!("{name}: it does something else than to call that of {library}"))
    };
    texts_of(exports).into_iter().filter_map(fault).collect()
}

/// The names of a function's parameters.
fn parameters_in(said: &str) -> Vec<&str> {
    let words: Vec<&str> = said.split(' ').collect();
    let end = words.iter().position(|word| *word == ")").unwrap_or(words.len());
    let named = words[..end].windows(3).filter(|three| ["(", ","].contains(&three[0]) && three[2] == ":");
    named.map(|three| three[1]).collect()
}

// ---- the repository

fn text_of(path: &Path) -> String {
    fs::read_to_string(path).unwrap_or_else(|error| panic!("{}: {error}", path.display()))
}

/// The files and folders of a folder, in the order of their names.
fn listed(folder: &Path) -> Vec<PathBuf> {
    let entries = fs::read_dir(folder).unwrap_or_else(|error| panic!("{}: {error}", folder.display()));
    let mut paths: Vec<PathBuf> = entries.map(|entry| entry.expect("an entry of the folder").path()).collect();
    paths.sort();
    paths
}

/// The sources of a folder, which is a module or, with an empty name, a library's root.
fn sources_in(folder: &Path, module: &str) -> Vec<Source> {
    let mut sources = Vec::new();
    for path in listed(folder) {
        let stem = path.file_stem().and_then(|stem| stem.to_str()).expect("a name");
        let inner = match module {
            "" if stem == "lib" => String::new(),
            "" => stem.to_string(),
            _ => format!("{module}.{stem}"),
        };
        if path.is_dir() {
            sources.extend(sources_in(&path, &inner));
        } else if path.extension().is_some_and(|extension| extension == "rt") {
            sources.push(Source { module: inner, text: text_of(&path) });
        }
    }
    sources
}

/// The names of the static libraries, by crates.txt.
fn static_libraries() -> Vec<String> {
    let crates = text_of(&in_repository("crates.txt"));
    crates.lines().filter_map(|line| line.split_once(" staticlib:")).map(|(name, _)| name.to_string()).collect()
}

/// The public functions of all libraries, but for the static ones.
fn of_libraries() -> Vec<Function> {
    let is_static = |path: &PathBuf| static_libraries().iter().any(|name| path.ends_with(name));
    let libraries = listed(&in_repository("crates")).into_iter().filter(|path| path.join("src/lib.rt").exists());
    let libraries = libraries.filter(|path| !is_static(path));
    let mut functions = Vec::new();
    for library in libraries {
        let name = library.file_name().and_then(|name| name.to_str()).expect("a name");
        functions.extend(functions_of(name, &sources_in(&library.join("src"), "")));
    }
    let named = Proofs::of(&text_of(&in_repository("crates/promises/specs/ReaderSays.antt")));
    for function in &mut functions {
        function.clauses = named.clauses_of(function);
    }
    with_owners(functions)
}

/// Methods of one name are told apart by their types, as `Rule_number`.
fn with_owners(mut functions: Vec<Function>) -> Vec<Function> {
    let names: Vec<String> = functions.iter().map(|function| function.name.clone()).collect();
    for function in &mut functions {
        if names.iter().filter(|name| **name == function.name).count() < 2 {
            continue;
        }
        if let Some(owner) = &function.owner {
            function.name = format!("{owner}_{}", function.name);
        }
    }
    functions
}

#[test]
fn every_call_and_every_exported_function_returns() {
    let functions = of_libraries();
    let proofs = Proofs::of(&text_of(&in_repository("crates/promises/proofs/Returned.antt")));
    assert_eq!(functions.iter().filter(|function| returns_of(function).is_some()).count(), CALLS.len() + 8);
    assert_eq!(unreturned(&functions, &proofs), Vec::<String>::new());
    // It can fail: what is said of one function is not said of another.
    let other =
        text_of(&in_repository("crates/promises/proofs/Returned.antt")).replace("look.lookup as", "look.look as");
    assert_eq!(unreturned(&functions, &Proofs::of(&other)), ["lookup: nothing states that it returns"]);
}

#[test]
fn every_public_function_is_spoken_of() {
    let functions = of_libraries();
    let proofs = listed(&in_repository("crates/promises/proofs"));
    let proofs: Vec<Proofs> =
        proofs.iter().filter(|path| path.is_file()).map(|path| Proofs::of(&text_of(path))).collect();
    let document = text_of(&in_repository("docs/PROMISES.md"));
    assert!(!functions.is_empty(), "no library was found");
    assert_eq!(faults(&functions, &proofs, &document), Vec::<String>::new());
}

#[test]
fn no_library_writes_the_methods_of_a_trait() {
    let libraries = listed(&in_repository("crates")).into_iter().filter(|path| path.join("src/lib.rt").exists());
    let sources: Vec<Source> = libraries.flat_map(|library| sources_in(&library.join("src"), "")).collect();
    assert!(!sources.is_empty(), "no library was found");
    let found: Vec<String> = sources.iter().flat_map(|source| traits_written(&source.text)).collect();
    assert_eq!(found, [""; 0]);
    // It can fail.
    let text = "use std::fmt;\n#[derive(Drop)]\npub struct Pair;\nimpl fmt::Display for Pair { fn fmt() {} }\n";
    assert_eq!(traits_written(text), ["fmt : : Display for Pair"]);
    assert_eq!(traits_written("impl<T> From<T> for Pair {}\nimpl Pair { fn each() { for _ in 0..2 {} } }").len(), 1);
    assert_eq!(traits_written("fn read(from: &mut impl Read) { for _ in 0..2 {} }"), [""; 0]);
    assert_eq!(traits_written("mod inner { unsafe impl Send for Pair {} }"), ["Send for Pair"]);
}

#[test]
fn a_static_library_says_and_does_what_its_library_does() {
    let libraries = static_libraries();
    assert_eq!(libraries, ["measure_c", "measure_lines_c", "suntimpani_c"]);
    for exports in libraries {
        let library = exports.strip_suffix("_c").expect("a library's name, and what it is for");
        let root = |name: &str| text_of(&in_repository("crates").join(name).join("src/lib.rt"));
        assert_eq!(listed(&in_repository("crates").join(&exports).join("src")).len(), 1, "{exports}");
        assert!(!texts_of(&root(&exports)).is_empty(), "{exports}: no function was found");
        assert_eq!(export_faults(&root(&exports), library, &root(library)), [""; 0], "{exports}");
    }
}

#[test]
fn every_public_function_of_a_program_is_excepted() {
    let programs = listed(&in_repository("crates")).into_iter().filter(|path| path.join("src/main.rt").exists());
    let sources: Vec<Source> = programs.flat_map(|program| sources_in(&program.join("src"), "")).collect();
    let functions: Vec<Found> = sources.iter().flat_map(|source| public_functions(&source.text)).collect();
    let document = text_of(&in_repository("docs/PROMISES.md"));
    assert!(!functions.is_empty(), "no program was found");
    assert_eq!(excepted_faults(&functions, &document), Vec::<String>::new());
}

// ---- what the scan sees, and that it can fail

fn found(name: &str, owner: Option<&str>, requires: bool) -> Found {
    Found { name: name.to_string(), owner: owner.map(str::to_string), requires }
}

#[test]
fn public_functions_are_found() {
    let text = r#"
        pub struct Pair { pub left: u64 }
        pub fn plain(n: u64) -> u64 { n }
        #[unsafe(no_mangle)]
        pub extern "C" fn exported(
            n: u64,
        ) -> u64
            ensures { result ≡ n }
        { n }
        impl Pair { pub fn method(self) -> u64 { self.left } }
        pub fn after() {}
    "#;
    let all = [("plain", None), ("exported", None), ("method", Some("Pair")), ("after", None)];
    assert_eq!(public_functions(text), all.map(|(name, owner)| found(name, owner, false)));
}

#[test]
fn private_functions_comments_and_strings_do_not_count() {
    let text = r#"
        fn private() { say(b"pub fn in_a_string() {}"); say("\" pub fn in_another() {}"); }
        // pub fn in_a_comment() {}
        /* pub fn in_a_block() {} */
        fn quote() -> u8 { b'"' }
        pub fn seen() {}
    "#;
    assert_eq!(public_functions(text), [found("seen", None, false)]);
}

#[test]
fn a_requires_is_seen() {
    let text = "
        pub fn asks(n: u64) -> u64
            requires { n < 8 }
            ensures { result ≡ n }
        { n }
        pub fn asks_last(n: u64) -> u64
            ensures range { result ≡ f {A = ℕ} n }
            requires { n < 8 }
        { n }
        pub fn asks_nothing(n: u64) -> u64
            // requires { n < 8 }
            ensures { result ≡ n }
        { n }
        fn inner(n: u64) -> u64
            requires { n < 8 }
        { n }
    ";
    let all = [("asks", true), ("asks_last", true), ("asks_nothing", false)];
    assert_eq!(public_functions(text), all.map(|(name, requires)| found(name, None, requires)));
}

const OWNED: &str = "pub fn get(n: u64, m: u64) -> u64 ensures { result ≡ n } { n }\nfn inner() {}";
const EXPORTED: &str = r#"
    // The same.
    #[unsafe(no_mangle)]
    pub extern "C" fn get(
        n: u64,
        m: u64,
    ) -> u64
        ensures { result ≡ n }
    {
        low::get(n, m)
    }
"#;

/// What is wrong with an export after a change of a part of it.
fn export_faults_after(part: &str, other: &str) -> Vec<String> {
    assert!(EXPORTED.contains(part), "{part} is not in the export");
    export_faults(&EXPORTED.replace(part, other), "low", OWNED)
}

#[test]
fn an_export_that_differs_from_the_library_is_found() {
    let (other, more) = ("something else than that of low", "something else than to call that of low");
    assert_eq!(export_faults_after("The same.", "Nothing else."), [""; 0]);
    assert_eq!(export_faults_after("fn get", "fn inner"), ["inner: low has no such function"]);
    assert_eq!(export_faults_after("≡ n", "≡ m"), [format!("get: it says {other}")]);
    assert_eq!(export_faults_after("ensures {", "requires { n < 8 } ensures {"), [format!("get: it says {other}")]);
    assert_eq!(export_faults_after("m: u64", "m: u32"), [format!("get: it says {other}")]);
    assert_eq!(export_faults_after("(n, m)", "(m, n)"), [format!("get: it does {more}")]);
    assert_eq!(export_faults_after("low::get", "high::get"), [format!("get: it does {more}")]);
}

#[test]
fn a_method_is_cited_under_its_type() {
    let source = |module: &str, text: &str| Source { module: module.to_string(), text: text.to_string() };
    let sources = [
        source("", "pub fn root() {}"),
        source("step", "impl Pair { pub fn next(self) {} }"),
        source("types", "pub struct Pair { pub left: u64 }"),
    ];
    let cited: Vec<String> = functions_of("low", &sources).into_iter().map(|function| function.cited).collect();
    assert_eq!(cited, ["Rattle.low.proofs.root", "Rattle.low.proofs.types.Pair.next"]);
}

/// One function that asks, all that must be said of it, and the document.
const SOURCE: &str = "pub fn get(n: u64) -> u64 requires { n < 8 } ensures { result ≡ n } { n }";
const PROOFS: &str = "
-- What `get` promises.
use Rattle.promises.specs.Determined.{Determined}
use Rattle.low.proofs.field.get.Kinds as get-kinds
use Rattle.low.proofs.field.get.Reads as get-reads

pub get_determined :
    Determined get-kinds.ps get-kinds.r
      get-reads.Learnt
get_determined κs a = refl

pub get_met : (κs : Lfts 0) → get-reads.Asked κs (7, tt)
unfolding seven
get_met κs = omega arith
";
const DOCUMENT: &str = "
| Function | What its `requires` asks |
|---|---|
| `get` | a small number |
";

/// The faults after a change of a part of these texts into another.
fn faults_after(part: &str, other: &str) -> Vec<String> {
    assert!([SOURCE, PROOFS, DOCUMENT].iter().any(|text| text.contains(part)), "{part} is in none of the texts");
    let source = Source { module: "field".to_string(), text: SOURCE.replace(part, other) };
    let proofs = Proofs::of(&PROOFS.replace(part, other));
    faults(&functions_of("low", &[source]), &[proofs], &DOCUMENT.replace(part, other))
}

const UNDETERMINED: &str = "get: nothing states that it determines its reply";
const UNMET: &str = "get: nothing states that its `requires` can be met";

#[test]
fn what_is_said_in_full_has_no_fault() {
    assert_eq!(faults_after("a small number", "a number below 8"), [""; 0]);
    assert_eq!(faults_after("get_determined", "«get_determined»"), [""; 0]);
}

#[test]
fn a_function_that_nothing_is_stated_of_is_found() {
    let with_another = format!("{SOURCE} pub fn put() {{}}");
    assert_eq!(faults_after(SOURCE, &with_another), ["put: nothing states that it determines its reply"]);
    assert_eq!(faults_after("pub get_determined", "get_determined"), [UNDETERMINED]);
    assert_eq!(faults_after("pub get_determined", "-- pub get_determined"), [UNDETERMINED]);
    assert_eq!(faults_after("pub get_met", "{- pub get_met"), [UNMET]);
    assert_eq!(faults_after("| `get` |", "| get |"), ["get: the document does not say why it asks"]);
}

#[test]
fn a_statement_about_another_contract_is_found() {
    assert_eq!(faults_after("field.get.Kinds", "field.put.Kinds"), [UNDETERMINED]);
    assert_eq!(faults_after("field.get.Reads", "field.put.Reads"), [UNDETERMINED, UNMET]);
    assert_eq!(faults_after("low.proofs", "high.proofs"), [UNDETERMINED, UNMET]);
    assert_eq!(faults_after("get-reads.Learnt", "put-reads.Learnt"), [UNDETERMINED]);
    // What a function owes is not what a caller may rely on.
    assert_eq!(faults_after("get-reads.Learnt", "get-reads.Post"), [UNDETERMINED]);
    assert_eq!(faults_after("get-reads.Asked", "put-reads.Asked"), [UNMET]);
}

const CLAUSES: &str = "
use Rattle.low.specs.contracts.reader.next as next
use Rattle.promises.specs.ByClauses.{Stated, Plainly}
abbrev pub turn_clauses : Stated next.ended
turn_clauses 𝓤 𝓛 = next.clauses 𝓛
";
const BY_CLAUSES: &str = "
use prog.Routine.{Env}
use prog.Wired.{Wired}
use Rattle.low.proofs.reader.next as called
use Rattle.low.specs.contracts.reader.next as next
use Rattle.low.specs.contracts.reader.next as called-contract
use Rattle.promises.specs.ByClauses.{DeterminedBy, ReturnsBy}
use Rattle.promises.specs.ReaderSays.{turn_clauses, turn_says}

pub next_determined : DeterminedBy next.ended turn_clauses
next_determined = it

pub next_returns : (γ : Env) → Wired γ called.Symbol.code → ReturnsBy called-contract.ended turn_clauses (γ called.Symbol.name)
next_returns γ wired = it
";

/// Whether these say, after a change of a part of them, that a function of a reader determines its reply, and that it
/// returns.
fn said_by_clauses(part: &str, other: &str) -> (bool, bool) {
    assert!([CLAUSES, BY_CLAUSES].iter().any(|text| text.contains(part)), "{part} is in neither text");
    let source = Source { module: "reader".to_string(), text: "pub fn next() {}".to_string() };
    let mut function = functions_of("low", &[source]).remove(0);
    function.clauses = Proofs::of(&CLAUSES.replace(part, other)).clauses_of(&function);
    let proofs = Proofs::of(&BY_CLAUSES.replace(part, other));
    let said = Returned { theorem: "next_returns".to_string(), alias: "called".to_string() };
    (says_determined(&proofs, &function), says_returns(&proofs, &function, &said))
}

#[test]
fn what_is_said_by_clauses_is_of_the_function() {
    assert_eq!(said_by_clauses("= it", "= other"), (true, true));
    assert_eq!(said_by_clauses("= next.clauses 𝓛", "= other.clauses 𝓛"), (false, false));
    assert_eq!(said_by_clauses("contracts.reader.next as next", "contracts.reader.other as next"), (false, false));
    assert_eq!(said_by_clauses("ReaderSays.{turn_clauses, ", "ReaderSays.{"), (false, false));
    assert_eq!(said_by_clauses("DeterminedBy next.ended turn", "DeterminedBy next.ended other"), (false, true));
    assert_eq!(said_by_clauses("reader.next as called\n", "reader.other as called\n"), (true, false));
    assert_eq!(said_by_clauses("reader.next as called-", "reader.other as called-"), (true, false));
    assert_eq!(said_by_clauses("→ Wired γ called.Symbol.code →", "→ ⊥ →"), (true, false));
    assert_eq!(said_by_clauses("(γ called.Symbol.name)", "(γ other.Symbol.name)"), (true, false));
}

#[test]
fn another_statement_under_the_name_is_found() {
    assert_eq!(faults_after("Determined get-kinds.ps", "Undetermined get-kinds.ps"), [UNDETERMINED]);
    assert_eq!(faults_after("    Determined get-kinds.ps", "    ⊥ → Determined get-kinds.ps"), [UNDETERMINED]);
    assert_eq!(faults_after("get-reads.Learnt\n", "get-reads.Learnt → ⊥\n"), [UNDETERMINED]);
    let with_hypothesis = "module _ (never : ⊥) where\n  pub get_determined";
    assert_eq!(faults_after("pub get_determined", with_hypothesis), [UNDETERMINED]);
    assert_eq!(faults_after("promises.specs.Determined.{", "promises.specs.Other.{"), [UNDETERMINED]);
}

#[test]
fn what_is_said_of_no_function_is_found() {
    let gone = ["get_determined: it is about no function", "get_met: it is about no function"];
    let row = "get: the document's row is about no function";
    assert_eq!(faults_after(SOURCE, "fn get(n: u64) -> u64 { n }"), [gone[0], gone[1], row]);
    assert_eq!(faults_after(SOURCE, "pub fn get(n: u64) -> u64 { n }"), [gone[1], row]);
}

#[test]
fn an_exception_is_of_a_program_that_has_it() {
    let functions = public_functions("pub fn say(text: &[u8]) {}\npub fn loud(text: &[u8]) {}");
    let document = "| Excepted | What it prints |\n|---|---|\n| `say` | a text |\n| `gone` | nothing |\n";
    let faults = excepted_faults(&functions, document);
    assert_eq!(faults, ["loud: it is not excepted", "gone: no program has what is excepted"]);
}
