//! What a reader must believe, computed: the definitions of `crates/*/specs` that the public promises, `Delivered`, `Printed` and `AsBefore` reach.
//! `docs/BELIEVED.md` is the output and `README.md` cites its sums; `BELIEVED=write cargo test --test believed` writes both anew.

use std::collections::{BTreeMap, BTreeSet};
use std::fs;
use std::path::{Path, PathBuf};

/// What a definition is.
#[derive(Clone, Copy, PartialEq, Eq, PartialOrd, Ord, Debug)]
enum Kind {
    /// A record or a choice of values, such as a job; a constant.
    Data,
    /// A function that could be run.
    Computing,
    /// A proposition, or a record of propositions.
    Stated,
}

/// A definition of a file under `specs/`.
struct Definition {
    kind: Kind,
    lines: usize,
    /// What its text names, comments left out.
    words: BTreeSet<String>,
}

/// A file under `specs/`: its definitions, and what its names mean that come from elsewhere.
#[derive(Default)]
struct File {
    definitions: BTreeMap<String, Definition>,
    /// A constructor, and the choice that it belongs to.
    constructors: BTreeMap<String, String>,
    /// An imported name: its module and its name there.
    imports: BTreeMap<String, (String, String)>,
    /// Another name of a module.
    aliases: BTreeMap<String, String>,
}

impl File {
    /// Whether it declares or imports this name.
    fn has(&self, name: &str) -> bool {
        self.definitions.contains_key(name) || self.constructors.contains_key(name) || self.imports.contains_key(name)
    }
}

fn root() -> PathBuf {
    Path::new(env!("CARGO_MANIFEST_DIR")).join("..")
}

fn is_word(c: char) -> bool {
    c.is_alphanumeric() || "-_'·«»′.".contains(c)
}

/// The words of a text.
fn words(text: &str) -> BTreeSet<String> {
    text.split(|c: char| !is_word(c))
        .map(|w| w.trim_end_matches('.').to_string())
        .filter(|w| !w.is_empty() && !w.starts_with('.'))
        .collect()
}

/// A line without its comment.
fn code(line: &str) -> &str {
    match line.find("--") {
        Some(at) if at == 0 || line[..at].ends_with(' ') => &line[..at],
        _ => line,
    }
}

/// The module that an import names, as `crate/File`; one of structs and enums of the code as `crate::Name`. None where it is the kit's.
fn module(path: &str) -> Option<String> {
    let rest = path.strip_prefix("Rattle.")?;
    let (name, inside) = rest.split_once('.').filter(|(name, _)| root().join("crates").join(name).is_dir())?;
    let inside = inside.trim_start_matches("specs.");
    match inside.strip_prefix("declared.") {
        Some(own) => Some(format!("{name}::{}", own.trim_end_matches(".TheVariants").replace('.', "::"))),
        None => Some(format!("{name}/{inside}")),
    }
}

/// An import of a file, put down.
fn import(file: &mut File, line: &str) {
    let line = line.trim_start_matches("pub ").trim_start_matches("ghost ").trim_start_matches("use ").trim_end_matches(';').trim();
    if let Some((path, alias)) = line.split_once(" as ").filter(|(path, _)| !path.contains('{')) {
        if let Some(from) = module(path) {
            file.aliases.insert(alias.trim().to_string(), from);
        }
    } else if let Some((path, names)) = line.split_once(".{") {
        if let Some(from) = module(path) {
            for name in names.trim_end_matches('}').split(',').map(str::trim) {
                let (there, here) = name.split_once(" as ").unwrap_or((name, name));
                file.imports.insert(here.to_string(), (from.clone(), there.to_string()));
            }
        }
    }
}

/// The name that a line declares, and whether it is a record's or a choice's.
fn declared(line: &str) -> Option<(String, bool)> {
    let mut text = line.trim_start();
    let (mut marked, mut whole) = (false, false);
    for word in ["unfoldable ", "abbrev ", "pub ", "record ", "data "] {
        if let Some(rest) = text.strip_prefix(word) {
            marked |= word != "pub ";
            whole |= word == "record " || word == "data ";
            text = rest;
        }
    }
    let name: String = text.chars().take_while(|c| is_word(*c)).collect();
    let typed = text[name.len()..].trim_start();
    let heads = whole || (marked && typed.starts_with(':'));
    (heads && !name.is_empty()).then_some((name, whole))
}

/// A head without parameters that are types, such as `(A : Type 0)`.
fn without_types(head: &str) -> String {
    let mut rest = head.to_string();
    while let Some(end) = rest.find(" : Type 0)").or_else(|| rest.find(" : Type 0}")) {
        let start = rest[..end].rfind(['(', '{']).unwrap_or(end);
        rest.replace_range(start..end + " : Type 0)".len(), "");
    }
    rest
}

/// The kind of a definition, by its head: what stands before its first clause or its first field.
fn kind(head: &str, whole: bool) -> Kind {
    let head = without_types(head.trim().trim_end_matches("where").trim());
    let (name, sort) = head.split_once(':').unwrap_or((&head, ""));
    let proposition = sort.trim_end().ends_with("Type 0") || sort.trim_end().ends_with("Type 1");
    let of_types = sort.replace("Type 0 → Type 0", "Type 0");
    let plain = !of_types.contains('→') && !of_types.contains('(') && !(whole && (name.contains('(') || name.contains('{')));
    match (plain, proposition) {
        (true, _) => Kind::Data,
        (false, true) => Kind::Stated,
        (false, false) => Kind::Computing,
    }
}

/// How far a line is indented.
fn depth(line: &str) -> usize {
    line.len() - line.trim_start().len()
}

/// The lines of the definition that the first of these begins: to the next declaration, or to where a module begins or the indentation falls.
fn body<'a>(lines: &[&'a str]) -> Vec<&'a str> {
    let indent = depth(lines[0]);
    let ends = |line: &str| {
        let outside = depth(line) < indent || declared(line).is_some() || line.trim_start().starts_with("module ");
        !line.is_empty() && depth(line) <= indent && outside
    };
    let rest = lines[1..].iter().copied().take_while(|line| !ends(line));
    std::iter::once(lines[0]).chain(rest).collect()
}

/// The definition of this name that has these lines.
fn definition(name: &str, whole: bool, body: &[&str]) -> Definition {
    let clause = |line: &&str| {
        let rest = line.trim_start().strip_prefix(name);
        rest.is_some_and(|rest| !rest.trim_start().starts_with(':'))
    };
    let head: Vec<&str> = if whole { vec![body[0]] } else { body.iter().copied().take_while(|line| !clause(line)).collect() };
    let lines = body.iter().filter(|line| !line.is_empty()).count();
    Definition { kind: kind(&head.join(" "), whole), lines, words: words(&body.join(" ")) }
}

/// A file's text taken apart.
fn parsed(text: &str) -> File {
    let mut file = File::default();
    let lines: Vec<&str> = text.lines().map(|line| code(line).trim_end()).collect();
    for (at, line) in lines.iter().enumerate() {
        if line.starts_with("use ") || line.starts_with("pub use ") {
            import(&mut file, line);
        } else if let Some((name, whole)) = declared(line) {
            let body = body(&lines[at..]);
            let fields = body[1..].iter().filter(|_| whole).filter_map(|line| line.trim_start().split_once(" : "));
            for (constructor, _) in fields.filter(|(constructor, _)| !constructor.contains(' ')) {
                file.constructors.insert(constructor.to_string(), name.clone());
            }
            file.definitions.insert(name.clone(), definition(&name, whole, &body));
        }
    }
    file
}

/// Every file under `specs/`, by `crate/File`.
fn files() -> BTreeMap<String, File> {
    let mut found = BTreeMap::new();
    for entry in fs::read_dir(root().join("crates")).expect("crates") {
        let entry = entry.expect("a crate").path();
        let name = entry.file_name().expect("its name").to_string_lossy().to_string();
        let Ok(specs) = fs::read_dir(entry.join("specs")) else { continue };
        for spec in specs.map(|s| s.expect("a file").path()) {
            let stem = spec.file_stem().expect("its name").to_string_lossy().to_string();
            if stem != "Lib" && spec.extension().is_some_and(|e| e == "antt") {
                found.insert(format!("{name}/{stem}"), parsed(&fs::read_to_string(&spec).expect("a text")));
            }
        }
    }
    found
}

/// The records of promises beside those of the calls.
fn records() -> [(&'static str, &'static str); 6] {
    [
        ("delivered/Delivered", "Delivered"),
        ("planner_program/Printed", "Printed"),
        ("optimum_program/Printed", "Printed"),
        ("hall_program/Printed", "Printed"),
        ("judge_program/Printed", "Printed"),
        ("before_holders/AsBefore", "AsBefore"),
    ]
}

/// Where the promises begin: what the calls' contracts name, and the records beside them.
fn begin() -> Vec<(String, String)> {
    let mut calls = File::default();
    let text = fs::read_to_string(root().join("crates/juzvarola/src/lib.rt")).expect("the calls");
    text.lines().filter(|line| line.starts_with("ghost use ")).for_each(|line| import(&mut calls, line));
    let mut from: Vec<(String, String)> = calls.imports.into_values().collect();
    from.extend(records().map(|(file, name)| (file.to_string(), name.to_string())));
    from
}

/// What is reached: definitions by file, and structs and enums of the code.
fn reached(files: &BTreeMap<String, File>) -> (BTreeSet<(String, String)>, BTreeSet<String>) {
    let (mut found, mut code) = (BTreeSet::new(), BTreeSet::new());
    let mut open = begin();
    while let Some((at, name)) = open.pop() {
        if at.contains("::") {
            code.insert(at);
            continue;
        }
        let file = files.get(&at).unwrap_or_else(|| panic!("no file {at}, where {name} should stand"));
        if let Some(definition) = file.definitions.get(&name) {
            if !found.insert((at.clone(), name.clone())) {
                continue;
            }
            for word in &definition.words {
                // A word of another module by its alias, or a value and its fields.
                let (first, second) = word.split_once('.').map_or((word.as_str(), None), |(first, rest)| (first, rest.split('.').next()));
                let from = file.aliases.get(first).and_then(|from| files.get_key_value(from));
                if let Some((from, word)) =
                    from.zip(second).filter(|((_, there), word)| there.has(word)).map(|((from, _), word)| (from, word))
                {
                    open.push((from.clone(), word.to_string()));
                } else if file.has(first) {
                    open.push((at.clone(), first.to_string()));
                }
            }
        } else if let Some(choice) = file.constructors.get(&name) {
            open.push((at.clone(), choice.clone()));
        } else if let Some((from, there)) = file.imports.get(&name) {
            open.push((from.clone(), there.clone()));
        } else {
            panic!("{at} has no {name}");
        }
    }
    (found, code)
}

/// Definitions and their lines, by kind.
type Sums = BTreeMap<Kind, (usize, usize)>;

fn shown(sums: &Sums, kind: Kind) -> String {
    match sums.get(&kind) {
        Some((count, lines)) => format!("{count} ({lines})"),
        None => String::new(),
    }
}

/// The sentence that README cites.
fn sentence(count: usize, sums: &Sums) -> String {
    let of = |kind| sums.get(&kind).copied().unwrap_or_default();
    let (stated, computing, data) = (of(Kind::Stated), of(Kind::Computing), of(Kind::Data));
    format!(
        "{count} files: {} statements in {} lines, {} computing definitions in {} lines, {} data and constants in {} lines",
        stated.0, stated.1, computing.0, computing.1, data.0, data.1
    )
}

/// `docs/BELIEVED.md`, and its sentence.
fn page() -> (String, String) {
    let files = files();
    let (found, code) = reached(&files);
    let mut table: BTreeMap<&str, (Sums, Vec<String>)> = BTreeMap::new();
    let mut sums = Sums::new();
    for (at, name) in &found {
        let definition = &files[at].definitions[name];
        let kind = if records().contains(&(at.as_str(), name.as_str())) { Kind::Stated } else { definition.kind };
        let row = table.entry(at).or_default();
        for sum in [&mut row.0, &mut sums] {
            let place = sum.entry(kind).or_default();
            place.0 += 1;
            place.1 += definition.lines;
        }
        if kind == Kind::Stated {
            row.1.push(format!("`{name}`"));
        }
    }
    let sentence = sentence(table.len(), &sums);
    let mut text = String::from("# What must be believed\n\n");
    text += "Computed by `host/tests/believed.rs`, which holds this page: the definitions under `crates/*/specs` that the contracts of the calls, `Delivered`, each `Printed` and `AsBefore` reach, by name. ";
    text += "A *statement* is a proposition; a *computing* definition could be run, and many of them are told by a statement beside them; *data* are records and choices of values, and constants, the worked cases among them. Lines are those of the definitions, without comments. Everything else in the repository is checked.\n\n";
    text += &format!("{sentence}.\n\n");
    text += "| file | statements (lines) | computing (lines) | data (lines) | which statements |\n|---|---|---|---|---|\n";
    for (at, (row, names)) in &table {
        text += &format!(
            "| `{at}` | {} | {} | {} | {} |\n",
            shown(row, Kind::Stated),
            shown(row, Kind::Computing),
            shown(row, Kind::Data),
            names.join(", ")
        );
    }
    text += "\nOf the code, as it stands: ";
    text += &code.iter().map(|c| format!("`{c}`")).collect::<Vec<_>>().join(", ");
    text += ".\n";
    (text, sentence)
}

/// README with the sums in their place.
fn cited(readme: &str, sentence: &str) -> String {
    let at = readme.find(" data and constants in ").expect("the sums in README.md");
    let start = readme[..at].rfind('(').expect("where they begin") + 1;
    let end = at + readme[at..].find(')').expect("where they end");
    format!("{}{sentence}{}", &readme[..start], &readme[end..])
}

/// The page is what is computed, and README cites its sums.
#[test]
fn what_must_be_believed_is_listed() {
    let (text, sentence) = page();
    let (page, readme) = (root().join("docs/BELIEVED.md"), root().join("README.md"));
    let read = |path: &Path| fs::read_to_string(path).expect("a document");
    if std::env::var("BELIEVED").is_ok_and(|v| v == "write") {
        fs::write(&page, &text).expect("docs/BELIEVED.md");
        fs::write(&readme, cited(&read(&readme), &sentence)).expect("README.md");
    }
    assert!(read(&page) == text, "docs/BELIEVED.md is not what is computed: run with BELIEVED=write");
    assert!(read(&readme).contains(&sentence), "README.md does not say: {sentence}");
}

/// Each field of `Delivered` has its row in docs/PROMISES.md, and each row its field.
#[test]
fn promises_are_read_off_the_record() {
    let record = fs::read_to_string(root().join("crates/delivered/specs/Delivered.antt")).expect("the record");
    let fields: Vec<&str> = record.lines().filter_map(|line| line.strip_prefix("  pub ")?.split_once(" :")).map(|(name, _)| name).collect();
    let promises = fs::read_to_string(root().join("docs/PROMISES.md")).expect("docs/PROMISES.md");
    let row = |line: &str| Some(line.strip_prefix("| `")?.split_once('`')?.0.to_string());
    let section = promises.split("## The record").nth(1).expect("the section of the record").split("\n## ").next().unwrap_or_default();
    let rows: Vec<String> = section.lines().filter_map(row).collect();
    assert!(fields.len() > 20, "the record is not what it was");
    assert_eq!(fields, rows);
}
