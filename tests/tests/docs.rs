//! What the documents cite exists.
//!
//! A citation is a word between backticks without a space in it. The forms:
//!
//! - a path, with a slash: a file or folder, from the root or from some crate; what is built
//!   stands under `target/`;
//! - a file's name, with an ending: some file has it;
//! - `Holder`: `name`, `name`: each name stands in that file, which is a path or a file's name, or in a
//!   module of that name, up to the next full stop, semicolon or bar;
//! - after the word must-fail: names of edits, up to the next full stop or bar;
//! - behind the plain name of a crate: a name, a holder or an edit of that crate;
//! - any other name: some file of the crates or the tests has it, outside its comments, or it is the
//!   name of a module, a crate, a program or an edit.
//!
//! Blocks of code are left out, and so are docs/CHANGES.md and pages that begin with PORT, which speak of
//! what was. This file is not read: it has made-up names.

use std::collections::{HashMap, HashSet};
use std::fs;
use std::path::{Path, PathBuf};
use std::sync::OnceLock;

const ROOT: &str = concat!(env!("CARGO_MANIFEST_DIR"), "/..");

/// Words of the languages, the kit and the system that documents cite.
const OUTSIDE: &str = "";

/// The documents, from the root.
fn documents() -> Vec<PathBuf> {
    let mut found = vec![];
    for folder in ["", "docs", "examples"] {
        for entry in fs::read_dir(Path::new(ROOT).join(folder)).unwrap() {
            let path = Path::new(folder).join(entry.unwrap().file_name());
            let name = path.file_name().unwrap().to_string_lossy().into_owned();
            if name.ends_with(".md") && name != "CHANGES.md" && !name.starts_with("PORT") {
                found.push(path);
            }
        }
    }
    found
}

/// What the repository has.
struct Tree {
    /// The names in each file outside its comments, by the file's path from the root.
    names: HashMap<String, HashSet<String>>,
    every: HashSet<String>,
}

/// Whether a sign belongs to a name of the proofs; of Rust's names hyphen and apostrophe do not.
fn in_name(c: char) -> bool {
    c.is_alphanumeric() || "_-'".contains(c)
}

/// The names of a text, once with hyphens and apostrophes in them and once without.
fn names_of(text: &str) -> HashSet<String> {
    let code = text
        .lines()
        .filter(|line| !line.trim_start().starts_with("--") && !line.trim_start().starts_with("//"));
    let mut names = HashSet::new();
    for line in code {
        names.extend(line.split(|c| !in_name(c)).map(str::to_string));
        names.extend(line.split(|c: char| !c.is_alphanumeric() && c != '_').map(str::to_string));
    }
    names
}

impl Tree {
    /// The tree, read once.
    fn read() -> &'static Tree {
        static TREE: OnceLock<Tree> = OnceLock::new();
        TREE.get_or_init(Tree::new)
    }

    fn new() -> Tree {
        let mut tree = Tree { names: HashMap::new(), every: HashSet::new() };
        for folder in ["crates", "tests", "include", "tools", "examples", "docs", ".ci"] {
            tree.add(Path::new(ROOT), Path::new(folder));
        }
        for file in ["crates.txt", "README.md", "HACKING.md"] {
            tree.names.insert(file.to_string(), HashSet::new());
        }
        tree
    }

    fn add(&mut self, root: &Path, folder: &Path) {
        let Ok(entries) = fs::read_dir(root.join(folder)) else { return };
        for entry in entries {
            let path = folder.join(entry.unwrap().file_name());
            // what is built, and what the prover keeps
            if path.ends_with("tests/target") || path.ends_with("out") {
                continue;
            }
            if path.ends_with("tests/docs.rs") {
                self.names.insert(path.to_string_lossy().into_owned(), HashSet::new());
                continue;
            }
            if root.join(&path).is_dir() {
                self.every.insert(path.file_name().unwrap().to_string_lossy().into_owned());
                self.add(root, &path);
                continue;
            }
            let stem = path.file_stem().unwrap().to_string_lossy().into_owned();
            let names = match path.extension().and_then(|end| end.to_str()) {
                Some("antt" | "rt" | "rs" | "h" | "c" | "py" | "sh") => {
                    names_of(&fs::read_to_string(root.join(&path)).unwrap())
                }
                _ => HashSet::new(),
            };
            self.every.extend(names.iter().cloned());
            self.every.insert(stem);
            self.names.insert(path.to_string_lossy().into_owned(), names);
        }
    }

    /// The files that a holder can be: those with this path, this name, or a module with this name, in this folder.
    fn holders(&self, folder: &str, word: &str) -> Vec<&HashSet<String>> {
        let word = if is_file(word) { word.to_string() } else { word.replace('.', "/") };
        let ends = [format!("/{word}"), format!("/{word}.antt")];
        let fits = |path: &str| path == word || ends.iter().any(|end| path.ends_with(end.as_str()));
        let within = self.names.iter().filter(|(path, _)| path.starts_with(folder) && fits(path));
        within.map(|(_, names)| names).collect()
    }

    /// The folder of the crate whose name a text ends with, if it does; else that of everything.
    fn folder_behind(&self, text: &str) -> String {
        let word = text.trim_end().rsplit([' ', '(']).next().unwrap();
        let folder = format!("crates/{word}/");
        let has = |file: &str| self.names.contains_key(&format!("{folder}src/{file}"));
        let is_crate = has("lib.rt") || has("main.rt");
        if is_crate && text.ends_with(' ') {
            folder
        } else {
            String::new()
        }
    }

    fn has_path(&self, path: &str) -> bool {
        let path = path.trim_end_matches('/').split('*').next().unwrap().trim_end_matches('/');
        let starts = path.starts_with('/')
            || path == "target"
            || path.starts_with("target/")
            || path.starts_with("tests/target/");
        let inside = |file: &String| {
            *file == path
                || file.starts_with(&format!("{path}/"))
                || file.ends_with(&format!("/{path}"))
                || file.contains(&format!("/{path}/"))
        };
        starts || self.names.keys().any(inside)
    }

    fn has_file(&self, name: &str) -> bool {
        self.names.keys().any(|path| path == name || path.ends_with(&format!("/{name}")))
    }

    fn has_edit(&self, folder: &str, name: &str) -> bool {
        let end = format!("/must-fail/{name}.edit");
        self.names.keys().any(|path| path.starts_with(folder) && path.ends_with(&end))
    }

    fn has_name(&self, folder: &str, name: &str) -> bool {
        if !folder.is_empty() {
            let stem = |path: &String| Path::new(path).file_stem().is_some_and(|stem| stem == name);
            let has = |(path, names): (&String, &HashSet<String>)| {
                path.starts_with(folder) && (names.contains(name) || stem(path))
            };
            return self.names.iter().any(has);
        }
        self.every.contains(name) || OUTSIDE.split(' ').any(|word| word == name)
    }
}

/// Whether a word has the form of a file's name.
fn is_file(word: &str) -> bool {
    let endings =
        ["antt", "rt", "rs", "md", "txt", "h", "c", "py", "sh", "plan", "choices", "log", "edit", "a"];
    word.rsplit_once('.').is_some_and(|(stem, end)| !stem.is_empty() && endings.contains(&end))
}

/// Whether a word has the form of a name, or of names joined by points or double colons.
fn is_name(word: &str) -> bool {
    word.starts_with(|c: char| c.is_alphabetic() || c == '_')
        && word.chars().all(|c| in_name(c) || ".:".contains(c))
        && word.chars().any(|c| c.is_alphabetic())
}

/// Where the names that follow have to stand.
enum Held {
    Anywhere,
    In(String, String),
    Edits,
}

/// What one line cites and the tree has not.
fn faults_of(tree: &Tree, line: &str) -> Vec<String> {
    let parts: Vec<&str> = line.split('`').collect();
    let (mut held, mut faults) = (Held::Anywhere, vec![]);
    for (i, part) in parts.iter().enumerate() {
        if i % 2 == 0 {
            let ends = |signs: &str| part.contains(|c| signs.contains(c));
            if matches!(held, Held::Edits) && ends("|.") || matches!(held, Held::In(..)) && ends("|;.") {
                held = Held::Anywhere;
            }
            if part.contains("must-fail") {
                held = Held::Edits;
            }
            continue;
        }
        let words: Vec<&str> = part.split(' ').collect();
        let folder = tree.folder_behind(parts[i - 1]);
        let holds = parts.get(i + 1).is_some_and(|next| next.starts_with(':'));
        let each = |word: &str, found: &dyn Fn(&str) -> bool| {
            word.split(['.', ':']).all(|name| name.is_empty() || found(name))
        };
        let found = |word: &str| match &held {
            _ if word.contains('/') => tree.has_path(word),
            _ if is_file(word) => tree.has_file(word),
            _ if !is_name(word) => true,
            Held::Edits => tree.has_edit(&folder, word),
            Held::In(of, holder) if !holds => {
                tree.holders(of, holder).iter().any(|names| each(word, &|name| names.contains(name)))
            }
            _ => each(word, &|name| tree.has_name(&folder, name)),
        };
        let is_cited =
            |word: &&&str| words.len() == 1 || word.contains('/') && word.contains(char::is_alphabetic);
        faults.extend(words.iter().filter(is_cited).filter(|word| !found(word)).map(|word| word.to_string()));
        if holds && words.len() == 1 && !tree.holders(&folder, part).is_empty() {
            held = Held::In(folder, part.to_string());
        }
    }
    faults
}

/// What a document cites and the tree has not, with the line.
fn faults(tree: &Tree, text: &str) -> Vec<String> {
    let (mut found, mut code) = (vec![], false);
    for (n, line) in text.lines().enumerate() {
        if line.trim_start().starts_with("```") {
            code = !code;
        } else if !code && !line.starts_with("    ") {
            found.extend(faults_of(tree, line).iter().map(|word| format!("line {}: {word}", n + 1)));
        }
    }
    found
}

#[test]
fn what_is_cited_exists() {
    let tree = Tree::read();
    let mut found = vec![];
    for path in documents() {
        let text = fs::read_to_string(Path::new(ROOT).join(&path)).unwrap();
        found.extend(faults(tree, &text).iter().map(|fault| format!("{}, {fault}", path.display())));
    }
    assert!(found.is_empty(), "cited and not there:\n{}", found.join("\n"));
}

/// docs/READING.md lists every file of definitions that must be believed.
#[test]
fn every_definition_is_in_the_reading_order() {
    let text = fs::read_to_string(Path::new(ROOT).join("docs/READING.md")).unwrap();
    let tree = Tree::read();
    let believed =
        |path: &&String| path.contains("/specs/") && !path.contains("/Inner") && !path.ends_with("/Lib.antt");
    let mut left: Vec<&String> =
        tree.names.keys().filter(believed).filter(|path| !text.contains(path.as_str())).collect();
    left.sort();
    assert!(left.is_empty(), "not listed: {left:?}");
}

#[test]
fn what_does_not_exist_is_found() {
    let tree = Tree::read();
    let found = |text: &str| faults(tree, text).len();
    assert_eq!(found("`crates/model/specs/Sides.antt`: `Layout`; model `Sides`: `Layout`, `cell_count`; `open.rs`: `places`; must-fail `start_on_card`"), 0);
    assert_eq!(found("`crates/model/specs/Nowhere.antt` and `crates/none/`"), 2);
    assert_eq!(found("`Nowhere.antt`, `no_such_name`, `no-such-name`"), 3);
    assert_eq!(found("`Sides`: `Layout`, `covers`; `covers`"), 1);
    assert_eq!(found("`open.rs`: `no_such_test`"), 1);
    assert_eq!(found("must-fail frame `header_of_three`, `start`"), 1);
    assert_eq!(
        found("must-fail format `header_of_three`; format `open`, view `memory_view`, view `open`"),
        4
    );
    assert_eq!(found("format `Views`: `body_part`; view `Views`: `body_part`"), 1);
    assert_eq!(found("`2 18 0 0`, `rt check`, `target/bin/plancheck < examples/none.plan`"), 1);
    assert_eq!(found("```\n`no_such_name`\n```\n    `no_such_name`"), 0);
}
