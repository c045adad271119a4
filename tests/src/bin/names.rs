//! Holds the documents to the repository: what they name in backticks, a file, a folder, a definition, a theorem or a function, has to
//! stand there. So a promise cannot rest on a theorem that is gone or has another name. It does not show that the theorem says what the
//! document says of it. Notes of landings and the pages on the port to today's toolchain and on the design pass are left out, since they
//! tell of names as these were.
use std::collections::{HashMap, HashSet};
use std::fs;
use std::path::Path;
use std::process::exit;

/// Besides the pages in `docs/`.
const DOCUMENTS: [&str; 3] = ["README.md", "CONTRIBUTING.md", "CHANGELOG.md"];
/// What was renamed, moved or left out when the repository was brought to today's toolchain, and then to today's forms.
const PASSES: [&str; 2] = ["docs/PORT.md", "docs/DESIGN-PASS.md"];
const FOLDERS: [&str; 9] = [".cargo", ".ci", "bench", "command", "crates", "docs", "examples", "package", "tests"];

/// What stands in the repository: the words of all files, the words of each file by its path, and every part of every path.
#[derive(Default)]
struct Repository {
    words: HashSet<String>,
    words_of: HashMap<String, HashSet<String>>,
    paths: HashSet<String>,
}

fn is_word_character(c: char) -> bool {
    c.is_alphanumeric() || "_-′·".contains(c)
}

fn words_in(text: &str) -> HashSet<String> {
    text.split(|c| !is_word_character(c)).map(|word| word.trim_matches('-').to_string()).collect()
}

/// The path without the ending of its last part.
fn stem(path: &str) -> String {
    let (folder, name) = path.rsplit_once('/').unwrap_or(("", path));
    let name = name.split('.').next().unwrap_or(name);
    if folder.is_empty() { name.to_string() } else { format!("{folder}/{name}") }
}

impl Repository {
    fn add_path(&mut self, path: &str) {
        let parts: Vec<&str> = path.split('/').collect();
        for first in 0..parts.len() {
            for end in first + 1..=parts.len() {
                let part = parts[first..end].join("/");
                self.paths.insert(stem(&part));
                self.paths.insert(part);
            }
        }
    }

    fn add_file(&mut self, path: &str) {
        self.add_path(path);
        // The documents are what is held: a name that stands in them alone stands nowhere.
        if path.ends_with(".md") {
            return;
        }
        let words = words_in(&String::from_utf8_lossy(&fs::read(path).expect("a file of the repository")));
        self.words.extend(words.iter().cloned());
        self.words_of.insert(path.to_string(), words);
    }

    fn add_folder(&mut self, folder: &Path) {
        for entry in fs::read_dir(folder).expect("a folder of the repository") {
            let path = entry.expect("an entry of a folder").path();
            // What the prover keeps of a crate is no part of the repository.
            if path.file_name().is_some_and(|name| name == "out") {
                continue;
            }
            if path.is_dir() {
                self.add_folder(&path);
            } else {
                self.add_file(path.to_str().expect("a path in UTF-8"));
            }
        }
    }

    fn has(&self, word: &str) -> bool {
        self.words.contains(word) || self.paths.contains(word)
    }

    /// Whether some file at this path, or in a folder there, has the word, under whatever folders and with whatever ending.
    fn has_in(&self, path: &str, word: &str) -> bool {
        let part = format!("/{path}/");
        self.words_of.iter().any(|(file, words)| format!("/{}/", stem(file)).contains(&part) && words.contains(word))
    }

    /// What of a name without folders is not there: `File.name`, `crate::module::function`, or a word.
    fn missing_words(&self, name: &str) -> Option<String> {
        let parts: Vec<&str> = name.split(['.', ':']).filter(|part| !part.is_empty()).collect();
        let stands = match parts[..] {
            [file, word] if name.contains('.') => self.paths.contains(name) || !self.paths.contains(file) || self.has_in(file, word),
            [krate, module, function] if name.contains("::") => self.has_in(&format!("{krate}/src/{module}"), function),
            // a crate's or a module's function; of a type and its case only the words are looked for
            [above, function] if name.contains("::") && above.starts_with(char::is_lowercase) => {
                self.has_in(&format!("{above}/src"), function) || self.has_in(&format!("src/{above}"), function)
            }
            _ => true,
        };
        let word = parts.into_iter().find(|part| !self.has(part));
        word.map(str::to_string).or(if stands { None } else { Some(name.to_string()) })
    }

    /// What of a name is not there, if anything.
    fn missing(&self, name: &str) -> Option<String> {
        let name = name.trim_end_matches('/');
        let Some((folder, last)) = name.rsplit_once('/') else {
            return self.missing_words(name);
        };
        if self.paths.contains(name) {
            return None;
        }
        let (file, inside) = last.split_once('.').unwrap_or((last, ""));
        let path = format!("{folder}/{file}");
        if !self.paths.contains(&path) {
            return Some(path);
        }
        inside.split('.').find(|word| !word.is_empty() && !self.has_in(&path, word)).map(str::to_string)
    }
}

/// A name, in contrast to a command, an expression, a number or what a build writes.
fn is_name(span: &str) -> bool {
    span.chars().all(|c| is_word_character(c) || "./:".contains(c))
        && span.chars().any(char::is_alphabetic)
        && !span.contains("..")
        && !span.contains("NAME")
        && !span.starts_with('.')
        && !span.starts_with("target/")
}

/// The names in a document with the lines that they stand in: in backticks, outside of blocks.
fn names_in(text: &str) -> Vec<(usize, &str)> {
    let mut names = Vec::new();
    let mut in_block = false;
    for (number, line) in text.lines().enumerate() {
        if line.starts_with("```") {
            in_block = !in_block;
        }
        if !in_block {
            names.extend(line.split('`').skip(1).step_by(2).filter(|span| is_name(span)).map(|span| (number + 1, span)));
        }
    }
    names
}

fn documents() -> Vec<String> {
    let pages = fs::read_dir("docs").expect("a folder of the repository");
    let pages = pages.map(|page| page.expect("an entry of a folder").path().to_str().expect("a path in UTF-8").to_string());
    let named = DOCUMENTS.map(str::to_string).into_iter();
    named.chain(pages.filter(|page| page.ends_with(".md") && !PASSES.contains(&page.as_str()))).collect()
}

fn main() {
    let mut repository = Repository::default();
    for folder in FOLDERS {
        repository.add_folder(Path::new(folder));
    }
    for file in ["README.md", "CONTRIBUTING.md", "CHANGELOG.md", "Cargo.toml", "crates.txt"] {
        repository.add_file(file);
    }
    let mut held = 0;
    let mut gone = 0;
    for document in documents() {
        let text = fs::read_to_string(&document).expect("a document");
        for (line, name) in names_in(&text) {
            held += 1;
            if let Some(part) = repository.missing(name) {
                eprintln!("{document}:{line}: `{name}`: {part} does not stand in the repository");
                gone += 1;
            }
        }
    }
    if gone > 0 || held == 0 {
        eprintln!("{gone} of {held} names in the documents stand nowhere");
        exit(1);
    }
    println!("names in the documents: all {held} stand in the repository");
}
