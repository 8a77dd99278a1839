//! The texts of the repository, and what stands in them: `use` items, functions with their contracts, declarations.

use std::collections::BTreeMap;
use std::fs;
use std::path::Path;

/// Texts by their paths from the root, without their comments.
#[derive(Clone)]
pub struct Tree(pub BTreeMap<String, String>);

impl Tree {
    /// The crates' code, definitions and proofs, the list and the guide.
    pub fn of_the_repository() -> Tree {
        let mut tree = Tree(BTreeMap::new());
        for file in ["believed.txt", "docs/GUIDE.md"] {
            tree.0.insert(file.to_string(), fs::read_to_string(root().join(file)).unwrap());
        }
        tree.add_folder("crates");
        tree
    }

    fn add_folder(&mut self, folder: &str) {
        for entry in fs::read_dir(root().join(folder)).unwrap() {
            let entry = entry.unwrap();
            let path = format!("{folder}/{}", entry.file_name().to_str().unwrap());
            if entry.file_type().unwrap().is_dir() {
                // What a check or a build left in `crates/NAME/out` is no text of the repository.
                if !(path.ends_with("/out") && path.matches('/').count() == 2) {
                    self.add_folder(&path);
                }
            } else if path.ends_with(".rt") || path.ends_with(".antt") {
                self.0.insert(path, fs::read_to_string(entry.path()).unwrap());
            }
        }
    }

    /// The text of a file without its comments, each of which goes to the end of its line; empty if there is none.
    pub fn text(&self, file: &str) -> String {
        let comment = if file.ends_with(".rt") { "//" } else { "--" };
        let whole = self.0.get(file).map_or("", String::as_str);
        whole.lines().map(|line| line.split(comment).next().unwrap().to_string() + "\n").collect()
    }

    /// The files below a folder with that ending.
    pub fn files(&self, folder: &str, ending: &str) -> Vec<String> {
        self.0
            .keys()
            .filter(|file| file.starts_with(&format!("{folder}/")) && file.ends_with(ending))
            .cloned()
            .collect()
    }

    pub fn has_functions(&self, krate: &str) -> bool {
        self.files(&format!("crates/{krate}/src"), ".rt").iter().any(|file| !functions(&self.text(file)).is_empty())
    }

    /// The file that a module path names: `Rattle.format.specs.Reading.Reading` is `crates/format/specs/Reading.antt`,
    /// and what is `declared` stands in the code. None where the path names no definitions of the repository.
    pub fn file_of(&self, module: &str) -> Option<String> {
        let (krate, path) = module.strip_prefix("Rattle.")?.split_once(".specs.")?;
        if self.files(&format!("crates/{krate}/src"), ".rt").is_empty() {
            return None;
        }
        let parts: Vec<&str> = path.split('.').collect();
        if parts[0] == "declared" {
            let own = format!("crates/{krate}/src/{}.rt", parts[1]);
            return Some(if self.0.contains_key(&own) { own } else { format!("crates/{krate}/src/lib.rt") });
        }
        Some(format!("crates/{krate}/specs/{}.antt", parts[0]))
    }
}

fn root() -> std::path::PathBuf {
    Path::new(env!("CARGO_MANIFEST_DIR")).join("../..")
}

pub fn crate_of(file: &str) -> &str {
    file.split('/').nth(1).unwrap()
}

/// A name that a `use` item brings in, what it is called where it stands, and the module.
pub struct Use {
    pub name: String,
    pub original: String,
    pub module: String,
}

/// The names that the `use` items of a text bring in, passed on or not; a module that is named whole is one.
pub fn uses(text: &str) -> Vec<Use> {
    let mut found = Vec::new();
    for item in after_word(text, "use") {
        let line = &item[..item.find(['\n', ';']).unwrap_or(item.len())];
        let (module, names) = match line.split_once(".{") {
            Some((module, _)) => (module, &item[module.len() + 2..item.find('}').unwrap_or(item.len())]),
            None => line.split_once(" as ").map_or((line, line), |(module, _)| (module, line)),
        };
        for name in names.split(',').map(str::trim).filter(|name| !name.is_empty()) {
            let (original, name) = name.split_once(" as ").unwrap_or((name, name));
            let [name, original, module] = [name, original, module].map(|part| part.trim().to_string());
            found.push(Use { name, original, module });
        }
    }
    found
}

/// What follows each place where that word stands.
fn after_word<'a>(text: &'a str, word: &str) -> Vec<&'a str> {
    let named = |c: char| c.is_alphanumeric() || "_-.'".contains(c);
    let places = text.match_indices(word).filter(|(at, _)| !text[..*at].ends_with(named));
    places.map(|(at, _)| &text[at + word.len()..]).filter(|rest| rest.starts_with(char::is_whitespace)).collect()
}

pub struct Function {
    pub name: String,
    pub exported: bool,
    pub parameters: Vec<(String, String)>,
    pub result: String,
    pub clauses: Vec<Clause>,
}

/// A clause of a contract: its first word, and what stands in its braces.
pub struct Clause {
    pub word: String,
    pub says: String,
}

/// The functions of a text of code, each with its contract.
pub fn functions(text: &str) -> Vec<Function> {
    after_word(text, "fn").into_iter().map(|rest| function(&text[..text.len() - rest.len() - 2], rest)).collect()
}

const CLAUSES: [&str; 3] = ["ghost", "requires", "ensures"];

fn function(before: &str, rest: &str) -> Function {
    let open = rest.find('(').unwrap();
    let name = rest[..open].split('<').next().unwrap().trim().to_string();
    let close = open + closing(&rest[open..]);
    let parameters = parts(&rest[open + 1..close]).iter().filter_map(|p| p.split_once(':')).map(trimmed).collect();
    let exported = before.trim_end().ends_with("extern \"C\"");
    let mut rest = &rest[close + 1..];
    let (mut result, mut clauses) = (None, Vec::new());
    while let Some(brace) = rest.find('{') {
        let words: Vec<&str> = rest[..brace].split_whitespace().collect();
        let at = words.iter().position(|word| CLAUSES.contains(word));
        result.get_or_insert(words[..at.unwrap_or(words.len())].join(" "));
        let Some(at) = at else { break };
        let end = brace + closing(&rest[brace..]);
        clauses.push(Clause { word: words[at].to_string(), says: spaced(&rest[brace + 1..end]) });
        rest = &rest[end + 1..];
    }
    Function { name, exported, parameters, result: result.unwrap_or_default(), clauses }
}

/// The words of a text, with one space between them.
fn spaced(text: &str) -> String {
    text.split_whitespace().collect::<Vec<_>>().join(" ")
}

fn trimmed((name, of): (&str, &str)) -> (String, String) {
    (name.trim().to_string(), of.trim().to_string())
}

/// Where the bracket that opens a text is closed.
pub fn closing(text: &str) -> usize {
    let mut depth = 0;
    for (at, c) in text.char_indices() {
        depth += i32::from("({[".contains(c)) - i32::from(")}]".contains(c));
        if depth == 0 {
            return at;
        }
    }
    panic!("a bracket is not closed: {text}")
}

/// The parts of a text between the commas that stand in no bracket.
fn parts(text: &str) -> Vec<&str> {
    let (mut depth, mut start, mut found) = (0, 0, Vec::new());
    for (at, c) in text.char_indices() {
        depth += i32::from("({[<".contains(c)) - i32::from(")}]>".contains(c));
        if c == ',' && depth == 0 {
            found.push(&text[start..at]);
            start = at + 1;
        }
    }
    found.push(&text[start..]);
    found
}
