//! The documents are held against the repository: what they name in code spans must exist, and
//! stand where they say. Every must-fail edit is cited, and every C function is promised.

use crate::common::repository::{library_functions, read, root};
use std::collections::{BTreeMap, BTreeSet};
use std::fs;
use std::path::Path;

const PROMISES: &str = "docs/PROMISES.md";
const DOCUMENTS: [&str; 4] = [
    "README.md",
    "docs/ARCHITECTURE.md",
    "docs/DECISIONS.md",
    PROMISES,
];

/// The code spans that name nothing in the repository. Each must be in use.
const LITERALS: [&str; 17] = [
    // Keys of records in examples.
    "a/b1",
    "a/b2",
    "a/.",
    "a/..",
    "a/...",
    "./a",
    "../a",
    // What stands before the name in the key of a state.
    "state/",
    // The two names that no key has, and the bytes beside letters and digits.
    ".",
    "..",
    ".-_:~",
    // The folders of a crate, in sentences about all crates.
    "src/",
    "specs/",
    "proofs/",
    "must-fail/",
    // Words of Rattle.
    "requires",
    "u32",
];

/// The code spans that are pieces of code, each with the file that must hold it.
const PIECES: [(&str, &str); 2] = [
    ("&mut out[own..]", "crates/writer/src/pages.rt"),
    ("&mut out[tail..]", "crates/writer/src/pages.rt"),
];

// ---- the repository

/// The files of the repository, by their paths from its root, and the names that they define.
struct Repository {
    files: BTreeMap<String, String>,
    names: BTreeMap<String, BTreeSet<String>>,
}

impl Repository {
    fn new(files: BTreeMap<String, String>) -> Repository {
        let names = files
            .iter()
            .map(|(path, text)| (path.clone(), names_in(path, text)))
            .collect();
        Repository { files, names }
    }

    fn load() -> Repository {
        let mut files = BTreeMap::new();
        for top in [".ci", "README.md", "crates", "docs", "rust"] {
            collect(&root(), top, &mut files);
        }
        Repository::new(files)
    }

    fn is_folder(&self, path: &str) -> bool {
        let inside = format!("{path}/");
        self.files.keys().any(|file| file.starts_with(&inside))
    }

    /// Gives the path from the root of what a document's path leads to, without a last slash. A
    /// path that ends with a slash must be a folder.
    fn resolve(&self, path: &str) -> Option<String> {
        let name = path.trim_end_matches('/');
        [name.to_string(), format!("crates/{name}")]
            .into_iter()
            .find(|found| self.is_folder(found) || (name == path && self.files.contains_key(found)))
    }

    /// Says whether the name is defined in the file, or in a file of the folder. In a folder of
    /// must-fail edits a name is an edit's label.
    fn defines(&self, place: &str, name: &str) -> bool {
        if place.ends_with("/must-fail") {
            return self.files.contains_key(&edit(place, name));
        }
        let inside = format!("{place}/");
        self.names.iter().any(|(path, names)| {
            (path == place || path.starts_with(&inside)) && names.contains(name)
        })
    }

    /// Says whether the name is defined anywhere: in code, as a crate, as an edit's label or as a
    /// benchmark.
    fn knows(&self, name: &str) -> bool {
        let labelled = edit("/must-fail", name);
        self.names.values().any(|names| names.contains(name))
            || self.is_folder(&format!("crates/{name}"))
            || self.files.keys().any(|path| path.ends_with(&labelled))
            || self.files.contains_key(&format!("rust/benches/{name}.rs"))
    }

    /// Gives the paths of all must-fail edits.
    fn edits(&self) -> BTreeSet<String> {
        let is_edit = |path: &&String| path.contains("/must-fail/") && path.ends_with(".edit");
        self.files.keys().filter(is_edit).cloned().collect()
    }
}

/// Gives the path of an edit from its folder and its label, which may have its ending.
fn edit(folder: &str, label: &str) -> String {
    format!("{folder}/{}.edit", label.trim_end_matches(".edit"))
}

/// Adds a file, or the files of a folder, by their paths from the root.
fn collect(root: &Path, path: &str, files: &mut BTreeMap<String, String>) {
    let place = root.join(path);
    if place.is_file() {
        let bytes = fs::read(&place).unwrap_or_else(|error| panic!("{path}: {error}"));
        let text = String::from_utf8_lossy(&bytes).into_owned();
        files.insert(path.to_string(), text);
        return;
    }
    for entry in fs::read_dir(&place).unwrap_or_else(|error| panic!("{path}: {error}")) {
        let name = entry.expect("an entry of the folder").file_name();
        let name = name.to_str().expect("a name in UTF-8");
        // Cargo builds in one of these and the checker in the other.
        if name != "target" && name != "out" {
            collect(root, &format!("{path}/{name}"), files);
        }
    }
}

// ---- names in files

fn names_in(path: &str, text: &str) -> BTreeSet<String> {
    match path.rsplit_once('.') {
        // The texts of the tests below name what is nowhere else.
        _ if path == "rust/tests/documents.rs" => BTreeSet::new(),
        Some((_, "antt")) => text.lines().filter_map(antt_name).collect(),
        Some((_, "rt" | "rs")) => code_names(text),
        _ => BTreeSet::new(),
    }
}

/// Gives the name that a line of antt declares: of a signature, a field or a constructor, which a
/// colon follows, or of a `data` or a `record`.
fn antt_name(line: &str) -> Option<String> {
    // Before the colon of a signature for types of every level stands `{κ}`.
    let mut words = line
        .split_whitespace()
        .skip_while(|word| ["abbrev", "unfoldable", "pub"].contains(word))
        .filter(|word| *word != "{κ}");
    let name = match (words.next()?, words.next()?) {
        ("record", "{") => return None,
        ("data" | "record", name) => name,
        (name, ":") => name,
        _ => return None,
    };
    Some(name.to_string())
}

/// Gives the names of the items and variants of a file of Rattle or Rust.
fn code_names(text: &str) -> BTreeSet<String> {
    let mut names = BTreeSet::new();
    let mut in_enum = false;
    for line in text.lines() {
        // Neither comments nor quoted texts declare.
        let line = line.split("//").next().unwrap_or_default();
        let line: String = line.split('"').step_by(2).collect();
        if in_enum {
            names.extend(variant(&line));
        }
        names.extend(items(&line));
        in_enum = (in_enum || is_enum(&line)) && line.trim() != "}";
    }
    names
}

fn is_enum(line: &str) -> bool {
    line.trim_start_matches("pub ").starts_with("enum ")
}

/// Gives the names that stand behind a word such as `fn`.
fn items(line: &str) -> Vec<String> {
    let kinds = ["fn", "struct", "enum", "const", "mod", "type"];
    let words: Vec<&str> = line.split_whitespace().collect();
    let pairs = words.windows(2).filter(|pair| kinds.contains(&pair[0]));
    pairs.filter_map(|pair| identifier(pair[1])).collect()
}

fn variant(line: &str) -> Option<String> {
    identifier(line.trim()).filter(|name| name.starts_with(char::is_uppercase))
}

/// Gives the identifier that the text begins with.
fn identifier(text: &str) -> Option<String> {
    let inside = |letter: char| letter.is_alphanumeric() || letter == '_';
    let name: String = text.chars().take_while(|letter| inside(*letter)).collect();
    Some(name).filter(|name| !name.is_empty())
}

// ---- blocks of a document

/// A code span: its line, what it says, and the text between it and the span before it.
struct Span {
    line: usize,
    text: String,
    before: String,
}

/// A heading, a paragraph, an item of a list or a cell of a table, with the text after its last
/// span.
struct Block {
    is_heading: bool,
    spans: Vec<Span>,
    after: String,
}

/// Gives the blocks of a document, without those of indented code.
fn blocks(document: &str) -> Vec<Block> {
    let mut blocks = Vec::new();
    let mut open: Vec<&str> = Vec::new();
    let mut in_code = false;
    for (line, text) in (1..).zip(document.lines()) {
        // Code is indented and follows an empty line; other indented lines go on with an item.
        in_code = text.starts_with("    ") && (in_code || open.is_empty());
        let is_row = text.starts_with('|');
        let stands_alone = text.is_empty() || is_row || text.starts_with('#');
        if !open.is_empty() && (stands_alone || is_item(text)) {
            blocks.push(block(line - open.len(), &open.join("\n")));
            open.clear();
        }
        if is_row {
            blocks.extend(text.split('|').map(|cell| block(line, cell.trim())));
        } else if stands_alone {
            blocks.push(block(line, text));
        } else if !in_code {
            open.push(text);
        }
    }
    if !open.is_empty() {
        let line = document.lines().count() + 1 - open.len();
        blocks.push(block(line, &open.join("\n")));
    }
    blocks
}

/// Says whether the line begins an item of a numbered list.
fn is_item(text: &str) -> bool {
    let rest = text.trim_start_matches(|letter: char| letter.is_ascii_digit());
    rest.len() < text.len() && rest.starts_with(". ")
}

/// Takes the text of a block apart, which begins on this line.
fn block(first: usize, text: &str) -> Block {
    let pieces: Vec<&str> = text.split('`').collect();
    assert!(pieces.len() % 2 == 1, "line {first}: a span is not closed");
    let mut line = first;
    let mut spans = Vec::new();
    for pair in pieces.chunks_exact(2) {
        line += pair[0].matches('\n').count();
        spans.push(Span {
            line,
            text: on_one_line(pair[1]),
            before: on_one_line(pair[0]),
        });
        line += pair[1].matches('\n').count();
    }
    Block {
        is_heading: text.starts_with('#'),
        spans,
        after: on_one_line(pieces[pieces.len() - 1]),
    }
}

/// Writes one space for each row of spaces and line ends.
fn on_one_line(text: &str) -> String {
    let mut line = String::new();
    for letter in text.chars() {
        if !letter.is_whitespace() {
            line.push(letter);
        } else if !line.ends_with(' ') {
            line.push(' ');
        }
    }
    line
}

// ---- where a document says that a name stands

#[derive(Clone, Debug, PartialEq)]
enum Place {
    /// In a file or a folder, by the path that the document has.
    In(String),
    /// Among the files of a crate's `specs/`.
    SpecsOf(String),
}

fn is_path(text: &str) -> bool {
    text.contains('/') && !LITERALS.contains(&text)
}

fn is_edits_folder(text: &str) -> bool {
    text.ends_with("/must-fail/")
}

impl Block {
    /// Gives the text behind a span.
    fn behind(&self, at: usize) -> &str {
        self.spans
            .get(at + 1)
            .map_or(&self.after, |next| &next.before)
    }

    fn is_name(&self, at: usize) -> bool {
        !is_path(&self.spans[at].text)
    }

    /// Gives the names of the list that ends before this span, from the last on.
    fn list_before(&self, at: usize) -> Vec<usize> {
        let separators = [", ", " and ", ", and "];
        let mut list = Vec::new();
        for name in (0..at).rev() {
            let goes_on = separators.contains(&self.spans[name + 1].before.as_str());
            if !self.is_name(name) || !(list.is_empty() || goes_on) {
                break;
            }
            list.push(name);
        }
        list
    }

    /// Gives the names of the list that follows this span after commas.
    fn list_behind(&self, at: usize) -> Vec<usize> {
        (at + 1..self.spans.len())
            .take_while(|name| self.spans[*name].before == ", " && self.is_name(*name))
            .collect()
    }

    /// Gives the names behind this span up to a semicolon, the sentence's end or another path.
    fn clause_behind(&self, at: usize) -> Vec<usize> {
        let ends = |text: &str| text.contains(';') || text.contains(". ");
        (at + 1..self.spans.len())
            .take_while(|name| !ends(&self.spans[*name].before) && self.is_name(*name))
            .collect()
    }

    /// Gives the names that the words before this span place there: "`x`, `y` in `here`", "`x` ..,
    /// `y` .., both in `here`", "`x` (`here`)".
    fn placed_before(&self, at: usize) -> Vec<usize> {
        let before = self.spans[at].before.as_str();
        let list = self.list_before(at);
        if before == " in " || before == " of " {
            list
        } else if before.ends_with(", both in ") {
            (at.saturating_sub(2)..at).collect()
        } else if before == " (" && self.behind(at).starts_with(')') {
            list.into_iter().take(1).collect()
        } else {
            Vec::new()
        }
    }

    /// Gives the names that the words behind this path place there: "`here`: `x`, `y`" of edits,
    /// "`crate/must-fail/x.edit`, `y.edit`", and "`here`, `x`" at the start of a cell.
    fn placed_behind(&self, at: usize) -> Vec<usize> {
        let Span { text, before, .. } = &self.spans[at];
        let behind = self.behind(at);
        if is_edits_folder(text) && (behind.starts_with(':') || behind.starts_with("):")) {
            self.clause_behind(at)
        } else if text.ends_with(".edit") || (before.is_empty() && is_path(text)) {
            self.list_behind(at)
        } else {
            Vec::new()
        }
    }

    /// Gives the place of each span, where the block has one for it.
    fn places(&self) -> Vec<Option<Place>> {
        let mut places = vec![None; self.spans.len()];
        for (at, span) in self.spans.iter().enumerate() {
            let path = match span.text.rsplit_once('/') {
                Some((folder, name)) if name.ends_with(".edit") => format!("{folder}/"),
                _ => span.text.clone(),
            };
            if is_path(&span.text) {
                for name in self.placed_behind(at) {
                    places[name] = Some(Place::In(path.clone()));
                }
            }
            // These words come closer to the name, so they overrule those before it.
            for name in self.placed_before(at) {
                places[name] = match span.before.as_str() {
                    " of " => Some(Place::SpecsOf(path.clone())),
                    _ if is_path(&span.text) => Some(Place::In(path.clone())),
                    _ => places[name].take(),
                };
            }
        }
        places
    }

    /// Says whether the words around an edits' folder cite all of its edits.
    fn cites_all(&self, at: usize) -> bool {
        let before = &self.spans[at].before;
        before.ends_with("one slip in each definition: ")
            || self.behind(at).starts_with(": one edit for each, ")
    }
}

// ---- the checks

/// Gives the two names of a record's field, as `Record .field`, or the one name.
fn parts(text: &str) -> impl Iterator<Item = &str> {
    text.split(" .")
}

fn is_hexadecimal(text: &str) -> bool {
    let is_digit = |letter: char| letter.is_ascii_digit() || ('A'..='F').contains(&letter);
    text.split(' ')
        .all(|byte| byte.len() == 2 && byte.chars().all(is_digit))
}

impl Repository {
    fn has_piece(&self, text: &str) -> bool {
        let holds = |path: &str| self.files.get(path).is_some_and(|file| file.contains(text));
        PIECES
            .iter()
            .any(|(piece, path)| *piece == text && holds(path))
    }

    /// Says whether a span without a place names something.
    fn accounts_for(&self, text: &str) -> bool {
        if is_path(text) {
            return self.resolve(text).is_some();
        }
        LITERALS.contains(&text)
            || is_hexadecimal(text)
            || self.has_piece(text)
            || parts(text).all(|name| self.knows(name))
    }

    /// Gives what is wrong with a span.
    fn fault(&self, text: &str, place: Option<&Place>) -> Option<String> {
        match place {
            None if self.accounts_for(text) => None,
            None => Some(format!("`{text}` is not in the repository")),
            Some(Place::SpecsOf(name)) => {
                let file = format!("crates/{name}/specs/{text}.antt");
                let missing = !self.files.contains_key(&file);
                missing.then(|| format!("`{text}` is no file of the specs of `{name}`"))
            }
            Some(Place::In(path)) => {
                // A path that leads nowhere is a fault of its own span.
                let place = self.resolve(path)?;
                let missing = !parts(text).all(|name| self.defines(&place, name));
                missing.then(|| format!("`{text}` is not in `{path}`"))
            }
        }
    }

    /// Gives the faults of a document, with their lines.
    fn faults(&self, document: &str, text: &str) -> Vec<String> {
        let mut faults = Vec::new();
        for (line, path) in links(text) {
            let missing = self.resolve(path).is_none();
            faults.extend(missing.then(|| format!("{document}:{line}: there is no file {path}")));
        }
        let mut statements = None;
        for block in blocks(text) {
            statements = statements_place(&block).or(statements.filter(|_| !block.is_heading));
            for (span, place) in block.spans.iter().zip(block.places()) {
                let is_statement = span.text.starts_with(char::is_uppercase);
                let place = place.or(statements.clone().filter(|_| is_statement));
                let fault = self.fault(&span.text, place.as_ref());
                faults.extend(fault.map(|fault| format!("{document}:{}: {fault}", span.line)));
            }
        }
        faults
    }

    /// Gives the paths of the edits that a span cites.
    fn cited_by(&self, block: &Block, at: usize, place: Option<Place>) -> Vec<String> {
        let text = &block.spans[at].text;
        if is_edits_folder(text) && block.cites_all(at) {
            let folder = format!("crates/{text}");
            let edits = self.edits().into_iter();
            return edits.filter(|path| path.starts_with(&folder)).collect();
        }
        let cited = match place {
            Some(Place::In(path)) if is_edits_folder(&path) => format!("{path}{text}"),
            _ => text.clone(),
        };
        let cited = edit("crates", &cited);
        Vec::from_iter(self.files.contains_key(&cited).then_some(cited))
    }

    /// Gives the paths of the edits that a document cites.
    fn cited(&self, document: &str) -> BTreeSet<String> {
        let mut cited = BTreeSet::new();
        for block in blocks(document) {
            for (at, place) in block.places().into_iter().enumerate() {
                cited.extend(self.cited_by(&block, at, place));
            }
        }
        cited
    }

    /// Gives the edits that a document does not cite.
    fn uncited(&self, document: &str) -> Vec<String> {
        let cited = self.cited(document);
        self.edits().difference(&cited).cloned().collect()
    }
}

/// Gives the paths that a document links to, with their lines.
fn links(text: &str) -> Vec<(usize, &str)> {
    let mut links = Vec::new();
    for (line, text) in (1..).zip(text.lines()) {
        let targets = text.split("](").skip(1);
        links.extend(targets.filter_map(|rest| Some((line, rest.split_once(')')?.0))));
    }
    links
}

/// Gives the file that holds the statements up to the next heading, where the block names it.
fn statements_place(block: &Block) -> Option<Place> {
    let first = block.spans.first()?;
    (first.before == "Statements in ").then(|| Place::In(first.text.clone()))
}

/// Gives the names of the statements in a file of antt: abbreviations of a type without parameters.
fn statements(text: &str) -> Vec<&str> {
    let signatures = text
        .lines()
        .filter_map(|line| line.strip_prefix("abbrev pub "));
    signatures
        .filter_map(|signature| signature.strip_suffix(" : Type 0"))
        .collect()
}

/// Writes a name in lower case: `OneRegister` as `one_register`.
fn in_lower_case(name: &str) -> String {
    let mut lower = String::new();
    for letter in name.chars() {
        if letter.is_uppercase() && !lower.is_empty() {
            lower.push('_');
        }
        lower.extend(letter.to_lowercase());
    }
    lower
}

fn expect_none(faults: &[String]) {
    assert!(faults.is_empty(), "\n{}", faults.join("\n"));
}

// ---- the documents

#[test]
fn what_the_documents_name_is_there() {
    let repository = Repository::load();
    let faults = |path: &&str| repository.faults(path, &read(path));
    let faults: Vec<String> = DOCUMENTS.iter().flat_map(faults).collect();
    expect_none(&faults);
}

#[test]
fn the_literals_are_in_use() {
    let documents = DOCUMENTS.map(read).concat();
    let pieces = PIECES.iter().map(|(piece, _)| piece);
    let unused = LITERALS.iter().chain(pieces);
    let unused = unused.filter(|text| !documents.contains(&format!("`{text}`")));
    expect_none(&unused.map(|text| text.to_string()).collect::<Vec<_>>());
}

#[test]
fn every_edit_is_cited() {
    let uncited = Repository::load().uncited(&read(PROMISES));
    let faults = uncited
        .iter()
        .map(|path| format!("{PROMISES} does not cite {path}"));
    expect_none(&faults.collect::<Vec<_>>());
}

/// The promises say that the proofs have the statements' names in lower case.
#[test]
fn every_statement_has_its_proof() {
    for crate_name in ["promises", "collections", "path"] {
        let found = read(&format!("crates/{crate_name}/specs/Promises.antt"));
        let found = statements(&found);
        assert!(!found.is_empty());
        let files = Repository::load().files.into_iter();
        let folder = format!("crates/{crate_name}/proofs/");
        let proofs = files.filter(|(path, _)| path.starts_with(&folder));
        let proofs: String = proofs.map(|(_, text)| text).collect();
        for name in found {
            let proof = format!("\npub {} : {name}\n", in_lower_case(name));
            assert!(proofs.contains(&proof), "no proof of `{name}`");
        }
    }
}

/// The promises name every C function, and say that each has an edit under its name.
#[test]
fn every_c_function_is_promised() {
    let promises = read(PROMISES);
    let functions = library_functions();
    for name in &functions {
        let is_named = promises.contains(&format!("`mijdegen_{name}`"));
        assert!(is_named, "{PROMISES} does not name `mijdegen_{name}`");
    }
    let edits = functions
        .iter()
        .map(|name| edit("crates/mijdegen/must-fail", name));
    let found = Repository::load().edits().into_iter();
    let found = found.filter(|path| path.starts_with("crates/mijdegen/"));
    assert_eq!(found.collect::<BTreeSet<_>>(), edits.collect());
}

// ---- tests of the checker

/// A repository with two crates.
fn small() -> Repository {
    let files = [
        (
            "crates/low/specs/Set.antt",
            "-- Sets.\nunfoldable pub size : Set → ℕ\nsize s = 0\n",
        ),
        (
            "crates/low/src/lib.rt",
            "// A set.\npub fn count(s: &[u8]) -> usize\n",
        ),
        ("crates/low/must-fail/count_none.edit", ""),
        (
            "crates/high/specs/Map.antt",
            "pub record Map : Type 0 where\n  pub keys : Set\n",
        ),
        ("crates/high/must-fail/find_none.edit", ""),
        ("crates/high/must-fail/find_other.edit", ""),
    ];
    let files = files.map(|(path, text)| (path.to_string(), text.to_string()));
    Repository::new(files.into())
}

fn faults_of(text: &str) -> Vec<String> {
    small().faults("doc", text)
}

fn expect_fault(text: &str, fault: &str) {
    assert_eq!(faults_of(text), [fault]);
}

#[test]
fn antt_declares_names() {
    let name = |line| antt_name(line).unwrap_or_default();
    assert_eq!(name("pub one-root : rootOf one ≡ []"), "one-root");
    assert_eq!(name("pub cases {κ} : {C : Type κ} → C"), "cases");
    assert_eq!(name("  abbrev pub _⊞_ : ℕ → ℕ → ℕ"), "_⊞_");
    assert_eq!(
        name("  pub data Page (A D : Type 0) : Type 0 where"),
        "Page"
    );
    assert_eq!(name("    under : D → Page A D → Gap A D"), "under");
    assert_eq!(name("    let n : ℕ = 0 in"), "");
    assert_eq!(name("    record { size = n }"), "");
    assert_eq!(name("-- size : a comment"), "");
}

#[test]
fn code_declares_names() {
    let text = "pub enum Read {\n    At(usize), // here\n    Nowhere,\n}\n// fn none\n\
        pub extern \"C\" fn put(out: *const u8) {}\nconst MOST: usize = 4;\npub mod walk;\nlet text = \"fn none\";\n";
    let expected = ["At", "MOST", "Nowhere", "Read", "put", "walk"];
    assert!(code_names(text).iter().eq(expected));
}

#[test]
fn blocks_have_lines_and_no_code() {
    let text =
        "# A `b`\n\nOne\n`two` and\n`three`.\n\n    `code`\n\n1. An `item`\n    of `two` lines\n\
        2. `Next`\n\n| `a` | b |\n";
    let blocks = blocks(text);
    let spans = blocks.iter().flat_map(|block| &block.spans);
    let found: Vec<_> = spans.map(|span| (span.line, span.text.as_str())).collect();
    let expected = [
        (1, "b"),
        (4, "two"),
        (5, "three"),
        (9, "item"),
        (10, "two"),
        (11, "Next"),
        (13, "a"),
    ];
    assert_eq!(found, expected);
}

#[test]
fn right_documents_have_no_fault() {
    let texts = [
        "`size` in `low/specs/Set.antt`, `Map`, `keys` in `high/specs/Map.antt`; `count`",
        "`count` (`low/src/lib.rt`) of `low`, and the bytes `A2 61`, `1F`",
        "| `low/src/lib.rt`, `count`: the count | `Map .keys` |",
        "`high/must-fail/`: `find_none`, `find_other`; `low/must-fail/`: `count_none`",
        "(`high/must-fail/`): one (`find_none`), another (`find_other`)",
        "`high/must-fail/find_none.edit`, `find_other.edit`; in the code `count_none`",
        "one (`find_none`), another (`find_other`), both in `high/must-fail/`",
        "`Set` of `low`, in every `specs/`; [Sets](low/specs/Set.antt)",
        "Statements in `high/specs/Map.antt`.\n\n| `Map` |",
    ];
    for text in texts {
        assert_eq!(faults_of(text), [""; 0], "{text}");
    }
}

#[test]
fn unknown_names_are_faults() {
    expect_fault("One\n`sise`", "doc:2: `sise` is not in the repository");
    expect_fault("`Map .kees`", "doc:1: `Map .kees` is not in the repository");
    expect_fault(
        "`low/specs/Sets.antt`",
        "doc:1: `low/specs/Sets.antt` is not in the repository",
    );
    expect_fault(
        "`low/proofs/`",
        "doc:1: `low/proofs/` is not in the repository",
    );
    expect_fault("`A2 6`", "doc:1: `A2 6` is not in the repository");
    expect_fault("[Sets](low/sets.md)", "doc:1: there is no file low/sets.md");
    // The piece of code is known, and its file does not hold it.
    expect_fault(
        "`&mut out[own..]`",
        "doc:1: `&mut out[own..]` is not in the repository",
    );
}

#[test]
fn names_in_another_file_are_faults() {
    let fault = "doc:1: `size` is not in `high/specs/Map.antt`";
    expect_fault("`size` in `high/specs/Map.antt`", fault);
    expect_fault("`size`, `Map` and `keys` in `high/specs/Map.antt`", fault);
    expect_fault("`size` (`high/specs/Map.antt`)", fault);
    expect_fault("| `high/specs/Map.antt`, `Map`, `size`: both |", fault);
    expect_fault(
        "`Map` of `low`",
        "doc:1: `Map` is no file of the specs of `low`",
    );
    let text = "Statements in `low/specs/Set.antt`.\n\n| `Map` |\n\n## Next\n\n| `Map` |";
    expect_fault(text, "doc:3: `Map` is not in `low/specs/Set.antt`");
}

#[test]
fn missing_edits_are_faults() {
    let fault = "doc:1: `count_none` is not in `high/must-fail/`";
    expect_fault("`high/must-fail/`: `find_none`, `count_none`", fault);
    expect_fault(
        "(`high/must-fail/`): one (`find_none`), two (`count_none`)",
        fault,
    );
    expect_fault(
        "one `find_none`, two `count_none`, both in `high/must-fail/`",
        fault,
    );
    expect_fault("`count_none` in `high/must-fail/`", fault);
    let fault = "doc:1: `count_none.edit` is not in `high/must-fail/`";
    expect_fault("`high/must-fail/find_none.edit`, `count_none.edit`", fault);
    let fault = "doc:1: `low/must-fail/find_none.edit` is not in the repository";
    expect_fault("`low/must-fail/find_none.edit`", fault);
}

#[test]
fn edits_without_a_citation_are_found() {
    let uncited = |text: &str| small().uncited(text);
    let other = "crates/high/must-fail/find_other.edit";
    let all = "`high/must-fail/`: `find_none`, `find_other`; `low/must-fail/`: `count_none`";
    assert_eq!(uncited(all), [""; 0]);
    assert_eq!(uncited(&all.replace(", `find_other`", "")), [other]);
    // A folder cites all of its edits by these words alone.
    let each = ": one slip in each definition: `low/must-fail/`";
    let rest = "`high/must-fail/find_none.edit`, `find_other`";
    assert_eq!(uncited(&format!("{rest}\n\n{each}")), [""; 0]);
    assert_eq!(uncited(&format!("{rest}\n\n`low/must-fail/`")).len(), 1);
}

#[test]
fn statements_have_names_in_lower_case() {
    let text = "abbrev pub OneRegister : Type 0\nabbrev pub Among : ℕ → Type 0\n";
    assert_eq!(statements(text), ["OneRegister"]);
    assert_eq!(in_lower_case("OneRegister"), "one_register");
}
