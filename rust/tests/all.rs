//! The tests of the library, as one program: what they share is compiled once.

mod check;
mod codecs;
mod common;
mod damaged;
mod difference;
mod digest;
mod documents;
mod dot_names;
mod fuzz;
mod head;
mod header;
mod layer;
mod limits;
mod list;
mod listing;
mod lists;
mod lookup;
mod merge;
mod order;
mod outputs;
mod pages;
mod path;
mod published;
mod put;
mod ranges;
mod refusal;
mod remove;
mod screen;
mod slash;
mod stack;
mod threads;
mod verify;

/// No file of tests is left out of the program.
#[test]
fn every_file_is_a_module() {
    let folder = common::repository::root().join("rust/tests");
    let program = common::repository::read("rust/tests/all.rs");
    let mut files = 0;
    for entry in std::fs::read_dir(folder).expect("the folder of the tests") {
        let name = entry.expect("an entry of the folder").file_name();
        let name = name.to_str().expect("a name in UTF-8");
        if let Some(module) = name.strip_suffix(".rs").filter(|module| *module != "all") {
            assert!(program.contains(&format!("\nmod {module};\n")), "{name}");
            files += 1;
        }
    }
    assert!(files > 0);
}
