//! The files of the repository that tests read.

use std::fs;
use std::path::PathBuf;

/// Gives the repository's folder.
pub fn root() -> PathBuf {
    PathBuf::from(env!("CARGO_MANIFEST_DIR")).join("..")
}

/// Gives the text of a file, by its path from the repository's folder.
pub fn read(path: &str) -> String {
    fs::read_to_string(root().join(path)).unwrap_or_else(|error| panic!("{path}: {error}"))
}

/// Gives the names of the library's C functions without `mijdegen_`, in their order.
pub fn library_functions() -> Vec<String> {
    read("crates/mijdegen/src/lib.rt")
        .split("pub extern \"C\" fn mijdegen_")
        .skip(1)
        .map(|rest| {
            let (name, _) = rest.split_once('(').expect("parameters");
            name.to_string()
        })
        .collect()
}
