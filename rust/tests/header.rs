//! The C header is written by hand, so its functions are compared with those that the crate
//! declares: their names, and the names and types of their parameters. Both have the functions of
//! the library, and the crate has a safe function for each. The struct of a head has the same fields
//! in the header, in the crate and in the library.

use crate::common::repository::{library_functions, read};
use mijdegen::Head;
use std::mem::{align_of, offset_of, size_of};

/// A function's name and its parameters, as Rust writes them.
type Function = (String, Vec<String>);

/// Gives the functions whose declarations begin with these bytes and end with the others.
fn functions(text: &str, begin: &str, end: &str, parameter: fn(&str) -> String) -> Vec<Function> {
    text.split(begin)
        .skip(1)
        .map(|rest| {
            let (declaration, _) = rest.split_once(end).expect("the declaration ends");
            let (name, parameters) = declaration.split_once('(').expect("parameters");
            let parameters = parameters.split(',').map(str::trim);
            let parameters = parameters.filter(|text| !text.is_empty());
            (name.to_string(), parameters.map(parameter).collect())
        })
        .collect()
}

/// Writes a parameter of the header as Rust does.
fn in_rust(parameter: &str) -> String {
    let forms = [
        ("const uint8_t *", "", "*const u8"),
        ("uint8_t *", "", "*mut u8"),
        ("uint8_t ", "[MIJDEGEN_DIGEST_LENGTH]", "*mut [u8; 32]"),
        ("uint8_t ", "[MIJDEGEN_VALUE_BYTES]", "*mut [u8; 33]"),
        ("struct mijdegen_head *", "", "*mut Head"),
        ("size_t ", "", "usize"),
        ("uint64_t ", "", "u64"),
    ];
    let written = forms.iter().find_map(|(before, after, written)| {
        let name = parameter.strip_prefix(before)?.strip_suffix(after)?;
        Some(format!("{name}: {written}"))
    });
    written.unwrap_or_else(|| panic!("a parameter of another form: {parameter}"))
}

#[test]
fn the_header_has_the_same_functions() {
    let header = read("rust/include/mijdegen.h");
    let declared = read("rust/src/c.rs");
    let found = functions(&header, "\nuint64_t mijdegen_", ");", in_rust);
    let expected = functions(
        &declared,
        "    pub fn mijdegen_",
        ") -> u64;",
        str::to_string,
    );
    assert_eq!(found, expected);

    let names: Vec<String> = found.into_iter().map(|(name, _)| name).collect();
    assert_eq!(names, library_functions());
}

/// Gives the fields of a struct, each on one line, in the order of the file.
fn fields(text: &str, begin: &str) -> Vec<String> {
    let (_, rest) = text.split_once(begin).expect("the struct");
    let (body, _) = rest.split_once("}").expect("the struct ends");
    let lines = body.lines().map(str::trim);
    lines
        .filter(|line| line.ends_with(';') || line.ends_with(','))
        .map(|line| line.trim_end_matches([';', ',']).to_string())
        .collect()
}

#[test]
fn the_head_has_the_same_fields() {
    let c = fields(&read("rust/include/mijdegen.h"), "struct mijdegen_head {");
    assert_eq!(
        c,
        [
            "uint32_t count",
            "uint32_t layer",
            "uint8_t digest[MIJDEGEN_DIGEST_LENGTH]"
        ]
    );
    let written = ["pub count: u32", "pub layer: u32", "pub digest: Digest"];
    for place in ["rust/src/head.rs", "crates/head/src/lib.rt"] {
        let begin = "#[repr(C)]\npub struct Head {";
        assert_eq!(fields(&read(place), begin), written, "{place}");
    }

    assert_eq!((size_of::<Head>(), align_of::<Head>()), (40, 4));
    assert_eq!(offset_of!(Head, count), 0);
    assert_eq!(offset_of!(Head, layer), 4);
    assert_eq!(offset_of!(Head, digest), 8);
}

#[test]
fn each_function_has_a_safe_one() {
    let safe = read("rust/src/lib.rs");
    for name in library_functions() {
        let begins = |end: char| safe.contains(&format!("\npub fn {name}{end}"));
        assert!(
            begins('(') || begins('<'),
            "no `pub fn {name}` in rust/src/lib.rs"
        );
    }
}
