//! The calls of src/ffi.rs are those of c/bulwynef.h, with the same types.

use std::collections::BTreeMap;

fn read(path: &str) -> String {
    std::fs::read_to_string(format!("{}/{path}", env!("CARGO_MANIFEST_DIR"))).expect("a file of the repository")
}

/// A parameter of C by the type that Rust has for it.
fn of_c(parameter: &str) -> &'static str {
    let is = |kind: &str| parameter.trim().starts_with(kind);
    let pointer = parameter.contains('*');
    match () {
        _ if is("const uint8_t") => "Text",
        _ if is("struct bulwynef_handle") => "H",
        _ if is("uint8_t") && pointer => "*mut u8",
        _ if is("uint32_t") && pointer => "*mut u32",
        _ if is("uint64_t") && pointer => "*mut u64",
        _ if is("size_t") && pointer => "*mut usize",
        _ if is("uint8_t") => "u8",
        _ if is("uint32_t") => "u32",
        _ if is("uint64_t") => "u64",
        _ if is("size_t") => "usize",
        _ => panic!("no type for {parameter}"),
    }
}

fn without_comments(text: &str) -> String {
    let mut parts = text.split("/*");
    let first = parts.next().unwrap_or_default().to_string();
    parts.fold(first, |told, part| told + part.split_once("*/").map_or("", |(_, rest)| rest))
}

/// Of each call the types of its parameters, and of its answer where it has one.
fn in_header() -> BTreeMap<String, Vec<String>> {
    let text = without_comments(&read("../../c/bulwynef.h"));
    let mut found = BTreeMap::new();
    for call in text.split(';').filter(|it| it.contains("bulwynef_") && it.contains('(')) {
        let call = call.rsplit('}').next().unwrap_or(call).trim();
        let (front, parameters) = call.split_once('(').expect("parameters");
        let front = front.trim_start_matches(|it: char| it == '"' || it.is_whitespace());
        let (kind, name) = front.rsplit_once(' ').expect("a name");
        let kind = kind.lines().last().unwrap_or(kind).trim();
        let mut types: Vec<String> =
            parameters.trim_end_matches(')').split(',').filter(|it| *it != "void").map(|it| of_c(it).to_string()).collect();
        types.push(if kind == "void" { "nothing".into() } else { of_c(kind).into() });
        found.insert(name.to_string(), types);
    }
    found
}

fn in_ffi() -> BTreeMap<String, Vec<String>> {
    let mut found = BTreeMap::new();
    for call in read("src/ffi.rs").split("pub fn ").skip(1).filter(|it| it.starts_with("bulwynef_")) {
        let (name, rest) = call.split_once('(').expect("parameters");
        let (parameters, behind) = rest.split_once(')').expect("an end");
        let mut types: Vec<String> =
            parameters.split(',').filter_map(|it| it.split_once(':')).map(|(_, kind)| kind.trim().to_string()).collect();
        types.push(
            behind.split(';').next().and_then(|it| it.split_once("->")).map_or("nothing".into(), |(_, kind)| kind.trim().to_string()),
        );
        found.insert(name.to_string(), types);
    }
    found
}

#[test]
fn the_calls_are_those_of_the_header() {
    assert!(in_ffi().len() > 30);
    assert_eq!(in_ffi(), in_header());
}
