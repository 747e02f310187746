//! Holds the declarations against `include/qspi.h`: structs by the C compiler's layout, functions by their text.

use super::*;
use std::collections::BTreeMap;
use std::path::{Path, PathBuf};
use std::process::Command;
use std::{env, fs, process};

/// Fields with their offsets.
type Fields = &'static [(&'static str, usize)];

/// Structs with their sizes and fields.
const STRUCTS: &[(&str, usize, Fields)] = &[
    ("qspi_ran", size_of::<qspi_ran>(), qspi_ran::FIELDS),
    ("qspi_pages_ran", size_of::<qspi_pages_ran>(), qspi_pages_ran::FIELDS),
    ("qspi_sectors_ran", size_of::<qspi_sectors_ran>(), qspi_sectors_ran::FIELDS),
    ("qspi_value_ran", size_of::<qspi_value_ran>(), qspi_value_ran::FIELDS),
    ("qspi_id_ran", size_of::<qspi_id_ran>(), qspi_id_ran::FIELDS),
    ("qspi_long_id_ran", size_of::<qspi_long_id_ran>(), qspi_long_id_ran::FIELDS),
    ("qspi_clock_config", size_of::<qspi_clock_config>(), qspi_clock_config::FIELDS),
    ("qspi_preset", size_of::<qspi_preset>(), qspi_preset::FIELDS),
];

fn header() -> PathBuf {
    Path::new(env!("CARGO_MANIFEST_DIR")).join("../../include/qspi.h")
}

/// The layout as this crate declares it, one line for a size or an offset.
fn declared_layout() -> String {
    let mut lines = String::new();
    for (name, size, fields) in STRUCTS {
        lines += &format!("{name} {size}\n");
        for (field, offset) in *fields {
            lines += &format!("{name}.{field} {offset}\n");
        }
    }
    lines
}

/// A C program that prints the same lines.
fn layout_program() -> String {
    let mut text = String::from("int main(void) {\n");
    for (name, _, fields) in STRUCTS {
        text += &format!("printf(\"{name} %zu\\n\", sizeof(struct {name}));\n");
        for (field, _) in *fields {
            text += &format!("printf(\"{name}.{field} %zu\\n\", offsetof(struct {name}, {field}));\n");
        }
    }
    text + "return 0;\n}\n"
}

/// What a C program with the header prints; nothing where there is no C compiler.
pub(crate) fn printed_by_c(name: &str, text: &str) -> Option<String> {
    Command::new("cc").arg("--version").output().ok()?;
    let folder = env::temp_dir().join(format!("qspi-{name}-{}", process::id()));
    fs::create_dir_all(&folder).expect("a folder for the C program");
    let (source, program) = (folder.join("program.c"), folder.join("program"));
    let text = format!("#include \"qspi.h\"\n#include <stdio.h>\n{text}");
    fs::write(&source, text).expect("the C program's text");
    let include = header().parent().expect("a folder holds the header").to_owned();
    let built = Command::new("cc").arg("-I").arg(include).arg(&source).arg("-o").arg(&program).status();
    assert!(built.expect("cc runs").success(), "the C program does not compile");
    let out = Command::new(&program).output().expect("the C program runs").stdout;
    fs::remove_dir_all(&folder).expect("the folder goes away");
    Some(String::from_utf8(out).expect("plain text"))
}

#[test]
fn structs_have_the_c_layout() {
    match printed_by_c("layout", &layout_program()) {
        Some(compiled) => assert_eq!(declared_layout(), compiled),
        None => eprintln!("skipped: no C compiler"),
    }
}

/// A function by name: what it gives and what it takes, in Rust's words.
type Functions = BTreeMap<String, (String, Vec<String>)>;

/// Text without comments and preprocessor lines, in one line with single spaces.
fn plain(text: &str) -> String {
    let mut out = String::new();
    let mut rest = text;
    while let Some((before, after)) = rest.split_once("/*") {
        out += before;
        rest = after.split_once("*/").map_or("", |(_, after)| after);
    }
    out += rest;
    let out = out.replace("\\\n", " ");
    let kept: Vec<&str> = out.lines().filter(|l| !l.starts_with('#')).flat_map(str::split_whitespace).collect();
    kept.join(" ")
}

/// A C type with its parameter's name, in Rust's words.
fn from_c(parameter: &str) -> String {
    let (kind, name) = parameter.rsplit_once(' ').expect("a type and a name");
    let pointer = name.starts_with('*');
    let word = match kind.trim_start_matches("const ").trim_start_matches("struct ") {
        "uint8_t" => "u8",
        "uint32_t" => "u32",
        "size_t" => "usize",
        other => other,
    };
    let star = if kind.starts_with("const ") { "*const " } else { "*mut " };
    let name = name.trim_start_matches('*');
    format!("{name}: {}{word}", if pointer { star } else { "" })
}

fn functions_of_header() -> Functions {
    let text = fs::read_to_string(header()).expect("the header");
    let mut found = Functions::new();
    for statement in plain(&text).split(';') {
        let Some((head, parameters)) = statement.trim().trim_end_matches(')').split_once('(') else {
            continue;
        };
        let (gives, name) = head.trim().rsplit_once(' ').expect("a result and a name");
        let gives = gives.rsplit(' ').next().expect("a type").to_owned();
        let takes = parameters.split(", ").map(from_c).collect();
        found.insert(name.to_owned(), (gives, takes));
    }
    found
}

fn functions_declared() -> Functions {
    let text = plain(include_str!("../ffi.rs"));
    let mut found = Functions::new();
    for part in text.split(" fn qspi_").skip(1) {
        let (name, rest) = part.split_once('(').expect("parameters");
        let (parameters, rest) = rest.split_once(") -> ").expect("a result");
        let gives = rest.split_once(';').expect("an end").0.to_owned();
        let takes = parameters.split(", ").map(|p| p.trim().trim_end_matches(',').to_owned());
        found.insert(format!("qspi_{name}"), (gives, takes.filter(|p| !p.is_empty()).collect()));
    }
    found
}

#[test]
fn functions_are_those_of_the_header() {
    let declared = functions_declared();
    assert_eq!(declared.len(), 24);
    assert_eq!(declared, functions_of_header());
}
