//! Writes what include/stobbarel.h declares as Rust, and links the engine's archive: STOBBAREL_ARCHIVE, a whole path, or what tests/link writes.

use std::env::var_os;
use std::fs;
use std::path::{Path, PathBuf};

/// A line `#define STOBBAREL_NAME number /* what it is */` as a constant, one with `(capacity)` behind the name as a function; none for any other.
fn layout_item(line: &str) -> Option<String> {
    let (code, what) = line.strip_prefix("#define STOBBAREL_")?.split_once("/*")?;
    let (name, value) = code.split_once(' ')?;
    let (value, what) = (value.trim().replace("STOBBAREL_", ""), what.trim_end_matches("*/").trim());
    // a macro in C needs brackets around it
    let value = value.strip_prefix('(').and_then(|value| value.strip_suffix(')')).unwrap_or(&value);
    Some(match name.strip_suffix("(capacity)") {
        Some(name) => {
            format!("/// {what}\npub const fn {}(capacity: usize) -> usize {{\n    {}\n}}\n", name.to_lowercase(), value.replace("(capacity)", "capacity"))
        }
        None => format!("/// {what}\npub const {name}: usize = {value};\n"),
    })
}

/// A number's type.
fn number(c: &str) -> &'static str {
    match c {
        "uint8_t" => "u8",
        "uint16_t" => "u16",
        "uint32_t" => "u32",
        "uint64_t" => "u64",
        "size_t" => "usize",
        other => panic!("include/stobbarel.h has a type {other} that is not known here"),
    }
}

/// What a function takes: a number, or a pointer to numbers, be it written as an array.
fn parameter(c: &str) -> String {
    let (constant, rest) = c.trim().strip_prefix("const ").map_or((false, c.trim()), |rest| (true, rest));
    let (kind, name) = rest.split_once(' ').expect("a type and a name");
    let pointer = name.starts_with('*') || name.contains('[');
    let name = name.trim_start_matches('*').split('[').next().expect("a name");
    match (pointer, constant) {
        (false, _) => format!("{name}: {}", number(kind)),
        (true, true) => format!("{name}: *const {}", number(kind)),
        (true, false) => format!("{name}: *mut {}", number(kind)),
    }
}

/// A declaration of a function of the library, whole and in one line.
fn function(c: &str) -> String {
    let (front, behind) = c.split_once('(').expect("a function has parameters");
    let (answer, name) = front.split_once(' ').expect("a function has a name");
    let behind = behind.strip_suffix(");").expect("a declaration ends so");
    let parameters: Vec<String> = behind.split(',').filter(|one| *one != "void").map(parameter).collect();
    let answer = if answer == "void" { String::new() } else { format!(" -> {}", number(answer)) };
    format!("    /// `{c}`\n    pub fn {name}({}){answer};\n", parameters.join(", "))
}

/// The declarations of a header's functions; what is inline there begins otherwise.
fn functions(header: &str) -> Vec<String> {
    let (mut all, mut open) = (vec![], None::<String>);
    for line in header.lines() {
        let begins =
            ["void ", "uint8_t ", "uint32_t ", "size_t "].iter().any(|answer| line.strip_prefix(answer).is_some_and(|rest| rest.starts_with("stobbarel_")));
        open = match open {
            Some(before) => Some(format!("{before} {}", line.trim())),
            None => begins.then(|| line.into()),
        };
        if let Some(whole) = open.take_if(|whole| whole.ends_with(");")) {
            all.push(function(&whole));
        }
    }
    all
}

fn write_declarations(header: &Path, out: &Path) {
    println!("cargo::rerun-if-changed={}", header.display());
    let header = fs::read_to_string(header).expect("include/stobbarel.h beside this package");
    let layout: String = header.lines().filter_map(layout_item).collect();
    let functions = functions(&header).concat();
    fs::write(out.join("layout.rs"), layout).expect("the folder can be written");
    fs::write(out.join("functions.rs"), format!("unsafe extern \"C\" {{\n{functions}}}\n")).expect("the folder can be written");
}

fn link_archive(here: &Path) {
    println!("cargo::rerun-if-env-changed=STOBBAREL_ARCHIVE");
    let archive = var_os("STOBBAREL_ARCHIVE").map_or(here.join("../../tests/target/libabi.a"), PathBuf::from);
    println!("cargo::rerun-if-changed={}", archive.display());
    let name = archive.file_name().and_then(|name| name.to_str()).and_then(|name| name.strip_prefix("lib")?.strip_suffix(".a"));
    let (Some(name), Ok(whole)) = (name, archive.canonicalize()) else {
        panic!("{} is no archive libNAME.a: run tests/link, or set STOBBAREL_ARCHIVE", archive.display());
    };
    println!("cargo::rustc-link-search=native={}", whole.parent().expect("a file has a folder").display());
    println!("cargo::rustc-link-lib=static={name}");
    println!("cargo::metadata=archive={}", whole.display());
}

fn main() {
    let folder = |name: &str| PathBuf::from(var_os(name).unwrap_or_else(|| panic!("cargo names {name}")));
    let here = folder("CARGO_MANIFEST_DIR");
    write_declarations(&here.join("../../include/stobbarel.h"), &folder("OUT_DIR"));
    link_archive(&here);
}
