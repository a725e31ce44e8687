//! The declarations of `src/ffi.rs` are those of `bucket.h`: names, parameters, codes and structures.

use std::collections::BTreeMap;
use std::fs::read_to_string;
use std::path::{Path, PathBuf};

/// A call: the types that it takes, and what it returns.
type Call = (Vec<String>, String);

/// The types of C, and their counterparts in Rust.
const TYPES: [(&str, &str); 15] = [
    ("void", ""),
    ("bool", "bool"),
    ("void *", "*mut u8"),
    ("uint32_t", "u32"),
    ("uint64_t", "u64"),
    ("uint64_t *", "*mut u64"),
    ("size_t", "usize"),
    ("size_t *", "*mut usize"),
    ("uint8_t *", "*mut u8"),
    ("const uint8_t *", "*const u8"),
    ("bucket_handle *", "*mut Handle"),
    ("const bucket_handle *", "*const Handle"),
    ("bucket_place *", "*mut Place"),
    ("bucket_pair *", "*mut Pair"),
    ("bucket_seed", "Seed"),
];

/// The header that the environment names, or the checkout's, or the package's.
fn header() -> Option<String> {
    let package = Path::new(env!("CARGO_MANIFEST_DIR"));
    let named = std::env::var_os("BUCKET_INCLUDE").map(|folder| PathBuf::from(folder).join("bucket.h"));
    let places = named.into_iter().chain([package.join("../bucket.h"), package.join("bucket.h")]);
    let text = places.filter(|place| place.is_file()).map(|place| read_to_string(place).unwrap()).next();
    if text.is_none() {
        println!("left out: there is no bucket.h");
    }
    text.map(|text| without_comments(&text))
}

fn source(name: &str) -> String {
    read_to_string(Path::new(env!("CARGO_MANIFEST_DIR")).join("src").join(name)).unwrap()
}

fn without_comments(text: &str) -> String {
    let mut parts = text.split("/*");
    let first = parts.next().unwrap().to_string();
    parts.fold(first, |text, part| text + " " + part.split_once("*/").unwrap().1)
}

/// A type as C writes it, and a name.
fn c_field(field: &str) -> (String, String) {
    let field = field.trim();
    let start = field.rfind(|letter: char| !letter.is_alphanumeric() && letter != '_').map_or(0, |place| place + 1);
    let words: Vec<&str> = field[..start].split_whitespace().collect();
    (words.join(" ").replace(" *", "*").replace('*', " *"), field[start..].to_string())
}

fn as_rust(c: &str) -> String {
    let rust = TYPES.iter().find(|(name, _)| *name == c).map(|(_, rust)| rust.to_string());
    rust.unwrap_or_else(|| c.to_string())
}

/// The prototypes of a header, with Rust's types where there is a counterpart.
fn c_calls(header: &str) -> BTreeMap<String, Call> {
    let mut calls = BTreeMap::new();
    for (place, _) in header.match_indices("bucket_") {
        let Some((name, rest)) = header[place..].split_once('(') else { continue };
        let Some((parameters, after)) = rest.split_once(')') else { continue };
        let returned = header[..place].split_whitespace().last().unwrap_or("");
        let is_name = name.chars().all(|letter| letter.is_alphanumeric() || letter == '_');
        if !is_name || !after.starts_with(';') || !["void", "uint32_t", "size_t"].contains(&returned) {
            continue;
        }
        let parameters = parameters.split(',').filter(|parameter| parameter.trim() != "void");
        let taken = parameters.map(|parameter| as_rust(&c_field(parameter).0)).collect();
        calls.insert(name.to_string(), (taken, as_rust(returned)));
    }
    calls
}

fn rust_calls(source: &str) -> BTreeMap<String, Call> {
    let block = source.split_once("unsafe extern \"C\" {").unwrap().1.split_once("\n}").unwrap().0;
    let calls = block.split("fn ").skip(1).map(|call| {
        let (name, rest) = call.split_once('(').unwrap();
        let (parameters, returned) = rest.split_once(')').unwrap();
        let fields = parameters.split(',').filter(|field| !field.trim().is_empty());
        let taken = fields.map(|field| field.split_once(':').unwrap().1.trim().to_string()).collect();
        let returned = returned.split_once(';').unwrap().0.trim().trim_start_matches("->").trim();
        (name.to_string(), (taken, returned.to_string()))
    });
    calls.collect()
}

#[test]
fn each_call_is_declared_as_the_header_has_it() {
    let Some(header) = header() else { return };
    let (c, rust) = (c_calls(&header), rust_calls(&source("ffi.rs")));
    assert!(rust.len() > 25 && c.len() >= rust.len(), "{} of {} calls", rust.len(), c.len());
    for (name, call) in &rust {
        assert_eq!(c.get(name), Some(call), "{name}");
    }
}

#[test]
fn each_code_is_the_headers() {
    let Some(header) = header() else { return };
    let source = source("ffi.rs");
    let codes: Vec<_> = source.lines().filter_map(|line| line.strip_prefix("pub(crate) const ")?.split_once(": u32 = ")).collect();
    assert!(codes.len() >= 4);
    for (name, number) in codes {
        let number = number.trim_end_matches(';');
        let start = format!("BUCKET_{name} = {number}");
        let rest = header.split_once(&start).unwrap_or_else(|| panic!("the header doesn't have {start}")).1;
        assert!(!rest.starts_with(|letter: char| letter.is_alphanumeric()));
    }
}

/// The fields of a structure, in their order, as names and Rust's types.
fn c_fields(header: &str, name: &str) -> Vec<(String, String)> {
    let body = header.split_once(&format!("typedef struct {name} {{")).unwrap().1.split_once('}').unwrap().0;
    let fields = body.split(';').filter(|field| !field.trim().is_empty()).map(c_field);
    fields.map(|(kind, name)| (name, as_rust(&kind))).collect()
}

fn rust_fields(source: &str, name: &str) -> Vec<(String, String)> {
    let (before, body) = source.split_once(&format!("struct {name} {{")).unwrap();
    assert!(before.rfind("#[repr(C)]") > before.rfind('}'), "{name} has C's layout");
    let body = body.split_once('}').unwrap().0;
    let fields = body.split(',').filter_map(|field| field.trim().split_once(": "));
    fields.map(|(name, kind)| (name.trim_start_matches("pub(crate) ").trim_start_matches("pub ").to_string(), kind.to_string())).collect()
}

#[test]
fn each_structure_has_the_headers_fields() {
    let Some(header) = header() else { return };
    for (c, file, rust) in [
        ("bucket_handle", "ffi.rs", "Handle"),
        ("bucket_place", "ffi.rs", "Place"),
        ("bucket_pair", "ffi.rs", "Pair"),
        ("bucket_seed", "seed.rs", "Seed"),
    ] {
        let fields = c_fields(&header, c);
        assert!(fields.len() == 2);
        assert_eq!(rust_fields(&source(file), rust), fields, "{c}");
    }
}

#[test]
fn the_library_has_the_crates_version() {
    let (major, minor, patch) = bucket::library_version();
    assert_eq!(format!("{major}.{minor}.{patch}"), env!("CARGO_PKG_VERSION"));
    let Some(header) = header() else { return };
    for (name, number) in [("MAJOR", major), ("MINOR", minor), ("PATCH", patch)] {
        let line = format!("#define BUCKET_VERSION_{name} {number}");
        assert!(header.lines().any(|other| other.trim() == line), "{line}");
    }
}

#[test]
fn the_comparison_sees_a_difference() {
    let header = "uint32_t bucket_a(const bucket_handle *handle,\n  uint64_t key);\nsize_t bucket_b(void);\n\
                  return bucket_c(key);\n";
    let source = "unsafe extern \"C\" {\n fn bucket_a(handle: *const Handle, key: u64) -> u32;\n fn bucket_b() -> usize;\n}";
    assert_eq!(c_calls(header), rust_calls(source));
    for (right, wrong) in [("u64", "u32"), ("*const Handle", "*mut Handle"), ("-> usize", ""), ("key: u64", ""), ("bucket_b", "bucket_c")] {
        assert_ne!(c_calls(header), rust_calls(&source.replacen(right, wrong, 1)), "{wrong}");
    }
    assert_eq!(c_fields("typedef struct x {\n size_t a;\n void *b; } x;", "x"), rust_fields("#[repr(C)]\nstruct X {\n pub a: usize,\n b: *mut u8,\n}", "X"));
}
