//! Finds the proved static libraries and, with the feature `reference`, one more of them and the reference's source, which is no part of this
//! repository.
//!
//! - `VOWHERUNGA_STATICLIB`: the folder of libffi.a and the others, in place of target/staticlib at the repository's root.
//! - `REFERENCE_VALUE_RS`: the reference's src/value.rs, in place of ../shared/docs/src/src/value.rs from there.
use std::{env, fs, path::PathBuf};

/// The path that a variable gives, or a place seen from this package.
fn place(variable: &str, default: &str) -> PathBuf {
    println!("cargo:rerun-if-env-changed={variable}");
    match env::var_os(variable) {
        Some(path) => PathBuf::from(path),
        None => PathBuf::from(env::var_os("CARGO_MANIFEST_DIR").unwrap()).join(default),
    }
}

/// The crates whose exports the binding calls.
const LIBRARIES: [&str; 10] = [
    "ffi",
    "ffi_answers",
    "ffi_decide",
    "ffi_decide_vectors",
    "ffi_decide_wildcard",
    "ffi_arm",
    "ffi_words",
    "ffi_literal",
    "ffi_store",
    "ffi_run",
];

/// The crate whose exports only tests and benchmark call, by the feature `reference`.
const FOR_COMPARISONS: &str = "ffi_bit_by_bit";

fn link_libraries(has_reference: bool) {
    let folder = place("VOWHERUNGA_STATICLIB", "../target/staticlib");
    println!("cargo:rustc-link-search=native={}", folder.display());
    for library in LIBRARIES.into_iter().chain(has_reference.then_some(FOR_COMPARISONS)) {
        let archive = folder.join(format!("lib{library}.a"));
        println!("cargo:rerun-if-changed={}", archive.display());
        assert!(archive.exists(), "no {}: `tools/build {library}` makes it", archive.display());
        println!("cargo:rustc-link-lib=static={library}");
    }
}

/// A module by its path compiles the file as it stands, inner comments too, which `include!` refuses.
fn name_reference() {
    let source = place("REFERENCE_VALUE_RS", "../../shared/docs/src/src/value.rs");
    println!("cargo:rerun-if-changed={}", source.display());
    let source = source
        .canonicalize()
        .unwrap_or_else(|e| panic!("no reference at {}: {e}; REFERENCE_VALUE_RS can name it", source.display()));
    let module = format!("#[allow(warnings)]\n#[path = {:?}]\npub mod value;\n", source.to_str().unwrap());
    let out = PathBuf::from(env::var_os("OUT_DIR").unwrap());
    fs::write(out.join("reference.rs"), module).unwrap();
}

fn main() {
    let has_reference = env::var_os("CARGO_FEATURE_REFERENCE").is_some();
    link_libraries(has_reference);
    if has_reference {
        name_reference();
    }
}
