//! Lays out ion-rust's files for the crate, and links the proved library where the feature `ours` is on.
//!
//! The Rust is never copied: OUT_DIR gets a folder of links, to ion-rust's own files and, where one is missing, to a
//! file of stand_ins/ion_rust, so that every `mod` of the unchanged files finds its file beside it.

use std::env;
use std::fs;
use std::os::unix::fs::symlink;
use std::path::{Path, PathBuf};

/// The modules of ion-rust's crate root that stand in the folder of links.
const ROOT_MODULES: [(&str, &str); 8] = [
    ("binary", "binary/mod.rs"),
    ("element", "element.rs"),
    ("ion_data", "ion_data.rs"),
    ("position", "position.rs"),
    ("raw_symbol_ref", "raw_symbol_ref.rs"),
    ("result", "result/mod.rs"),
    ("text", "text/mod.rs"),
    ("types", "types/mod.rs"),
];

/// The crates of the proved library whose calls are linked.
const EXPORTS: [&str; 3] = ["test_calendar_exports", "test_exports", "test_scan_exports"];

fn main() {
    let out = PathBuf::from(env::var("OUT_DIR").unwrap());
    let manifest = PathBuf::from(env::var("CARGO_MANIFEST_DIR").unwrap());
    let repository = manifest.parent().unwrap().to_path_buf();

    let rust = from_environment("ION_RUST", &repository, "../shared/docs/src").join("src");
    let stand_ins = manifest.join("stand_ins/ion_rust");
    if !rust.join("types/timestamp.rs").is_file() {
        panic!("no Rust at {}: set ION_RUST to the folder that holds ion-rust's src/", rust.display());
    }
    let tree = out.join("tree");
    let _ = fs::remove_dir_all(&tree);
    link_all(&rust, &tree);
    link_all(&stand_ins, &tree);
    write_root(&tree, &out.join("ion_rust.rs"));
    println!("cargo:rerun-if-changed={}", rust.display());
    println!("cargo:rerun-if-changed={}", stand_ins.display());

    if env::var_os("CARGO_FEATURE_OURS").is_some() {
        link_ours(&repository);
    }
}

/// A path of the environment, or its default; relative ones start at the repository's root.
fn from_environment(name: &str, repository: &Path, default: &str) -> PathBuf {
    println!("cargo:rerun-if-env-changed={name}");
    repository.join(env::var_os(name).unwrap_or_else(|| default.into()))
}

/// Links every file below `from` to the same place below `to`. A file that is already there is an error: a stand-in
/// only fills a gap.
fn link_all(from: &Path, to: &Path) {
    fs::create_dir_all(to).unwrap();
    for entry in fs::read_dir(from).unwrap() {
        let source = fs::canonicalize(entry.unwrap().path()).unwrap();
        let target = to.join(source.file_name().unwrap());
        if source.is_dir() {
            link_all(&source, &target);
        } else if let Err(error) = symlink(&source, &target) {
            panic!("{}: {error}", target.display());
        }
    }
}

/// Writes the module tree that src/lib.rs includes.
fn write_root(tree: &Path, root: &Path) {
    let mut text = String::new();
    for (module, file) in ROOT_MODULES {
        let path = tree.join(file);
        text += &format!(
            "#[allow(dead_code, unused_imports, unused_macros, clippy::all)]\n#[path = {path:?}]\nmod {module};\n"
        );
    }
    fs::write(root, text).unwrap();
}

/// Links the archive of each crate of calls: in the crate's own out/, or all in the folder that OURS_LIBS names.
fn link_ours(repository: &Path) {
    for name in EXPORTS {
        let folder = from_environment("OURS_LIBS", repository, &format!("crates/{name}/out"));
        let archive = folder.join(format!("lib{name}.a"));
        if !archive.is_file() {
            panic!("no library at {}: make it with `rt lib` in crates/{name}, or set OURS_LIBS", archive.display());
        }
        println!("cargo:rustc-link-search=native={}", folder.display());
        println!("cargo:rustc-link-lib=static={name}");
        println!("cargo:rerun-if-changed={}", archive.display());
    }
}
