//! Lays the published Rust, whole files and unchanged, where lib.rs includes it. The repository holds no copy of it.
use std::path::{Path, PathBuf};
use std::{env, fs};

/// The files of polars-stream that are compiled, and the names that lib.rs includes them by.
const FILES: [(&str, &str); 6] = [
    ("src/nodes/joins/asof_join.rs", "asof_join.rs"),
    ("src/nodes/joins/range_join.rs", "range_join.rs"),
    ("src/nodes/joins/utils.rs", "utils.rs"),
    ("src/morsel.rs", "morsel.rs"),
    ("src/graph.rs", "graph.rs"),
    ("src/pipe.rs", "pipe.rs"),
];

/// The source's folder: ASOF_RUST_SRC, or shared/docs/src beside the repository.
fn source_folder(here: &Path) -> PathBuf {
    match env::var_os("ASOF_RUST_SRC") {
        Some(folder) => here.join("..").join(folder),
        None => here.join("../../../shared/docs/src"),
    }
}

/// Copies each file as it is, and builds again where one or the folder's name changes.
fn main() {
    println!("cargo::rerun-if-env-changed=ASOF_RUST_SRC");
    println!("cargo::rerun-if-changed=build.rs");
    let src = source_folder(Path::new(&env::var("CARGO_MANIFEST_DIR").unwrap()));
    let out = PathBuf::from(env::var("OUT_DIR").unwrap());
    for (from, to) in FILES {
        let path = src.join(from);
        println!("cargo::rerun-if-changed={}", path.display());
        let text = fs::read(&path).unwrap_or_else(|e| panic!("{}: {e}", path.display()));
        fs::write(out.join(to), text).unwrap();
    }
}
