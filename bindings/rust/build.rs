//! Links the library: the archive that ROWKEEPER_ARCHIVE names, or else one that is made here from the repository's dist/ by
//! the C compiler: from the assembly on x86-64 Linux, on other targets and with ROWKEEPER_FROM=c from the C file.
use std::env;
use std::path::{Path, PathBuf};
use std::process::Command;

/// An environment variable; a change of it runs this again.
fn variable(name: &str) -> Option<String> {
    println!("cargo::rerun-if-env-changed={name}");
    env::var(name).ok().filter(|text| !text.is_empty())
}

/// Runs a command of the C toolchain, which an environment variable may name, with arguments; why it failed, if it did.
fn run(name: &str, usual: &str, words: &[&Path]) -> Result<(), String> {
    let command = variable(name).unwrap_or_else(|| usual.to_owned());
    let mut parts = command.split_whitespace();
    let program = parts.next().unwrap_or(usual);
    match Command::new(program).args(parts).args(words).output() {
        Ok(done) if done.status.success() => Ok(()),
        Ok(done) => Err(format!("{command}: {}", String::from_utf8_lossy(&done.stderr).trim().replace('\n', "; "))),
        Err(error) => Err(format!("{command}: {error}")),
    }
}

/// The text of dist/ that the archive is made from, and how it is compiled.
fn text() -> Result<(&'static str, &'static [&'static str]), String> {
    let target = |name: &str| env::var(name).unwrap_or_default();
    let has_assembly = target("CARGO_CFG_TARGET_ARCH") == "x86_64"
        && target("CARGO_CFG_TARGET_OS") == "linux"
        && target("CARGO_CFG_TARGET_POINTER_WIDTH") == "64";
    match variable("ROWKEEPER_FROM").as_deref() {
        None if has_assembly => Ok(("rowkeeper.s", &[])),
        None | Some("c") => Ok(("rowkeeper.c", &["-O2", "-fPIC"])),
        Some(other) => Err(format!("ROWKEEPER_FROM is '{other}': leave it out, or set it to c for the C file")),
    }
}

/// Makes the archive from dist/; its path.
fn made() -> Result<PathBuf, String> {
    let (name, how) = text()?;
    let text = PathBuf::from(env::var_os("CARGO_MANIFEST_DIR").unwrap()).join("../../dist").join(name);
    println!("cargo::rerun-if-changed={}", text.display());
    let goal = PathBuf::from(env::var_os("OUT_DIR").unwrap());
    let (object, archive) = (goal.join("rowkeeper.o"), goal.join("librowkeeper.a"));
    let mut words: Vec<&Path> = how.iter().map(Path::new).collect();
    words.extend([Path::new("-c"), &text, Path::new("-o"), &object]);
    run("CC", "cc", &words)?;
    run("AR", "ar", &[Path::new("rcs"), &archive, &object])?;
    Ok(archive)
}

/// Says where the archive is, or in one line why it is not there.
fn main() {
    println!("cargo::rerun-if-changed=build.rs");
    let archive = match variable("ROWKEEPER_ARCHIVE") {
        Some(named) => Ok(PathBuf::from(named)),
        None => made(),
    };
    let archive = match archive {
        Ok(path) => path,
        Err(why) => return println!("cargo::error=the library cannot be made from dist/: {why}"),
    };
    println!("cargo::rerun-if-changed={}", archive.display());
    let name = archive.file_name().and_then(|n| n.to_str()).and_then(|n| n.strip_prefix("lib")?.strip_suffix(".a"));
    match (name, archive.canonicalize()) {
        (Some(name), Ok(path)) => {
            println!("cargo::rustc-link-search=native={}", path.parent().unwrap().display());
            println!("cargo::rustc-link-lib=static={name}");
        },
        (None, _) => println!("cargo::error={} is not named as an archive is, libNAME.a", archive.display()),
        (_, Err(e)) => println!("cargo::error=the archive {}: {e} (ROWKEEPER_ARCHIVE names it)", archive.display()),
    }
}
