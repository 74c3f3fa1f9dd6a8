//! The list of edits of the Rust's text and of the oracle's own: reading it, and laying an edited copy of both down.
use std::fs;
use std::path::{Path, PathBuf};

/// One edit, as edits.txt tells it.
#[derive(Default, Debug)]
struct Edit {
    name: String,
    file: String,
    expect: String,
    why: String,
    old: Vec<String>,
    new: Vec<String>,
}

/// The files of the Rust that the build reads.
const FILES: [&str; 6] = [
    "src/nodes/joins/asof_join.rs",
    "src/nodes/joins/range_join.rs",
    "src/nodes/joins/utils.rs",
    "src/morsel.rs",
    "src/graph.rs",
    "src/pipe.rs",
];

/// All edits of a list.
fn parse(text: &str) -> Result<Vec<Edit>, String> {
    let (mut edits, mut new): (Vec<Edit>, bool) = (vec![], false);
    for line in text.lines().filter(|l| !l.is_empty() && !l.starts_with('#')) {
        let (word, rest) = line.split_once(' ').unwrap_or((line, ""));
        if word == "edit" {
            edits.push(Edit { name: rest.into(), ..Edit::default() });
            continue;
        }
        let edit = edits.last_mut().ok_or("the list does not begin with an edit")?;
        match word {
            "file" => edit.file = rest.into(),
            "expect" => edit.expect = rest.into(),
            "why" => edit.why = rest.into(),
            "old" => new = false,
            "new" => new = true,
            "|" if new => edit.new.push(rest.into()),
            "|" => edit.old.push(rest.into()),
            "end" => {},
            _ => return Err(format!("{}: {line}", edit.name)),
        }
    }
    Ok(edits)
}

/// The list in a file.
fn read(list: &str) -> Result<Vec<Edit>, String> {
    parse(&fs::read_to_string(list).map_err(|e| format!("{list}: {e}"))?)
}

/// Prints each edit's name, its file, what is expected of it, and why.
pub fn print(list: &str) -> Result<(), String> {
    read(list)?.iter().for_each(|e| println!("{} {} {} {}", e.name, e.file, e.expect, e.why));
    Ok(())
}

/// The parts of the oracle that the build reads.
const OWN: [&str; 8] =
    ["Cargo.toml", "Cargo.lock", "driver", "judges", "polars_stream", "port", "portcompare", "standins"];

/// All files at a path: itself, or those below it.
fn files(path: PathBuf) -> Result<Vec<PathBuf>, String> {
    if !path.is_dir() {
        return Ok(vec![path]);
    }
    let entries = fs::read_dir(&path).map_err(|e| format!("{}: {e}", path.display()))?;
    let below = entries.map(|entry| files(entry.map_err(|e| e.to_string())?.path()));
    Ok(below.collect::<Result<Vec<_>, _>>()?.concat())
}

/// The edited text of a file. The old text must stand in it once.
fn edited(edit: &Edit, text: String) -> Result<String, String> {
    let old = edit.old.join("\n");
    if text.matches(&old).count() != 1 {
        return Err(format!("{}: the old text does not stand in {} once", edit.name, edit.file));
    }
    Ok(text.replacen(&old, &edit.new.join("\n"), 1))
}

/// Copies a file, edited where the edit is of this name. A copy that is as it should be stays: nothing is built anew for
/// it.
fn copy(from: &Path, to: &Path, name: &str, edit: Option<&Edit>) -> Result<(), String> {
    let text = fs::read_to_string(from).map_err(|e| format!("{}: {e}", from.display()))?;
    let text = edit.filter(|e| e.file == name).map_or(Ok(text.clone()), |e| edited(e, text))?;
    if fs::read_to_string(to).is_ok_and(|there| there == text) {
        return Ok(());
    }
    fs::create_dir_all(to.parent().unwrap()).map_err(|e| e.to_string())?;
    fs::write(to, text).map_err(|e| format!("{}: {e}", to.display()))
}

/// Lays copies of the Rust's source (`rust`) and of the oracle (`oracle`) down with one edit made, or with none where the
/// name is `none`. The name of a file of the oracle begins with `oracle/`.
pub fn apply(list: &str, name: &str, [rust, own]: [&Path; 2], to: &Path) -> Result<(), String> {
    let edits = read(list)?;
    let edit = edits.iter().find(|e| e.name == name);
    if edit.is_none() && name != "none" {
        return Err(format!("no edit is named {name}"));
    }
    for file in FILES {
        copy(&rust.join(file), &to.join("rust").join(file), file, edit)?;
    }
    for file in OWN.map(|part| files(own.join(part))).into_iter().collect::<Result<Vec<_>, _>>()?.concat() {
        let below = Path::new("oracle").join(file.strip_prefix(own).unwrap());
        copy(&file, &to.join(&below), &below.to_string_lossy(), edit)?;
    }
    Ok(())
}
