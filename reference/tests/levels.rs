//! The modules form levels, as src/lib.rs shows them, and no file stands in a circle with others.

use std::collections::BTreeMap;
use std::fs;
use std::path::Path;

/// The files' modules, as `gen::calls::long`, each with its text.
type Files = BTreeMap<String, String>;

fn files_below(folder: &Path, module: &str, files: &mut Files) {
    for entry in fs::read_dir(folder).unwrap() {
        let path = entry.unwrap().path();
        let stem = path.file_stem().unwrap().to_str().unwrap().to_string();
        let inner = if module.is_empty() { stem.clone() } else { format!("{module}::{stem}") };
        if path.is_dir() {
            files_below(&path, &inner, files);
        } else if stem == "mod" {
            files.insert(module.to_string(), fs::read_to_string(path).unwrap());
        } else if !["lib", "main"].contains(&stem.as_str()) {
            files.insert(inner, fs::read_to_string(path).unwrap());
        }
    }
}

fn files() -> Files {
    let mut files = Files::new();
    files_below(&Path::new(env!("CARGO_MANIFEST_DIR")).join("src"), "", &mut files);
    files
}

/// The modules that a file names: the longest path that is one, and the files of a folder for its own file.
fn named(module: &str, files: &Files) -> Vec<String> {
    let parent = module.rsplit_once("::").map_or("", |(parent, _)| parent);
    let mut named = Vec::new();
    for line in files[module].lines() {
        if let Some(child) = line.trim_start_matches("pub ").strip_prefix("mod ") {
            let child = format!("{module}::{}", child.trim_end_matches(';'));
            named.extend(files.contains_key(&child).then_some(child));
        }
        for (start, from) in [("crate::", String::new()), ("super::", format!("{parent}::"))] {
            for (at, _) in line.match_indices(start) {
                let path: String =
                    line[at + start.len()..].chars().take_while(|c| c.is_alphanumeric() || "_:".contains(*c)).collect();
                let mut path = format!("{from}{path}");
                while !files.contains_key(&path) && !path.is_empty() {
                    path.truncate(path.rfind("::").unwrap_or(0));
                }
                named.extend((!path.is_empty() && path != module).then_some(path));
            }
        }
    }
    named
}

#[test]
fn a_module_uses_those_of_earlier_levels_alone() {
    let files = files();
    let groups: Vec<&str> = include_str!("../src/lib.rs").split("\n\n").collect();
    let level = |module: &str| {
        let line = format!("pub mod {};", module.split("::").next().unwrap());
        groups.iter().position(|group| group.lines().any(|it| it == line)).expect(module)
    };
    let top = |module: &str| module.split("::").next().unwrap().to_string();
    for module in files.keys() {
        for other in named(module, &files) {
            assert!(top(module) == top(&other) || level(&other) < level(module), "{module} uses {other}");
        }
    }
}

#[test]
fn the_readme_shows_the_levels() {
    let readme = include_str!("../README.md");
    let groups = include_str!("../src/lib.rs").split("\n\n").map(|group| {
        let names = group.lines().filter_map(|line| line.strip_prefix("pub mod "));
        names.map(|name| format!("`{}`", name.trim_end_matches(';'))).collect::<Vec<String>>().join(", ")
    });
    for (level, modules) in groups.filter(|modules| !modules.is_empty()).enumerate() {
        let row = format!("| {} | {modules} |", level + 1);
        assert!(readme.lines().any(|line| line == row), "{row}");
    }
}

#[test]
fn no_file_stands_in_a_circle() {
    let files = files();
    let mut left: BTreeMap<&String, Vec<String>> = files.keys().map(|module| (module, named(module, &files))).collect();
    assert!(left.len() > 30);
    while !left.is_empty() {
        let lowest: Vec<&String> =
            left.iter().filter(|(_, uses)| uses.iter().all(|it| !left.contains_key(it))).map(|(it, _)| *it).collect();
        assert!(!lowest.is_empty(), "a circle among {:?}", left.keys());
        for module in lowest {
            left.remove(module);
        }
    }
}
