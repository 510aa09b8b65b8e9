//! A test that the files of this program use each other in one direction.

use std::collections::{BTreeMap, BTreeSet};
use std::fs;
use std::path::Path;

/// What each folder may use besides itself.
const MAY_USE: [(&str, &[&str]); 5] = [
    ("definition", &[]),
    ("cases", &["definition"]),
    ("running", &["definition", "cases"]),
    ("calls", &["definition", "cases", "running"]),
    ("wrong", &["definition", "cases", "running"]),
];

/// The files that each file of a folder uses, tests aside, by their names within the program.
fn uses() -> BTreeMap<String, BTreeSet<String>> {
    let mut uses = BTreeMap::new();
    for (folder, _) in MAY_USE {
        let path = Path::new(env!("CARGO_MANIFEST_DIR")).join("src").join(folder);
        for file in fs::read_dir(path).expect("there is such a folder") {
            let path = file.expect("a file has a name").path();
            let stem = path.file_stem().expect("a file has a name").to_string_lossy().to_string();
            let text = fs::read_to_string(&path).expect("a file can be read");
            let code = text.split("#[cfg(test)]\nmod tests {").next().unwrap_or_default();
            if stem != "tests" && stem != "mod" {
                uses.insert(format!("{folder}::{stem}"), used(code));
            }
        }
    }
    uses
}

/// The files that some code names after crate, alone or in braces.
fn used(code: &str) -> BTreeSet<String> {
    assert!(!code.contains("super::"), "a file is named by its whole path");
    let mut files = BTreeSet::new();
    for path in code.split("crate::").skip(1) {
        let (folder, rest) = path.split_once("::").expect("a path has a folder");
        let names = rest.strip_prefix('{').map_or(rest, |list| list.split('}').next().unwrap_or(list));
        for name in names.split(',').take(if rest.starts_with('{') { usize::MAX } else { 1 }) {
            let end = name.trim().find(|c: char| !c.is_alphanumeric() && c != '_').unwrap_or(name.trim().len());
            files.insert(format!("{folder}::{}", &name.trim()[..end]));
        }
    }
    files
}

/// A folder uses no other than it may, and no file uses itself through others.
#[test]
fn one_direction() {
    let uses = uses();
    assert!(uses.len() > 25);
    for (file, used) in &uses {
        let folder = file.split("::").next().unwrap_or_default();
        let may = MAY_USE.iter().find(|(name, _)| *name == folder).map_or(&[][..], |(_, may)| may);
        for other in used {
            assert!(uses.contains_key(other), "{file} names {other}");
            let other = other.split("::").next().unwrap_or_default();
            assert!(other == folder || may.contains(&other), "{file} uses {other}");
        }
    }
    let mut left = uses;
    while !left.is_empty() {
        let files: BTreeSet<String> = left.keys().cloned().collect();
        left.retain(|_, used| used.iter().any(|other| files.contains(other)));
        assert!(left.len() < files.len(), "a circle: {:?}", left.keys());
    }
}
