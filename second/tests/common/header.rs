//! explainer.h, read: its constants and its functions.

use std::fs;
use std::path::{Path, PathBuf};

pub fn root() -> PathBuf {
    Path::new(env!("CARGO_MANIFEST_DIR")).join("..")
}

/// Without comments.
pub fn header() -> String {
    let text = fs::read_to_string(root().join("crates/explainer/explainer.h")).expect("the header");
    let mut parts = text.split("/*");
    let mut code = parts.next().unwrap_or_default().to_owned();
    for part in parts {
        code += part.split_once("*/").expect("a comment ends").1;
    }
    code
}

/// Each constant and its number.
pub fn defines() -> Vec<(String, u64)> {
    let number = |line: &str| {
        let (name, value) = line.strip_prefix("#define ")?.split_once(' ')?;
        Some((name.to_owned(), value.trim().parse().expect(name)))
    };
    header().lines().filter_map(number).collect()
}

/// Each function that is declared, from `uint32_t` to its closing bracket, with single blanks.
pub fn functions() -> Vec<String> {
    let header = header();
    let declared = header.split(';').filter_map(|part| {
        let begin = part.find("uint32_t explainer_")?;
        Some(part[begin..].split_whitespace().collect::<Vec<_>>().join(" "))
    });
    declared.collect()
}
