//! The lines of a file of digests, and how two files differ.

use super::sha256::hex;

pub fn line(entry: &str, kind: &str, count: u64, digest: [u8; 32], numbers: &str) -> String {
    let line = format!("{entry:<12}  {kind:<30}  {count:>6}  {}  {numbers}", hex(&digest));
    line.trim_end().to_owned()
}

/// The lines that differ, stored ones after `-`, new ones after `+`. None if both have the same
/// lines in the same order, whatever the comments say.
pub fn difference(stored: &str, new: &str) -> Option<String> {
    let [stored, new] = [stored, new].map(digest_lines);
    if stored == new {
        return None;
    }
    let key = |line: &str| line.split_whitespace().take(2).collect::<Vec<_>>().join(" ");
    let mut told = Vec::new();
    for line in stored.iter().filter(|line| !new.contains(line)) {
        told.push(format!("- {line}"));
        let others = new.iter().filter(|other| key(other) == key(line));
        told.extend(others.map(|other| format!("+ {other}")));
    }
    let is_stored = |line: &str| stored.iter().any(|other| key(other) == key(line));
    told.extend(new.iter().filter(|line| !is_stored(line)).map(|line| format!("+ {line}")));
    if told.is_empty() {
        told.push("the same lines stand in another order, or more than once".to_owned());
    }
    Some(told.join("\n"))
}

fn digest_lines(file: &str) -> Vec<&str> {
    file.lines().filter(|line| !line.starts_with('#') && !line.trim().is_empty()).collect()
}
