//! Random folders, one after the other in one place, and what a program writes of each.

use std::fs;
use std::io;
use std::path::Path;
use std::process::Output;

use crate::inputs::folders::{File, Folder};

/// As many bytes of a file or an output are shown.
const SHOWN: usize = 2_000;

pub struct Trials<'a> {
    /// Where each folder is made.
    pub place: &'a Path,
    pub seed: u64,
    pub count: u64,
}

impl Trials<'_> {
    /// Makes each folder, by its number, and checks what is done with it, given its kind. The first
    /// in which something is wrong is told and kept.
    pub fn each<Made: Folder>(
        &self,
        folder: impl Fn(u64) -> (&'static str, Made),
        mut check: impl FnMut(u64, &'static str, &Made) -> Result<(), String>,
    ) -> Result<(), String> {
        for index in 0..self.count {
            let (kind, made) = folder(index);
            let right = make(self.place, made.files()).map_err(|error| error.to_string());
            let right = right
                .and_then(|()| check(index, kind, &made))
                .and_then(|()| fs::remove_dir_all(self.place).map_err(|error| error.to_string()));
            right.map_err(|told| {
                let files =
                    made.files().map(|(name, file)| format!("{name}: {}\n", shown_file(file)));
                let (seed, folder, files) = (self.seed, self.place.display(), files.concat());
                format!("folder {index} of seed {seed} ({kind}), kept as {folder}\n{files}{told}")
            })?;
        }
        Ok(())
    }
}

fn make(place: &Path, files: [(&str, &File); 2]) -> io::Result<()> {
    fs::create_dir(place)?;
    for (name, file) in files {
        match file {
            File::Holds(bytes) => fs::write(place.join(name), bytes)?,
            File::Folder => fs::create_dir(place.join(name))?,
            File::Missing => {}
        }
    }
    Ok(())
}

/// This text on standard output, and this exit code.
pub fn writes(expected: &[u8], code: i32, output: &Output) -> Result<(), String> {
    if output.stdout != expected {
        let both = expected.iter().zip(&output.stdout);
        let same = both.take_while(|(expected, written)| expected == written).count();
        let (expected, written) = (shown(expected), shown(&output.stdout));
        return Err(format!(
            "expected: {expected}\nwritten: {written}\nthe first {same} bytes are the same"
        ));
    }
    match output.status.code() == Some(code) {
        true => Ok(()),
        false => Err(output.status.to_string()),
    }
}

/// This text on standard output, exit code 0, and nothing on standard error.
pub fn answers(expected: &[u8], output: &Output) -> Result<(), String> {
    writes(expected, 0, output)?;
    is_quiet(output)
}

/// Nothing on standard error.
fn is_quiet(output: &Output) -> Result<(), String> {
    match output.stderr.is_empty() {
        true => Ok(()),
        false => Err(format!("standard error: {}", shown(&output.stderr))),
    }
}

fn shown_file(file: &File) -> String {
    match file {
        File::Holds(bytes) => shown(bytes),
        File::Folder => "a folder".into(),
        File::Missing => "missing".into(),
    }
}

pub fn shown(bytes: &[u8]) -> String {
    let beginning = bytes[..bytes.len().min(SHOWN)].escape_ascii();
    let more = if bytes.len() > SHOWN { " ..." } else { "" };
    format!("{} bytes \"{beginning}\"{more}", bytes.len())
}
