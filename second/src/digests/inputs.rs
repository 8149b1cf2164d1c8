//! The digest of the inputs themselves, a buffer by its length and the number that fills it.

use super::lines::line;
use super::sha256::Sha256;
use crate::corpus::{File, Input, Kind, Lent};

#[derive(Default)]
pub struct Inputs {
    sha: Sha256,
    count: u64,
}

impl Inputs {
    pub fn begin(&mut self, kind: &Kind) {
        self.bytes(&[kind.entry.as_bytes(), kind.name.as_bytes()]);
    }

    pub fn add(&mut self, input: &Input) {
        self.count += 1;
        match input {
            Input::ReadTable { text, table } => {
                self.bytes(&[text]);
                self.lent(&[table]);
            }
            Input::TableText { table, text } => {
                self.bytes(&[table]);
                self.lent(&[text]);
            }
            Input::Combine { first, second, combined } => {
                self.bytes(&[first, second]);
                self.lent(&[combined]);
            }
            Input::ReadFormula { table, text, formula } => {
                self.bytes(&[table, text]);
                self.lent(&[formula]);
            }
            Input::WriteFormula { table, formula, text } => {
                self.bytes(&[table, formula]);
                self.lent(&[text]);
            }
            Input::ReadBack { table, line, text } => {
                self.bytes(&[table, line]);
                self.lent(&[text]);
            }
            Input::Verdict { table, formula } => self.bytes(&[table, formula]),
            Input::Verdicts { table, formula, starts, answers } => {
                self.bytes(&[table, formula, starts]);
                self.lent(&[answers]);
            }
            Input::Build { table, formula, rows, edges } => {
                self.bytes(&[table, formula]);
                self.lent(&[rows, edges]);
            }
            Input::Smallest { table, formula, rows, edges, smallest, work } => {
                self.bytes(&[table, formula]);
                self.lent(&[rows, edges, smallest, work]);
            }
            Input::Accepts { table, formula, word } => self.bytes(&[table, formula, word]),
            Input::Texts { table, formula, rows, edges, word } => {
                self.bytes(&[table, formula, word]);
                self.lent(&[rows, edges]);
            }
            Input::Program { table, formula } => {
                self.file(table);
                self.file(formula);
            }
        }
    }

    pub fn line(self) -> String {
        line("inputs", "all", self.count, self.sha.digest(), "")
    }

    fn bytes(&mut self, parts: &[&[u8]]) {
        parts.iter().for_each(|part| self.sha.part(part));
    }

    fn lent(&mut self, buffers: &[&Lent]) {
        for Lent { length, fill } in buffers {
            self.bytes(&[&(*length as u64).to_le_bytes(), &fill.to_le_bytes()]);
        }
    }

    fn file(&mut self, file: &File) {
        match file {
            File::Holds(bytes) => self.bytes(&[b"holds", bytes]),
            File::Missing => self.bytes(&[b"missing"]),
            File::Folder => self.bytes(&[b"folder"]),
        }
    }
}
