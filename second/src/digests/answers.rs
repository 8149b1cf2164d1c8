//! One input answered: its reply, and the digest of all that the call shows.

use std::fs;
use std::io;
use std::path::{Path, PathBuf};
use std::process::Output;

use super::sha256::Sha256;
use crate::corpus::{File, GUARD, Input, Lent};
use crate::entries::Entries;
use crate::program::output_in;
use crate::reply::Reply;

/// Lent for what is prepared from texts; what stands there is no part of the digest, so that it
/// does not change with the layout of prepared bytes.
const PREPARED: usize = 16_384;

const NOT_LINKED: &str = "an entry is not linked (cargo build --release --all-features)";

/// The entries and the program, with a place for its folders.
pub struct Explainer {
    pub entries: Entries,
    pub program: PathBuf,
    pub place: PathBuf,
}

pub struct Answer {
    pub number: u32,
    pub figure: u64,
    pub digest: [u8; 32],
}

impl Explainer {
    /// An error if there is no such entry or program.
    pub fn answer(&self, input: &Input) -> Result<Answer, String> {
        let mut shown = Shown::default();
        let reply = match input {
            Input::Program { table, formula } => self.folder(table, formula, &mut shown)?,
            _ => call(&self.entries, input, &mut shown).ok_or(NOT_LINKED)?,
        };
        let Reply { number, figure } = reply;
        Ok(Answer { number, figure, digest: shown.0.digest() })
    }

    fn folder(&self, table: &File, formula: &File, shown: &mut Shown) -> Result<Reply, String> {
        let told = |error: io::Error| format!("{}: {error}", self.program.display());
        make(&self.place, [("table.txt", table), ("formula.txt", formula)]).map_err(told)?;
        let output = output_in(&self.program, &self.place).map_err(told)?;
        fs::remove_dir_all(&self.place).map_err(told)?;
        shown.buffers(&[b"program"]);
        shown.buffers(&[&output.stdout, &output.stderr]);
        shown.0.part(&output.status.code().unwrap_or(-1).to_le_bytes());
        Ok(reply_of(&output))
    }
}

fn make(place: &Path, files: [(&str, &File); 2]) -> io::Result<()> {
    fs::create_dir(place)?;
    for (name, file) in files {
        match file {
            File::Holds(bytes) => fs::write(place.join(name), bytes)?,
            File::Folder => fs::create_dir(place.join(name))?,
            File::Missing => {}
        }
    }
    Ok(())
}

/// A refusal is one line, its number in six columns and its figure; a listing has more lines.
fn reply_of(output: &Output) -> Reply {
    let text = String::from_utf8_lossy(&output.stdout);
    let columns = text.split_at_checked(6).filter(|_| text.lines().count() == 1);
    let refusal = columns.and_then(|(number, figure)| {
        Some(Reply { number: number.trim().parse().ok()?, figure: figure.trim().parse().ok()? })
    });
    refusal.unwrap_or(Reply::accepted(0))
}

/// What a call shows, each part after its length.
#[derive(Default)]
struct Shown(Sha256);

impl Shown {
    fn reply(&mut self, entry: &str, reply: Reply) {
        self.0.part(entry.as_bytes());
        self.0.part(&reply.number.to_le_bytes());
        self.0.part(&reply.figure.to_le_bytes());
    }

    /// Buffers as they are after the call, written ones with their guards.
    fn buffers(&mut self, buffers: &[&[u8]]) {
        buffers.iter().for_each(|buffer| self.0.part(buffer));
    }

    /// A long buffer that is as it was before the call, or cleared behind its guard: zeros by their count.
    fn cleared(&mut self, buffer: &[u8], before: &[u8]) {
        let (guard, rest) = buffer.split_at(GUARD);
        let are_zero = |part: &&[u8]| part.iter().fold(0, |any, byte| any | byte) == 0;
        let zeros: usize = rest.chunks(64).take_while(are_zero).map(<[u8]>::len).sum();
        match buffer == before {
            true => self.0.part(b"as it was"),
            false => self.buffers(&[guard, &(zeros as u64).to_le_bytes(), &rest[zeros..]]),
        }
    }
}

fn inside(buffer: &mut [u8]) -> &mut [u8] {
    let end = buffer.len() - GUARD;
    &mut buffer[GUARD..end]
}

/// None if the entry is not linked. The call is handed copies, and what it may only read is shown as
/// it is afterwards.
fn call(entries: &Entries, input: &Input, shown: &mut Shown) -> Option<Reply> {
    let reply = match input {
        Input::ReadTable { text, table } => {
            let (text, mut table) = (text.clone(), table.buffer());
            let reply = entries.read_table?(&text, inside(&mut table));
            shown.reply("read_table", reply);
            shown.buffers(&[&text, &table]);
            reply
        }
        Input::TableText { table, text } => {
            let (table, mut text) = (table.clone(), text.buffer());
            let reply = entries.table_text?(&table, inside(&mut text));
            shown.reply("table_text", reply);
            shown.buffers(&[&table, &text]);
            reply
        }
        Input::Combine { first, second, combined } => {
            let (first, second, mut combined) = (first.clone(), second.clone(), combined.buffer());
            let reply = entries.combine?(&first, &second, inside(&mut combined));
            shown.reply("combine", reply);
            shown.buffers(&[&first, &second, &combined]);
            reply
        }
        Input::ReadFormula { table, text, formula } => {
            let (table, text, mut formula) = (table.clone(), text.clone(), formula.buffer());
            let reply = entries.read_formula?(&table, &text, inside(&mut formula));
            shown.reply("read_formula", reply);
            shown.buffers(&[&table, &text, &formula]);
            reply
        }
        Input::WriteFormula { table, formula, text } => {
            let (table, formula, mut text) = (table.clone(), formula.clone(), text.buffer());
            let reply = entries.write_formula?(&table, &formula, inside(&mut text));
            shown.reply("write_formula", reply);
            shown.buffers(&[&table, &formula, &text]);
            reply
        }
        Input::ReadBack { table, line, text } => read_back(entries, table, line, text, shown)?,
        Input::Verdict { table, formula } => {
            let (table, formula) = (table.clone(), formula.clone());
            let reply = entries.verdict?(&table, &formula);
            shown.reply("verdict", reply);
            shown.buffers(&[&table, &formula]);
            reply
        }
        Input::Verdicts { table, formula, starts, answers } => {
            let (table, formula, starts) = (table.clone(), formula.clone(), starts.clone());
            let mut answers = answers.buffer();
            let reply = entries.verdicts?(&table, &formula, &starts, inside(&mut answers));
            shown.reply("verdicts", reply);
            shown.buffers(&[&table, &formula, &starts, &answers]);
            reply
        }
        Input::Build { table, formula, rows, edges } => {
            let (table, formula) = (table.clone(), formula.clone());
            let reply = build(entries, [&table, &formula], [rows, edges], shown)?;
            shown.buffers(&[&table, &formula]);
            reply
        }
        Input::Smallest { table, formula, rows, edges, smallest, work } => {
            let (table, formula) = (table.clone(), formula.clone());
            let written = [rows, edges, smallest, work];
            let reply = smallest_of(entries, [&table, &formula], written, shown)?;
            shown.buffers(&[&table, &formula]);
            reply
        }
        Input::Accepts { table, formula, word } => {
            let (table, formula, word) = (table.clone(), formula.clone(), word.clone());
            let reply = entries.accepts?(&table, &formula, &word);
            shown.reply("accepts", reply);
            shown.buffers(&[&table, &formula, &word]);
            reply
        }
        Input::Texts { table, formula, rows, edges, word } => {
            in_turn(entries, [table, formula, word], [rows, edges], shown)?
        }
        Input::Program { .. } => return None,
    };
    Some(reply)
}

fn build(
    entries: &Entries,
    [table, formula]: [&[u8]; 2],
    [rows, edges]: [&Lent; 2],
    shown: &mut Shown,
) -> Option<Reply> {
    let mut edge_count = edges.fill;
    let (mut rows, mut edges) = (rows.buffer(), edges.buffer());
    let places = (inside(&mut rows), inside(&mut edges));
    let reply = entries.build?(table, formula, places.0, places.1, &mut edge_count);
    shown.reply("build", reply);
    shown.0.part(&edge_count.to_le_bytes());
    shown.buffers(&[&rows, &edges]);
    Some(reply)
}

fn smallest_of(
    entries: &Entries,
    [table, formula]: [&[u8]; 2],
    written: [&Lent; 4],
    shown: &mut Shown,
) -> Option<Reply> {
    let mut edge_count = written[1].fill;
    let [mut rows, mut edges, mut smallest, mut work] = written.map(Lent::buffer);
    let before = work.clone();
    let reply = entries.smallest?(
        table,
        formula,
        inside(&mut rows),
        inside(&mut edges),
        inside(&mut smallest),
        inside(&mut work),
        &mut edge_count,
    );
    shown.reply("smallest", reply);
    shown.0.part(&edge_count.to_le_bytes());
    shown.buffers(&[&rows, &edges, &smallest]);
    shown.cleared(&work, &before);
    Some(reply)
}

/// Both readings: the reply of the one that refused, else of the last; and what is prepared.
fn both_read(
    entries: &Entries,
    table_text: &[u8],
    line: &[u8],
    shown: &mut Shown,
) -> Option<(Reply, Vec<u8>, Vec<u8>)> {
    let (mut table, mut formula) = (vec![0xa5; PREPARED], vec![0x5a; PREPARED]);
    let mut reply = entries.read_table?(table_text, &mut table);
    shown.reply("read_table", reply);
    if reply.number == 0 {
        reply = entries.read_formula?(&table, line, &mut formula);
        shown.reply("read_formula", reply);
    }
    Some((reply, table, formula))
}

/// Both readings, writing and reading again. The reply is that of a refused reading, else that of
/// writing. Whether what is prepared is the same again is shown, and not what it is.
fn read_back(
    entries: &Entries,
    table_text: &[u8],
    line: &[u8],
    text: &Lent,
    shown: &mut Shown,
) -> Option<Reply> {
    let (mut reply, table, formula) = both_read(entries, table_text, line, shown)?;
    if reply.number == 0 {
        let mut text = text.buffer();
        reply = entries.write_formula?(&table, &formula, inside(&mut text));
        shown.reply("write_formula", reply);
        shown.buffers(&[&text]);
        if reply.number == 0 {
            let mut again = vec![0x5a; PREPARED];
            let written = &inside(&mut text)[..reply.figure as usize];
            shown.reply("read_formula", entries.read_formula?(&table, written, &mut again));
            let kept = again == formula;
            shown.0.part(&[kept.into()]);
        }
    }
    Some(reply)
}

/// Both readings, the verdict, building and the word. The reply is that of a refused reading, else
/// that of building.
fn in_turn(
    entries: &Entries,
    [table_text, formula_text, word]: [&[u8]; 3],
    places: [&Lent; 2],
    shown: &mut Shown,
) -> Option<Reply> {
    let (mut reply, table, formula) = both_read(entries, table_text, formula_text, shown)?;
    if reply.number == 0 {
        let before = (table.clone(), formula.clone());
        shown.reply("verdict", entries.verdict?(&table, &formula));
        reply = build(entries, [&table, &formula], places, shown)?;
        shown.reply("accepts", entries.accepts?(&table, &formula, word));
        let kept = before == (table, formula);
        shown.0.part(&[kept.into()]);
    }
    Some(reply)
}
