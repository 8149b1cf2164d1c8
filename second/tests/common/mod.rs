//! Tables of 01 and the answers to a question by way of the entries.
#![allow(dead_code)]

pub mod found;
pub mod header;
pub mod line;
pub mod loops;

use second::entries::{self, EDGE_PLACE, ROW_PLACE};
use second::formula::Formula;
use second::listing::{Edge, Listing, Row};
use second::prepared::{FORMULA_LENGTH, TABLE_LENGTH};
use second::reply::Reply;
use second::table::{Table, alphabet};
use second::word;

pub const M: &str = "     3     2     3     0
     1 req
     2 ack
     0     1     1
     1     0     2
     1     2     0
";

pub const ONE_STATE: &str = "     1     0     0     0
";

pub const LOOPS: &str = "     1     3     3     0
     1 a
     2 b
     3 c
     0     1     0
     0     2     0
     0     3     0
";

pub fn refused(number: u32, figure: u64) -> Reply {
    Reply { number, figure }
}

pub fn prepare_table(text: &str) -> Vec<u8> {
    let mut table = vec![0xee; TABLE_LENGTH];
    let reply = entries::read_table(text.as_bytes(), &mut table);
    assert_eq!(reply, Reply::accepted(0), "{text}");
    table
}

/// What reading the formula answers over a table that is accepted.
pub fn reply_to(table: &str, formula: &str) -> Reply {
    let mut lent = vec![0xee; FORMULA_LENGTH];
    entries::read_formula(&prepare_table(table), formula.as_bytes(), &mut lent)
}

/// A question whose texts are accepted.
pub struct Question {
    pub labels: u8,
    table: Vec<u8>,
    formula: Vec<u8>,
    in_parts: (Table, Formula),
}

pub fn question(table_text: &str, formula_text: &str) -> Question {
    let table = prepare_table(table_text);
    let mut formula = vec![0xee; FORMULA_LENGTH];
    let reply = entries::read_formula(&table, formula_text.as_bytes(), &mut formula);
    assert_eq!(reply, Reply::accepted(0), "{formula_text}");
    let read = Table::read(table_text.as_bytes()).expect("a table");
    let formula_read = Formula::read(&read, formula_text.as_bytes()).expect("a formula");
    Question { labels: read.labels() as u8, table, formula, in_parts: (read, formula_read) }
}

impl Question {
    pub fn verdict(&self) -> u64 {
        let reply = entries::verdict(&self.table, &self.formula);
        assert_eq!(reply.number, 0);
        reply.figure
    }

    pub fn class(&self) -> u64 {
        self.in_parts.1.root_class().number()
    }

    /// Read from the bytes that building leaves.
    pub fn listing(&self) -> Listing {
        let mut rows = vec![0xee; 2_000 * ROW_PLACE];
        let mut edges = vec![0xee; 8_000 * EDGE_PLACE];
        let mut edge_count = 0;
        let reply =
            entries::build(&self.table, &self.formula, &mut rows, &mut edges, &mut edge_count);
        assert_eq!(reply.number, 0);
        let row = |row: &[u8]| Row { place: row[0], state: row[1], is_final: row[2] == 1 };
        let edge = |edge: &[u8]| Edge {
            row: u16::from_le_bytes([edge[0], edge[1]]),
            label: edge[2],
            target: u16::from_le_bytes([edge[3], edge[4]]),
        };
        let (row_count, edge_count) = (reply.figure as usize, edge_count as usize);
        Listing {
            rows: rows.chunks(ROW_PLACE).take(row_count).map(row).collect(),
            edges: edges.chunks(EDGE_PLACE).take(edge_count).map(edge).collect(),
        }
    }

    /// By the entry, by Definition 6 on every path, and by the listing, which must agree.
    pub fn accepts(&self, letters: &[u8]) -> bool {
        let reply = entries::accepts(&self.table, &self.formula, letters);
        assert_eq!(reply.number, 0);
        let (table, formula) = &self.in_parts;
        let accepted = reply.figure == 1;
        assert_eq!(accepted, word::has_explaining_path(table, formula, letters));
        assert_eq!(accepted, word::is_accepted_by(&self.listing(), letters));
        accepted
    }

    /// All accepted words of at most so many letters, shorter ones first.
    pub fn words(&self, longest: usize) -> Vec<Vec<u8>> {
        let mut accepted = all_words(self.labels, longest);
        accepted.retain(|word| self.accepts(word));
        accepted
    }
}

pub fn all_words(labels: u8, longest: usize) -> Vec<Vec<u8>> {
    let mut words = vec![Vec::new()];
    let mut extended = 0;
    while words[extended].len() < longest {
        for letter in alphabet(labels.into()) {
            let longer = [words[extended].as_slice(), &[letter]].concat();
            words.push(longer);
        }
        extended += 1;
    }
    words
}

/// The first row of a listing that is final is reached by one of its shortest words.
pub fn shortest_word(listing: &Listing) -> Option<Vec<u8>> {
    let mut row = listing.rows.iter().position(|row| row.is_final)? as u16;
    let mut word = Vec::new();
    while row > 0 {
        let edge = listing.edges.iter().find(|edge| edge.target == row)?;
        word.insert(0, edge.label);
        row = edge.row;
    }
    Some(word)
}
