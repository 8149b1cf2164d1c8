//! A formula in one pass over its text, by recursive descent.

use super::prepared::{
    ALL_NEXT, ALL_NEXT_SILENT, NEXT, NEXT_SILENT, NOT, Node, OR, TRUE, Table, UNTIL, UNTIL_THEN,
    checked_table, complete,
};
use crate::formula::{MAX_BYTES, MAX_NODES};
use crate::prepared::{FORMULA_LENGTH, NAME_SLOT, NODE_SLOT, NODES, TABLE_LENGTH};
use crate::reply::{Refusal, Reply};
use crate::table::{MAX_STEM, is_name_byte};

pub fn read_formula(table: &[u8], text: &[u8], formula: &mut [u8]) -> Reply {
    let Some(table) = table.first_chunk() else {
        return Refusal::ShortBuffer(TABLE_LENGTH).into();
    };
    let Some(lent) = formula.first_chunk_mut::<FORMULA_LENGTH>() else {
        return Refusal::ShortBuffer(FORMULA_LENGTH).into();
    };
    let Some(table) = checked_table(table) else {
        return Refusal::PreparedTable.into();
    };
    match read(&table, text) {
        Ok(form) => {
            *lent = form;
            Reply::accepted(0)
        }
        Err(refusal) => refusal.into(),
    }
}

fn read(table: &Table, text: &[u8]) -> Result<[u8; FORMULA_LENGTH], Refusal> {
    if text.len() > MAX_BYTES {
        return Err(Refusal::FormulaLength(text.len()));
    }
    let mut parser = Parser {
        table,
        text,
        at: 0,
        unknown: None,
        going: None,
        nodes: Vec::with_capacity(MAX_NODES),
        surplus: 0,
    };
    let whole = parser.formula();
    if whole.is_none() || parser.at < text.len() {
        return Err(Refusal::Grammar(parser.at));
    }
    if let Some(offset) = parser.unknown {
        return Err(Refusal::UnknownName(offset));
    }
    let mut nodes = parser.nodes;
    if parser.surplus > 0 {
        return Err(Refusal::NodeCount(nodes.len() + parser.surplus));
    }
    complete(&mut nodes).map_err(Refusal::NoClass)?;
    Ok(form(&nodes))
}

fn form(nodes: &[Node]) -> [u8; FORMULA_LENGTH] {
    let mut form = [0; FORMULA_LENGTH];
    form[0] = nodes.len() as u8;
    let slots = form[NODES..].as_chunks_mut::<NODE_SLOT>().0;
    for (slot, node) in slots.iter_mut().zip(nodes) {
        slot[0] = node.kind;
        slot[1..9].copy_from_slice(&node.first.to_le_bytes());
        slot[9..17].copy_from_slice(&node.then.to_le_bytes());
    }
    form
}

/// Neither `|` nor `&`.
const NO_JOINT: u8 = 0;

/// Reading fails with `at` where the longest viable beginning ends. What only short forms need is not
/// inlined, so that the frame of a term stays small.
struct Parser<'a> {
    table: &'a Table<'a>,
    text: &'a [u8],
    at: usize,
    unknown: Option<usize>,
    /// The received labels and the sent ones, from the first operand that asks for them.
    going: Option<[u64; 2]>,
    /// Of the written-out text, in order, as long as there are not too many.
    nodes: Vec<Node>,
    /// So many more there are.
    surplus: usize,
}

impl Parser<'_> {
    fn next(&self) -> Option<u8> {
        self.text.get(self.at).copied()
    }

    fn blanks(&mut self) {
        while self.next() == Some(b' ') {
            self.at += 1;
        }
    }

    fn byte(&mut self, byte: u8) -> Option<()> {
        (self.next() == Some(byte)).then(|| self.at += 1)
    }

    fn mark(&mut self, byte: u8) -> Option<()> {
        self.blanks();
        self.byte(byte)
    }

    fn formula(&mut self) -> Option<()> {
        let first = self.nodes.len();
        self.term()?;
        match self.joint()? {
            NO_JOINT => Some(()),
            joint => self.joined(first, joint),
        }
    }

    /// The `|` or `&` that follows. Blanks behind the last token of a bracket are its own; at the end
    /// they are viable and no more.
    fn joint(&mut self) -> Option<u8> {
        let end = self.at;
        self.blanks();
        match self.next() {
            Some(joint @ (b'|' | b'&')) => Some(joint),
            next => (next.is_some() || self.at == end).then_some(NO_JOINT),
        }
    }

    /// Behind the first term, whose first node has this number.
    #[inline(never)]
    fn joined(&mut self, first: usize, mut joint: u8) -> Option<()> {
        let mut conjunction = first;
        while joint != NO_JOINT {
            self.at += 1;
            if joint == b'|' {
                self.insert(first, &[OR]);
                conjunction = self.nodes.len();
            } else {
                self.insert(conjunction, &[NOT, OR, NOT]);
                self.push(NOT, 0, 0);
            }
            self.blanks();
            self.term()?;
            joint = self.joint()?;
        }
        Some(())
    }

    fn term(&mut self) -> Option<()> {
        match self.next()? {
            b'T' => {
                self.at += 1;
                self.push(TRUE, 0, 0);
                Some(())
            }
            b'~' => {
                self.at += 1;
                self.push(NOT, 0, 0);
                self.blanks();
                self.term()
            }
            b'(' => {
                self.at += 1;
                self.blanks();
                self.formula()?;
                self.mark(b')')
            }
            b'E' => {
                self.at += 1;
                match self.next()? {
                    b'X' => self.next_step(NEXT_SILENT, NEXT),
                    b'U' => self.until(),
                    b'F' => self.eventually(),
                    _ => None,
                }
            }
            b'A' => {
                self.at += 1;
                match self.next()? {
                    b'X' => self.next_step(ALL_NEXT_SILENT, ALL_NEXT),
                    b'G' => self.always(),
                    _ => None,
                }
            }
            b'D' => self.diamond(),
            b'B' => self.box_form(),
            _ => None,
        }
    }

    fn push(&mut self, kind: u8, first: u64, then: u64) {
        match self.nodes.len() < MAX_NODES {
            true => self.nodes.push(Node { kind, first, then, ..Node::default() }),
            false => self.surplus += 1,
        }
    }

    fn insert(&mut self, at: usize, kinds: &[u8]) {
        let count = self.nodes.len();
        if count + kinds.len() > MAX_NODES {
            self.surplus += kinds.len();
            return;
        }
        self.nodes.resize(count + kinds.len(), Node::default());
        self.nodes.copy_within(at..count, at + kinds.len());
        for (node, &kind) in self.nodes[at..].iter_mut().zip(kinds) {
            *node = Node { kind, ..Node::default() };
        }
    }

    fn next_step(&mut self, silent: u8, among: u8) -> Option<()> {
        self.at += 1;
        self.mark(b'[')?;
        self.blanks();
        if self.byte(b'.').is_some() {
            self.push(silent, 0, 0);
        } else {
            let set = self.set()?;
            self.push(among, set, 0);
        }
        self.mark(b']')?;
        self.blanks();
        self.term()
    }

    fn until(&mut self) -> Option<()> {
        self.at += 1;
        self.mark(b'[')?;
        self.blanks();
        let first = self.set()?;
        if self.mark(b';').is_some() {
            self.blanks();
            let then = self.set()?;
            self.push(UNTIL_THEN, first, then);
        } else {
            self.push(UNTIL, first, 0);
        }
        self.mark(b']')?;
        self.blanks();
        self.term()
    }

    #[inline(never)]
    fn eventually(&mut self) -> Option<()> {
        self.at += 1;
        self.push(UNTIL, self.all(), 0);
        self.blanks();
        self.term()
    }

    #[inline(never)]
    fn always(&mut self) -> Option<()> {
        self.at += 1;
        self.push(NOT, 0, 0);
        self.push(UNTIL, self.all(), 0);
        self.push(NOT, 0, 0);
        self.blanks();
        self.term()
    }

    #[inline(never)]
    fn diamond(&mut self) -> Option<()> {
        b"DIA".iter().try_for_each(|&byte| self.byte(byte))?;
        let set = self.bracketed_set()?;
        self.push(NEXT, set, 0);
        self.term()
    }

    #[inline(never)]
    fn box_form(&mut self) -> Option<()> {
        b"BOX".iter().try_for_each(|&byte| self.byte(byte))?;
        let set = self.bracketed_set()?;
        self.push(NOT, 0, 0);
        self.push(NEXT, set, 0);
        self.push(NOT, 0, 0);
        self.term()
    }

    fn bracketed_set(&mut self) -> Option<u64> {
        self.mark(b'[')?;
        self.blanks();
        let set = self.set()?;
        self.mark(b']')?;
        self.blanks();
        Some(set)
    }

    fn all(&self) -> u64 {
        ((1 << self.table.labels) - 1) << 1
    }

    fn set(&mut self) -> Option<u64> {
        let mut set = self.operand()?;
        while self.mark(b'|').is_some() {
            self.blanks();
            set |= self.operand()?;
        }
        Some(set)
    }

    fn operand(&mut self) -> Option<u64> {
        match self.next()? {
            b'*' => {
                self.at += 1;
                Some(self.all())
            }
            b'~' => {
                self.at += 1;
                self.blanks();
                let operand = self.operand()?;
                Some(self.all() & !operand)
            }
            b'(' => {
                self.at += 1;
                self.blanks();
                let set = self.set()?;
                self.mark(b')')?;
                Some(set)
            }
            b'a'..=b'z' => Some(self.name()),
            b'?' => {
                self.at += 1;
                Some(self.going()[0])
            }
            b'!' => {
                self.at += 1;
                Some(self.going()[1])
            }
            _ => None,
        }
    }

    fn going(&mut self) -> [u64; 2] {
        *self.going.get_or_insert_with(|| {
            let mut going = [0; 2];
            for (slot, label) in self.table.names.iter().zip(1..) {
                let last = slot[slot[0] as usize % NAME_SLOT];
                going[0] |= u64::from(last == b'?') << label;
                going[1] |= u64::from(last == b'!') << label;
            }
            going
        })
    }

    fn name(&mut self) -> u64 {
        let bytes = &self.text[self.at..];
        let stem = bytes.iter().take(MAX_STEM).take_while(|&&byte| is_name_byte(byte)).count();
        let length = stem + usize::from(matches!(bytes.get(stem), Some(b'?' | b'!')));
        let mut slot = [0; NAME_SLOT];
        slot[0] = length as u8;
        slot[1..=length].copy_from_slice(&bytes[..length]);
        let label = self.table.names.iter().position(|name| *name == slot);
        if label.is_none() {
            self.unknown.get_or_insert(self.at);
        }
        self.at += length;
        label.map_or(0, |label| 2 << label)
    }
}
