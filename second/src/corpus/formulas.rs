//! Formulas of the corpus as nodes in order, their texts and their prepared bytes (docs/FORMATS.md).

use super::rng::Rng;

pub const FORMULA_LENGTH: usize = 681;
pub const MAX_BYTES: usize = 512;

/// The kinds of nodes, as numbered in prepared bytes.
pub const TRUE: u8 = 1;
pub const NOT: u8 = 2;
pub const OR: u8 = 3;
pub const NEXT_SILENT: u8 = 4;
pub const NEXT: u8 = 5;
pub const ALL_SILENT: u8 = 6;
pub const ALL: u8 = 7;
pub const UNTIL: u8 = 8;
pub const UNTIL_THEN: u8 = 9;

/// A node before its arms, the left arm before the right: kind, first mask, second mask.
pub struct Formula {
    pub nodes: Vec<(u8, u64, u64)>,
    labels: usize,
}

fn all(labels: usize) -> u64 {
    ((1 << labels) - 1) << 1
}

fn mask(rng: &Rng, labels: usize) -> u64 {
    let some = 1 << rng.between(1, labels.max(1));
    let other = 1 << rng.between(1, labels.max(1));
    let masks = [all(labels), all(labels), some, some, !some, some | other, rng.draw(), 0];
    rng.pick(&masks) & all(labels)
}

impl Formula {
    /// So many nodes of the class 1 or 2, or of whatever form (0). Class 2 has two nodes at least.
    pub fn drawn(rng: &Rng, class: u8, nodes: usize, labels: usize) -> Formula {
        let mut formula = Formula { nodes: Vec::new(), labels };
        formula.grow(rng, class, nodes);
        formula
    }

    /// Mostly a few nodes.
    pub fn small(rng: &Rng, class: u8, labels: usize) -> Formula {
        let nodes = if rng.one_in(32) { rng.between(10, 40) } else { rng.between(2, 9) };
        Formula::drawn(rng, class, nodes, labels)
    }

    /// Some node has no class: one of the other class under EX, EU or AX, or beside `|`.
    pub fn without_class(rng: &Rng, labels: usize) -> Formula {
        let mut formula = Formula { nodes: Vec::new(), labels };
        (0..rng.below(3)).for_each(|_| formula.put(NOT, 0, 0));
        let fault = rng.pick(&[OR, NEXT_SILENT, ALL_SILENT, UNTIL]);
        formula.put(fault, 0, 0);
        if fault == OR {
            formula.grow(rng, 1, rng.between(1, 4));
        }
        let class = if fault == ALL_SILENT { 1 } else { 2 };
        formula.grow(rng, class, rng.between(2, 5));
        formula
    }

    /// A formula that a path with this word witnesses (class 1) or refutes (2).
    pub fn explained_by(rng: &Rng, class: u8, word: &[u8], labels: usize) -> Formula {
        let mut formula = Formula { nodes: Vec::new(), labels };
        let last = word.len().saturating_sub(1);
        for (at, &letter) in word.iter().enumerate() {
            let with = (mask(rng, labels) | 1 << letter) & all(labels);
            match (class, letter) {
                (1, 0) if rng.one_in(3) => formula.put(UNTIL, mask(rng, labels), 0),
                (1, 0) => formula.put(NEXT_SILENT, 0, 0),
                (1, _) if rng.one_in(3) => formula.put(UNTIL_THEN, mask(rng, labels), with),
                (1, _) if rng.one_in(4) => formula.put(UNTIL, with, 0),
                (1, _) => formula.put(NEXT, with, 0),
                (_, _) if at == last => formula.put(ALL, with & !(1 << letter), 0),
                (_, 0) => formula.put(ALL_SILENT, 0, 0),
                (_, _) => formula.put(ALL, with, 0),
            }
        }
        if class == 2 && word.is_empty() {
            formula.put(NOT, 0, 0);
        }
        formula.put(TRUE, 0, 0);
        formula
    }

    /// As many untils of every label, and T.
    pub fn untils(count: usize, labels: usize) -> Formula {
        let mut formula = Formula { nodes: Vec::new(), labels };
        (0..count).for_each(|_| formula.put(UNTIL, all(labels), 0));
        formula.put(TRUE, 0, 0);
        formula
    }

    fn put(&mut self, kind: u8, first: u64, second: u64) {
        self.nodes.push((kind, first, second));
    }

    fn grow(&mut self, rng: &Rng, class: u8, count: usize) {
        // The smallest formula of class 2 and the smallest `|` have two and three nodes.
        let forms: &[u8] = match (class, count) {
            (_, 1) => &[TRUE],
            (1, 2) => &[NEXT_SILENT, NEXT, NEXT, UNTIL, UNTIL_THEN],
            (1, _) => &[NOT, OR, NEXT_SILENT, NEXT, NEXT, UNTIL, UNTIL_THEN, UNTIL_THEN],
            (2, _) => &[NOT, ALL_SILENT, ALL, ALL],
            (_, 2) => &[NOT, NEXT_SILENT, NEXT, ALL_SILENT, ALL, UNTIL, UNTIL_THEN],
            _ => &[NOT, OR, NEXT_SILENT, NEXT, ALL_SILENT, ALL, UNTIL, UNTIL_THEN],
        };
        let (form, labels) = (rng.pick(forms), self.labels);
        let first = if form >= NEXT && form != ALL_SILENT { mask(rng, labels) } else { 0 };
        let second = if form == UNTIL_THEN { mask(rng, labels) } else { 0 };
        self.put(form, first, second);
        let arm = if form == NOT && class > 0 { 3 - class } else { class };
        match form {
            TRUE => {}
            OR => {
                let left = rng.between(1, count - 2);
                self.grow(rng, arm, left);
                self.grow(rng, arm, count - 1 - left);
            }
            _ => self.grow(rng, arm, count - 1),
        }
    }

    pub fn bytes(&self) -> Vec<u8> {
        let mut bytes = vec![0; FORMULA_LENGTH];
        bytes[0] = self.nodes.len() as u8;
        for (slot, (kind, first, second)) in bytes[1..].chunks_mut(17).zip(&self.nodes) {
            slot[0] = *kind;
            slot[1..9].copy_from_slice(&first.to_le_bytes());
            slot[9..17].copy_from_slice(&second.to_le_bytes());
        }
        bytes
    }

    /// The tokens of some text of this formula over these names.
    pub fn tokens(&self, rng: &Rng, names: &[Vec<u8>]) -> Vec<Vec<u8>> {
        let brackets = rng.pick(&[3, 10, 1_000]);
        let mut writer = Writer { rng, nodes: &self.nodes, names, brackets, tokens: Vec::new() };
        writer.formula(0);
        writer.tokens
    }
}

struct Writer<'a> {
    rng: &'a Rng,
    nodes: &'a [(u8, u64, u64)],
    names: &'a [Vec<u8>],
    /// One in so many terms stands in brackets that it does not need.
    brackets: usize,
    tokens: Vec<Vec<u8>>,
}

impl Writer<'_> {
    fn put(&mut self, tokens: &[&str]) {
        self.tokens.extend(tokens.iter().map(|token| token.as_bytes().to_vec()));
    }

    /// Answers the number of the node behind the formula.
    fn formula(&mut self, node: usize) -> usize {
        if self.nodes[node].0 != OR {
            return self.term(node);
        }
        let right = self.formula(node + 1);
        self.put(&["|"]);
        self.term(right)
    }

    fn term(&mut self, node: usize) -> usize {
        let (kind, first, second) = self.nodes[node];
        if kind == OR || self.rng.one_in(self.brackets) {
            self.put(&["("]);
            let behind = self.formula(node);
            self.put(&[")"]);
            return behind;
        }
        match kind {
            TRUE => self.put(&["T"]),
            NOT => self.put(&["~"]),
            NEXT_SILENT => self.put(&["EX", "[", ".", "]"]),
            ALL_SILENT => self.put(&["AX", "[", ".", "]"]),
            _ => {
                self.put(&[
                    if kind == NEXT {
                        "EX"
                    } else if kind == ALL {
                        "AX"
                    } else {
                        "EU"
                    },
                    "[",
                ]);
                self.set(first, 3);
                if kind == UNTIL_THEN {
                    self.put(&[";"]);
                    self.set(second, 3);
                }
                self.put(&["]"]);
            }
        }
        if kind == TRUE { node + 1 } else { self.term(node + 1) }
    }

    /// Some set that is equal to this one, with at most so many turns on the way.
    fn set(&mut self, set: u64, turns: usize) {
        if turns > 0 && self.rng.one_in(6) {
            self.operand(set, turns - 1);
            self.put(&["|"]);
            self.operand(set, turns - 1);
        } else if self.are_few(set) {
            self.list(set);
        } else {
            self.operand(set, turns);
        }
    }

    fn operand(&mut self, set: u64, turns: usize) {
        let others = all(self.names.len()) & !set;
        if turns > 0 && self.rng.one_in(6) {
            self.put(&["("]);
            self.set(set, turns - 1);
            self.put(&[")"]);
        } else if turns > 0 && self.rng.one_in(6) {
            self.put(&["~"]);
            self.operand(others, turns - 1);
        } else if others == 0 {
            self.put(&["*"]);
        } else if set.count_ones() == 1 {
            self.list(set);
        } else if self.are_few(set) {
            self.put(&["("]);
            self.list(set);
            self.put(&[")"]);
        } else {
            self.put(&["~"]);
            self.operand(others, 0);
        }
    }

    fn are_few(&self, set: u64) -> bool {
        set != 0 && 2 * set.count_ones() as usize <= self.names.len().max(2)
    }

    fn list(&mut self, set: u64) {
        let named = (1..=self.names.len()).filter(|label| set >> label & 1 == 1);
        let named: Vec<&[u8]> = named.map(|label| self.names[label - 1].as_slice()).collect();
        for (at, name) in named.into_iter().enumerate() {
            if at > 0 {
                self.put(&["|"]);
            }
            self.tokens.push(name.to_vec());
        }
    }
}

/// With up to so many blanks between two tokens.
pub fn spaced(rng: &Rng, tokens: &[Vec<u8>], blanks: usize) -> Vec<u8> {
    let mut text = Vec::new();
    for (at, token) in tokens.iter().enumerate() {
        let before = if at == 0 { 0 } else { rng.below(blanks + 1) };
        text.extend(std::iter::repeat_n(b' ', before));
        text.extend_from_slice(token);
    }
    text
}
