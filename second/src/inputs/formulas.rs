//! Random formulas of any number of nodes, their tokens, and prepared formulas.

use super::rng::Rng;
use super::tables::name;
use crate::formula::{Class, Condition, Formula, MAX_BYTES, MAX_NODES, Node, Set};
use crate::prepared::{FORMULA_LENGTH, NODE_SLOT, NODES};
use crate::table::{Direction, MAX_STEM, Table};

/// Mostly a few; sometimes the most there may be.
pub fn node_count(rng: &mut Rng) -> usize {
    match rng.below(64) {
        0 => MAX_NODES,
        1 => rng.between(20, MAX_NODES),
        _ => rng.between(1, 9),
    }
}

pub fn class(rng: &mut Rng, nodes: usize) -> Class {
    match nodes == 1 || rng.below(5) < 3 {
        true => Class::Witnesses,
        false => Class::Counterexamples,
    }
}

/// A formula of exactly so many nodes, of the class or, without one, of whatever form.
pub fn formula(rng: &mut Rng, class: Option<Class>, nodes: usize, table: &Table) -> Formula {
    grown(rng, Forms::All, class, nodes, table)
}

/// The same, of short forms as far as they fit.
pub fn of_short_forms(rng: &mut Rng, class: Option<Class>, nodes: usize, table: &Table) -> Formula {
    grown(rng, Forms::Short, class, nodes, table)
}

fn grown(
    rng: &mut Rng,
    forms: Forms,
    class: Option<Class>,
    nodes: usize,
    table: &Table,
) -> Formula {
    let mut growth = Growth::new(rng, forms, table);
    growth.grow(class, nodes);
    Formula { nodes: growth.nodes }
}

/// Of so many nodes, three or more: an until as its root (class 1), or below a `~` (class 2).
pub fn until(rng: &mut Rng, nodes: usize, table: &Table) -> Formula {
    let sets = Sets::over(table);
    let mut growth = Growth::new(rng, Forms::All, table);
    let negations = growth.rng.pick(&[0, 0, 0, 1]);
    growth.nodes.extend((0..negations).map(|number| Node::Not(number + 1)));
    let root = growth.reserve();
    let set = match growth.rng.one_in(2) {
        true => sets.all(),
        false => sets.any(growth.rng),
    };
    let then = sets.of_some(growth.rng);
    let arm = growth.grow(Some(Class::Witnesses), nodes - root - 1);
    growth.nodes[root] = match growth.rng.one_in(2) {
        true => Node::Until(set, arm),
        false => Node::UntilThen(set, then, arm),
    };
    Formula { nodes: growth.nodes }
}

/// The forms to choose from.
#[derive(Clone, Copy, PartialEq, Eq)]
enum Forms {
    All,
    Short,
}

struct Growth<'a> {
    rng: &'a mut Rng,
    forms: Forms,
    sets: Sets,
    nodes: Vec<Node>,
}

impl<'a> Growth<'a> {
    fn new(rng: &'a mut Rng, forms: Forms, table: &Table) -> Growth<'a> {
        Growth { rng, forms, sets: Sets::over(table), nodes: Vec::new() }
    }
}

impl Growth<'_> {
    /// The number of a node that is set later.
    fn reserve(&mut self) -> usize {
        self.nodes.push(Node::True);
        self.nodes.len() - 1
    }

    fn grow(&mut self, class: Option<Class>, count: usize) -> usize {
        let number = self.reserve();
        if count > 1 {
            self.nodes[number] = match class {
                Some(Class::Witnesses) => self.witnessed(count),
                Some(Class::Counterexamples) => self.refuted(count),
                None => self.any(count),
            };
        }
        number
    }

    fn witnessed(&mut self, count: usize) -> Node {
        let witnesses = Some(Class::Witnesses);
        // The smallest formula of the other class has two nodes.
        let forms = if count > 2 { 12 } else { 6 };
        match self.rng.below(forms) {
            0..6 if self.forms == Forms::Short => self.short(witnesses, count),
            0 | 1 => Node::Next(self.condition(), self.grow(witnesses, count - 1)),
            2 | 3 => Node::Until(self.sets.any(self.rng), self.grow(witnesses, count - 1)),
            4 | 5 => self.until_then(witnesses, count),
            6..9 => Node::Not(self.grow(Some(Class::Counterexamples), count - 1)),
            _ => self.or(witnesses, count),
        }
    }

    fn refuted(&mut self, count: usize) -> Node {
        let arm = match count {
            2 => Class::Witnesses,
            _ => Class::Counterexamples,
        };
        let forms = if self.forms == Forms::Short { 8 } else { 16 };
        match self.rng.below(forms) {
            0..3 if count >= 8 => self.and(Some(Class::Counterexamples), count),
            3..6 if count >= 5 => self.always(Some(Class::Counterexamples), count),
            6..10 => Node::Not(self.grow(Some(Class::Witnesses), count - 1)),
            _ => Node::AllNext(self.condition(), self.grow(Some(arm), count - 1)),
        }
    }

    fn any(&mut self, count: usize) -> Node {
        let forms = if count > 2 { 8 } else { 5 };
        match self.rng.below(forms) {
            0 => Node::Not(self.grow(None, count - 1)),
            1 | 2 if self.forms == Forms::Short => self.short(None, count),
            1 => Node::Next(self.condition(), self.grow(None, count - 1)),
            2 => Node::AllNext(self.condition(), self.grow(None, count - 1)),
            3 => Node::Until(self.sets.any(self.rng), self.grow(None, count - 1)),
            4 => self.until_then(None, count),
            5 if count >= 6 => self.and(None, count),
            6 if count >= 4 => self.always(None, count),
            _ => self.or(None, count),
        }
    }

    /// `EF x` or `DIA[A] x` written out.
    fn short(&mut self, class: Option<Class>, count: usize) -> Node {
        match self.rng.one_in(2) {
            true => Node::Until(self.sets.all(), self.grow(class, count - 1)),
            false => {
                let set = self.sets.any(self.rng);
                Node::Next(Condition::Among(set), self.grow(class, count - 1))
            }
        }
    }

    /// `AG x` or `BOX[A] x` written out.
    fn always(&mut self, class: Option<Class>, count: usize) -> Node {
        let number = self.reserve();
        let set = self.sets.any(self.rng);
        let arm = self.not(class, count - 3);
        self.nodes[number] = match self.rng.one_in(2) {
            true => Node::Until(self.sets.all(), arm),
            false => Node::Next(Condition::Among(set), arm),
        };
        Node::Not(number)
    }

    /// `x & y` written out.
    fn and(&mut self, class: Option<Class>, count: usize) -> Node {
        let least = if class.is_none() { 1 } else { 2 };
        let left = self.rng.between(least, count - 4 - least);
        let number = self.reserve();
        let arms = [left, count - 4 - left].map(|nodes| self.not(class, nodes));
        self.nodes[number] = Node::Or(arms[0], arms[1]);
        Node::Not(number)
    }

    /// `~` before a formula of so many nodes.
    fn not(&mut self, class: Option<Class>, count: usize) -> usize {
        let number = self.reserve();
        self.nodes[number] = Node::Not(self.grow(class, count));
        number
    }

    fn until_then(&mut self, class: Option<Class>, count: usize) -> Node {
        let [first, then] = [(); 2].map(|()| self.sets.any(self.rng));
        Node::UntilThen(first, then, self.grow(class, count - 1))
    }

    fn or(&mut self, class: Option<Class>, count: usize) -> Node {
        let left = self.rng.between(1, count - 2);
        Node::Or(self.grow(class, left), self.grow(class, count - 1 - left))
    }

    fn condition(&mut self) -> Condition {
        match self.rng.one_in(5) {
            true => Condition::Silent,
            false => Condition::Among(self.sets.any(self.rng)),
        }
    }
}

/// The sets of a table's labels.
#[derive(Clone, Copy)]
struct Sets {
    labels: usize,
    /// The received labels and the sent ones.
    going: [Set; 2],
}

impl Sets {
    fn over(table: &Table) -> Sets {
        let going = [Direction::In, Direction::Out].map(|going| Set::going(going, table));
        Sets { labels: table.labels(), going }
    }

    fn all(self) -> Set {
        Set::all(self.labels)
    }

    fn any(self, rng: &mut Rng) -> Set {
        match rng.below(12) {
            _ if self.labels == 0 => Set::EMPTY,
            0..3 => self.all(),
            3..6 => self.some_label(rng),
            6 => self.some_label(rng).complement(self.labels),
            7 => Set(rng.draw() & self.all().0),
            8 => self.some_label(rng).union(self.some_label(rng)),
            9 => self.directed(rng),
            10 => match rng.one_in(2) {
                true => self.directed(rng).complement(self.labels),
                false => self.directed(rng).union(self.some_label(rng)),
            },
            _ => Set::EMPTY,
        }
    }

    fn of_some(self, rng: &mut Rng) -> Set {
        if self.labels == 0 { Set::EMPTY } else { self.some_label(rng).union(self.any(rng)) }
    }

    /// Often the first or the last.
    fn some_label(self, rng: &mut Rng) -> Set {
        let any = rng.between(1, self.labels);
        Set::of(rng.pick(&[1, self.labels, any, any]) as u8)
    }

    /// All of one direction or of either.
    fn directed(self, rng: &mut Rng) -> Set {
        let [received, sent] = self.going;
        rng.pick(&[received, received, sent, sent, received.union(sent)])
    }
}

/// Of a formula with a class and two nodes or more, so many at the most.
pub fn small_tokens(rng: &mut Rng, table: &Table, most: usize) -> Vec<Vec<u8>> {
    let nodes = rng.between(2, most);
    let class = class(rng, nodes);
    let formula = formula(rng, Some(class), nodes, table);
    tokens(rng, &formula, table)
}

/// A short form that a node may be written as, with what it is written of.
#[derive(Clone, Copy)]
enum Short {
    And(usize, usize),
    Eventually(usize),
    Always(usize),
    Diamond(Set, usize),
    Box(Set, usize),
}

impl Short {
    fn of(formula: &Formula, node: usize, all: Set) -> Option<Short> {
        let below_not = |number: usize| match formula.nodes[number] {
            Node::Not(arm) => Some(arm),
            _ => None,
        };
        match formula.nodes[node] {
            Node::Until(set, arm) if set == all => Some(Short::Eventually(arm)),
            Node::Next(Condition::Among(set), arm) => Some(Short::Diamond(set, arm)),
            Node::Not(number) => match formula.nodes[number] {
                Node::Until(set, arm) if set == all => below_not(arm).map(Short::Always),
                Node::Next(Condition::Among(set), arm) => {
                    below_not(arm).map(|arm| Short::Box(set, arm))
                }
                Node::Or(left, right) => Some(Short::And(below_not(left)?, below_not(right)?)),
                _ => None,
            },
            _ => None,
        }
    }
}

/// The tokens of some text of this formula, which may have short forms.
pub fn tokens(rng: &mut Rng, formula: &Formula, table: &Table) -> Vec<Vec<u8>> {
    let in_four = rng.pick(&[0, 1, 3, 4]);
    written(rng, formula, table, in_four)
}

/// With a short form wherever there can be one.
pub fn short_tokens(rng: &mut Rng, formula: &Formula, table: &Table) -> Vec<Vec<u8>> {
    written(rng, formula, table, 4)
}

/// So many in four nodes that can be short forms are.
fn written(rng: &mut Rng, formula: &Formula, table: &Table, in_four: usize) -> Vec<Vec<u8>> {
    let brackets = rng.pick(&[2, 8, 1_000]);
    let sets = Sets::over(table);
    let short = |node| Short::of(formula, node, sets.all()).filter(|_| rng.below(4) < in_four);
    let short = (0..formula.nodes.len()).map(short).collect();
    let mut writer = Writer { rng, formula, short, table, sets, brackets, tokens: Vec::new() };
    writer.formula(0);
    writer.tokens
}

struct Writer<'a> {
    rng: &'a mut Rng,
    formula: &'a Formula,
    /// What each node is written as, if it is a short form.
    short: Vec<Option<Short>>,
    table: &'a Table,
    sets: Sets,
    /// One in so many terms stands in brackets that it does not need.
    brackets: usize,
    tokens: Vec<Vec<u8>>,
}

impl Writer<'_> {
    fn put(&mut self, token: &[u8]) {
        self.tokens.push(token.to_vec());
    }

    fn formula(&mut self, node: usize) {
        match self.formula.nodes[node] {
            Node::Or(left, right) => {
                self.formula(left);
                self.put(b"|");
                self.conjunction(right);
            }
            _ => self.conjunction(node),
        }
    }

    fn conjunction(&mut self, node: usize) {
        match self.short[node] {
            Some(Short::And(left, right)) => {
                self.conjunction(left);
                self.put(b"&");
                self.term(right);
            }
            _ => self.term(node),
        }
    }

    fn term(&mut self, node: usize) {
        let needed = matches!(self.formula.nodes[node], Node::Or(..))
            || matches!(self.short[node], Some(Short::And(..)));
        if needed || self.rng.one_in(self.brackets) {
            self.put(b"(");
            self.formula(node);
            self.put(b")");
            return;
        }
        match self.short[node] {
            Some(short) => self.short_form(short),
            None => self.base_form(node),
        }
    }

    fn short_form(&mut self, short: Short) {
        let arm = match short {
            Short::Eventually(arm) => {
                self.put(b"EF");
                arm
            }
            Short::Always(arm) => {
                self.put(b"AG");
                arm
            }
            Short::Diamond(set, arm) => {
                self.head(b"DIA", Condition::Among(set), None);
                arm
            }
            Short::Box(set, arm) => {
                self.head(b"BOX", Condition::Among(set), None);
                arm
            }
            Short::And(..) => unreachable!("a term that is no bracket"),
        };
        self.term(arm);
    }

    fn base_form(&mut self, node: usize) {
        match self.formula.nodes[node] {
            Node::True => self.put(b"T"),
            Node::Not(_) => self.put(b"~"),
            Node::Next(condition, _) => self.head(b"EX", condition, None),
            Node::AllNext(condition, _) => self.head(b"AX", condition, None),
            Node::Until(set, _) => self.head(b"EU", Condition::Among(set), None),
            Node::UntilThen(set, then, _) => {
                self.head(b"EU", Condition::Among(set), Some(then));
            }
            Node::Or(..) => unreachable!("a term that is no bracket"),
        }
        if let Some(arm) = self.formula.nodes[node].arms().next() {
            self.term(arm);
        }
    }

    fn head(&mut self, keyword: &[u8], condition: Condition, then: Option<Set>) {
        self.put(keyword);
        self.put(b"[");
        match condition {
            Condition::Silent => self.put(b"."),
            Condition::Among(set) => self.set(set, 3),
        }
        if let Some(then) = then {
            self.put(b";");
            self.set(then, 3);
        }
        self.put(b"]");
    }

    /// Some set that is equal to this one, with at most so many turns on the way.
    fn set(&mut self, set: Set, turns: usize) {
        if turns > 0 && self.rng.one_in(5) {
            self.operand(set, turns - 1);
            self.put(b"|");
            self.operand(set, turns - 1);
        } else if let Some((mark, rest)) = self.directed_part(set).filter(|_| turns > 0) {
            match self.rng.one_in(2) {
                true => {
                    self.put(mark);
                    self.put(b"|");
                    self.operand(rest, turns - 1);
                }
                false => {
                    self.operand(rest, turns - 1);
                    self.put(b"|");
                    self.put(mark);
                }
            }
        } else if set != Set::EMPTY && self.is_few(set) {
            self.names(set);
        } else {
            self.operand(set, turns);
        }
    }

    /// Sometimes, if all labels of some direction are among others: its operand, and the others.
    fn directed_part(&mut self, set: Set) -> Option<(&'static [u8], Set)> {
        let [received, sent] = self.sets.going;
        let (mark, going): (&[u8], Set) = self.rng.pick(&[(b"?", received), (b"!", sent)]);
        let is_part = going != Set::EMPTY && going != set && going.union(set) == set;
        (is_part && self.rng.one_in(2)).then_some((mark, Set(set.0 & !going.0)))
    }

    fn operand(&mut self, set: Set, turns: usize) {
        let labels = self.table.labels();
        let complement = set.complement(labels);
        if turns > 0 && self.rng.one_in(6) {
            self.put(b"(");
            self.set(set, turns - 1);
            self.put(b")");
        } else if turns > 0 && self.rng.one_in(6) {
            self.put(b"~");
            self.operand(complement, turns - 1);
        } else if set == self.sets.going[0] && self.rng.one_in(2) {
            self.put(b"?");
        } else if set == self.sets.going[1] && self.rng.one_in(2) {
            self.put(b"!");
        } else if complement == Set::EMPTY {
            self.put(b"*");
        } else if set.0.count_ones() == 1 {
            self.names(set);
        } else if set != Set::EMPTY && self.is_few(set) {
            self.put(b"(");
            self.names(set);
            self.put(b")");
        } else {
            self.put(b"~");
            self.operand(complement, 0);
        }
    }

    fn is_few(&self, set: Set) -> bool {
        let complement = set.complement(self.table.labels());
        set.0.count_ones() <= complement.0.count_ones()
    }

    fn names(&mut self, set: Set) {
        for (name, label) in self.table.names.iter().zip(1..) {
            if !set.has(label) {
                continue;
            }
            if set.0 & ((1 << label) - 1) != 0 {
                self.tokens.push(b"|".to_vec());
            }
            self.tokens.push(name.clone());
        }
    }
}

pub fn is_name(token: &[u8]) -> bool {
    token[0].is_ascii_lowercase()
}

/// No name of a table begins so. Thirteen letters are a fault of the grammar instead.
pub fn absent_name(rng: &mut Rng) -> Vec<u8> {
    let mut absent = b"q".to_vec();
    let longest = rng.pick(&[1, 3, MAX_STEM - 1, MAX_STEM]);
    absent.extend(name(rng, longest));
    absent.extend(rng.pick(&[None, None, Some(b'?'), Some(b'!')]));
    absent
}

/// With blanks between tokens: none, some, or as many as lead to a length at the limit.
pub fn spaced(rng: &mut Rng, tokens: &[Vec<u8>]) -> Vec<u8> {
    let bytes: usize = tokens.iter().map(Vec::len).sum();
    let added = match rng.below(32) {
        0 => rng.between(MAX_BYTES - 1, MAX_BYTES + 1).saturating_sub(bytes),
        1 => MAX_BYTES.saturating_sub(bytes),
        2..12 => 0,
        _ => rng.below(tokens.len().max(1)),
    };
    with_blanks(rng, tokens, added)
}

/// So many blanks between tokens.
pub fn with_blanks(rng: &mut Rng, tokens: &[Vec<u8>], count: usize) -> Vec<u8> {
    let gaps = tokens.len().saturating_sub(1);
    let mut blanks = vec![0; gaps + 2];
    for _ in 0..count {
        let faulty = gaps == 0 || rng.one_in(2_000);
        let gap = if faulty { rng.below(gaps + 2) } else { rng.between(1, gaps) };
        blanks[gap] += 1;
    }
    let mut text = vec![b' '; blanks[0]];
    for (token, blanks) in tokens.iter().zip(&blanks[1..]) {
        text.extend_from_slice(token);
        text.extend(std::iter::repeat_n(b' ', *blanks));
    }
    text
}

/// Some bytes changed, mostly away from the one form of a formula with classes.
pub fn damage_prepared(rng: &mut Rng, formula: &Formula, labels: usize, bytes: &mut [u8]) {
    // One slot past the used ones is as telling as the used ones.
    let slots = (formula.nodes.len() + 1).min(MAX_NODES);
    for _ in 0..rng.between(1, 2) {
        let slot = NODES + rng.below(slots) * NODE_SLOT;
        let other = NODES + rng.below(slots) * NODE_SLOT;
        match rng.below(8) {
            0 => bytes[0] = rng.pick(&[0, 1, 39, 40, 41, 128, 255]),
            1 => bytes[0] = bytes[0].wrapping_add(rng.pick(&[1, 255])),
            2 | 3 => bytes[slot] = rng.below(11) as u8,
            4 => bytes.copy_within(other..other + NODE_SLOT, slot),
            5 => {
                let label = rng.pick(&[0, 1, labels, labels + 1, 40, 41, 63]);
                bytes[slot + rng.pick(&[1, 9]) + label / 8] |= 1 << (label % 8);
            }
            6 => bytes[slot + rng.below(NODE_SLOT)] = rng.below(256) as u8,
            _ => bytes[rng.below(FORMULA_LENGTH)] = rng.below(256) as u8,
        }
    }
}
