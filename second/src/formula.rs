//! Formulas as nodes in order, their classes, and reading them (refusals 5 to 9).

use crate::expansion;
use crate::grammar::{self, Mark, Notation};
use crate::reply::Refusal;
use crate::table::{Direction, Table, is_silent};

pub const MAX_BYTES: usize = 512;
pub const MAX_NODES: usize = 40;

/// A set of labels: bit a for label a, bit 0 never.
#[derive(Clone, Copy, Debug, PartialEq, Eq, Hash)]
pub struct Set(pub u64);

impl Set {
    pub const EMPTY: Set = Set(0);

    pub fn all(labels: usize) -> Set {
        Set(((1 << labels) - 1) << 1)
    }

    pub fn of(label: u8) -> Set {
        Set(1 << label)
    }

    /// All labels of the table whose names have this direction.
    pub fn going(direction: Direction, table: &Table) -> Set {
        table.going(direction).map(Set::of).fold(Set::EMPTY, Set::union)
    }

    /// 01: "Label 0 is in no set". The idle step's is in none either.
    pub fn has(self, label: u8) -> bool {
        !is_silent(label) && self.0 >> label & 1 == 1
    }

    /// 01: "each silent or meeting A".
    pub fn passes(self, label: u8) -> bool {
        is_silent(label) || self.has(label)
    }

    pub fn union(self, other: Set) -> Set {
        Set(self.0 | other.0)
    }

    pub fn complement(self, labels: usize) -> Set {
        Set(Set::all(labels).0 & !self.0)
    }

    pub fn is_within(self, labels: usize) -> bool {
        self.0 & !Set::all(labels).0 == 0
    }
}

#[derive(Clone, Copy, Debug, PartialEq, Eq, Hash)]
pub enum Condition {
    Silent,
    Among(Set),
}

impl Condition {
    pub fn meets(self, label: u8) -> bool {
        match self {
            Condition::Silent => is_silent(label),
            Condition::Among(set) => set.has(label),
        }
    }
}

/// Arms are node numbers, or whatever an arm is named by before numbering.
#[derive(Clone, Copy, Debug, PartialEq, Eq, Hash)]
pub enum Node {
    True,
    Not(usize),
    Or(usize, usize),
    Next(Condition, usize),
    AllNext(Condition, usize),
    Until(Set, usize),
    UntilThen(Set, Set, usize),
}

impl Node {
    /// Left arm first.
    pub fn arms(self) -> impl DoubleEndedIterator<Item = usize> {
        let arms = match self {
            Node::True => [None, None],
            Node::Or(left, right) => [Some(left), Some(right)],
            Node::Not(arm)
            | Node::Next(_, arm)
            | Node::AllNext(_, arm)
            | Node::Until(_, arm)
            | Node::UntilThen(_, _, arm) => [Some(arm), None],
        };
        arms.into_iter().flatten()
    }

    /// With each arm named otherwise.
    pub fn with_arms(self, renamed: impl Fn(usize) -> usize) -> Node {
        match self {
            Node::True => Node::True,
            Node::Not(arm) => Node::Not(renamed(arm)),
            Node::Or(left, right) => Node::Or(renamed(left), renamed(right)),
            Node::Next(condition, arm) => Node::Next(condition, renamed(arm)),
            Node::AllNext(condition, arm) => Node::AllNext(condition, renamed(arm)),
            Node::Until(set, arm) => Node::Until(set, renamed(arm)),
            Node::UntilThen(set, then, arm) => Node::UntilThen(set, then, renamed(arm)),
        }
    }

    pub fn sets(self) -> [Set; 2] {
        match self {
            Node::Next(Condition::Among(set), _) | Node::AllNext(Condition::Among(set), _) => {
                [set, Set::EMPTY]
            }
            Node::Until(set, _) => [set, Set::EMPTY],
            Node::UntilThen(set, then, _) => [set, then],
            _ => [Set::EMPTY; 2],
        }
    }
}

#[derive(Clone, Copy, Debug, PartialEq, Eq)]
pub enum Class {
    Witnesses,
    Counterexamples,
}

impl Class {
    pub fn number(self) -> u64 {
        match self {
            Class::Witnesses => 1,
            Class::Counterexamples => 2,
        }
    }
}

/// Nodes in order: a node before its arms, the left arm before the right. Node 0 is the root.
#[derive(Clone, Debug, PartialEq, Eq)]
pub struct Formula {
    pub nodes: Vec<Node>,
}

impl Formula {
    /// 02: "5, 6 and 7 measure the line as typed; the written-out text may pass 512 bytes."
    pub fn read(table: &Table, line: &[u8]) -> Result<Formula, Refusal> {
        if line.len() > MAX_BYTES {
            return Err(Refusal::FormulaLength(line.len()));
        }
        let marks = grammar::derive(Notation::Typed, line).map_err(Refusal::Grammar)?;
        let text = expansion::written_out(line, &marks);
        Formula::read_base(table, &text).map_err(|refusal| match refusal {
            Refusal::Grammar(_) => unreachable!("what is written out is in the base notation"),
            Refusal::UnknownName(offset) => {
                Refusal::UnknownName(expansion::offset_in_line(&marks, &text, offset))
            }
            other => other,
        })
    }

    /// A text of any length without short forms.
    pub fn read_base(table: &Table, text: &[u8]) -> Result<Formula, Refusal> {
        let marks = grammar::derive(Notation::Base, text).map_err(Refusal::Grammar)?;
        let formula = Draft::of(&marks, text, table)?.numbered();
        if formula.nodes.len() > MAX_NODES {
            return Err(Refusal::NodeCount(formula.nodes.len()));
        }
        match formula.classes().iter().rposition(Option::is_none) {
            Some(node) => Err(Refusal::NoClass(node)),
            None => Ok(formula),
        }
    }

    pub fn classes(&self) -> Vec<Option<Class>> {
        let mut classes = vec![None; self.nodes.len()];
        for (number, node) in self.nodes.iter().enumerate().rev() {
            classes[number] = self.class(*node, &classes);
        }
        classes
    }

    fn class(&self, node: Node, known: &[Option<Class>]) -> Option<Class> {
        use Class::{Counterexamples, Witnesses};
        match node {
            Node::True => Some(Witnesses),
            Node::Not(arm) => known[arm].map(|class| match class {
                Witnesses => Counterexamples,
                Counterexamples => Witnesses,
            }),
            Node::AllNext(_, arm) => {
                let fits = known[arm] == Some(Counterexamples) || self.nodes[arm] == Node::True;
                fits.then_some(Counterexamples)
            }
            Node::Or(..) | Node::Next(..) | Node::Until(..) | Node::UntilThen(..) => {
                let fits = node.arms().all(|arm| known[arm] == Some(Witnesses));
                fits.then_some(Witnesses)
            }
        }
    }

    /// The root's class, of a formula each of whose nodes has one.
    pub fn root_class(&self) -> Class {
        self.classes()[0].expect("every node has a class")
    }

    /// 01: "or the node count, called END".
    pub fn end(&self) -> usize {
        self.nodes.len()
    }
}

/// Nodes in postfix order, an arm named by its place in that order.
struct Draft {
    nodes: Vec<Node>,
}

impl Draft {
    fn of(marks: &[(Mark, usize)], text: &[u8], table: &Table) -> Result<Draft, Refusal> {
        let mut nodes = Vec::new();
        let mut arms: Vec<usize> = Vec::new();
        let mut conditions = Conditions::new(table, text);
        for &(mark, offset) in marks {
            let mut arm = || arms.pop().expect("arms come before their node");
            let node = match mark {
                Mark::True => Node::True,
                Mark::Not => Node::Not(arm()),
                Mark::Or => {
                    let right = arm();
                    Node::Or(arm(), right)
                }
                Mark::Next => Node::Next(conditions.pop(), arm()),
                Mark::AllNext => Node::AllNext(conditions.pop(), arm()),
                Mark::Until => Node::Until(conditions.pop_set(), arm()),
                Mark::UntilThen => {
                    let then = conditions.pop_set();
                    Node::UntilThen(conditions.pop_set(), then, arm())
                }
                Mark::TermBegins | Mark::Brackets => continue,
                operand => {
                    conditions.take(operand, offset)?;
                    continue;
                }
            };
            arms.push(nodes.len());
            nodes.push(node);
        }
        Ok(Draft { nodes })
    }

    fn numbered(&self) -> Formula {
        let mut order = Vec::with_capacity(self.nodes.len());
        let mut numbers = vec![0; self.nodes.len()];
        let mut unvisited = vec![self.nodes.len() - 1];
        while let Some(place) = unvisited.pop() {
            numbers[place] = order.len();
            order.push(self.nodes[place]);
            unvisited.extend(self.nodes[place].arms().rev());
        }
        let renamed = |node: Node| node.with_arms(|place| numbers[place]);
        Formula { nodes: order.into_iter().map(renamed).collect() }
    }
}

/// The step conditions read and not yet used. An operand is a condition among its labels.
struct Conditions<'a> {
    table: &'a Table,
    text: &'a [u8],
    name_begins: usize,
    read: Vec<Condition>,
}

impl Conditions<'_> {
    fn new<'a>(table: &'a Table, text: &'a [u8]) -> Conditions<'a> {
        Conditions { table, text, name_begins: 0, read: Vec::new() }
    }

    fn pop(&mut self) -> Condition {
        self.read.pop().expect("a condition comes before its node")
    }

    fn pop_set(&mut self) -> Set {
        match self.pop() {
            Condition::Among(set) => set,
            Condition::Silent => unreachable!("the silent step stands alone"),
        }
    }

    fn take(&mut self, mark: Mark, offset: usize) -> Result<(), Refusal> {
        let labels = self.table.labels();
        let set = match mark {
            Mark::NameBegins => {
                self.name_begins = offset;
                return Ok(());
            }
            Mark::SilentStep => {
                self.read.push(Condition::Silent);
                return Ok(());
            }
            Mark::NameEnds => {
                let label = self.table.label(&self.text[self.name_begins..offset]);
                // Names are taken in the order of the text, so the first lacking one is refused.
                Set::of(label.ok_or(Refusal::UnknownName(self.name_begins))?)
            }
            Mark::AllLabels => Set::all(labels),
            Mark::Received => Set::going(Direction::In, self.table),
            Mark::Sent => Set::going(Direction::Out, self.table),
            Mark::Complement => self.pop_set().complement(labels),
            Mark::Union => {
                let right = self.pop_set();
                self.pop_set().union(right)
            }
            _ => unreachable!("{mark:?} is no operand"),
        };
        self.read.push(Condition::Among(set));
        Ok(())
    }
}
