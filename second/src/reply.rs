//! What an entry answers, and the refusals of 01's table with their numbers and figures.

/// The returned number (0 if accepted) and figure.
#[derive(Clone, Copy, Debug, PartialEq, Eq)]
pub struct Reply {
    pub number: u32,
    pub figure: u64,
}

impl Reply {
    pub fn accepted(figure: u64) -> Reply {
        Reply { number: 0, figure }
    }
}

#[derive(Clone, Copy, Debug, PartialEq, Eq)]
pub enum Refusal {
    /// A table line, by its number from 1, that is missing or not as laid out.
    Layout(usize),
    Range(usize),
    NameUsed(usize),
    NotAbove(usize),
    FormulaLength(usize),
    Grammar(usize),
    UnknownName(usize),
    NodeCount(usize),
    NoClass(usize),
    PreparedTable,
    PreparedFormula,
    RowPlaces(usize),
    EdgePlaces(usize),
    Word(usize),
    /// A lent buffer, by the length that it must have.
    ShortBuffer(usize),
    /// A formula written back, by its length.
    TextLength(usize),
    /// A listed state, by its index, that is not above the one before it or that the table lacks.
    Start(usize),
    /// Of two tables side by side: pairs of states, labels, transitions, each by their count.
    PairCount(usize),
    LabelCount(usize),
    TransitionCount(usize),
    /// Sets of rows that words lead to: one more than there may be.
    SetCount(usize),
}

impl From<Refusal> for Reply {
    fn from(refusal: Refusal) -> Reply {
        let (number, figure) = match refusal {
            Refusal::Layout(line) => (1, line),
            Refusal::Range(line) => (2, line),
            Refusal::NameUsed(line) => (3, line),
            Refusal::NotAbove(line) => (4, line),
            Refusal::FormulaLength(length) => (5, length),
            Refusal::Grammar(beginning) => (6, beginning),
            Refusal::UnknownName(offset) => (7, offset),
            Refusal::NodeCount(count) => (8, count),
            Refusal::NoClass(node) => (9, node),
            Refusal::PreparedTable => (10, 0),
            Refusal::PreparedFormula => (10, 1),
            Refusal::RowPlaces(needed) => (11, needed),
            Refusal::EdgePlaces(needed) => (12, needed),
            Refusal::Word(index) => (13, index),
            Refusal::ShortBuffer(needed) => (14, needed),
            Refusal::TextLength(length) => (15, length),
            Refusal::Start(index) => (16, index),
            Refusal::PairCount(count) => (17, count),
            Refusal::LabelCount(count) => (18, count),
            Refusal::TransitionCount(count) => (19, count),
            Refusal::SetCount(count) => (20, count),
        };
        Reply { number, figure: figure as u64 }
    }
}

impl From<Result<u64, Refusal>> for Reply {
    fn from(outcome: Result<u64, Refusal>) -> Reply {
        match outcome {
            Ok(figure) => Reply::accepted(figure),
            Err(refusal) => refusal.into(),
        }
    }
}
