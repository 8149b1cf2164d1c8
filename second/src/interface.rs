//! The table of the C interface, one row an entry: its type and its name here, its function in C,
//! what it is lent in order, and what it writes beside the figure if it accepts.
//!
//! From a row follow the entry's type, its place among the `Entries`, its call of the library, its
//! case of the comparison and its turn among the random calls. What is left to write is a function of
//! that name in `entries`, and one in `fuzz` that makes its inputs.

/// Hands the rows to a macro.
macro_rules! interface {
    ($rows:ident) => {
        $rows! {
            ReadTable read_table explainer_read_table(text: read, table: written) [];
            TableText table_text explainer_table_text(table: read, text: written) [];
            Combine combine explainer_combine(
                first: read, second: read, combined: written) [];
            ReadFormula read_formula explainer_read_formula(
                table: read, text: read, formula: written) [];
            WriteFormula write_formula explainer_write_formula(
                table: read, formula: read, text: written) [];
            Verdict verdict explainer_verdict(table: read, formula: read) [];
            Verdicts verdicts explainer_verdicts(
                table: read, formula: read, starts: read, answers: written) [];
            Build build explainer_build(
                table: read, formula: read, rows: written, edges: written) [edge_count];
            Smallest smallest explainer_smallest(
                table: read, formula: read, rows: written, edges: written,
                smallest: written, work: written) [edge_count];
            Accepts accepts explainer_accepts(table: read, formula: read, word: read) [];
            Explain explain explainer_explain(
                table_text: read, formula_text: read, table: written, formula: written,
                rows: written, edges: written) [verdict, formula_class, edge_count];
        }
    };
}

/// A lent slice, by whether it is only read or may be written.
macro_rules! slice {
    (read) => {
        &[u8]
    };
    (written) => {
        &mut [u8]
    };
}

pub(crate) use {interface, slice};

/// A row, for those who read the header.
pub struct Declared {
    pub entry: &'static str,
    pub function: &'static str,
    /// Each slice's name, and whether it may be written.
    pub slices: &'static [(&'static str, bool)],
    pub values: &'static [&'static str],
}

macro_rules! is_written {
    (read) => {
        false
    };
    (written) => {
        true
    };
}

macro_rules! declared {
    ($($type:ident $entry:ident $function:ident($($slice:ident: $kind:tt),*) [$($value:ident),*];)*) => {
        pub const INTERFACE: &[Declared] = &[$(Declared {
            entry: stringify!($entry),
            function: stringify!($function),
            slices: &[$((stringify!($slice), is_written!($kind))),*],
            values: &[$(stringify!($value)),*],
        }),*];
    };
}

interface!(declared);
