//! The same entries written for speed, as a measure for the benchmarks: one pass over each text,
//! labelling by worklist over predecessors, target places as masks.

mod labels;
mod prepared;
mod graph;
mod labelling;
mod automaton;
mod smallest;
mod read_table;
mod table_text;
mod combine;
mod read_formula;
mod write_formula;
mod explain;

pub use automaton::{accepts, build};
pub use combine::combine;
pub use explain::explain;
pub use labelling::{verdict, verdicts};
pub use read_formula::read_formula;
pub use read_table::read_table;
pub use smallest::smallest;
pub use table_text::table_text;
pub use write_formula::write_formula;

use crate::entries::Entries;

pub const BASELINE: Entries = Entries {
    read_table: Some(read_table),
    table_text: Some(table_text),
    combine: Some(combine),
    read_formula: Some(read_formula),
    write_formula: Some(write_formula),
    verdict: Some(verdict),
    verdicts: Some(verdicts),
    build: Some(build),
    smallest: Some(smallest),
    accepts: Some(accepts),
    explain: Some(explain),
};
