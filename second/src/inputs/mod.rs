//! Random inputs: mostly small, some at every limit, valid and damaged.

pub mod rng;
pub mod bytes;
pub mod kinds;
pub mod alike;
pub mod tables;
pub mod formulas;
pub mod marks;
pub mod short;
pub mod table_texts;
pub mod formula_texts;
pub mod questions;
pub mod sets;
pub mod written;
pub mod lending;
pub mod starts;
pub mod pairs;
pub mod words;
pub mod edits;
pub mod folders;
pub mod lists;
pub mod smallest;
pub mod views;
pub mod side_by_side;
