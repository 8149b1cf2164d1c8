//! The second explainer: 01 by other methods than the library's, and what holds the two together.
//!
//! The modules stand in layers, and each uses only those above it: replies, texts and prepared bytes;
//! verdict, listing, smallest automaton and words; the entries of each explainer; what is printed;
//! inputs and their counts; comparisons and times.
#![deny(unsafe_code)]

pub mod columns;
pub mod reply;
pub mod table;
pub mod grammar;
pub mod expansion;
pub mod formula;
pub mod writing;
pub mod combining;
pub mod prepared;

pub mod verdict;
pub mod listing;
pub mod smallest;
pub mod word;
pub mod enumeration;
pub mod run;

pub mod interface;
pub mod entries;
pub mod baseline;
#[allow(unsafe_code)]
pub mod link;

pub mod print;
pub mod starts;
pub mod views;

pub mod tally;
pub mod inputs;
pub mod openfst;
pub mod corpus;

pub mod compare;
pub mod fuzz;
pub mod read_back;
pub mod trials;
pub mod program;
pub mod print_verdicts;
pub mod print_combined;
pub mod print_smallest;
pub mod script;
pub mod digests;
pub mod bench;
