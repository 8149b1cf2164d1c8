//! The library, on a few random calls; `second fuzz` makes more. A disagreement is told as a test
//! that can stand here. Without the library these tests are ignored, and counted as such.

#[allow(unused_imports)]
use second::compare::*;
use second::entries::SECOND;
use second::interface::INTERFACE;
use second::link::library;
use second::{fuzz, read_back};

#[test]
#[cfg_attr(not(feature = "library"), ignore = "the library is linked by --all-features")]
fn random_calls_of_every_entry_of_the_library_agree() {
    let mut compared = 0;
    assert_eq!(fuzz::run(&SECOND, &library(), 41, 2_000, |_| compared += 1), Ok(()));
    assert_eq!(compared, INTERFACE.len());
}

#[test]
#[cfg_attr(not(feature = "library"), ignore = "the library is linked by --all-features")]
fn what_the_library_writes_it_reads_as_the_same_formula() {
    let outcome = read_back::run(&library(), 41, 3_000);
    let tally = outcome.expect("the same formulas").expect("the library is linked");
    let numbers: Vec<u32> = tally.numbers().into_keys().collect();
    assert_eq!(numbers, [0, 5, 6, 7, 8, 9, 15]);
}

/// For a disagreement's test.
#[allow(dead_code)]
fn agree<C: Case>(case: &C) {
    let second = case.answer(&SECOND).expect("the second explainer has all entries");
    let other = case.answer(&library()).expect("the library is linked by --all-features");
    assert_eq!(disagreement(case, &second, &other), None);
}
