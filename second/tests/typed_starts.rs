//! The verdict at each of several states.

mod common;

use common::{M, ONE_STATE};
use second::reply::Refusal;
use second::starts::{in_columns, printed, verdicts};
use second::views::{View, text};

fn of(table: &str, formula: &str, typed: &str) -> String {
    let list = in_columns(typed).expect(typed);
    let printed = printed(table.as_bytes(), formula.as_bytes(), &list);
    let view = text(View::Starts(typed), table.as_bytes(), formula.as_bytes());
    let printed = String::from_utf8(printed).expect("ASCII");
    assert!(view.is_err() || view == Ok(printed.clone()));
    printed
}

#[test]
fn each_state_has_the_verdict_of_a_table_that_starts_there() {
    assert_eq!(
        of(M, "EX[req] T", "0 1 2"),
        "     0     3\n     0     1\n     1     0\n     2     0\n"
    );
    assert_eq!(of(M, "EX[req] T\n", "0"), "     1     1\n     0     1\n");
    assert_eq!(of(M, "EU[*;ack] T", "0 1"), "     1     2\n     0     1\n     1     1\n");
    assert_eq!(of(M, "EX[.] T", "1 2"), "     1     2\n     1     1\n     2     1\n");
    assert_eq!(of(ONE_STATE, "T", "0"), "     1     1\n     0     1\n");
}

#[test]
fn at_no_state_it_holds() {
    assert_eq!(of(M, "~T", ""), "     1     0\n");
    assert_eq!(of(M, "~T", "   "), "     1     0\n");
}

#[test]
fn the_first_entry_that_does_not_rise_or_is_no_state_is_told_by_its_index() {
    assert_eq!(of(M, "T", "3"), "    16     0\n");
    assert_eq!(of(M, "T", "0 3"), "    16     1\n");
    assert_eq!(of(M, "T", "0 0"), "    16     1\n");
    assert_eq!(of(M, "T", "0 2 1 9"), "    16     2\n");
    for state in ["255", "256", "257", "300", "65536", "999999"] {
        assert_eq!(of(M, "T", &format!("0 1 2 {state}")), "    16     3\n");
    }
}

#[test]
fn the_table_and_the_formula_are_read_first() {
    assert_eq!(of("", "T", "9"), "     1     1\n");
    assert_eq!(of(M, "", "9"), "     6     0\n");
    assert_eq!(of(M, "EX[nil] T", "9"), "     7     3\n");
    assert_eq!(of(M, "T | ~T", "9"), "     9     0\n");
}

#[test]
fn all_of_256_states_and_one_more() {
    let table = "   256     0     0     0\n";
    let typed = |count| (0..count).map(|state| format!(" {state}")).collect::<String>();
    let all = of(table, "T", &typed(256));
    assert!(all.starts_with("     1   256\n     0     1\n") && all.ends_with("\n   255     1\n"));
    assert_eq!(all.lines().count(), 257);
    assert_eq!(of(table, "T", &typed(257)), "    16   256\n");
    assert_eq!(of(table, "T", &(typed(256) + " 255")), "    16   256\n");
    assert_eq!(of(table, "T", &typed(300)), "    16   256\n");
}

#[test]
fn bytes_that_are_no_number_in_columns_name_no_state() {
    let of = |list: &[u8]| {
        let refused = verdicts(M.as_bytes(), b"T", list).expect_err("refused");
        match refused {
            Refusal::Start(index) => index,
            _ => panic!("{refused:?}"),
        }
    };
    assert_eq!(of(b"     0\n"), 1);
    assert_eq!(of(b"     0     "), 1);
    assert_eq!(of(b"0"), 0);
    assert_eq!(of(b"    00"), 0);
    assert_eq!(of(b"000000"), 0);
    assert_eq!(of(b"      "), 0);
    assert_eq!(of(b"     0     a     1"), 1);
    assert_eq!(of(b"     0     1\n     2\n"), 2);
}

#[test]
fn a_list_is_typed_with_blanks_and_zeros_and_nothing_else() {
    assert_eq!(in_columns("0 3 7").as_deref(), Some(&b"     0     3     7"[..]));
    assert_eq!(in_columns("  000  03 000007 ").as_deref(), Some(&b"     0     3     7"[..]));
    assert_eq!(in_columns("999999").as_deref(), Some(&b"999999"[..]));
    assert_eq!(in_columns("").as_deref(), Some(&b""[..]));
    for typed in
        ["1000000", "0000000", "a", "-1", "+1", "0,1", "0\t1", "0\n", "0x1", "1.0", "\u{b2}"]
    {
        assert_eq!(in_columns(typed), None, "{typed}");
    }
}
