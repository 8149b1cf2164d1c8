//! Two names are one label if they are equal byte for byte, and else two: of every length, at every
//! place of a name, in a table's text, looked up by a formula and in prepared bytes.

mod common;

use common::refused;
use second::entries::Entries;
use second::prepared::{FORMULA_LENGTH, NAME_SLOT, NAMES, TABLE_LENGTH};
use second::reply::Reply;
use second::table::is_name;

/// The claims of one explainer.
macro_rules! claims {
    ($explainer:ident of $entries:expr $(, $ignored:meta)?) => {
        mod $explainer {
            #[test]
            $(#[$ignored])?
            fn names_that_differ_in_one_byte_are_two_labels() {
                super::names_that_differ_in_one_byte_are_two_labels(&$entries);
            }

            #[test]
            $(#[$ignored])?
            fn a_beginning_of_a_name_is_another_name() {
                super::a_beginning_of_a_name_is_another_name(&$entries);
            }

            #[test]
            $(#[$ignored])?
            fn equal_names_are_one_label() {
                super::equal_names_are_one_label(&$entries);
            }
        }
    };
}

claims!(second_explainer of ::second::entries::SECOND);
claims!(baseline of ::second::baseline::BASELINE);
claims!(
    library of ::second::link::library(),
    cfg_attr(not(feature = "library"), ignore = "the library is linked by --all-features")
);

/// A name of each length, without a mark and with one, as far as there is.
fn names() -> impl Iterator<Item = Vec<u8>> {
    let unmarked = (1..=12).map(|length| b"abcdefghijkl"[..length].to_vec());
    let marked = (1..=12).map(|length| [&b"abcdefghijkl"[..length], b"?"].concat());
    unmarked.chain(marked)
}

/// All names that differ from this one in the byte at this place alone.
fn others(name: &[u8], at: usize) -> impl Iterator<Item = Vec<u8>> {
    let with = move |byte: u8| [&name[..at], &[byte], &name[at + 1..]].concat();
    let bytes = (0..=u8::MAX).filter(move |&byte| byte != name[at]);
    bytes.map(with).filter(|other| is_name(other))
}

/// One state and these names.
fn text(names: &[&[u8]]) -> Vec<u8> {
    let mut text = format!("     1{:>6}     0     0\n", names.len()).into_bytes();
    for (name, number) in names.iter().zip(1..) {
        text.extend(format!("{number:>6} ").bytes().chain(name.iter().copied()).chain([b'\n']));
    }
    text
}

fn read_table(of: &Entries, names: &[&[u8]]) -> Result<Vec<u8>, Reply> {
    let mut table = vec![0xee; TABLE_LENGTH];
    match of.read_table.expect("it is there")(&text(names), &mut table) {
        Reply { number: 0, .. } => Ok(table),
        refused => Err(refused),
    }
}

/// The first mask of `EX[name] T`, whose name stands at offset 3.
fn looked_up(of: &Entries, table: &[u8], name: &[u8]) -> Result<u64, Reply> {
    let text = [b"EX[".as_slice(), name, b"] T"].concat();
    let mut formula = vec![0xee; FORMULA_LENGTH];
    match of.read_formula.expect("it is there")(table, &text, &mut formula) {
        Reply { number: 0, .. } => {
            Ok(u64::from_le_bytes(formula[2..10].try_into().expect("eight bytes")))
        }
        refused => Err(refused),
    }
}

/// In a table each is found under its own number, side by side and as the first and last of forty; a
/// table that has one of them lacks the other.
fn are_two_labels(of: &Entries, one: &[u8], other: &[u8]) {
    let told = || format!("{} {}", one.escape_ascii(), other.escape_ascii());
    let further: Vec<Vec<u8>> = (2..40).map(|label| format!("z_{label}").into_bytes()).collect();
    let mut forty: Vec<&[u8]> = further.iter().map(Vec::as_slice).collect();
    forty.insert(0, one);
    forty.push(other);
    for names in [&[one, other], forty.as_slice()] {
        let table = read_table(of, names).unwrap_or_else(|_| panic!("{}", told()));
        assert_eq!(looked_up(of, &table, one), Ok(1 << 1), "{}", told());
        assert_eq!(looked_up(of, &table, other), Ok(1 << names.len()), "{}", told());
    }
    let table = read_table(of, &[one]).expect("a table");
    assert_eq!(looked_up(of, &table, other), Err(refused(7, 3)), "{}", told());
}

fn names_that_differ_in_one_byte_are_two_labels(of: &Entries) {
    let mut pairs = 0;
    for name in names() {
        for other in (0..name.len()).flat_map(|at| others(&name, at)) {
            are_two_labels(of, &name, &other);
            pairs += 1;
        }
    }
    assert!(pairs > 5_000, "{pairs}");
}

fn a_beginning_of_a_name_is_another_name(of: &Entries) {
    for name in names() {
        for beginning in (1..name.len()).map(|length| &name[..length]) {
            are_two_labels(of, &name, beginning);
            are_two_labels(of, beginning, &name);
        }
    }
}

/// In a text they are refused by 3 on the second one's line; in prepared bytes by 10.
fn equal_names_are_one_label(of: &Entries) {
    for name in names() {
        assert_eq!(read_table(of, &[&name, b"z", &name]), Err(refused(3, 4)));
        let mut table = read_table(of, &[&name, b"z", b"y"]).expect("a table");
        table.copy_within(NAMES..NAMES + NAME_SLOT, NAMES + 2 * NAME_SLOT);
        assert_eq!(looked_up(of, &table, &name), Err(refused(10, 0)));
    }
}
