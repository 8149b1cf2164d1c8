//! Names marked by direction, in tables and formulas, and the operands of a direction.

mod common;

use common::{M, ONE_STATE, prepare_table, question, refused, reply_to};
use second::entries;
use second::inputs::rng::Rng;
use second::inputs::tables::longest_table;
use second::prepared::{FORMULA_LENGTH, TABLE_LENGTH};
use second::reply::Reply;
use second::table::{Direction, Table};

/// Three names of one stem, and one more of each direction.
const CLAMP: &str = "     2     5     3     0
     1 clamp
     2 clamp?
     3 clamp!
     4 req?
     5 done!
     0     2     1
     0     3     1
     1     1     0
";

fn table_reply(text: &str) -> Reply {
    entries::read_table(text.as_bytes(), &mut [0xee; TABLE_LENGTH])
}

/// One state and these names.
fn named(names: &[&str]) -> String {
    let lines = names.iter().zip(1..).map(|(name, number)| format!("{number:>6} {name}\n"));
    format!("     1{:>6}     0     0\n{}", names.len(), lines.collect::<String>())
}

#[test]
fn three_names_of_one_stem_are_three_names() {
    let table = Table::read(CLAMP.as_bytes()).expect("a table");
    let labels = ["clamp", "clamp?", "clamp!"].map(|name| table.label(name.as_bytes()));
    assert_eq!(labels, [Some(1), Some(2), Some(3)]);
    assert_eq!(table.label(b"req"), None);
    assert_eq!(table.label(b"done?"), None);
    assert_eq!(table.text(), CLAMP.as_bytes());
}

#[test]
fn a_name_yields_its_direction() {
    for (name, direction) in [
        ("clamp", Direction::None),
        ("clamp?", Direction::In),
        ("clamp!", Direction::Out),
        ("abcdefghijkl", Direction::None),
        ("abcdefghijkl?", Direction::In),
        ("a!", Direction::Out),
    ] {
        assert_eq!(Direction::of(name.as_bytes()), direction, "{name}");
    }
    let table = Table::read(CLAMP.as_bytes()).expect("a table");
    let going = |direction| table.going(direction).collect::<Vec<u8>>();
    assert_eq!(going(Direction::None), [1]);
    assert_eq!(going(Direction::In), [2, 4]);
    assert_eq!(going(Direction::Out), [3, 5]);
}

#[test]
fn a_mark_stands_once_right_behind_a_name_of_up_to_twelve_bytes() {
    for name in ["a?", "a!", "abcdefghijkl?", "abcdefghijkl!", "a_0!"] {
        assert_eq!(table_reply(&named(&[name])), Reply::accepted(0), "{name}");
    }
    for name in [
        "a??",
        "a?!",
        "a!?",
        "?",
        "!",
        "??",
        "a ?",
        "a! ",
        "?a",
        "a?b",
        "A?",
        "0?",
        "_!",
        "abcdefghijklm",
        "abcdefghijklm?",
        "abcdefghijklmn!",
        "abcdefghijkl??",
        "a.",
    ] {
        assert_eq!(table_reply(&named(&["b", name])), refused(1, 3), "{name}");
    }
}

#[test]
fn a_name_is_used_before_only_with_the_same_mark() {
    assert_eq!(table_reply(&named(&["clamp?", "clamp!", "clamp"])), Reply::accepted(0));
    assert_eq!(table_reply(&named(&["clamp?", "clamp!", "clamp?"])), refused(3, 4));
    assert_eq!(table_reply(&named(&["clamp!", "clamp!"])), refused(3, 3));
    assert_eq!(table_reply(&named(&["clamp!", "clamp", "clamp"])), refused(3, 4));
}

#[test]
fn a_name_is_known_only_with_its_own_mark() {
    let only_sent = named(&["clamp!"]);
    assert_eq!(reply_to(&only_sent, "EX[clamp!] T"), Reply::accepted(0));
    assert_eq!(reply_to(&only_sent, "EX[clamp?] T"), refused(7, 3));
    assert_eq!(reply_to(&only_sent, "EX[clamp] T"), refused(7, 3));
    assert_eq!(reply_to(&only_sent, "EX[clamp!|~( clamp? | clamp )] T"), refused(7, 13));
    assert_eq!(reply_to(M, "EU[req;ack!] T"), refused(7, 7));
}

#[test]
fn figure_6_tells_where_a_mark_may_not_stand() {
    for (text, figure) in [
        ("EX[req ?] T", 7),
        ("EX[req?a", 7),
        ("EX[clamp??", 9),
        ("EX[clamp?!", 9),
        ("EX[abcdefghijklm?", 15),
        ("EX[abcdefghijkl?", 16),
        ("EX[?a", 4),
        ("EX[??", 4),
        ("EX[? a", 5),
        ("EX[?.] T", 4),
        ("EX[?|.] T", 5),
        ("EX[.|?] T", 4),
        ("AX[.!] T", 4),
        ("EU[?;.] T", 5),
        ("EX[req? a] T", 8),
        ("EX[req?(a)] T", 7),
        ("? T", 0),
        ("T!", 1),
    ] {
        assert_eq!(reply_to(CLAMP, text), refused(6, figure), "{text}");
    }
}

/// The masks of the first node.
fn masks(table: &str, text: &str) -> [u64; 2] {
    let mut formula = vec![0; FORMULA_LENGTH];
    let reply = entries::read_formula(&prepare_table(table), text.as_bytes(), &mut formula);
    assert_eq!(reply, Reply::accepted(0), "{text}");
    [2, 10].map(|at| u64::from_le_bytes(formula[at..at + 8].try_into().expect("eight bytes")))
}

#[test]
fn an_operand_of_a_direction_is_all_labels_of_that_direction() {
    for (set, mask) in [
        ("?", 0b010100),
        ("!", 0b101000),
        ("~?", 0b101010),
        ("~!", 0b010110),
        ("?|!", 0b111100),
        ("~(?|!)", 0b000010),
        ("~? | !", 0b101010),
        ("(?|clamp)", 0b010110),
        ("clamp! | ?", 0b011100),
        ("? | clamp? | req?", 0b010100),
        ("~~?", 0b010100),
        ("~(~? | ~!)", 0),
        ("*", 0b111110),
        ("clamp?", 0b000100),
        ("~clamp!", 0b110110),
    ] {
        assert_eq!(masks(CLAMP, &format!("EX[{set}] T")), [mask, 0], "{set}");
        assert_eq!(masks(CLAMP, &format!("AX[{set}] T")), [mask, 0], "{set}");
        assert_eq!(masks(CLAMP, &format!("EU[{set}] T")), [mask, 0], "{set}");
        assert_eq!(masks(CLAMP, &format!("EU[!;{set}] T")), [0b101000, mask], "{set}");
    }
}

#[test]
fn an_operand_of_a_direction_is_empty_over_a_table_that_has_none() {
    for (set, mask) in
        [("?", 0), ("!", 0), ("~?", 0b110), ("(?|req)", 0b010), ("?|!", 0), ("~(!|ack)", 0b010)]
    {
        assert_eq!(masks(M, &format!("EX[{set}] T")), [mask, 0], "{set}");
    }
    let only_received = named(&["a?", "b?"]);
    assert_eq!(masks(&only_received, "EU[?;!] T"), [0b110, 0]);
    assert_eq!(masks(&only_received, "EU[~?;~!] T"), [0, 0b110]);
    for set in ["?", "!", "~?", "~!", "?|!"] {
        assert_eq!(masks(ONE_STATE, &format!("EX[{set}] T")), [0, 0], "{set}");
    }
}

#[test]
fn no_operand_of_a_direction_admits_the_silent_step() {
    for set in ["?", "!", "~?", "~!", "?|!", "~(?|!)"] {
        assert_eq!(question(ONE_STATE, &format!("EX[{set}] T")).verdict(), 0, "{set}");
    }
    assert_eq!(question(CLAMP, "EX[?] T").words(2), [[2]]);
    assert_eq!(question(CLAMP, "EX[!] EX[~(?|!)] T").words(3), [[3, 1]]);
    assert_eq!(question(CLAMP, "AX[?] T").words(2), [[3]]);
}

#[test]
fn a_slot_holds_the_whole_name() {
    let table = prepare_table(&named(&["a?", "abcdefghijkl!"]));
    assert_eq!(table[6..22], *b"\x02a?\0\0\0\0\0\0\0\0\0\0\0\0\0");
    assert_eq!(table[22..38], *b"\x0dabcdefghijkl!\0\0");
    assert!(table[38..].iter().all(|&byte| byte == 0));
}

#[test]
fn a_slot_that_no_name_leaves_is_10() {
    type Damage = fn(&mut [u8]);
    let damages: [Damage; 8] = [
        |slot| slot[2] = b'a',
        |slot| slot[1..3].copy_from_slice(b"?a"),
        |slot| slot[0..2].copy_from_slice(b"\x01?"),
        |slot| slot[3] = b'!',
        |slot| slot[0..4].copy_from_slice(b"\x03a??"),
        |slot| slot[0..14].copy_from_slice(b"\x0dabcdefghijklm"),
        |slot| slot[0..15].copy_from_slice(b"\x0eabcdefghijklm?"),
        |slot| slot[0..15].copy_from_slice(b"\x0eabcdefghijkl??"),
    ];
    // The first leaves a name that stands in the other slot.
    let prepared = prepare_table(&named(&["a?", "aa"]));
    for (number, damage) in damages.iter().enumerate() {
        let mut table = prepared.clone();
        damage(&mut table[6..22]);
        let reply = entries::read_formula(&table, b"T", &mut [0; FORMULA_LENGTH]);
        assert_eq!(reply, refused(10, 0), "damage {number}");
    }
}

#[test]
fn the_longest_text_of_a_table_is_read() {
    let mut text = longest_table(&mut Rng::new(1)).text();
    assert_eq!(text.len(), 20_321);
    assert_eq!(table_reply(str::from_utf8(&text).expect("ASCII")), Reply::accepted(0));
    text.push(b'\n');
    assert_eq!(table_reply(str::from_utf8(&text).expect("ASCII")), refused(1, 1_066));
}
