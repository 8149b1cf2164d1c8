//! `&`, `EF`, `AG`, `DIA` and `BOX`: where they may stand, what they are written out as, and that a
//! line behaves as its expansion.

mod common;

use common::{M, ONE_STATE, prepare_table, question, refused, reply_to};
use second::baseline;
use second::entries;
use second::expansion::written_out;
use second::formula::{Class, Formula, MAX_BYTES};
use second::grammar::{Mark, Notation, derive};
use second::inputs::formula_texts;
use second::inputs::kinds::Kinds;
use second::inputs::rng::Rng;
use second::inputs::{short, tables};
use second::prepared::{self, FORMULA_LENGTH};
use second::reply::Reply;
use second::table::Table;

/// The reply to a line of any length, and what is left if it is accepted: by the second explainer and
/// by the baseline, which must agree.
fn read(table: &[u8], line: &[u8]) -> (Reply, Vec<u8>) {
    let (mut formula, mut of_baseline) = (vec![0xee; FORMULA_LENGTH], vec![0xee; FORMULA_LENGTH]);
    let reply = entries::read_formula(table, line, &mut formula);
    let reply_of_baseline = baseline::read_formula(table, line, &mut of_baseline);
    assert_eq!(reply, reply_of_baseline, "{}", line.escape_ascii());
    assert!(formula == of_baseline, "{}", line.escape_ascii());
    (reply, formula)
}

/// The same of a text without short forms, whatever its length.
fn read_base(table: &Table, text: &[u8]) -> (Reply, Vec<u8>) {
    match Formula::read_base(table, text) {
        Ok(formula) => (Reply::accepted(0), prepared::formula_bytes(&formula)),
        Err(refusal) => (refusal.into(), vec![0xee; FORMULA_LENGTH]),
    }
}

/// What a line is written out as.
fn expanded(line: &[u8]) -> Vec<u8> {
    let marks = derive(Notation::Typed, line).expect("a line as typed");
    written_out(line, &marks)
}

/// On M.
fn behaves_as(line: &str, expansion: &str) {
    let table = Table::read(M.as_bytes()).expect("a table");
    let of_line = read(&prepare_table(M), line.as_bytes());
    assert_eq!(of_line, read_base(&table, expansion.as_bytes()), "{line}");
}

/// The nodes of an accepted line, on M.
fn nodes(line: &str) -> u8 {
    let (reply, formula) = read(&prepare_table(M), line.as_bytes());
    assert_eq!(reply, Reply::accepted(0), "{line}");
    formula[0]
}

#[test]
fn figure_6_measures_the_line_as_typed() {
    for (line, figure) in [
        ("DI", 2),
        ("BO", 2),
        ("EF", 2),
        ("AG", 2),
        ("T&", 2),
        ("T & ", 4),
        ("DIAT", 3),
        ("DIA T", 4),
        ("DIA[.", 4),
        ("BOX[req;", 7),
        ("EF[req] T", 2),
        ("AG [req]", 3),
        ("T&&T", 2),
        ("&", 0),
        ("EX[req]&T", 7),
        ("EX[req&ack", 6),
        ("EG T", 1),
        ("AF T", 1),
        ("E F T", 1),
        ("AG AG EX[req&ack] T", 12),
        ("T & T & DIA[.] T", 12),
        ("(AG ~T", 6),
        ("AG ~T ", 6),
    ] {
        assert_eq!(reply_to(M, line), refused(6, figure), "{line}");
        assert_eq!(read(&prepare_table(M), line.as_bytes()).0, refused(6, figure), "{line}");
    }
}

#[test]
fn a_keyword_needs_no_blank_behind_it_and_may_have_many() {
    for (line, expansion) in [
        ("AG~T", "(~EU[*]~~T)"),
        ("EFT", "(EU[*]T)"),
        ("EFEX[ack]T", "(EU[*]EX[ack]T)"),
        ("DIA[ack]T", "(EX[ack]T)"),
        ("BOX[ack]~T", "(~EX[ack]~~T)"),
        ("~T&~T", "(~(~~T|~~T))"),
        ("AG   ~  T", "(~EU[*]~   ~  T)"),
        ("DIA  [  ack  ]  T", "(EX  [  ack  ]  T)"),
        ("BOX [ ~ ack ] ~T", "(~EX [ ~ ack ] ~~T)"),
        ("~T   &   ~T", "(~(~~T|~~T))"),
        ("( ~T & ~T )", "( (~(~~T|~~T)) )"),
    ] {
        assert_eq!(expanded(line.as_bytes()).escape_ascii().to_string(), expansion, "{line}");
        behaves_as(line, expansion);
        assert_eq!(reply_to(M, line), Reply::accepted(0), "{line}");
    }
}

#[test]
fn each_form_has_the_tree_of_its_expansion() {
    for (line, expansion) in [
        ("~T & ~T", "~(~~T | ~~T)"),
        ("AX[req] T & ~EX[ack] T", "~(~AX[req] T | ~~EX[ack] T)"),
        ("EF T", "EU[*] T"),
        ("EF EX[ack] T", "EU[*] EX[ack] T"),
        ("AG ~EX[ack] T", "~EU[*] ~~EX[ack] T"),
        ("DIA[ack] T", "EX[ack] T"),
        ("DIA[~(req | ?)] T", "EX[~(req | ?)] T"),
        ("BOX[req] ~EX[ack] T", "~EX[req] ~~EX[ack] T"),
        ("~EF T", "~EU[*] T"),
        ("EF T | DIA[req] T", "EU[*] T | EX[req] T"),
        ("AG BOX[*] AX[ack] T", "~EU[*] ~~EX[*] ~AX[ack] T"),
        ("EF ~AG ~T", "EU[*] ~~EU[*] ~~T"),
    ] {
        behaves_as(line, expansion);
        assert_eq!(reply_to(M, line), Reply::accepted(0), "{line}");
    }
}

#[test]
fn conjunctions_are_grouped_from_the_left_and_nothing_is_simplified() {
    let (x, y, z) = ("~T", "~EX[ack] T", "AX[req] T");
    let expansion = format!("~(~~(~{x} | ~{y}) | ~{z})");
    behaves_as(&format!("{x} & {y} & {z}"), &expansion);
    behaves_as(&format!("({x} & {y}) & {z}"), &expansion);
    behaves_as(&format!("{x} & ({y} & {z})"), &format!("~(~{x} | ~~(~{y} | ~{z}))"));
    let read = |line: String| read(&prepare_table(M), line.as_bytes()).1;
    assert!(read(format!("{x} & {y} & {z}")) != read(format!("{x} & ({y} & {z})")));
    assert!(read(format!("{x} & {y}")) != read("~(T | EX[ack] T)".into()));
    assert!(read(format!("AG {y}")) != read("~EU[*] EX[ack] T".into()));
    assert!(read(format!("BOX[req] {y}")) != read("~EX[req] EX[ack] T".into()));
}

#[test]
fn a_prefix_binds_tighter_than_a_joint_and_and_tighter_than_or() {
    for (line, expansion) in [
        ("~T & ~T", "~((~(~T)) | ~(~T))"),
        ("AG ~T & ~T", "~(~(~EU[*] ~~T) | ~~T)"),
        ("AG (~T & ~T)", "~EU[*] ~(~(~~T | ~~T))"),
        ("EF ~(~T & ~T)", "EU[*] ~(~(~~T | ~~T))"),
        ("~(~T & ~T) | T", "~(~(~~T | ~~T)) | T"),
        ("T | T & T", "T | ~(~T | ~T)"),
        ("T & T | T", "~(~T | ~T) | T"),
        ("T & T | T & T", "~(~T | ~T) | ~(~T | ~T)"),
        ("T | T & T | T", "(T | ~(~T | ~T)) | T"),
        ("T & (T | T) & T", "~(~~(~T | ~(T | T)) | ~T)"),
        ("BOX[ack] T & DIA[req] T | EF T", "~(~~EX[ack] ~T | ~EX[req] T) | EU[*] T"),
    ] {
        behaves_as(line, expansion);
    }
}

#[test]
fn each_form_adds_the_nodes_of_its_expansion() {
    assert_eq!((nodes("~T"), nodes("T")), (2, 1));
    assert_eq!(nodes("~T & ~T"), 2 + 2 + 4);
    assert_eq!(nodes("~T & ~T & ~T"), 2 + 2 + 2 + 8);
    assert_eq!(nodes("AG ~T"), 2 + 3);
    assert_eq!(nodes("BOX[req] ~T"), 2 + 3);
    assert_eq!(nodes("EF T"), 1 + 1);
    assert_eq!(nodes("DIA[req] T"), 1 + 1);
    assert_eq!(nodes("AG BOX[req] (~T & ~EF DIA[ack] T)"), 3 + 3 + 4 + 2 + 4);
}

#[test]
fn the_limit_of_40_counts_the_nodes_of_the_expansion() {
    for (line, count) in [
        ("EF".repeat(39) + "T", 40),
        ("EF".repeat(40) + "T", 41),
        ("AG".repeat(12) + "~~~T", 40),
        ("AG".repeat(13) + "~T", 41),
        ("BOX[*]".repeat(12) + "~~~T", 40),
        ("DIA[*]".repeat(40) + "T", 41),
        ("~~".to_owned() + &["~T"; 7].join("&"), 40),
        ("~~~".to_owned() + &["~T"; 7].join("&"), 41),
        (["T"; 9].join("&"), 41),
        (["T"; 256].join("&"), 1_276),
        ("~".to_owned() + &["T"; 256].join("&"), 1_277),
        ("AG".repeat(255) + "T", 766),
    ] {
        let reply = match count {
            40 => Reply::accepted(0),
            _ => refused(8, count),
        };
        assert_eq!(read(&prepare_table(M), line.as_bytes()).0, reply, "{line}");
    }
}

#[test]
fn the_limit_of_512_bytes_is_the_lines_own() {
    let line = |blanks: usize| format!("{}{:blanks$}~T", "AG".repeat(12), "");
    let most = line(MAX_BYTES - 26);
    assert_eq!(most.len(), MAX_BYTES);
    assert!(expanded(most.as_bytes()).len() > MAX_BYTES);
    assert_eq!(reply_to(M, &most), Reply::accepted(0));
    assert_eq!(reply_to(M, &line(MAX_BYTES - 25)), refused(5, 513));
    assert_eq!(reply_to(M, &["T"; 257].join("&")), refused(5, 513));
    assert_eq!(reply_to(M, &"&".repeat(600)), refused(5, 600));
}

#[test]
fn a_conjunction_and_an_always_need_class_2() {
    for (line, figure) in [
        ("T & T", 1),
        ("~T & T", 1),
        ("T & ~T", 1),
        ("AG T", 1),
        ("BOX[req] T", 1),
        ("AG EF T", 1),
        ("AG DIA[ack] T", 1),
        ("BOX[req] EF T", 1),
        ("EF ~T", 0),
        ("EF AG ~T", 0),
        ("DIA[req] BOX[req] ~T", 0),
        ("EF (~T & ~T)", 0),
        ("AX[req] EF T", 0),
        ("AG AX[req] EF T", 3),
    ] {
        assert_eq!(read(&prepare_table(M), line.as_bytes()).0, refused(9, figure), "{line}");
    }
    for line in ["~T & ~T", "AG ~T", "BOX[req] ~T", "AX[req] T & AG AX[req] T"] {
        assert_eq!(question(M, line).class(), 2, "{line}");
    }
    for line in ["EF T", "DIA[req] T", "EF ~AG ~EF T", "~(~T & ~T) | EF T"] {
        assert_eq!(question(M, line).class(), 1, "{line}");
    }
}

#[test]
fn and_beside_or_without_brackets_has_no_class_and_shows_by_its_figure_what_binds() {
    assert_eq!(reply_to(M, "T | ~T & ~T"), refused(9, 0));
    assert_eq!(reply_to(M, "(T | ~T) & ~T"), refused(9, 3));
    for first in ["T", "~T", "AG ~T", "EF T"] {
        for second in ["T", "~T", "BOX[req] ~T", "DIA[req] T"] {
            for third in ["T", "~T"] {
                for line in [
                    format!("{first} & {second} | {third}"),
                    format!("{first} | {second} & {third}"),
                ] {
                    let reply = read(&prepare_table(M), line.as_bytes()).0;
                    assert_eq!(reply.number, 9, "{line}");
                }
            }
        }
    }
}

#[test]
fn figure_7_is_the_offset_in_the_line_as_typed() {
    for (line, offset) in [
        ("AG ~EX[a] T", 7),
        ("BOX[a] ~T", 4),
        ("DIA[req|b] T", 8),
        ("~T & AX[a] T", 8),
        ("AG AG BOX[req] (~T & ~EU[ack;a] EX[b] T)", 29),
        ("EF DIA[ack] DIA[ req | ~( ack | nothere ) ] T", 32),
        ("EX[ack] T & EX[a] T & EX[b] T", 15),
        ("AG AG AG AG AG AG AG AG AG AG AG AG AG AG EX[a] T", 45),
    ] {
        assert_eq!(read(&prepare_table(M), line.as_bytes()).0, refused(7, offset), "{line}");
    }
}

#[test]
fn over_a_table_without_labels_ef_goes_on_by_silent_steps() {
    let steps = "     2     0     1     0\n     0     0     1\n";
    for (table, first) in [(ONE_STATE, 99), (steps, 0)] {
        let ways = question(table, "EF EX[.] T");
        assert_eq!((ways.verdict(), ways.class()), (1, 1));
        assert_eq!(ways.words(3), [vec![first], vec![first, 99], vec![first, 99, 99]]);
        assert_eq!(ways.words(3), question(table, "EU[*] EX[.] T").words(3));
        assert_eq!(question(table, "AG ~EX[.] T").words(2), [vec![first], vec![first, 99]]);
        assert_eq!(question(table, "EF DIA[*] T").verdict(), 0);
        assert_eq!(question(table, "AG BOX[*] ~T").verdict(), 1);
    }
}

#[test]
fn accepted_lines_are_answered_row_for_row_as_their_expansions() {
    for (line, expansion, verdict, class) in [
        ("AG ~EX[ack] T", "(~EU[*] ~~EX[ack] T)", 0, 2),
        ("BOX[req] ~EX[ack] T", "(~EX[req] ~~EX[ack] T)", 0, 2),
        ("EF DIA[ack] T", "(EU[*] (EX[ack] T))", 1, 1),
        ("AX[req] T & ~EX[ack] T", "(~(~AX[req] T | ~~EX[ack] T))", 1, 2),
        ("AX[req] T & AG ~EX[ack] T", "(~(~AX[req] T | ~(~EU[*] ~~EX[ack] T)))", 0, 2),
    ] {
        let [of_line, of_expansion] = [line, expansion].map(|text| question(M, text));
        assert_eq!((of_line.verdict(), of_line.class()), (verdict, class), "{line}");
        assert_eq!((of_expansion.verdict(), of_expansion.class()), (verdict, class), "{line}");
        assert_eq!(of_line.listing(), of_expansion.listing(), "{line}");
        assert_eq!(of_line.words(5), of_expansion.words(5), "{line}");
    }
    assert_eq!(question(M, "AG ~EX[ack] T").words(4), [vec![1, 2], vec![1, 2, 1, 2]]);
}

/// A form and what it is written out as, of one formula and of two.
const PREFIXES: [(&str, &str); 6] = [
    ("EF ", "EU[*] "),
    ("AG ", "~EU[*] ~"),
    ("DIA[req] ", "EX[req] "),
    ("BOX[ack] ", "~EX[ack] ~"),
    ("~", "~"),
    ("AX[*] ", "AX[*] "),
];

#[test]
fn every_form_stands_in_every_other_to_the_depth_of_four() {
    let mut accepted = 0;
    let mut pairs: Vec<(String, String)> =
        ["T", "~T", "EX[req] T"].map(|text| (text.into(), text.into())).into();
    for depth in 0..4 {
        let mut deeper = Vec::new();
        for (line, text) in &pairs {
            for (form, expansion) in PREFIXES {
                deeper.push((format!("{form}({line})"), format!("{expansion}({text})")));
            }
            let (side, expansion) = ("BOX[*] ~T", "(~EX[*] ~~T)");
            deeper.push((format!("({line}) & {side}"), format!("~(~({text}) | ~{expansion})")));
            deeper.push((format!("{side} & ({line})"), format!("~(~{expansion} | ~({text}))")));
        }
        let (table, prepared) = (Table::read(M.as_bytes()).expect("a table"), prepare_table(M));
        for (line, text) in &deeper {
            let (reply, formula) = read(&prepared, line.as_bytes());
            assert_eq!((reply, formula), read_base(&table, text.as_bytes()), "{line}");
            accepted += u32::from(reply.number == 0);
        }
        pairs = deeper;
        assert_eq!(pairs.len(), 3 * 8usize.pow(depth + 1));
    }
    assert!(accepted > 1_000, "{accepted}");
}

/// Many texts of formulas over small tables, made in each way.
fn many(seed: u64, count: u64) -> impl Iterator<Item = (Table, Vec<u8>)> {
    (0..count).map(move |index| {
        let rng = &mut Rng::of_input(seed, "short forms", index);
        let table = tables::table(rng, &mut Kinds::default(), tables::Size::Small);
        let text = formula_texts::text(rng, &table);
        (table, text)
    })
}

#[test]
fn a_line_without_short_forms_is_its_own_expansion_byte_for_byte() {
    let mut without = 0;
    for (_, text) in many(3, 60_000) {
        if text.len() <= MAX_BYTES && derive(Notation::Base, &text).is_ok() {
            assert_eq!(expanded(&text), text, "{}", text.escape_ascii());
            without += 1;
        }
    }
    assert!(without > 10_000, "{without}");
}

#[test]
fn an_expansion_is_in_the_base_notation_and_its_own_expansion() {
    let (mut changed, mut longer, mut accepted) = (0, 0, 0);
    for (table, line) in many(4, 60_000) {
        if line.len() > MAX_BYTES || derive(Notation::Typed, &line).is_err() {
            continue;
        }
        let text = expanded(&line);
        assert!(derive(Notation::Base, &text).is_ok(), "{}", line.escape_ascii());
        assert_eq!(expanded(&text), text, "{}", line.escape_ascii());
        changed += u32::from(text != line);
        let prepared = prepared::table_bytes(&table);
        let (of_line, formula) = read(&prepared, &line);
        if text.len() > MAX_BYTES {
            longer += 1;
            assert_eq!(read(&prepared, &text).0, refused(5, text.len() as u64));
            continue;
        }
        let (of_text, written) = read(&prepared, &text);
        match of_line.number {
            7 => assert_eq!(of_text.number, 7, "{}", line.escape_ascii()),
            _ => assert_eq!((of_line, formula), (of_text, written), "{}", line.escape_ascii()),
        }
        accepted += u32::from(of_line.number == 0);
    }
    assert!(changed > 5_000 && longer > 500 && accepted > 10_000, "{changed} {longer} {accepted}");
}

/// Each short form of a line with those inside it, if only `~` and brackets are between them.
fn nested(line: &[u8]) -> Vec<(Mark, Mark)> {
    let mut pairs = Vec::new();
    let mut parts: Vec<Option<Mark>> = Vec::new();
    for (mark, _) in derive(Notation::Typed, line).expect("a line as typed") {
        let arms = match mark {
            Mark::True => 0,
            Mark::And | Mark::Or => 2,
            Mark::Eventually | Mark::Always | Mark::Diamond | Mark::Box => 1,
            Mark::Next | Mark::AllNext | Mark::Until | Mark::UntilThen => 1,
            _ => continue,
        };
        let inside = parts.split_off(parts.len() - arms);
        let is_short = SHORT.contains(&mark);
        if is_short {
            pairs.extend(inside.into_iter().flatten().map(|inner| (mark, inner)));
        }
        parts.push(is_short.then_some(mark));
    }
    pairs
}

const SHORT: [Mark; 5] = [Mark::And, Mark::Eventually, Mark::Always, Mark::Diamond, Mark::Box];

#[test]
fn the_inputs_have_every_form_in_every_other_in_accepted_lines_of_either_class() {
    let mut met = Vec::new();
    for index in 0..3_000 {
        let rng = &mut Rng::of_input(5, "nested", index);
        let table = tables::table(rng, &mut Kinds::default(), tables::Size::Small);
        let line = short::tokens(rng, &table).concat();
        if let Ok(formula) = Formula::read(&table, &line) {
            let class = formula.root_class();
            met.extend(nested(&line).into_iter().map(|pair| (class, pair)));
        }
    }
    for class in [Class::Witnesses, Class::Counterexamples] {
        for pair in SHORT.iter().flat_map(|outer| SHORT.map(|inner| (*outer, inner))) {
            let times = met.iter().filter(|met| **met == (class, pair)).count();
            assert!(times > 5, "{class:?}: {pair:?} {times} times");
        }
    }
}
