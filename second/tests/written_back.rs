//! Formulas written back: what stands in the text, what is refused, and what reading it gives.

mod common;

use common::{LOOPS, M, ONE_STATE, prepare_table, refused};
use second::baseline::BASELINE;
use second::entries::{self, Entries, SECOND, WriteFormula};
use second::formula::{Formula, MAX_BYTES, MAX_NODES, Node, Set};
use second::grammar::{self, Notation};
use second::inputs::kinds::pick;
use second::inputs::questions::Question;
use second::inputs::rng::{Rng, filled};
use second::inputs::{formulas, written};
use second::prepared::{self, FORMULA_LENGTH, TABLE_LENGTH};
use second::reply::Reply;
use second::table::Table;
use second::{read_back, writing};

/// A sent label, a received one and one without a mark.
const DIRECTIONS: &str = "     1     3     0     0
     1 go!
     2 done?
     3 stop
";

const ONE_LABEL: &str = "     1     1     0     0
     1 a
";

/// What is written of a line that is read.
fn written_of(table: &str, line: &str) -> String {
    let table = prepare_table(table);
    let mut formula = vec![0xee; FORMULA_LENGTH];
    let reply = entries::read_formula(&table, line.as_bytes(), &mut formula);
    assert_eq!(reply, Reply::accepted(0), "{line}");
    let mut text = vec![0xee; MAX_BYTES];
    let reply = entries::write_formula(&table, &formula, &mut text);
    assert_eq!(reply.number, 0, "{line}");
    text.truncate(reply.figure as usize);
    String::from_utf8(text).expect("ASCII")
}

fn are_written(table: &str, lines: &[(&str, &str)]) {
    for (line, text) in lines {
        assert_eq!(written_of(table, line), *text, "{line}");
        assert_eq!(written_of(table, text), *text, "{line}");
    }
}

#[test]
fn a_set_is_its_names_by_rising_number_or_all_or_none() {
    are_written(
        LOOPS,
        &[
            ("EX[c|a] T", "EX[a|c] T"),
            ("EX[b|b|(b)] T", "EX[b] T"),
            ("EU[~a;~(b|c)] T", "EU[b|c;a] T"),
            ("EU[b|a|c] T", "EU[*] T"),
            ("EU[*;a|~a] T", "EU[*;*] T"),
            ("EU[~*;~(c|b|a)] T", "EU[~*;~*] T"),
            ("AX[~~(a|c)] T", "AX[a|c] T"),
        ],
    );
    are_written(ONE_LABEL, &[("EX[a] T", "EX[*] T"), ("EX[~a] T", "EX[~*] T")]);
    are_written(
        ONE_STATE,
        &[("EX[*] T", "EX[*] T"), ("EX[~*] T", "EX[*] T"), ("EU[~*;~~*] T", "EU[*;*] T")],
    );
}

#[test]
fn operands_of_a_direction_come_back_as_names() {
    are_written(
        DIRECTIONS,
        &[
            ("EX[?] T", "EX[done?] T"),
            ("EX[!] T", "EX[go!] T"),
            ("EX[?|!] T", "EX[go!|done?] T"),
            ("EX[~?] T", "EX[go!|stop] T"),
            ("EU[~(?|!);stop|?|!] T", "EU[stop;*] T"),
            ("EX[stop|done?|go!] T", "EX[*] T"),
        ],
    );
    are_written(M, &[("EX[?] T", "EX[~*] T"), ("EX[~!] T", "EX[*] T")]);
}

#[test]
fn short_forms_come_back_written_out() {
    are_written(
        M,
        &[
            ("BOX[ack] ~T", "~EX[ack] ~~T"),
            ("DIA[ack] T", "EX[ack] T"),
            ("EF T", "EU[*] T"),
            ("AG ~T", "~EU[*] ~~T"),
            ("~T & ~T", "~(~~T|~~T)"),
            ("~T & ~T & AX[.] T", "~(~~(~~T|~~T)|~AX[.] T)"),
            ("EF (EF T | T)", "EU[*] (EU[*] T|T)"),
        ],
    );
}

#[test]
fn brackets_stand_where_the_grouping_needs_them() {
    are_written(
        M,
        &[
            ("T|T|T", "T|T|T"),
            ("(T|T)|T", "T|T|T"),
            ("T|(T|T)", "T|(T|T)"),
            ("((T|T)|(T|(T|T)))", "T|T|(T|(T|T))"),
            ("~(T)", "~T"),
            ("~((T|T))", "~(T|T)"),
            ("~ ~ (T|T)", "~~(T|T)"),
            ("(~~T)|T", "~~T|T"),
            ("EX[.](T|T)", "EX[.] (T|T)"),
            ("EX[.](T)|T", "EX[.] T|T"),
            ("EX [ . ] ~ ~ T", "EX[.] ~~T"),
            ("AX[req]~(T|T)", "AX[req] ~(T|T)"),
            ("EU[*;ack](EU[req](T|T))", "EU[*;ack] EU[req] (T|T)"),
            ("T | EX[ack] (T | T)", "T|EX[ack] (T|T)"),
        ],
    );
}

/// The answer, and the text's buffer as it is left. It is lent with these bytes.
fn answer(table: &[u8], formula: &[u8], lent: &[u8]) -> (Reply, Vec<u8>) {
    let mut text = lent.to_vec();
    let reply = entries::write_formula(table, formula, &mut text);
    (reply, text)
}

fn bytes_of(question: &Question) -> (Vec<u8>, Vec<u8>) {
    (prepared::table_bytes(&question.table), prepared::formula_bytes(&question.formula))
}

#[test]
fn refusals_come_in_their_order_and_leave_every_byte() {
    let (table, formula) = bytes_of(&written::of_length(&mut Rng::new(1), MAX_BYTES + 1));
    let (no_table, no_formula) = (vec![0; TABLE_LENGTH], vec![0; FORMULA_LENGTH]);
    let lent = filled(2, MAX_BYTES);
    let [short_table, short_formula] =
        [&no_table[1..], &no_formula[1..]].map(|prepared: &[u8]| prepared.to_vec());
    let cases: [([&[u8]; 3], Reply); 8] = [
        ([&short_table, &short_formula, &[]], refused(14, 3_718)),
        ([&no_table, &short_formula, &[]], refused(14, 681)),
        ([&no_table, &no_formula, &lent[1..]], refused(14, 512)),
        ([&no_table, &no_formula, &[]], refused(14, 512)),
        ([&no_table, &no_formula, &lent], refused(10, 0)),
        ([&table, &no_formula, &lent], refused(10, 1)),
        ([&table, &formula, &lent[1..]], refused(14, 512)),
        ([&table, &formula, &lent], refused(15, 513)),
    ];
    for ([table, formula, lent], reply) in cases {
        assert_eq!(answer(table, formula, lent), (reply, lent.to_vec()));
    }
}

#[test]
fn a_formula_of_another_table_is_refused() {
    let m = Table::read(M.as_bytes()).expect("a table");
    let formula = Formula::read(&m, b"EX[ack] T").expect("a formula");
    let formula = prepared::formula_bytes(&formula);
    let lent = filled(3, MAX_BYTES);
    assert_eq!(answer(&prepare_table(ONE_LABEL), &formula, &lent).0, refused(10, 1));
    assert_eq!(answer(&prepare_table(M), &formula, &lent).0, Reply::accepted(9));
}

#[test]
fn bytes_behind_the_text_stay() {
    for (length, lent) in [(511, 512), (512, 512), (512, 513), (511, 700)] {
        let question = written::of_length(&mut Rng::new(length as u64), length);
        let (table, formula) = bytes_of(&question);
        let before = filled(4, lent);
        let (reply, after) = answer(&table, &formula, &before);
        assert_eq!(reply, Reply::accepted(length as u64));
        assert_eq!(after[..length], writing::text(&question.table, &question.formula));
        assert_eq!(after[length..], before[length..]);
    }
}

/// `EU[`, twice 39 names of 13 bytes and what joins them, `;` and `] `: 39 times, and `T`.
#[test]
fn the_longest_text_has_42745_bytes() {
    let Question { table, .. } = written::longest(&mut Rng::new(1));
    let set = Set::of(1).complement(table.labels());
    let untils = (1..MAX_NODES).map(|arm| Node::UntilThen(set, set, arm));
    let question =
        Question { formula: Formula { nodes: untils.chain([Node::True]).collect() }, table };
    let length = 39 * (3 + 2 * (39 * 13 + 38) + 1 + 2) + 1;
    assert_eq!((length, too_long(&question)), (42_745, 42_745));
    let drawn = (0..50).map(|seed| too_long(&written::longest(&mut Rng::new(seed))));
    assert!(drawn.max().is_some_and(|most| (40_000..=length).contains(&most)));
}

/// The needed length of a text that is refused. Whatever its length, it reads as the formula.
fn too_long(question: &Question) -> u64 {
    let (table, formula) = bytes_of(question);
    let lent = filled(5, MAX_BYTES);
    let (reply, after) = answer(&table, &formula, &lent);
    assert_eq!((reply.number, after), (15, lent));
    let text = writing::text(&question.table, &question.formula);
    assert_eq!(Formula::read_base(&question.table, &text).as_ref(), Ok(&question.formula));
    reply.figure
}

#[test]
fn what_is_written_is_read_as_the_same_formula() {
    for of in [SECOND, BASELINE] {
        let tally = read_back::run(&of, 51, 20_000).expect("the same").expect("both entries");
        let numbers: Vec<u32> = tally.numbers().into_keys().collect();
        assert_eq!(numbers, [0, 5, 6, 7, 8, 9, 15]);
    }
}

/// What is told of an explainer that writes wrongly.
fn told(write_formula: WriteFormula) -> String {
    let wrong = Entries { write_formula: Some(write_formula), ..SECOND };
    read_back::run(&wrong, 51, 2_000).expect_err("the fault is found").to_string()
}

#[test]
fn what_reads_otherwise_or_is_written_otherwise_is_told() {
    let other = told(|table, formula, text| {
        let reply = entries::write_formula(table, formula, text);
        if let [b'E', b'U', b'[', b'*', b']', ..] = text {
            text[1] = b'X';
        }
        reply
    });
    assert!(other.contains("read back: \"EX[*] "), "{other}");
    assert!(other.ends_with("is read as another formula"), "{other}");
    let refused = told(|table, formula, text| {
        let reply = entries::write_formula(table, formula, text);
        let figure = if reply.number == 0 { reply.figure - 1 } else { reply.figure };
        Reply { figure, ..reply }
    });
    assert!(refused.contains("answers Reply { number: 6"), "{refused}");
    // By what stands in the buffer before.
    let changing = told(|table, formula, text| {
        let is_even = text.last().is_some_and(|byte| byte % 2 == 0);
        let reply = entries::write_formula(table, formula, text);
        if let (0, true, Some(blank)) = (
            reply.number,
            is_even,
            text[..reply.figure as usize].iter().position(|&byte| byte == b' '),
        ) {
            text.copy_within(blank + 1..reply.figure as usize, blank);
            return Reply { figure: reply.figure - 1, ..reply };
        }
        reply
    });
    assert!(changing.contains("is written as Ok("), "{changing}");
}

/// A formula that is written back, with its text of any length.
fn some_text(index: u64) -> (Question, Vec<u8>) {
    let rng = &mut Rng::of_input(51, "text", index);
    let question = (pick(rng, &written::QUESTIONS).make)(rng, &());
    let text = writing::text(&question.table, &question.formula);
    (question, text)
}

/// Without the bytes at these places.
fn without(text: &[u8], places: &[usize]) -> Vec<u8> {
    let kept = (0..text.len()).filter(|at| !places.contains(at));
    kept.map(|at| text[at]).collect()
}

/// Where each `(` stands, and its `)`. Sets that are written have none.
fn pairs(text: &[u8]) -> Vec<[usize; 2]> {
    let (mut open, mut pairs) = (Vec::new(), Vec::new());
    for (at, byte) in text.iter().enumerate() {
        match byte {
            b'(' => open.push(at),
            b')' => pairs.push([open.pop().expect("opened before"), at]),
            _ => {}
        }
    }
    pairs
}

#[test]
fn each_pair_of_brackets_is_needed() {
    let mut looked_at = 0;
    for index in 0..4_000 {
        let (Question { table, formula }, text) = some_text(index);
        for pair in pairs(&text) {
            let other = Formula::read_base(&table, &without(&text, &pair));
            assert_ne!(other, Ok(formula.clone()), "{}", text.escape_ascii());
            looked_at += 1;
        }
    }
    assert!(looked_at > 2_000, "{looked_at}");
}

/// `x & y` stands for a pair that the base notation needs.
#[test]
fn no_text_of_the_formula_has_fewer_brackets() {
    for index in 0..4_000 {
        let (Question { table, formula }, text) = some_text(index);
        let rng = &mut Rng::of_input(51, "tokens", index);
        let tokens = formulas::tokens(rng, &formula, &table);
        let mut in_set = false;
        let outside = tokens.iter().filter(|token| {
            in_set = match token.as_slice() {
                b"[" => true,
                b"]" => false,
                _ => in_set,
            };
            !in_set && matches!(token.as_slice(), b"(" | b"&")
        });
        let others = outside.count();
        assert!(pairs(&text).len() <= others, "{}", text.escape_ascii());
    }
}

#[test]
fn a_blank_stands_behind_each_square_bracket_and_nowhere_else() {
    for index in 0..4_000 {
        let (_, text) = some_text(index);
        for (at, byte) in text.iter().enumerate() {
            let is_behind = at > 0 && text[at - 1] == b']';
            assert_eq!(*byte == b' ', is_behind, "{}", text.escape_ascii());
        }
    }
}

#[test]
fn a_text_is_in_the_base_notation_and_its_sets_are_names_or_a_star() {
    for index in 0..4_000 {
        let (Question { table, .. }, text) = some_text(index);
        assert!(grammar::derive(Notation::Base, &text).is_ok(), "{}", text.escape_ascii());
        let inside = text.split(|&byte| byte == b'[').skip(1);
        let inside = inside.filter_map(|rest| rest.split(|&byte| byte == b']').next());
        for set in inside.flat_map(|inside| inside.split(|&byte| byte == b';')) {
            let labels: Option<Vec<u8>> =
                set.split(|&byte| byte == b'|').map(|name| table.label(name)).collect();
            let is_named = labels.is_some_and(|labels| {
                labels.is_sorted_by(|one, next| one < next) && labels.len() < table.labels()
            });
            let is_other = set == b"*" || set == b"." || set == b"~*" && table.labels() > 0;
            assert!(is_named || is_other, "{}", text.escape_ascii());
        }
    }
}

#[test]
fn over_one_table_formulas_have_one_text_exactly_if_they_are_the_same() {
    let table = Table::read(M.as_bytes()).expect("a table");
    let mut known: Vec<(Vec<u8>, Formula)> = Vec::new();
    for index in 0..1_500 {
        let rng = &mut Rng::of_input(51, "small", index);
        let nodes = rng.between(1, 6);
        let class = formulas::class(rng, nodes);
        let formula = formulas::formula(rng, Some(class), nodes, &table);
        let text = writing::text(&table, &formula);
        for (other_text, other) in &known {
            assert_eq!(*other_text == text, *other == formula, "{}", text.escape_ascii());
        }
        known.push((text, formula));
    }
}
