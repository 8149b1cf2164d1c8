//! Two tables side by side: worked results, what does not depend on their order, paths of a result and of
//! its tables, and tables that are written and read again.

mod common;

use common::{M, ONE_STATE, prepare_table, refused};
use second::baseline::BASELINE;
use second::combining::combined;
use second::entries::{self, Entries, SECOND};
use second::formula::Formula;
use second::inputs::kinds::Kinds;
use second::inputs::pairs;
use second::inputs::rng::{Rng, filled};
use second::inputs::tables::{longest_table, of_any_size};
use second::link::library;
use second::prepared::{self, FORMULA_LENGTH, TABLE_LENGTH};
use second::reply::Reply;
use second::table::{MAX_TEXT, SILENT, Step, Table};

/// Of these names, in one line, and transitions.
fn table(states: usize, start: u8, names: &str, steps: &[[u8; 3]]) -> Table {
    let step = |&[from, label, to]: &[u8; 3]| Step { from, label, to };
    let names = names.split_whitespace().map(Vec::from).collect();
    Table { states, start, names, transitions: steps.iter().map(step).collect() }
}

fn names(table: &Table) -> String {
    let names = table.names.iter().map(|name| name.escape_ascii().to_string());
    names.collect::<Vec<_>>().join(" ")
}

/// Of two tables of one state each, without transitions.
fn joint_names(first: &str, second: &str) -> String {
    let [first, second] = [first, second].map(|names| table(1, 0, names, &[]));
    names(&combined(&first, &second).expect("few labels"))
}

#[test]
fn names_stand_in_ascii_order_a_beginning_first() {
    let alike = "clamp clamp! clamp1 clamp? clamp_ clampa";
    let turned = "clampa clamp_ clamp? clamp1 clamp! clamp";
    assert_eq!(joint_names(turned, ""), alike);
    assert_eq!(joint_names("", turned), alike);
    assert_eq!(joint_names("clampa clamp? clamp!", "clamp1 clamp clamp_"), alike);
}

#[test]
fn a_joined_pair_keeps_the_sent_name_and_what_may_move_alone_its_own() {
    for (first, second, kept) in [
        ("n!", "n?", "n!"),
        ("n?", "n!", "n!"),
        ("n! n?", "n? n!", "n!"),
        ("n! n?", "n?", "n! n?"),
        ("n?", "n! n?", "n! n?"),
        ("n! n?", "n!", "n!"),
        ("n!", "n! n?", "n!"),
        ("n", "n!", "n n!"),
        ("n", "n?", "n n?"),
        ("n", "n", "n"),
        ("n!", "n!", "n!"),
        ("n?", "n?", "n?"),
        ("n n! n?", "n n! n?", "n n!"),
        ("n!", "m?", "m? n!"),
        ("n!", "nn?", "n! nn?"),
        ("", "", ""),
    ] {
        assert_eq!(joint_names(first, second), kept, "{first} beside {second}");
    }
}

/// One state sends, the other receives; each has a step of its own and a silent one.
#[test]
fn a_worked_result() {
    let first = table(2, 1, "n! a", &[[0, 1, 1], [1, 0, 0], [1, 2, 1]]);
    let second = table(3, 2, "b n?", &[[0, 2, 2], [1, 0, 1], [2, 1, 0]]);
    let expected = table(
        6,
        5,
        "a b n!",
        &[
            [0, 3, 5],
            [1, 0, 1],
            [2, 2, 0],
            [3, 0, 0],
            [3, 1, 3],
            [4, 0, 1],
            [4, 0, 4],
            [4, 1, 4],
            [5, 0, 2],
            [5, 1, 5],
            [5, 2, 3],
        ],
    );
    assert_eq!(combined(&first, &second), Ok(expected));
}

#[test]
fn a_transition_that_arises_twice_stands_once() {
    let silent = table(1, 0, "", &[[0, 0, 0]]);
    assert_eq!(combined(&silent, &silent), Ok(silent.clone()));
    let equal = table(1, 0, "n", &[[0, 1, 0]]);
    assert_eq!(combined(&equal, &equal), Ok(equal.clone()));
    let both = table(1, 0, "n! n?", &[[0, 1, 0], [0, 2, 0]]);
    let sent = table(1, 0, "n!", &[[0, 1, 0]]);
    for (first, second) in [(&both, &both), (&both, &sent), (&sent, &both)] {
        assert_eq!(combined(first, second), Ok(sent.clone()));
    }
}

#[test]
fn a_pair_whose_partner_never_moves_has_no_transition() {
    let sending = table(2, 0, "n!", &[[0, 1, 1], [1, 1, 0]]);
    let still = table(1, 0, "n?", &[]);
    assert_eq!(combined(&sending, &still), Ok(table(2, 0, "n!", &[])));
    assert_eq!(combined(&still, &sending), Ok(table(2, 0, "n!", &[])));
}

#[test]
fn one_state_without_labels_beside_a_table_leaves_it_with_its_names_in_order() {
    let alone = Table::read(ONE_STATE.as_bytes()).expect("a table");
    let read = Table::read(M.as_bytes()).expect("a table");
    let sorted = table(3, 0, "ack req", &[[0, 2, 1], [1, 0, 2], [1, 1, 0]]);
    assert_eq!(combined(&read, &alone), Ok(sorted.clone()));
    assert_eq!(combined(&alone, &read), Ok(sorted));
}

/// Random tables; those that are refused too.
fn random_pairs(count: u64) -> impl Iterator<Item = [Table; 2]> {
    let pair = |index| pairs::pair(&mut Rng::of_input(71, "pairs", index), &mut Kinds::default());
    (0..count).map(pair)
}

/// State (i, j) of one order is (j, i) of the other.
#[test]
fn the_other_order_renumbers_the_pairs_and_changes_nothing_else() {
    for [first, second] in random_pairs(4_000) {
        let [result, other] = [combined(&first, &second), combined(&second, &first)];
        let turned = result.map(|table| {
            let turn = |pair: u8| {
                let (i, j) = (usize::from(pair) / second.states, usize::from(pair) % second.states);
                (j * first.states + i) as u8
            };
            let step = |step: &Step| Step { from: turn(step.from), to: turn(step.to), ..*step };
            let mut transitions: Vec<Step> = table.transitions.iter().map(step).collect();
            transitions.sort_unstable();
            Table { start: turn(table.start), transitions, ..table }
        });
        assert_eq!(turned, other);
    }
}

/// The state stays, or a step of the table leads from it, by this name if it is not joined.
fn moves(table: &Table, from: u8, to: u8, is_fit: impl Fn(&[u8]) -> bool) -> bool {
    table.transitions.iter().any(|step| {
        let name = match step.label {
            SILENT => b"".as_slice(),
            label => &table.names[usize::from(label) - 1],
        };
        (step.from, step.to) == (from, to) && is_fit(name)
    })
}

/// By the words of 02: a step is one of a table alone by a label that is not joined, or one of each by
/// joined ones; and each such step is there.
#[test]
fn a_pair_steps_exactly_as_its_states_do() {
    fn is_joined(name: &[u8], other: &Table) -> bool {
        let partner = match name {
            [stem @ .., b'!'] => [stem, b"?"].concat(),
            [stem @ .., b'?'] => [stem, b"!"].concat(),
            _ => return false,
        };
        other.names.contains(&partner)
    }
    let mut results = 0;
    for [first, second] in random_pairs(3_000) {
        let Ok(result) = combined(&first, &second) else { continue };
        if result.states > 30 {
            continue;
        }
        results += 1;
        for step in (0..result.states as u8).flat_map(|from| {
            let labels = 0..=result.labels() as u8;
            let ends =
                move |label| (0..result.states as u8).map(move |to| Step { from, label, to });
            labels.flat_map(ends)
        }) {
            let split = |pair: u8| (pair / second.states as u8, pair % second.states as u8);
            let ((i, j), (to_i, to_j)) = (split(step.from), split(step.to));
            let shown: &[u8] = match step.label {
                SILENT => b"",
                label => &result.names[usize::from(label) - 1],
            };
            let alone = |other| move |name: &[u8]| name == shown && !is_joined(name, other);
            let stem = shown.strip_suffix(b"!").filter(|stem| !stem.is_empty());
            let by = |end: &'static [u8]| move |name: &[u8]| name.strip_suffix(end) == stem;
            let arises = j == to_j && moves(&first, i, to_i, alone(&second))
                || i == to_i && moves(&second, j, to_j, alone(&first))
                || stem.is_some()
                    && (moves(&first, i, to_i, by(b"!")) && moves(&second, j, to_j, by(b"?"))
                        || moves(&first, i, to_i, by(b"?")) && moves(&second, j, to_j, by(b"!")));
            assert_eq!(result.transitions.contains(&step), arises, "{step:?} of {result:?}");
        }
    }
    assert!(results > 1_500, "{results}");
}

/// What is combined is prepared: it is written, read again as the same bytes, and asked.
fn results_are_tables(of: &Entries) {
    let mut accepted = 0;
    for (pair, index) in random_pairs(3_000).zip(0..) {
        let [first, second] = pair.map(|table| prepared::table_bytes(&table));
        let mut result = filled(index, TABLE_LENGTH);
        if of.combine.expect("the entry")(&first, &second, &mut result).number != 0 {
            continue;
        }
        accepted += 1;
        are_written_and_read_again(of, &result, index);
        let mut formula = filled(index, FORMULA_LENGTH);
        let text = b"AG EX[~?] EU[*;!] T";
        let read = of.read_formula.expect("the entry")(&result, text, &mut formula);
        let table = prepared::table_of(&result).expect("a table");
        let expected = Formula::read(&table, text).map(|_| 0).map_err(Into::into);
        assert_eq!(read, expected.map_or_else(|reply: Reply| reply, Reply::accepted));
    }
    assert!(accepted > 1_500, "{accepted}");
}

fn are_written_and_read_again(of: &Entries, table: &[u8], fill: u64) {
    let before = filled(fill, MAX_TEXT);
    let mut text = before.clone();
    let reply = of.table_text.expect("the entry")(table, &mut text);
    assert_eq!(reply.number, 0);
    let (written, behind) = text.split_at(reply.figure as usize);
    assert_eq!(behind, &before[written.len()..]);
    let mut again = filled(fill, TABLE_LENGTH);
    let read = of.read_table.expect("the entry")(written, &mut again);
    assert_eq!((read, again.as_slice()), (Reply::accepted(0), table));
}

fn texts_are_read_again(of: &Entries) {
    for index in 0..2_000 {
        let table = of_any_size(&mut Rng::of_input(72, "texts", index), &mut Kinds::default());
        are_written_and_read_again(of, &prepared::table_bytes(&table), index);
    }
}

#[test]
fn results_of_the_second_explainer_are_tables_and_their_texts_are_read_again() {
    results_are_tables(&SECOND);
    texts_are_read_again(&SECOND);
}

#[test]
fn results_of_the_baseline_are_tables_and_their_texts_are_read_again() {
    results_are_tables(&BASELINE);
    texts_are_read_again(&BASELINE);
}

#[test]
#[cfg_attr(not(feature = "library"), ignore = "the library is linked by --all-features")]
fn results_of_the_library_are_tables_and_their_texts_are_read_again() {
    results_are_tables(&library());
    texts_are_read_again(&library());
}

/// Combines, and checks that a refusal leaves all lent bytes.
fn reply(first: &[u8], second: &[u8], length: usize) -> Reply {
    let before = filled(6, length);
    let mut lent = before.clone();
    let reply = entries::combine(first, second, &mut lent);
    assert!(reply.number == 0 || lent == before, "a refusal writes nothing");
    assert!(
        reply.number != 0 || lent[TABLE_LENGTH..] == before[TABLE_LENGTH..],
        "what is past stays"
    );
    reply
}

#[test]
fn short_buffers_are_14_before_10_and_that_before_17() {
    let whole = prepare_table(M);
    let many = prepared::table_bytes(&table(256, 0, "", &[]));
    let foreign = [0; TABLE_LENGTH];
    assert_eq!(reply(&whole, &whole, TABLE_LENGTH + 9), Reply::accepted(0));
    for short in [0, 1, TABLE_LENGTH - 1] {
        for (first, second, length) in [
            (&whole[..short], &whole[..], TABLE_LENGTH),
            (&foreign, &whole[..short], TABLE_LENGTH),
            (&whole[..short], &foreign, TABLE_LENGTH),
            (&foreign, &whole, short),
            (&whole, &foreign, short),
            (&many, &whole, short),
        ] {
            assert_eq!(reply(first, second, length), refused(14, 3_718));
        }
    }
    for (first, second) in [(&foreign[..], &many[..]), (&many, &foreign), (&foreign, &foreign)] {
        assert_eq!(reply(first, second, TABLE_LENGTH), refused(10, 0));
    }
    assert_eq!(reply(&many, &whole, TABLE_LENGTH), refused(17, 768));
}

#[test]
fn what_is_too_much_is_refused_with_its_count_17_before_18_before_19() {
    let answered = |first: &Table, second: &Table| {
        let [first, second] = [first, second].map(prepared::table_bytes);
        reply(&first, &second, TABLE_LENGTH)
    };
    let of = |states, labels: std::ops::Range<usize>, transitions: usize| {
        let names: Vec<String> = labels.map(|label| format!("n{label}")).collect();
        let steps: Vec<[u8; 3]> =
            (0..transitions).map(|step| [step / 16, 0, step % 16].map(|end| end as u8)).collect();
        table(states, 0, &names.join(" "), &steps)
    };
    assert_eq!(answered(&of(16, 0..20, 0), &of(16, 20..40, 0)), Reply::accepted(0));
    assert_eq!(answered(&of(16, 0..20, 0), &of(17, 20..40, 0)), refused(17, 272));
    assert_eq!(answered(&of(2, 0..0, 0), &of(129, 0..0, 0)), refused(17, 258));
    assert_eq!(answered(&of(256, 0..0, 0), &of(256, 0..0, 0)), refused(17, 65_536));
    assert_eq!(answered(&of(16, 0..20, 0), &of(16, 20..41, 0)), refused(18, 41));
    assert_eq!(answered(&of(16, 0..40, 256), &of(16, 40..80, 256)), refused(18, 80));
    assert_eq!(answered(&of(16, 0..40, 256), &of(17, 40..80, 256)), refused(17, 272));
    // Each of the first's arises 16 times, from 64 on the last of 1,024.
    assert_eq!(answered(&of(16, 0..1, 64), &of(16, 0..1, 0)), Reply::accepted(0));
    assert_eq!(answered(&of(16, 0..1, 65), &of(16, 0..1, 0)), refused(19, 1_040));
    // The silent loops of both, one of each row of 16, are counted once: 256 of 8,192.
    assert_eq!(answered(&of(16, 0..1, 256), &of(16, 0..1, 256)), refused(19, 7_936));
}

/// Writes a table, and checks that a refusal leaves all lent bytes.
fn text_reply(table: &[u8], length: usize) -> Reply {
    let before = filled(7, length);
    let mut text = before.clone();
    let reply = entries::table_text(table, &mut text);
    assert!(reply.number == 0 || text == before, "a refusal writes nothing");
    reply
}

#[test]
fn a_table_is_written_as_its_text_and_what_is_past_stays() {
    for text in [M.as_bytes().to_vec(), longest_table(&mut Rng::new(8)).text()] {
        let prepared = prepare_table(str::from_utf8(&text).expect("ASCII"));
        for length in [MAX_TEXT, MAX_TEXT + 1, MAX_TEXT + 77] {
            let before = filled(8, length);
            let mut lent = before.clone();
            let reply = entries::table_text(&prepared, &mut lent);
            assert_eq!(reply, Reply::accepted(text.len() as u64));
            assert_eq!(lent[..text.len()], text);
            assert_eq!(lent[text.len()..], before[text.len()..]);
        }
    }
}

#[test]
fn a_short_table_is_14_then_a_short_text_then_foreign_bytes_10() {
    let whole = prepare_table(M);
    for short in [0, 1, TABLE_LENGTH - 1] {
        assert_eq!(text_reply(&whole[..short], 0), refused(14, 3_718));
        assert_eq!(text_reply(&whole[..short], MAX_TEXT), refused(14, 3_718));
    }
    for short in [0, M.len(), MAX_TEXT - 1] {
        assert_eq!(text_reply(&whole, short), refused(14, 20_321));
        assert_eq!(text_reply(&[0; TABLE_LENGTH], short), refused(14, 20_321));
    }
    assert_eq!(text_reply(&[0; TABLE_LENGTH], MAX_TEXT), refused(10, 0));
    assert_eq!(text_reply(&[whole.as_slice(), b"more"].concat(), MAX_TEXT).number, 0);
}
