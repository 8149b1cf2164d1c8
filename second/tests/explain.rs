//! `explain` answers and leaves what the entries answer and leave in turn.

mod common;

use common::{M, prepare_table, refused};
use second::entries;
use second::fuzz;
use second::inputs::rng::{Rng, filled};
use second::prepared::{self, FORMULA_LENGTH, TABLE_LENGTH};
use second::reply::Reply;

/// A reply, the three values beside the figure, and each lent buffer.
#[derive(Debug, PartialEq, Eq)]
struct Left {
    reply: Reply,
    values: [u64; 3],
    buffers: [Vec<u8>; 4],
}

const VALUES: [u64; 3] = [71, 72, 73];

fn lent(lengths: [usize; 4]) -> Left {
    let mut fill = 0;
    let buffers = lengths.map(|length| {
        fill += 1;
        filled(fill, length)
    });
    Left { reply: Reply::accepted(0), values: VALUES, buffers }
}

fn at_once(table_text: &[u8], formula_text: &[u8], lengths: [usize; 4]) -> Left {
    let mut left = lent(lengths);
    let [table, formula, rows, edges] = &mut left.buffers;
    let [verdict, class, edge_count] = &mut left.values;
    left.reply = entries::explain(
        table_text,
        formula_text,
        table,
        formula,
        rows,
        edges,
        verdict,
        class,
        edge_count,
    );
    left
}

/// The entries are lent copies, which are handed on if none refuses.
fn in_turn(table_text: &[u8], formula_text: &[u8], lengths: [usize; 4]) -> Left {
    let refused = |reply| Left { reply, ..lent(lengths) };
    let mut left = lent(lengths);
    let [table, formula, rows, edges] = &mut left.buffers;
    if table.len() < TABLE_LENGTH || formula.len() < FORMULA_LENGTH {
        let short = [(table.len(), TABLE_LENGTH), (formula.len(), FORMULA_LENGTH)];
        let needed = short.into_iter().find(|(length, needed)| length < needed);
        return refused(Reply { number: 14, figure: needed.expect("one is short").1 as u64 });
    }
    let reply = entries::read_table(table_text, table);
    if reply.number != 0 {
        return refused(reply);
    }
    let reply = entries::read_formula(table, formula_text, formula);
    if reply.number != 0 {
        return refused(reply);
    }
    let reply = entries::build(table, formula, rows, edges, &mut left.values[2]);
    if reply.number != 0 {
        return refused(reply);
    }
    left.values[0] = entries::verdict(table, formula).figure;
    let labels = prepared::table_of(table).expect("a table").labels();
    let formula = prepared::formula_of(formula, labels).expect("a formula");
    left.values[1] = formula.root_class().number();
    left.reply = reply;
    left
}

#[test]
fn random_texts_are_answered_as_by_the_entries_in_turn() {
    let mut accepted = 0;
    for index in 0..3_000 {
        let case = fuzz::explain(&mut Rng::of_input(17, "explain", index)).case;
        let lengths = [case.table, case.formula, case.rows, case.edges].map(|lent| lent.length);
        let left = at_once(&case.table_text, &case.formula_text, lengths);
        assert_eq!(left, in_turn(&case.table_text, &case.formula_text, lengths), "{index}");
        accepted += u32::from(left.reply.number == 0);
    }
    assert!(accepted > 500, "{accepted}");
}

#[test]
fn a_short_buffer_comes_first_and_a_refusal_leaves_everything() {
    let lengths = [TABLE_LENGTH, FORMULA_LENGTH, 30, 50];
    let cases: [(&str, &str, [usize; 4], Reply); 6] = [
        ("", "", [TABLE_LENGTH - 1, 0, 0, 0], refused(14, 3_718)),
        ("", "", [TABLE_LENGTH, 680, 0, 0], refused(14, 681)),
        ("", "", lengths, refused(1, 1)),
        (M, "EX[a T", lengths, refused(6, 5)),
        (M, "EU[*;ack] T", [TABLE_LENGTH, FORMULA_LENGTH, 8, 0], refused(11, 3)),
        (M, "EU[*;ack] T", [TABLE_LENGTH, FORMULA_LENGTH, 9, 14], refused(12, 3)),
    ];
    for (table, formula, lengths, reply) in cases {
        let left = at_once(table.as_bytes(), formula.as_bytes(), lengths);
        assert_eq!(left, Left { reply, ..lent(lengths) }, "{table}{formula}");
    }
}

#[test]
fn what_is_accepted_is_left_in_full() {
    let left =
        at_once(M.as_bytes(), b"EU[*;ack] T", [TABLE_LENGTH + 1, FORMULA_LENGTH + 1, 11, 16]);
    assert_eq!((left.reply, left.values), (Reply::accepted(3), [1, 1, 3]));
    assert_eq!(left.buffers[0][..TABLE_LENGTH], prepare_table(M));
    assert_eq!(left.buffers[2][..9], [0, 0, 0, 0, 1, 0, 1, 0, 1]);
    assert_eq!(left.buffers[3][..15], [0, 0, 1, 1, 0, 1, 0, 2, 0, 0, 1, 0, 2, 2, 0]);
}
