//! Each row of 01's table of refusals, its figure, its place in the order, and the bytes it leaves.

mod common;

use common::{M, prepare_table, refused, reply_to};
use second::entries;
use second::inputs::rng::filled;
use second::prepared::{FORMULA_LENGTH, TABLE_LENGTH};
use second::reply::Reply;
use second::table::MAX_STATES;

/// Reads a table, and checks that a refusal leaves all lent bytes.
fn read(text: &[u8], length: usize) -> Reply {
    let before = filled(1, length);
    let mut table = before.clone();
    let reply = entries::read_table(text, &mut table);
    assert!(reply.number == 0 || table == before, "a refusal writes nothing");
    reply
}

fn table_reply(text: &str) -> Reply {
    read(text.as_bytes(), TABLE_LENGTH)
}

fn with_line(number: usize, line: &str) -> String {
    let mut lines: Vec<&str> = M.lines().collect();
    lines[number - 1] = line;
    lines.join("\n") + "\n"
}

#[test]
fn a_missing_line_is_1_at_the_line_it_would_be() {
    assert_eq!(table_reply(""), refused(1, 1));
    let mut text = String::new();
    for (line, number) in M.split_inclusive('\n').zip(1..) {
        assert_eq!(table_reply(&text), refused(1, number));
        text += line;
    }
    assert_eq!(table_reply(&text), Reply::accepted(0));
}

#[test]
fn a_last_line_without_its_end_is_1_at_its_own_number() {
    assert_eq!(table_reply(M.trim_end()), refused(1, 6));
    assert_eq!(table_reply("     1     0     0     0"), refused(1, 1));
}

#[test]
fn bytes_after_the_last_line_are_1_at_the_line_after_it() {
    for more in ["\n", " ", "x", "     1     2     1\n"] {
        assert_eq!(table_reply(&(M.to_owned() + more)), refused(1, 7));
    }
}

#[test]
fn a_line_not_as_laid_out_is_1() {
    for (number, line) in [
        (1, "     3     2     3    00"),
        (1, "     3     2     3"),
        (1, "     3     2     3     0 "),
        (1, "     3     2     3     0\r"),
        (1, "3          2     3     0"),
        (1, "     3     2     3    -1"),
        (2, "     1  req"),
        (2, "     1req"),
        (2, "     1 "),
        (2, "     1 Req"),
        (2, "     1 1req"),
        (2, "     1 _req"),
        (2, "     1 req "),
        (2, "     1 abcdefghijklm"),
        (2, "    01 req"),
        (4, "     0     1"),
        (4, "     0     1     1     0"),
        (4, "     0     1    \t1"),
    ] {
        let reply = table_reply(&with_line(number, line));
        assert_eq!(reply, refused(1, number as u64), "{line:?}");
    }
}

#[test]
fn a_name_of_twelve_bytes_is_as_laid_out() {
    assert_eq!(table_reply(&with_line(2, "     1 abcdefghij_2")), Reply::accepted(0));
}

#[test]
fn a_number_outside_its_range_or_turn_is_2() {
    for (number, line) in [
        (1, "     0     2     3     0"),
        (1, "   257     2     3     0"),
        (1, "     3    41     3     0"),
        (1, "     3     2  1025     0"),
        (1, "     3     2     3     3"),
        (1, "999999     2     3     0"),
        (2, "     2 req"),
        (2, "     0 req"),
        (3, "     1 ack"),
        (4, "     3     1     1"),
        (4, "     0     3     1"),
        (4, "     0     1     3"),
    ] {
        let reply = table_reply(&with_line(number, line));
        assert_eq!(reply, refused(2, number as u64), "{line:?}");
    }
}

#[test]
fn a_name_used_before_is_3() {
    assert_eq!(table_reply(&with_line(3, "     2 req")), refused(3, 3));
}

#[test]
fn a_transition_not_above_the_one_before_is_4() {
    assert_eq!(table_reply(&with_line(5, "     0     1     1")), refused(4, 5));
    assert_eq!(table_reply(&with_line(5, "     0     1     0")), refused(4, 5));
    assert_eq!(table_reply(&with_line(6, "     0     2     2")), refused(4, 6));
}

#[test]
fn tables_are_refused_line_by_line_and_on_a_line_by_number() {
    let out_of_turn_and_used = "     1 req";
    assert_eq!(table_reply(&with_line(3, out_of_turn_and_used)), refused(2, 3));
    let out_of_range_and_not_above = "     0     0     9";
    assert_eq!(table_reply(&with_line(5, out_of_range_and_not_above)), refused(2, 5));
    let late_layout = with_line(6, "?").replace("     2 ack", "     2 req");
    assert_eq!(table_reply(&late_layout), refused(3, 3));
}

#[test]
fn a_short_table_buffer_is_14_before_anything_else() {
    assert_eq!(read(M.as_bytes(), TABLE_LENGTH - 1), refused(14, 3_718));
    assert_eq!(read(b"", 0), refused(14, 3_718));
}

#[test]
fn reading_leaves_the_bytes_past_the_prepared_length() {
    let before = filled(1, TABLE_LENGTH + 9);
    let mut table = before.clone();
    assert_eq!(entries::read_table(M.as_bytes(), &mut table), Reply::accepted(0));
    assert_eq!(table[TABLE_LENGTH..], before[TABLE_LENGTH..]);
    assert_eq!(table[..TABLE_LENGTH], prepare_table(M));
}

#[test]
fn the_prepared_bytes_of_m_are_those_of_the_format() {
    let table = prepare_table(M);
    assert_eq!(table[..6], [3, 0, 2, 3, 0, 0]);
    assert_eq!(table[6..22], *b"\x03req\0\0\0\0\0\0\0\0\0\0\0\0");
    assert_eq!(table[22..38], *b"\x03ack\0\0\0\0\0\0\0\0\0\0\0\0");
    assert_eq!(table[646..655], [0, 1, 1, 1, 0, 2, 1, 2, 0]);
    assert!(table[38..646].iter().chain(&table[655..]).all(|&byte| byte == 0));
}

#[test]
fn the_prepared_bytes_of_a_formula_are_those_of_the_format() {
    let mut formula = vec![0xee; FORMULA_LENGTH];
    let text = b"EU[*;ack] (EX[.] T | ~AX[req] T)";
    let reply = entries::read_formula(&prepare_table(M), text, &mut formula);
    assert_eq!(reply, Reply::accepted(0));
    let slot = |kind: u8, first: u8, then: u8| {
        let mut slot = [0; 17];
        (slot[0], slot[1], slot[9]) = (kind, first, then);
        slot
    };
    let slots = [
        slot(9, 0b110, 0b100),
        slot(3, 0, 0),
        slot(4, 0, 0),
        slot(1, 0, 0),
        slot(2, 0, 0),
        slot(7, 0b010, 0),
        slot(1, 0, 0),
    ];
    assert_eq!(formula[0], 7);
    assert_eq!(formula[1..120], *slots.as_flattened());
    assert!(formula[120..].iter().all(|&byte| byte == 0));
}

#[test]
fn a_formula_over_512_bytes_is_5_whatever_it_says() {
    assert_eq!(reply_to(M, &"?".repeat(513)), refused(5, 513));
    assert_eq!(reply_to(M, &"T".repeat(1_234_567)), refused(5, 1_234_567));
    assert_eq!(reply_to(M, &"?".repeat(512)), refused(6, 0));
    let blanks = " ".repeat(509);
    assert_eq!(reply_to(M, &format!("T|{blanks}T")), Reply::accepted(0));
}

#[test]
fn the_longest_beginning_of_a_text_of_any_length_may_be_all_of_it() {
    assert_eq!(reply_to(M, &"(".repeat(512)), refused(6, 512));
    assert_eq!(reply_to(M, &("T".to_owned() + &" ".repeat(511))), refused(6, 512));
}

#[test]
fn formulas_are_refused_by_length_grammar_names_nodes_classes() {
    let long = "~".repeat(45);
    assert_eq!(reply_to(M, &format!("EX[no] {long}T|")), refused(6, 54));
    assert_eq!(reply_to(M, &format!("{long}(EX[req|no] ~T | EX[none] T)")), refused(7, 53));
    assert_eq!(reply_to(M, &format!("{long}(EX[req] ~T | T)")), refused(8, 50));
    assert_eq!(reply_to(M, "~~(EX[req] ~T | T)"), refused(9, 3));
}

#[test]
fn a_name_is_the_whole_of_its_bytes() {
    assert_eq!(reply_to(M, "EX[re] T"), refused(7, 3));
    assert_eq!(reply_to(M, "EX[requ] T"), refused(7, 3));
    assert_eq!(reply_to(M, "EX[~(ack | re_q)] T"), refused(7, 11));
}

#[test]
fn every_class_is_that_of_the_table() {
    for accepted in [
        "T",
        "~T",
        "~~T",
        "T | T",
        "EX[.] T",
        "EU[*] ~~T",
        "AX[*] T",
        "AX[*] (T)",
        "AX[.] ~T",
        "AX[*] AX[*] T",
        "~AX[*] T",
        "~(EX[*] T | EU[*;*] T)",
    ] {
        assert_eq!(reply_to(M, accepted), Reply::accepted(0), "{accepted}");
    }
    for (text, node) in [
        ("~T | ~T", 0),
        ("T | AX[*] T", 0),
        ("EX[*] ~T", 0),
        ("EU[*] AX[*] T", 0),
        ("EU[*;*] ~T", 0),
        ("AX[*] ~~T", 0),
        ("AX[*] (T | T)", 0),
        ("AX[*] EX[*] T", 0),
        ("~~~EX[*] ~T", 3),
        ("EX[*] ~T | EX[*] ~T", 4),
    ] {
        assert_eq!(reply_to(M, text), refused(9, node), "{text}");
    }
}

struct Lent {
    table: Vec<u8>,
    formula: Vec<u8>,
    rows: Vec<u8>,
    edges: Vec<u8>,
}

/// `EU[*;ack] T` over M: three rows and three edges.
fn lent() -> Lent {
    let table = prepare_table(M);
    let mut formula = vec![0; FORMULA_LENGTH];
    entries::read_formula(&table, b"EU[*;ack] T", &mut formula);
    Lent { table, formula, rows: filled(2, 3 * 3), edges: filled(3, 3 * 5) }
}

impl Lent {
    /// Builds, and checks that a refusal leaves all lent bytes and the count.
    fn build(&mut self) -> Reply {
        let before = (self.rows.clone(), self.edges.clone());
        let mut count = 77;
        let (rows, edges) = (&mut self.rows, &mut self.edges);
        let reply = entries::build(&self.table, &self.formula, rows, edges, &mut count);
        let untouched = before == (self.rows.clone(), self.edges.clone()) && count == 77;
        assert!(reply.number == 0 || untouched, "a refusal writes nothing");
        reply
    }

    fn accepts(&self, word: &[u8]) -> Reply {
        entries::accepts(&self.table, &self.formula, word)
    }

    /// Asks at these states, and checks that a refusal leaves all lent bytes.
    fn verdicts(&self, starts: &[u8], length: usize) -> Reply {
        let before = filled(4, length);
        let mut answers = before.clone();
        let reply = entries::verdicts(&self.table, &self.formula, starts, &mut answers);
        assert!(reply.number == 0 || answers == before, "a refusal writes nothing");
        reply
    }

    fn every_question(&mut self) -> [Reply; 4] {
        let verdict = entries::verdict(&self.table, &self.formula);
        [verdict, self.build(), self.accepts(&[]), self.verdicts(&[], MAX_STATES)]
    }
}

#[test]
fn short_prepared_buffers_are_14_the_table_first() {
    let mut lent = lent();
    lent.formula.truncate(FORMULA_LENGTH - 1);
    lent.table[0] = 0;
    assert_eq!(lent.every_question(), [refused(14, 681); 4]);
    lent.table.truncate(TABLE_LENGTH - 1);
    assert_eq!(lent.every_question(), [refused(14, 3_718); 4]);
    let mut short = vec![0; FORMULA_LENGTH - 1];
    let reply = entries::read_formula(&lent.table, b"", &mut short);
    assert_eq!(reply, refused(14, 3_718));
    let reply = entries::read_formula(&[0; TABLE_LENGTH], b"", &mut short);
    assert_eq!(reply, refused(14, 681));
}

#[test]
fn bytes_behind_the_prepared_ones_are_not_read() {
    let mut lent = lent();
    lent.table.extend_from_slice(b"more");
    lent.formula.extend_from_slice(b"more");
    assert_eq!(lent.every_question().map(|reply| reply.number), [0; 4]);
}

#[test]
fn a_table_that_no_reading_leaves_is_10_before_the_formula() {
    type Damage = fn(&mut [u8]);
    let damages: [Damage; 16] = [
        |table| table[0] = 0,
        |table| table[1] = 1,
        |table| table[2] = 1,
        |table| table[2] = 3,
        |table| table[2] = 41,
        |table| table[3] = 2,
        |table| table[3] = 4,
        |table| table[4] = 4,
        |table| table[5] = 3,
        |table| table[6] = 4,
        |table| table[6] = 2,
        |table| table[7] = b'R',
        |table| table.copy_within(6..22, 22),
        |table| table[645] = 1,
        |table| table.copy_within(646..649, 649),
        |table| table[TABLE_LENGTH - 1] = 1,
    ];
    for (number, damage) in damages.iter().enumerate() {
        let mut lent = lent();
        damage(&mut lent.table);
        lent.formula[0] = 0;
        assert_eq!(lent.every_question(), [refused(10, 0); 4], "damage {number}");
        let reply = entries::read_formula(&lent.table, &[b'?'; 600], &mut lent.formula);
        assert_eq!(reply, refused(10, 0), "damage {number}");
    }
}

#[test]
fn bytes_that_are_not_the_one_form_of_a_formula_are_10() {
    type Damage = fn(&mut [u8]);
    let damages: [Damage; 13] = [
        |formula| formula[0] = 0,
        |formula| formula[0] = 1,
        |formula| formula[0] = 3,
        |formula| formula[0] = 41,
        |formula| formula[1] = 0,
        |formula| formula[1] = 10,
        |formula| formula[1] = 1,
        |formula| formula[1] = 3,
        |formula| formula[1] = 8,
        |formula| formula[2] |= 1,
        |formula| formula[2] |= 8,
        |formula| formula[19] = 2,
        |formula| formula[FORMULA_LENGTH - 1] = 1,
    ];
    for (number, damage) in damages.iter().enumerate() {
        let mut lent = lent();
        damage(&mut lent.formula);
        assert_eq!(lent.every_question(), [refused(10, 1); 4], "damage {number}");
    }
}

#[test]
fn a_formula_that_no_text_of_512_bytes_has_is_accepted_all_the_same() {
    let mut lent = lent();
    let names: String = (1..=40).map(|label| format!("{label:>6} {label:x>12}\n")).collect();
    let table = format!("     1    40     0     0\n{}", names.replace(" x", " a"));
    lent.table = prepare_table(&table);
    lent.formula = vec![0; FORMULA_LENGTH];
    lent.formula[0] = 40;
    for node in 0..39 {
        let slot = &mut lent.formula[1 + node * 17..][..17];
        slot[0] = 9;
        slot[1..6].copy_from_slice(&[0x54, 0x55, 0x55, 0x55, 0x55]);
        slot[9..14].copy_from_slice(&[0xaa, 0xaa, 0xaa, 0xaa, 0xaa]);
    }
    lent.formula[1 + 39 * 17] = 1;
    let verdict = entries::verdict(&lent.table, &lent.formula);
    assert_eq!(verdict, Reply::accepted(0));
}

#[test]
fn a_formula_that_lacks_a_class_is_10_when_prepared() {
    let mut lent = lent();
    lent.formula[0] = 3;
    for (node, kind) in [5, 2, 1].into_iter().enumerate() {
        lent.formula[1 + node * 17..][..17].fill(0);
        lent.formula[1 + node * 17] = kind;
    }
    assert_eq!(lent.every_question(), [refused(10, 1); 4]);
    lent.formula[1] = 7;
    assert_eq!(lent.every_question().map(|reply| reply.number), [0; 4]);
}

#[test]
fn too_few_row_places_are_11_before_too_few_edge_places() {
    let mut lent = lent();
    lent.rows.truncate(8);
    lent.edges.truncate(14);
    assert_eq!(lent.build(), refused(11, 3));
    lent.rows.clear();
    assert_eq!(lent.build(), refused(11, 3));
}

#[test]
fn too_few_edge_places_are_12() {
    let mut lent = lent();
    lent.edges.truncate(14);
    assert_eq!(lent.build(), refused(12, 3));
}

#[test]
fn exact_places_suffice_and_more_stay_as_they_were() {
    let mut exact = lent();
    assert_eq!(exact.build(), Reply::accepted(3));
    assert_eq!(exact.rows, [0, 0, 0, 0, 1, 0, 1, 0, 1]);
    assert_eq!(exact.edges, [0, 0, 1, 1, 0, 1, 0, 2, 0, 0, 1, 0, 2, 2, 0]);
    let mut more = lent();
    more.rows.extend_from_slice(b"rows");
    more.edges.extend_from_slice(b"edges+");
    assert_eq!(more.build(), Reply::accepted(3));
    assert_eq!(more.rows[9..], *b"rows");
    assert_eq!(more.edges[15..], *b"edges+");
}

#[test]
fn a_word_is_13_at_its_first_label_above_the_count() {
    let lent = lent();
    assert_eq!(lent.accepts(&[1, 2]), Reply::accepted(1));
    assert_eq!(lent.accepts(&[1, 3]), refused(13, 1));
    for letter in [3, 40, 41, 98, 100, 255] {
        assert_eq!(lent.accepts(&[1, letter, 255]), refused(13, 1), "{letter}");
    }
    assert_eq!(lent.accepts(&[2; 1_024]), Reply::accepted(0));
    assert_eq!(lent.accepts(&[2; 1_025]), refused(13, 1_024));
    assert_eq!(lent.accepts(&[2; 70_000]), refused(13, 1_024));
    assert_eq!(lent.accepts(&[99, 1, 3]), refused(13, 2));
    assert_eq!(lent.accepts(&[99; 1_024]), Reply::accepted(0));
    assert_eq!(lent.accepts(&[99; 1_025]), refused(13, 1_024));
    let mut long = vec![0; 1_100];
    long[1_050] = 9;
    assert_eq!(lent.accepts(&long), refused(13, 1_024));
    long[1_023] = 9;
    assert_eq!(lent.accepts(&long), refused(13, 1_023));
}

#[test]
fn a_listed_state_is_16_if_it_is_not_above_the_one_before_it_or_the_table_lacks_it() {
    let lent = lent();
    let reply = |starts: &[u8]| lent.verdicts(starts, MAX_STATES);
    for (starts, index) in [
        (&[3][..], 0),
        (&[255], 0),
        (&[0, 0], 1),
        (&[1, 0], 1),
        (&[0, 1, 1, 0], 2),
        (&[0, 2, 1, 3], 2),
        (&[0, 1, 2, 3], 3),
        (&[0, 3, 3, 0], 1),
        (&[0, 1, 2, 255], 3),
        (&[2, 0, 1], 1),
    ] {
        assert_eq!(reply(starts), refused(16, index), "{starts:?}");
    }
    for starts in [&[][..], &[0], &[0, 1]] {
        assert_eq!(reply(starts), Reply::accepted(1), "{starts:?}");
    }
    for starts in [&[2][..], &[0, 2], &[1, 2], &[0, 1, 2]] {
        assert_eq!(reply(starts), Reply::accepted(0), "{starts:?}");
    }
}

#[test]
fn a_list_of_over_256_states_is_16_whatever_the_table() {
    let mut lent = lent();
    let list = |length: usize| (0..length).map(|index| index as u8).collect::<Vec<u8>>();
    for length in [256, 257, 300, 70_000] {
        assert_eq!(lent.verdicts(&list(length), MAX_STATES), refused(16, 3), "{length}");
    }
    lent.table[0..2].copy_from_slice(&256u16.to_le_bytes());
    assert_eq!(lent.verdicts(&list(256), MAX_STATES), Reply::accepted(0));
    for length in [257, 258, 300, 70_000] {
        assert_eq!(lent.verdicts(&list(length), MAX_STATES), refused(16, 256), "{length}");
    }
    let mut repeated = list(300);
    repeated[200] = 199;
    assert_eq!(lent.verdicts(&repeated, MAX_STATES), refused(16, 200));
}

#[test]
fn answers_stand_at_the_index_of_their_state_and_the_rest_stays() {
    let lent = lent();
    for (starts, answered) in [
        (&[][..], &[][..]),
        (&[0], &[1]),
        (&[2], &[0]),
        (&[1, 2], &[1, 0]),
        (&[0, 1, 2], &[1, 1, 0]),
    ] {
        for length in [MAX_STATES, MAX_STATES + 1, MAX_STATES + 77] {
            let before = filled(5, length);
            let mut answers = before.clone();
            let reply = entries::verdicts(&lent.table, &lent.formula, starts, &mut answers);
            assert_eq!(reply, Reply::accepted(u64::from(!answered.contains(&0))));
            assert_eq!(answers[..starts.len()], *answered);
            assert_eq!(answers[starts.len()..], before[starts.len()..]);
        }
    }
}

#[test]
fn short_answers_are_14_behind_the_prepared_buffers_and_before_10_and_16() {
    let mut lent = lent();
    let wrong = &[3, 2, 1];
    for length in [0, 1, 255] {
        assert_eq!(lent.verdicts(wrong, length), refused(14, 256));
    }
    assert_eq!(lent.verdicts(&[], 255), refused(14, 256));
    lent.formula[0] = 0;
    assert_eq!(lent.verdicts(wrong, 255), refused(14, 256));
    assert_eq!(lent.verdicts(wrong, MAX_STATES), refused(10, 1));
    lent.table[0] = 0;
    assert_eq!(lent.verdicts(wrong, 255), refused(14, 256));
    assert_eq!(lent.verdicts(wrong, MAX_STATES), refused(10, 0));
    lent.formula.truncate(FORMULA_LENGTH - 1);
    assert_eq!(lent.verdicts(wrong, 255), refused(14, 681));
    lent.table.truncate(TABLE_LENGTH - 1);
    assert_eq!(lent.verdicts(wrong, 255), refused(14, 3_718));
}
