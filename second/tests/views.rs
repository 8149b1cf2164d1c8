//! The views of a listing, and the enumeration of words that the last one is written by.

mod common;

use std::collections::BTreeSet;
use std::path::Path;

use common::{LOOPS, M, ONE_STATE, all_words};
use second::enumeration::{Enumeration, More, Word, least};
use second::inputs::questions::{Question, question};
use second::inputs::rng::Rng;
use second::listing::Listing;
use second::print::files_in;
use second::reply::Refusal;
use second::views::{Form, View, text};
use second::word::{has_explaining_path, is_accepted};

fn view(view: View, table: &str, formula: &str) -> String {
    text(view, table.as_bytes(), formula.as_bytes()).expect(formula)
}

fn of_sample(view: View, sample: &str) -> String {
    let samples = Path::new(env!("CARGO_MANIFEST_DIR")).join("../samples");
    let [table, formula] = files_in(&samples.join(sample));
    text(view, &table, &formula).expect(sample)
}

#[test]
fn table_m_is_shown_byte_for_byte() {
    assert_eq!(
        of_sample(View::Listing(Form::Dot), "m"),
        r#"digraph "EU[*;ack] T" {
  label="holds: all witnesses";
  rankdir=LR;
  node [shape=circle];
  start [shape=point];
  start -> 0;
  0 [label="state 0\nplace 0"];
  1 [label="state 1\nplace 0"];
  2 [label="state 0\nplace 1", shape=doublecircle];
  0 -> 1 [label="req"];
  1 -> 0 [label="ack"];
  1 -> 2 [label="ack"];
}
"#
    );
    assert_eq!(
        of_sample(View::Listing(Form::Aut), "m"),
        r#"des (0,4,3)
(0,"req",1)
(1,"ack",0)
(1,"ack",2)
(2,"(final)",2)
"#
    );
    assert_eq!(
        of_sample(View::Listing(Form::Words(3)), "m"),
        "req ack\nreq ack req ack\nreq ack req ack req ack\n(infinitely many more)\n"
    );
}

#[test]
fn the_smallest_automaton_of_m_is_shown_byte_for_byte() {
    assert_eq!(
        of_sample(View::Smallest(Form::Text), "m"),
        "     3     3
     0     0
     1     0
     2     1
     0     1     1
     1     2     2
     2     1     1
"
    );
    assert_eq!(
        of_sample(View::Smallest(Form::Dot), "m"),
        r#"digraph "EU[*;ack] T" {
  rankdir=LR;
  node [shape=circle];
  start [shape=point];
  start -> 0;
  0 [label="0"];
  1 [label="1"];
  2 [label="2", shape=doublecircle];
  0 -> 1 [label="req"];
  1 -> 2 [label="ack"];
  2 -> 1 [label="req"];
}
"#
    );
    assert_eq!(
        of_sample(View::Smallest(Form::Aut), "m"),
        r#"des (0,4,3)
(0,"req",1)
(1,"ack",2)
(2,"req",1)
(2,"(final)",2)
"#
    );
    let words = Form::Words(3);
    assert_eq!(of_sample(View::Smallest(words), "m"), of_sample(View::Listing(words), "m"));
}

#[test]
fn a_smallest_automaton_without_words_is_one_state_and_of_the_empty_word_a_final_one() {
    let smallest = |form, formula| view(View::Smallest(form), M, formula);
    assert_eq!(smallest(Form::Text, "EX[ack] T"), "     1     0\n     0     0\n");
    assert_eq!(smallest(Form::Aut, "EX[ack] T"), "des (0,0,1)\n");
    assert_eq!(smallest(Form::Words(2), "EX[ack] T"), "(no more)\n");
    assert_eq!(smallest(Form::Text, "~T"), "     1     0\n     0     1\n");
    assert_eq!(smallest(Form::Aut, "T"), "des (0,1,1)\n(0,\"(final)\",0)\n");
    assert!(smallest(Form::Dot, "T").ends_with("0 [label=\"0\", shape=doublecircle];\n}\n"));
}

/// By a or silently to state 1, which has no exit; back to the start by b.
#[test]
fn the_edges_of_a_smallest_automaton_rise_by_label_and_an_idle_step_is_the_last() {
    let table = "     2     2     4     0
     1 a
     2 b
     0     0     1
     0     1     0
     0     1     1
     0     2     0
";
    let smallest = |form| view(View::Smallest(form), table, "EU[*] T");
    assert_eq!(
        smallest(Form::Text),
        "     3     8
     0     1
     1     1
     2     1
     0     0     1
     0     1     2
     0     2     0
     1    99     1
     2     0     1
     2     1     2
     2     2     0
     2    99     1
"
    );
    let dot = smallest(Form::Dot);
    assert!(dot.contains("  2 -> 1 [label=\"(silent)\\n(idle)\"];\n  2 -> 2 [label"), "{dot}");
}

/// From each state of a ring all words lead on, so that one state has them all; with a step before
/// them there is one set too many.
#[test]
fn over_256_sets_of_rows_are_refused_whatever_is_shown_of_them() {
    let steps = (0..256).map(|from| format!("{from:>6}     1{:>6}\n", (from + 1) % 256));
    let table = format!("   256     1   256     0\n     1 a\n{}", steps.collect::<String>());
    for form in [Form::Text, Form::Dot, Form::Aut, Form::Words(3)] {
        let of = |formula: &str| text(View::Smallest(form), table.as_bytes(), formula.as_bytes());
        assert_eq!(of("EX[a] EU[*] T"), Err(Refusal::SetCount(257)), "{form:?}");
        assert!(of("EU[*] T").is_ok(), "{form:?}");
    }
    assert_eq!(
        view(View::Smallest(Form::Text), &table, "EU[*] T"),
        "     1     1\n     0     1\n     0     1     0\n"
    );
    assert!(text(View::Listing(Form::Text), table.as_bytes(), b"EX[a] EU[*] T").is_ok());
}

#[test]
fn a_formula_is_shown_as_it_is_written_back() {
    assert_eq!(of_sample(View::Formula, "m"), "EU[*;ack] T\n");
    assert_eq!(of_sample(View::Formula, "changer"), "EU[*;drop] EX[.] T\n");
    let line = "DIA[ ack ] ( T | (T|T) )\n";
    assert_eq!(view(View::Formula, M, line), "EX[ack] (T|(T|T))\n");
    let refused = text(View::Formula, M.as_bytes(), b"EX[nil] T").expect_err("no such name");
    assert_eq!(refused, Refusal::UnknownName(3));
}

#[test]
fn the_changer_has_three_ways_into_the_wait() {
    assert_eq!(
        of_sample(View::Listing(Form::Words(5)), "changer"),
        "req send drop (idle)
req send clamp drop (idle)
req send drop retry drop (idle)
req send drop retry clamp drop (idle)
req send drop retry drop retry drop (idle)
(infinitely many more)
"
    );
    let dot = of_sample(View::Listing(Form::Dot), "changer");
    for edge in ["2 -> 5 [label=\"drop\"]", "3 -> 5 [label=\"drop\"]", "4 -> 2 [label=\"retry\"]"] {
        assert!(dot.contains(&format!("\n  {edge};\n")), "{dot}");
    }
    assert_eq!(
        of_sample(View::Listing(Form::Words(40)), "short_forms"),
        of_sample(View::Listing(Form::Words(40)), "changer")
    );
}

#[test]
fn the_graphs_label_tells_verdict_and_class() {
    for (formula, label) in [
        ("EX[req] T", "holds: all witnesses"),
        ("AX[ack] T", "does not hold: all counterexamples"),
        ("EX[ack] T", "does not hold: no word is a witness"),
        ("AX[req] T", "holds: no word is a counterexample"),
    ] {
        assert!(
            view(View::Listing(Form::Dot), M, formula)
                .contains(&format!("\n  label=\"{label}\";\n"))
        );
    }
}

#[test]
fn the_graphs_name_is_the_line_as_typed_without_its_end() {
    let dot = view(View::Listing(Form::Dot), M, "DIA [ req|ack ]  T\n");
    assert!(dot.starts_with("digraph \"DIA [ req|ack ]  T\" {\n"), "{dot}");
}

#[test]
fn a_question_without_words_has_one_row() {
    let dot = view(View::Listing(Form::Dot), M, "EX[ack] T");
    assert!(dot.ends_with("  start -> 0;\n  0 [label=\"state 0\\nplace 0\"];\n}\n"), "{dot}");
    assert_eq!(view(View::Listing(Form::Aut), M, "EX[ack] T"), "des (0,0,1)\n");
    assert_eq!(view(View::Listing(Form::Words(3)), M, "EX[ack] T"), "(no more)\n");
    assert_eq!(view(View::Listing(Form::Words(0)), M, "EX[ack] T"), "(no more)\n");
}

#[test]
fn edges_between_the_same_rows_are_one_line_where_the_first_stands() {
    let table = "     2     3     4     0
     1 a
     2 b
     3 c
     0     0     1
     0     1     0
     0     2     1
     0     3     0
";
    let dot = view(View::Listing(Form::Dot), table, "EU[*] EX[.] T");
    let edges: Vec<&str> = dot.lines().filter(|line| line.starts_with("  0 ->")).collect();
    assert_eq!(
        edges,
        [
            r#"  0 -> 1 [label="(silent)\nb"];"#,
            r#"  0 -> 2 [label="(silent)"];"#,
            r#"  0 -> 0 [label="a\nc"];"#
        ]
    );
    let aut = view(View::Listing(Form::Aut), table, "EU[*] EX[.] T");
    let edges: Vec<&str> = aut.lines().filter(|line| line.starts_with("(0,")).collect();
    let steps = [("(silent)", 1), ("(silent)", 2), ("a", 0), ("b", 1), ("c", 0)];
    assert_eq!(edges, steps.map(|(name, target)| format!("(0,\"{name}\",{target})")));
}

#[test]
fn the_internal_steps_of_the_aldebaran_format_are_written_in_brackets() {
    let names = ["i", "tau", "i!", "tau?", "ii", "taus"];
    let lines: String =
        names.iter().zip(1..).map(|(name, at)| format!("{at:>6} {name}\n")).collect();
    let steps: String =
        (1..=names.len()).map(|label| format!("     0{label:>6}     0\n")).collect();
    let table = format!("     1     6     6     0\n{lines}{steps}");
    let aut = view(View::Listing(Form::Aut), &table, "EX[*] T");
    let written: Vec<&str> = aut.split('"').skip(1).step_by(2).collect();
    assert_eq!(written, ["(i)", "(tau)", "i!", "tau?", "ii", "taus", "(final)"]);
    assert!(
        view(View::Listing(Form::Dot), &table, "EX[*] T")
            .contains(r#""i\ntau\ni!\ntau?\nii\ntaus""#)
    );
    assert!(view(View::Listing(Form::Words(2)), &table, "EX[*] T").starts_with("i\ntau\n"));
}

#[test]
fn the_closing_line_tells_whether_words_follow() {
    let words = |count, formula| view(View::Listing(Form::Words(count)), LOOPS, formula);
    assert_eq!(words(2, "EX[*] T"), "a\nb\n(more)\n");
    assert_eq!(words(3, "EX[*] T"), "a\nb\nc\n(no more)\n");
    assert_eq!(words(4, "EX[*] T"), "a\nb\nc\n(no more)\n");
    assert_eq!(words(0, "EX[*] T"), "(more)\n");
    assert_eq!(words(5, "EU[*] T"), "(empty)\na\nb\nc\na a\n(infinitely many more)\n");
    assert_eq!(words(0, "EU[*] T"), "(infinitely many more)\n");
    assert_eq!(words(1, "T"), "(empty)\n(no more)\n");
    assert_eq!(words(0, "T"), "(more)\n");
    assert_eq!(
        view(View::Listing(Form::Words(2)), ONE_STATE, "EU[*] EX[.] T"),
        "(idle)\n(idle) (idle)\n(infinitely many more)\n"
    );
}

#[test]
fn words_of_one_length_rise_by_their_labels_and_each_stands_once() {
    // By z to state 1 or 2, by a silent step to 1; from both by a to 3, which has no exit.
    let table = "     4     2     5     0
     1 z
     2 a
     0     0     1
     0     1     1
     0     1     2
     1     2     3
     2     2     3
";
    assert_eq!(
        view(View::Listing(Form::Words(9)), table, "EU[*] EX[a] (T | EX[.] T | EX[.] EX[.] T)"),
        "(silent) a
z a
(silent) a (idle)
z a (idle)
(silent) a (idle) (idle)
z a (idle) (idle)
(no more)
"
    );
}

#[test]
fn a_silent_step_is_the_lowest_label_and_an_idle_step_the_highest() {
    // By a to state 1, which has no exit, or to 2, and from there by a or silently to 3.
    let table = "     4     1     4     0
     1 a
     0     1     1
     0     1     2
     2     0     3
     2     1     3
";
    assert_eq!(
        view(View::Listing(Form::Words(9)), table, "EX[a] (EX[a] T | EX[.] T)"),
        "a (silent)\na a\na (idle)\n(no more)\n"
    );
}

#[test]
fn a_refused_folder_has_no_view() {
    let forms = [Form::Text, Form::Dot, Form::Aut, Form::Words(1)];
    for show in forms.map(View::Listing).into_iter().chain(forms.map(View::Smallest)) {
        assert!(text(show, b"", b"T").is_err());
        assert!(text(show, M.as_bytes(), b"T | ~T").is_err());
    }
}

/// Random questions over few labels.
fn questions(count: usize, most_states: usize) -> impl Iterator<Item = Question> {
    let questions = (0..).map(|index| question(&mut Rng::of_input(3, "words", index), 1_000));
    let is_small = move |of: &Question| of.table.labels() <= 4 && of.table.states <= most_states;
    questions.filter(is_small).take(count)
}

#[test]
fn the_words_are_those_that_some_path_explains() {
    const LONGEST: usize = 4;
    let mut some = 0;
    for Question { table, formula } in questions(400, 6) {
        let mut words = all_words(table.labels() as u8, LONGEST);
        words.retain(|word| has_explaining_path(&table, &formula, word));
        for count in [0, words.len().min(1), words.len() / 2, words.len()] {
            assert_eq!(least(&table, &formula, count).words, words[..count]);
        }
        let one_more = least(&table, &formula, words.len() + 1).words;
        assert!(one_more.iter().skip(words.len()).all(|word| word.len() > LONGEST));
        some += usize::from(words.len() > 1);
    }
    assert!(some > 100, "{some}");
}

/// The words along all edges from row 0 to final rows, if none comes to a row again and they are
/// not too many.
fn words_along(listing: &Listing) -> Option<BTreeSet<(usize, Word)>> {
    let mut words = BTreeSet::new();
    let mut unvisited = vec![(0, Word::new())];
    let mut visits = 0;
    while let Some((row, word)) = unvisited.pop() {
        visits += 1;
        if word.len() > listing.rows.len() || visits > 20_000 {
            return None;
        }
        for edge in listing.edges_from(row) {
            unvisited.push((edge.target, [word.as_slice(), &[edge.label]].concat()));
        }
        if listing.rows[row as usize].is_final {
            words.insert((word.len(), word));
        }
    }
    Some(words)
}

#[test]
fn finitely_many_words_are_those_along_the_edges() {
    let mut longest = 0;
    for Question { table, formula } in questions(2_000, 40) {
        let Some(words) = words_along(&Listing::of(&table, &formula)) else {
            continue;
        };
        let words: Vec<Word> = words.into_iter().map(|(_, word)| word).collect();
        let all = least(&table, &formula, words.len());
        assert_eq!(all, Enumeration { words: words.clone(), more: More::None });
        if let Some((last, others)) = words.split_last() {
            longest = longest.max(last.len());
            let more = Enumeration { words: others.to_vec(), more: More::Finitely };
            assert_eq!(least(&table, &formula, others.len()), more);
        }
    }
    assert!(longest > 6, "{longest}");
}

/// Whether some row leads to itself again.
fn has_cycle(listing: &Listing) -> bool {
    let mut left: Vec<bool> = vec![true; listing.rows.len()];
    loop {
        let ends = |row: usize| {
            let mut edges = listing.edges_from(row as u16).iter();
            left[row] && !edges.any(|edge| left[edge.target as usize])
        };
        match (0..left.len()).find(|&row| ends(row)) {
            Some(row) => left[row] = false,
            None => return left.contains(&true),
        }
    }
}

#[test]
fn there_are_infinitely_many_words_exactly_if_some_row_leads_to_itself() {
    let mut cycles = 0;
    for Question { table, formula } in questions(2_000, 40) {
        let is_infinite = least(&table, &formula, 0).more == More::Infinitely;
        assert_eq!(is_infinite, has_cycle(&Listing::of(&table, &formula)));
        cycles += usize::from(is_infinite);
    }
    assert!((400..1_600).contains(&cycles), "{cycles}");
}

#[test]
fn long_words_are_accepted_and_rise() {
    for Question { table, formula } in questions(300, 40) {
        let words = least(&table, &formula, 30).words;
        let is_before = |pair: &[Word]| (pair[0].len(), &pair[0]) < (pair[1].len(), &pair[1]);
        assert!(words.windows(2).all(is_before));
        assert!(words.iter().all(|word| is_accepted(&table, &formula, word)));
    }
}

/// A ring of 30 states with one step by b: each word has a round more.
#[test]
fn the_first_words_may_be_longer_than_the_bound_on_finitely_many() {
    let steps =
        (0..30).map(|from| format!("{from:>6}{:>6}{:>6}\n", 1 + from / 29, (from + 1) % 30));
    let names = "     1 a\n     2 b\n";
    let table = format!("    30     2    30     0\n{names}{}", steps.collect::<String>());
    let words = view(View::Listing(Form::Words(20)), &table, "EU[*;b] T");
    let lengths: Vec<usize> = words.lines().map(|word| word.split(' ').count()).collect();
    assert_eq!(lengths[..20], (1..=20).map(|rounds| 30 * rounds).collect::<Vec<usize>>());
    assert!(words.ends_with(" b\n(infinitely many more)\n"));
}
