//! Different ways to the same answer, on thousands of small random questions.

mod common;

use common::{all_words, shortest_word};
use second::formula::{Class, Formula};
use second::inputs::kinds::Kinds;
use second::inputs::questions::{Question, question};
use second::inputs::rng::Rng;
use second::inputs::{formulas, tables};
use second::listing::Listing;
use second::run::Run;
use second::table::{Step, Table};
use second::{prepared, verdict, word};

/// So small that all short words can be tried on all paths.
fn small_question(index: u64) -> Question {
    let rng = &mut Rng::of_input(11, "small question", index);
    let (states, labels, transitions) = (rng.between(1, 4), rng.below(4), rng.below(9));
    let table = tables::with_counts(rng, &mut Kinds::default(), states, labels, transitions);
    let nodes = rng.between(1, 7);
    let class = formulas::class(rng, nodes);
    let formula = formulas::formula(rng, Some(class), nodes, &table);
    Question { table, formula }
}

#[test]
fn three_ways_to_answer_a_word_agree() {
    let mut accepted = 0;
    for index in 0..4_000 {
        let Question { table, formula } = small_question(index);
        let listing = Listing::of(&table, &formula);
        for letters in all_words(table.labels() as u8, 4) {
            let by_paths = word::has_explaining_path(&table, &formula, &letters);
            let by_search = word::is_accepted(&table, &formula, &letters);
            let by_listing = word::is_accepted_by(&listing, &letters);
            assert_eq!(
                (by_search, by_listing),
                (by_paths, by_paths),
                "{letters:?} of {formula:?} over {table:?}"
            );
            accepted += u64::from(by_paths);
        }
    }
    assert!(accepted > 10_000, "{accepted} words are too few to tell");
}

#[test]
fn a_verdict_has_a_word_exactly_if_something_explains_it() {
    let mut explained = 0;
    for index in 0..40_000 {
        let Question { table, formula } = match index % 2 {
            0 => small_question(index),
            _ => question(&mut Rng::of_input(11, "question", index), 4_000),
        };
        let holds = verdict::holds(&table, &formula);
        let explains = match formula.root_class() {
            Class::Witnesses => holds,
            Class::Counterexamples => !holds,
        };
        let listing = Listing::of(&table, &formula);
        let shortest = shortest_word(&listing);
        assert_eq!(shortest.is_some(), explains, "{formula:?} over {table:?}");
        if let Some(letters) = shortest {
            assert!(word::is_accepted(&table, &formula, &letters));
            explained += 1;
        } else {
            assert_eq!((listing.rows.len(), listing.edges.len()), (1, 0));
            assert!(!listing.rows[0].is_final);
        }
    }
    assert!((10_000..35_000).contains(&explained), "{explained}");
}

#[test]
fn a_run_explains_exactly_if_the_listing_traces_a_beginning_of_it() {
    let mut traced = 0;
    for index in 0..20_000 {
        let Question { table, formula } = small_question(index);
        let listing = Listing::of(&table, &formula);
        let rng = &mut Rng::of_input(11, "run", index);
        for _ in 0..4 {
            let run = random_run(rng, &table);
            let explains = run.explains(&formula, 0, 0);
            assert_eq!(run.is_traced(&listing), explains, "{formula:?} over {table:?}");
            traced += u64::from(explains);
        }
    }
    assert!((10_000..70_000).contains(&traced), "{traced}");
}

/// Random steps from the start until a state comes again; from there on the same for ever.
fn random_run(rng: &mut Rng, table: &Table) -> Run {
    let steps = table.steps();
    let mut taken: Vec<Step> = Vec::new();
    let mut state = table.start;
    loop {
        let step = rng.pick(steps.from(state));
        taken.push(step);
        state = step.to;
        let again = taken.iter().position(|step| step.from == state);
        if let Some(again) = again.filter(|_| taken.len() > 8 || rng.one_in(3)) {
            return Run::new(taken, again);
        }
    }
}

#[test]
fn a_row_is_numbered_by_its_first_mention_and_edges_rise() {
    for index in 0..10_000 {
        let Question { table, formula } =
            question(&mut Rng::of_input(11, "numbering", index), 1_000);
        let listing = Listing::of(&table, &formula);
        let mut mentioned = 1;
        for edge in &listing.edges {
            assert!(edge.target <= mentioned);
            mentioned += u16::from(edge.target == mentioned);
        }
        assert_eq!(mentioned as usize, listing.rows.len());
        let keys: Vec<_> = (listing.edges.iter())
            .map(|edge| {
                let target = listing.rows[edge.target as usize];
                (edge.row, edge.label, target.place, target.state)
            })
            .collect();
        assert!(keys.is_sorted_by(|left, right| left < right));
    }
}

#[test]
fn a_table_is_read_from_its_text_and_its_bytes() {
    for index in 0..2_000 {
        let rng = &mut Rng::of_input(11, "table", index);
        let size = tables::size(rng, 20);
        let table = tables::table(rng, &mut Kinds::default(), size);
        assert_eq!(Table::read(&table.text()), Ok(table.clone()));
        assert_eq!(prepared::table_of(&prepared::table_bytes(&table)), Some(table));
    }
}

#[test]
fn a_formula_is_read_from_every_text_of_it_and_its_bytes() {
    for index in 0..20_000 {
        let rng = &mut Rng::of_input(11, "text", index);
        let Question { table, formula } = question(rng, 100);
        let text = formulas::tokens(rng, &formula, &table).concat();
        if text.len() <= second::formula::MAX_BYTES {
            assert_eq!(Formula::read(&table, &text), Ok(formula.clone()));
        }
        let bytes = prepared::formula_bytes(&formula);
        assert_eq!(prepared::formula_of(&bytes, table.labels()), Some(formula));
    }
}
