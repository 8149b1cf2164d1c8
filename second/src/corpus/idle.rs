//! The corpus `idle`, whose answers `corpus/idle.txt` holds: tables with states that have no exits,
//! with silent loops that are written beside or in place of their idle steps, words with the letter of
//! idle steps at every place, and letters next to it. Like the corpus `base`, whose random numbers,
//! tables and formulas it uses, it is left alone.

use super::folders::File;
use super::formulas::{Formula, spaced};
use super::questions::{Question, either, of_class};
use super::rng::Rng;
use super::tables::Exits::{All, Any, Lacking};
use super::tables::Table;
use super::{Input, Kind, Lent, calls, kind};

const SILENT: u8 = 0;
/// As in docs/FORMATS.md; the corpora use nothing else of the crate.
const IDLE: u8 = 99;
const MAX_WORD: usize = 1_024;

pub const KINDS: [Kind; 56] = [
    kind("verdict", "some-without", 500, |rng| calls::verdict(either(rng, lacking(rng)))),
    kind("verdict", "idle-start", 400, |rng| calls::verdict(either(rng, idle_start(rng)))),
    kind("verdict", "silent-loop-beside", 400, |rng| calls::verdict(either(rng, beside(rng)))),
    kind("verdict", "silent-loop-only", 400, |rng| calls::verdict(either(rng, looping(rng)))),
    kind("verdict", "conditions", 500, |rng| calls::verdict(conditions(rng))),
    kind("build", "some-without-class-1", 500, |rng| {
        calls::build(rng, of_class(rng, lacking(rng), 1))
    }),
    kind("build", "some-without-class-2", 500, |rng| {
        calls::build(rng, of_class(rng, lacking(rng), 2))
    }),
    kind("build", "with-exits", 300, |rng| calls::build(rng, either(rng, Table::small(rng, All)))),
    kind("build", "idle-start", 400, |rng| calls::build(rng, either(rng, idle_start(rng)))),
    kind("build", "silent-loop-beside", 600, |rng| calls::build(rng, either(rng, beside(rng)))),
    kind("build", "silent-loop-only", 400, |rng| calls::build(rng, either(rng, looping(rng)))),
    kind("build", "conditions", 600, |rng| calls::build(rng, conditions(rng))),
    kind("build", "untils", 300, |rng| calls::build(rng, untils(rng, lacking(rng)))),
    kind("build", "all-idle", 100, |rng| calls::build(rng, either(rng, all_idle(rng)))),
    kind("build", "40-labels", 60, |rng| calls::build(rng, either(rng, of_40_labels(rng)))),
    kind("accepts", "explained-class-1", 800, |rng| explained(rng, lacking(rng), 1)),
    kind("accepts", "explained-class-2", 800, |rng| explained(rng, lacking(rng), 2)),
    kind("accepts", "explained-silent-loop-beside", 600, |rng| explained(rng, beside(rng), 1)),
    kind("accepts", "explained-silent-loop-only", 400, |rng| explained(rng, looping(rng), 1)),
    kind("accepts", "idle-alone", 300, |rng| idle_steps(rng, 1)),
    kind("accepts", "idle-repeated", 400, |rng| idle_steps(rng, rng.between(2, 9))),
    kind("accepts", "idle-repeated-long", 60, |rng| {
        idle_steps(rng, rng.pick(&[127, 128, 255, 256, 257, MAX_WORD - 1, MAX_WORD]))
    }),
    kind("accepts", "idle-too-long", 60, |rng| {
        idle_steps(rng, rng.pick(&[MAX_WORD + 1, MAX_WORD + 2, 5_000]))
    }),
    kind("accepts", "idle-last", 400, |rng| into_idle(rng, 1)),
    kind("accepts", "idle-in-the-middle-and-last", 400, |rng| into_idle(rng, rng.between(2, 5))),
    kind("accepts", "idle-put-first", 400, |rng| put_in(rng, lacking(rng), |_, _| 0)),
    kind("accepts", "idle-put-within", 400, |rng| {
        put_in(rng, beside(rng), |rng, length| rng.below(length).max(1))
    }),
    kind("accepts", "idle-put-last", 400, |rng| put_in(rng, lacking(rng), |_, length| length)),
    kind("accepts", "idle-put-in-with-exits", 400, |rng| {
        put_in(rng, Table::small(rng, All), |rng, length| rng.below(length + 1))
    }),
    kind("accepts", "silent-for-idle", 500, |rng| exchanged(rng, lacking(rng), IDLE, SILENT)),
    kind("accepts", "silent-for-idle-beside", 500, |rng| exchanged(rng, beside(rng), IDLE, SILENT)),
    kind("accepts", "idle-for-silent", 500, |rng| exchanged(rng, beside(rng), SILENT, IDLE)),
    kind("accepts", "idle-for-silent-only", 500, |rng| exchanged(rng, looping(rng), SILENT, IDLE)),
    kind("accepts", "conditions", 800, |rng| {
        let question = conditions(rng);
        let word = walk(rng, &question.table, rng.below(5));
        ask(question, word)
    }),
    kind("accepts", "random", 600, |rng| {
        let question = either(rng, lacking(rng));
        let word = any_letters(rng, &question.table, rng.below(9));
        ask(question, word)
    }),
    kind("accepts", "letter-41", 300, |rng| with_letter(rng, lacking(rng), |_| 41)),
    kind("accepts", "letter-98", 300, |rng| with_letter(rng, lacking(rng), |_| IDLE - 1)),
    kind("accepts", "letter-100", 300, |rng| with_letter(rng, lacking(rng), |_| IDLE + 1)),
    kind("accepts", "letter-255", 300, |rng| with_letter(rng, lacking(rng), |_| 255)),
    kind("accepts", "letter-count-plus-1", 300, |rng| {
        with_letter(rng, lacking(rng), |labels| labels + 1)
    }),
    kind("accepts", "letter-count", 200, |rng| with_letter(rng, lacking(rng), |labels| labels)),
    kind("accepts", "letter-40-of-40", 60, |rng| with_letter(rng, of_40_labels(rng), |_| 40)),
    kind("accepts", "letter-41-of-40", 60, |rng| with_letter(rng, of_40_labels(rng), |_| 41)),
    kind("accepts", "letter-99-of-40", 60, |rng| with_letter(rng, of_40_labels(rng), |_| IDLE)),
    kind("texts", "some-without-class-1", 400, |rng| texts(rng, of_class(rng, lacking(rng), 1))),
    kind("texts", "some-without-class-2", 400, |rng| texts(rng, of_class(rng, lacking(rng), 2))),
    kind("texts", "with-exits", 200, |rng| texts(rng, either(rng, Table::small(rng, All)))),
    kind("texts", "silent-loop-beside", 400, |rng| texts(rng, either(rng, beside(rng)))),
    kind("texts", "silent-loop-only", 300, |rng| texts(rng, either(rng, looping(rng)))),
    kind("texts", "conditions", 400, |rng| texts(rng, conditions(rng))),
    kind("texts", "label-99-in-a-table", 100, |rng| {
        let mut table = lacking(rng);
        table.steps.insert([table.start as u8, IDLE, table.start as u8]);
        texts(rng, either(rng, table))
    }),
    kind("program", "some-without-class-1", 40, |rng| files(rng, of_class(rng, lacking(rng), 1))),
    kind("program", "some-without-class-2", 40, |rng| files(rng, of_class(rng, lacking(rng), 2))),
    kind("program", "silent-loop-beside", 30, |rng| files(rng, either(rng, beside(rng)))),
    kind("program", "silent-loop-only", 20, |rng| files(rng, either(rng, looping(rng)))),
    kind("program", "conditions", 30, |rng| files(rng, conditions(rng))),
];

pub fn kinds() -> impl Iterator<Item = Kind> {
    KINDS.into_iter()
}

/// The start has no exits or leads to a state that has none.
fn lacking(rng: &Rng) -> Table {
    Table::small(rng, Lacking)
}

fn idle_start(rng: &Rng) -> Table {
    let mut table = Table::small(rng, Any);
    let start = table.start as u8;
    table.steps.retain(|[from, ..]| *from != start);
    table
}

fn all_idle(rng: &Rng) -> Table {
    Table::drawn(rng, Any, rng.between(1, 6), rng.between(1, 4), 0)
}

fn of_40_labels(rng: &Rng) -> Table {
    Table::drawn(rng, Lacking, rng.between(1, 6), 40, rng.below(13))
}

/// The start leads to a state whose only exit is a silent loop and to one without exits.
fn beside(rng: &Rng) -> Table {
    let mut table = Table::drawn(rng, Any, rng.between(3, 6), rng.between(1, 4), rng.below(13));
    let start = table.start;
    let [looping, idle] = [1, 2].map(|further| ((start + further) % table.states) as u8);
    table.steps.retain(|[from, ..]| ![looping, idle].contains(from));
    table.steps.insert([looping, SILENT, looping]);
    for to in [looping, idle] {
        table.steps.insert([start as u8, rng.below(table.labels() + 1) as u8, to]);
    }
    table
}

/// Each state without exits has a silent loop that is written.
fn looping(rng: &Rng) -> Table {
    let mut table = lacking(rng);
    for state in 0..table.states as u8 {
        if exits(&table, state).next().is_none() {
            table.steps.insert([state, SILENT, state]);
        }
    }
    table
}

fn exits(table: &Table, state: u8) -> impl Iterator<Item = &[u8; 3]> {
    table.steps.range([state, 0, 0]..=[state, 255, 255])
}

/// `.`, `*`, `~*`, one label and its complement in each head, over states without exits.
fn conditions(rng: &Rng) -> Question {
    // A class, and the kind of a node that keeps it.
    const HEADS: [(u8, u8); 4] = [(1, 4), (1, 5), (2, 6), (2, 7)];
    let table = rng.pick(&[lacking, idle_start, beside, looping])(rng);
    let all = ((1 << table.labels()) - 1) << 1;
    let one = 1 << rng.between(1, table.labels());
    let set = || rng.pick(&[all, 0, one, all & !one]);
    let (class, head) = rng.pick(&HEADS);
    let mut nodes = Vec::new();
    if class == 1 && rng.one_in(2) {
        let then = rng.one_in(2);
        nodes.push(if then { (9, set(), set()) } else { (8, set(), 0) });
    }
    for _ in 0..rng.between(1, 3) {
        nodes.push(match head {
            4 | 6 => (head, 0, 0),
            _ => (head, set(), 0),
        });
    }
    nodes.push((1, 0, 0));
    // Any formula of as many nodes lends its form; its nodes give way to these.
    let mut formula = Formula::untils(nodes.len() - 1, table.labels());
    formula.nodes = nodes;
    Question::of(table, formula)
}

fn untils(rng: &Rng, table: Table) -> Question {
    let labels = table.labels();
    Question::of(table, Formula::untils(rng.between(1, 5), labels))
}

fn ask(question: Question, word: Vec<u8>) -> Input {
    Input::Accepts { table: question.table_bytes, formula: question.formula_bytes, word }
}

/// The labels of so many steps from the start, idle ones included.
fn walk(rng: &Rng, table: &Table, length: usize) -> Vec<u8> {
    let mut state = table.start as u8;
    let mut step = || {
        let exits: Vec<_> = exits(table, state).collect();
        let [_, label, to] =
            if exits.is_empty() { [state, IDLE, state] } else { *rng.pick(&exits) };
        state = to;
        label
    };
    (0..length).map(|_| step()).collect()
}

/// Of those that a step may carry.
fn any_letters(rng: &Rng, table: &Table, length: usize) -> Vec<u8> {
    let letter = |_| match rng.one_in(3) {
        true => IDLE,
        false => rng.below(table.labels() + 1) as u8,
    };
    (0..length).map(letter).collect()
}

/// A formula that a path with this word explains; idle steps are silent in it.
fn explained_by(rng: &Rng, table: Table, class: u8, word: &[u8]) -> Question {
    let silent = |&letter: &u8| if letter == IDLE { SILENT } else { letter };
    let word: Vec<u8> = word.iter().map(silent).collect();
    let formula = Formula::explained_by(rng, class, &word, table.labels());
    Question::of(table, formula)
}

/// A path and a formula that it explains; now and then a letter is another one.
fn explained(rng: &Rng, table: Table, class: u8) -> Input {
    let mut word = walk(rng, &table, rng.below(8));
    let question = explained_by(rng, table, class, &word);
    if rng.one_in(5) && !word.is_empty() {
        let at = rng.below(word.len());
        word[at] = any_letters(rng, &question.table, 1)[0];
    }
    ask(question, word)
}

/// Idle steps from the start on. Half the formulas can go on for as long.
fn idle_steps(rng: &Rng, count: usize) -> Input {
    let table = idle_start(rng);
    let word = vec![IDLE; count];
    match rng.one_in(2) || count > 30 {
        true => ask(untils(rng, table), word),
        false => ask(explained_by(rng, table, rng.between(1, 2) as u8, &word), word),
    }
}

/// A step to a state without exits, and so many idle steps there.
fn into_idle(rng: &Rng, count: usize) -> Input {
    let table = beside(rng);
    let idle = ((table.start + 2) % table.states) as u8;
    let into: Vec<u8> = (exits(&table, table.start as u8).filter(|[.., to]| *to == idle))
        .map(|[_, label, _]| *label)
        .collect();
    let word = [vec![rng.pick(&into)], vec![IDLE; count]].concat();
    ask(explained_by(rng, table, rng.between(1, 2) as u8, &word), word)
}

/// A path and a formula that it explains, with an idle step put in.
fn put_in(rng: &Rng, table: Table, at: fn(&Rng, usize) -> usize) -> Input {
    let mut word = walk(rng, &table, rng.between(1, 5));
    let question = match rng.one_in(2) {
        true => untils(rng, table),
        false => explained_by(rng, table, rng.between(1, 2) as u8, &word),
    };
    word.insert(at(rng, word.len()), IDLE);
    ask(question, word)
}

/// A path that has such a letter if a few draws find one, and a formula that it explains; some of
/// these letters are exchanged for another.
fn exchanged(rng: &Rng, table: Table, letter: u8, other: u8) -> Input {
    let draws = (0..20).map(|_| walk(rng, &table, rng.between(1, 6)));
    let mut draws = draws.skip_while(|word| !word.contains(&letter));
    let mut word = draws.next().unwrap_or_else(|| vec![letter]);
    let question = explained_by(rng, table, rng.between(1, 2) as u8, &word);
    let places: Vec<usize> = (0..word.len()).filter(|&at| word[at] == letter).collect();
    for at in &places[rng.below(places.len())..] {
        word[*at] = other;
    }
    ask(question, word)
}

/// A path with one or two letters become this one, at any place, the first and the last among them.
fn with_letter(rng: &Rng, table: Table, letter: fn(u8) -> u8) -> Input {
    let question = either(rng, table);
    let length = rng.pick(&[1, 2, 5, 9, MAX_WORD, MAX_WORD + 1]);
    let mut word = walk(rng, &question.table, length);
    for _ in 0..rng.between(1, 2) {
        let at = rng.pick(&[0, length - 1, rng.below(length), rng.below(length)]);
        word[at] = letter(question.table.labels() as u8);
    }
    ask(question, word)
}

fn formula_text(rng: &Rng, question: &Question) -> Vec<u8> {
    spaced(rng, &question.formula.tokens(rng, &question.table.names), 1)
}

/// Both texts in turn, and a word along a path or of any letters.
fn texts(rng: &Rng, question: Question) -> Input {
    let word = if rng.one_in(3) { any_letters } else { walk }(rng, &question.table, rng.below(6));
    let [rows, edges] = [3 * 200, 5 * 1_200].map(|length| Lent::drawn(rng, length));
    let formula = formula_text(rng, &question);
    Input::Texts { table: question.table.text(), formula, rows, edges, word }
}

fn files(rng: &Rng, question: Question) -> Input {
    let formula = [formula_text(rng, &question), b"\n".to_vec()].concat();
    Input::Program { table: File::Holds(question.table.text()), formula: File::Holds(formula) }
}

#[cfg(test)]
mod tests {
    use super::*;

    /// The words of a kind.
    fn words(name: &str) -> Vec<Vec<u8>> {
        let kind = KINDS.into_iter().find(|kind| (kind.entry, kind.name) == ("accepts", name));
        let word = |input| match input {
            Input::Accepts { word, .. } => word,
            _ => unreachable!("a word is asked"),
        };
        kind.expect("a kind").inputs().map(word).collect()
    }

    #[test]
    fn idle_steps_stand_at_every_place() {
        let is_idle = |letter: &u8| *letter == IDLE;
        assert!(words("idle-alone").iter().all(|word| word == &[IDLE]));
        assert!(
            words("idle-repeated").iter().all(|word| word.len() > 1 && word.iter().all(is_idle))
        );
        assert!(words("idle-last").iter().all(|word| word.len() == 2 && word[1] == IDLE));
        assert!(words("idle-put-first").iter().all(|word| word[0] == IDLE));
        assert!(words("idle-put-last").iter().all(|word| word.ends_with(&[IDLE])));
        let within = |word: &&Vec<u8>| {
            let first = word.iter().position(is_idle);
            first.is_some_and(|at| at > 0 && word[at..].iter().any(|letter| *letter != IDLE))
        };
        assert!(words("idle-put-within").iter().filter(within).count() > 50);
    }

    #[test]
    fn exchanged_words_have_the_other_letter() {
        assert!(words("silent-for-idle").iter().all(|word| word.contains(&SILENT)));
        assert!(words("idle-for-silent-only").iter().all(|word| word.contains(&IDLE)));
    }
}
