//! Running the program `print_smallest` finds faults: each of these programs is wrong in one thing.

use std::collections::BTreeSet;
use std::fs;
use std::os::unix::process::ExitStatusExt;
use std::path::{Path, PathBuf};
use std::process::{ExitStatus, Output};

use second::columns::{COLUMNS, write_line};
use second::formula::Formula;
use second::listing::Listing;
use second::print::{self, files_in, line_of};
use second::print_smallest::{self, printed};
use second::program::number;
use second::smallest::{Automaton, MAX_SETS, of_sets};
use second::table::{IDLE, Table};

/// As in .ci/second.
const SEED: u64 = 1;
const COUNT: u64 = 3_000;

fn place(test: &str) -> PathBuf {
    std::env::temp_dir().join(format!("second-print-smallest-{}-{test}", std::process::id()))
}

fn says(stdout: Vec<u8>) -> Output {
    Output { status: ExitStatus::default(), stdout, stderr: Vec::new() }
}

fn right(folder: &Path) -> Vec<u8> {
    let [table, formula] = files_in(folder);
    printed(&table, &formula)
}

#[test]
fn a_right_program_is_not_blamed_and_leaves_no_folder() {
    let place = place("right");
    let print = |folder: &Path| Ok(says(right(folder)));
    let tally = print_smallest::run(print, &place, SEED, COUNT).expect("no difference");
    assert_eq!(tally.inputs, COUNT);
    assert_eq!(print_smallest::missing(&tally), [""; 0]);
    assert!(!place.exists());
}

/// A wrong program is told; the folder is kept, and removed here.
fn is_found(test: &str, wrong: impl Fn(&Path) -> Output) {
    let place = place(test);
    let print = |folder: &Path| Ok(wrong(folder));
    let told = print_smallest::run(print, &place, SEED, COUNT).expect_err(test);
    assert!(
        told.contains(&place.display().to_string()) && told.contains("\ntable.txt: "),
        "{told}"
    );
    println!("{test}: {}", told.split(" of ").next().unwrap_or_default());
    fs::remove_dir_all(&place).expect("the folder is kept");
}

/// Of a program that prints something else of the two files.
fn prints(test: &str, wrong: impl Fn(&[u8], &[u8]) -> Vec<u8>) {
    is_found(test, |folder| {
        let [table, formula] = files_in(folder);
        says(wrong(&table, &formula))
    });
}

fn cut(text: &[u8], length: usize) -> &[u8] {
    &text[..text.len().min(length)]
}

#[test]
fn files_read_otherwise_are_found() {
    prints("LF at the end is not dropped", |table, formula| {
        printed(table, &[formula, b"\n"].concat())
    });
    prints("two LF at the end are dropped", |table, formula| printed(table, line_of(formula)));
    prints("the formula is read first", |table, formula| {
        match printed(b"     1     0     0     0\n", formula) {
            refused if number(&refused) == 5 => refused,
            _ => printed(table, formula),
        }
    });
    for length in [512, 514] {
        prints(&format!("the formula is cut at {length} bytes"), |table, formula| {
            printed(table, cut(formula, length))
        });
    }
    for length in [20_320, 20_321] {
        prints(&format!("the table is cut at {length} bytes"), |table, formula| {
            printed(cut(table, length), formula)
        });
    }
    prints("no formula is `T`", |table, formula| match formula {
        [] => printed(table, b"T"),
        _ => printed(table, formula),
    });
}

fn numbers(numbers: &[u64]) -> Vec<u8> {
    let mut text = Vec::new();
    write_line(numbers, &mut text);
    text
}

/// The listing of these files, whatever places it needs, and what is printed.
struct Asked {
    listing: Option<Listing>,
    text: Vec<u8>,
}

impl Asked {
    fn of(table: &[u8], formula: &[u8]) -> Asked {
        let read = Table::read(table).ok();
        let read =
            read.and_then(|table| Some((Formula::read(&table, line_of(formula)).ok()?, table)));
        let listing = read.map(|(formula, table)| Listing::of(&table, &formula));
        Asked { listing, text: printed(table, formula) }
    }

    fn number(&self) -> u32 {
        number(&self.text)
    }

    /// A state for each set of rows, if there are at most so many.
    fn sets(&self, most: usize) -> Option<Automaton> {
        of_sets(self.listing.as_ref()?, most)
    }
}

/// Of a program that answers otherwise what is so answered.
fn answers(test: &str, of: u32, wrong: impl Fn(&Asked) -> Option<Vec<u8>>) {
    prints(test, |table, formula| {
        let asked = Asked::of(table, formula);
        let wrong = if asked.number() == of { wrong(&asked) } else { None };
        wrong.unwrap_or(asked.text)
    });
}

/// Far above the limit.
const MANY_SETS: usize = 2_000;

#[test]
fn other_refusals_are_found() {
    let refused = |figure: usize| numbers(&[20, figure as u64]);
    answers("256 is told", 20, |_| Some(refused(MAX_SETS)));
    answers("0 is told", 20, |_| Some(refused(0)));
    answers("the count of sets is told", 20, |asked| {
        Some(refused(asked.sets(MANY_SETS).map_or(MANY_SETS, |sets| sets.states())))
    });
    answers("the count of rows is told", 20, |asked| {
        Some(refused(asked.listing.as_ref()?.rows.len()))
    });
    answers("another number", 20, |_| Some(numbers(&[12, 257])));
    answers("nothing is said", 20, |_| Some(Vec::new()));
    answers("257 sets are taken", 20, |asked| Some(asked.sets(257)?.merged().text()));
    answers("states are counted", 20, |asked| {
        let smallest = asked.sets(MANY_SETS)?.merged();
        (smallest.states() <= MAX_SETS).then(|| smallest.text())
    });
    answers("255 sets are the most", 0, |asked| asked.sets(255).is_none().then(|| refused(256)));
    answers("the empty set counts", 0, |asked| {
        let sets = asked.sets(MAX_SETS).filter(|sets| sets.states() == MAX_SETS)?;
        let letters = sets.steps.iter().flat_map(|steps| steps.keys()).collect::<BTreeSet<&u8>>();
        let leads_nowhere = sets.steps.iter().any(|steps| steps.len() < letters.len());
        leads_nowhere.then(|| refused(257))
    });
    for number in [11, 12] {
        answers(&format!("{number} is no refusal"), number, |asked| {
            Some(asked.sets(MAX_SETS)?.merged().text())
        });
        answers(&format!("20 before {number}"), number, |asked| {
            asked.sets(MAX_SETS).is_none().then(|| refused(257))
        });
    }
}

/// Of a program that prints another automaton.
fn finds(test: &str, wrong: impl Fn(Automaton) -> Automaton) {
    answers(test, 0, |asked| Some(wrong(asked.sets(MAX_SETS)?.merged()).text()));
}

/// With another step for each, or none.
fn stepping(
    automaton: &Automaton,
    step: impl Fn(usize, u8, usize) -> Option<(u8, usize)>,
) -> Automaton {
    let mut other =
        Automaton { steps: vec![Default::default(); automaton.states()], ..automaton.clone() };
    for (state, letter, target) in automaton.edges() {
        other.steps[state].extend(step(state, letter, target));
    }
    other
}

#[test]
fn other_automata_are_found() {
    answers("sets are not merged", 0, |asked| Some(asked.sets(MAX_SETS)?.text()));
    finds("no state is final", |mut automaton| {
        automaton.finals.fill(false);
        automaton
    });
    finds("the start is never final", |mut automaton| {
        automaton.finals[0] = false;
        automaton
    });
    finds("each state without edges is final", |mut automaton| {
        let ends = automaton.steps.iter().map(|steps| steps.is_empty());
        automaton.finals.iter_mut().zip(ends).for_each(|(is_final, is_end)| *is_final |= is_end);
        automaton
    });
    finds("no edge leads to the start", |automaton| {
        stepping(&automaton, |_, letter, target| (target > 0).then_some((letter, target)))
    });
    finds("none by 99 beside other letters", |automaton| {
        stepping(&automaton, |state, letter, target| {
            let is_lost = letter == IDLE && automaton.steps[state].len() > 1;
            (!is_lost).then_some((letter, target))
        })
    });
    finds("none by a silent step", |automaton| {
        stepping(&automaton, |_, letter, target| (letter > 0).then_some((letter, target)))
    });
    finds("none by label 40", |automaton| {
        stepping(&automaton, |_, letter, target| (letter != 40).then_some((letter, target)))
    });
    finds("99 is 41", |automaton| {
        stepping(&automaton, |_, letter, target| Some((letter.min(41), target)))
    });
    finds("the last two states are exchanged", |automaton| {
        let states = automaton.states();
        let Some(last) = states.checked_sub(2).filter(|&last| last > 0) else {
            return automaton;
        };
        let number = |state| match state {
            _ if state == last => last + 1,
            _ if state == last + 1 => last,
            _ => state,
        };
        let mut other = stepping(&automaton, |_, letter, target| Some((letter, number(target))));
        other.finals.swap(last, last + 1);
        other.steps.swap(last, last + 1);
        other
    });
    finds("the last of 256 states is lost", |mut automaton| {
        automaton.finals.truncate(255);
        automaton.steps.truncate(255);
        automaton
    });
    finds("all words have a state that is not final", |automaton| match automaton.states() {
        1 => Automaton::bare(),
        _ => automaton,
    });
}

/// Of a program that prints other lines of an automaton: the counts, each state, each edge.
fn lists(test: &str, wrong: impl Fn([u64; 2], Vec<[u64; 2]>, Vec<[u64; 3]>) -> Vec<Vec<u64>>) {
    answers(test, 0, |asked| {
        let automaton = asked.sets(MAX_SETS)?.merged();
        let finals = automaton.finals.iter().zip(0..);
        let states: Vec<[u64; 2]> =
            finals.map(|(&is_final, state)| [state, is_final.into()]).collect();
        let edges = automaton.edges();
        let edges: Vec<[u64; 3]> = edges
            .map(|(state, letter, target)| [state as u64, letter.into(), target as u64])
            .collect();
        let counts = [states.len() as u64, edges.len() as u64];
        Some(wrong(counts, states, edges).iter().flat_map(|line| numbers(line)).collect())
    });
}

fn lines<const STATE: usize, const EDGE: usize>(
    counts: [u64; 2],
    states: Vec<[u64; STATE]>,
    edges: Vec<[u64; EDGE]>,
) -> Vec<Vec<u64>> {
    let states = states.into_iter().map(|state| state.to_vec());
    let edges = edges.into_iter().map(|edge| edge.to_vec());
    std::iter::once(counts.to_vec()).chain(states).chain(edges).collect()
}

#[test]
fn other_lines_are_found() {
    lists("the counts are exchanged", |[states, edges], marks, steps| {
        lines([edges, states], marks, steps)
    });
    lists("final states are counted", |[_, edges], marks, steps| {
        lines([marks.iter().map(|[_, is_final]| is_final).sum(), edges], marks, steps)
    });
    lists("a verdict stands before the counts", |counts, marks, steps| {
        let mut all = lines(counts, marks, steps);
        all[0].insert(0, 1);
        all
    });
    lists("states have no number", |counts, marks, steps| {
        lines(counts, marks.into_iter().map(|[_, is_final]| [is_final]).collect(), steps)
    });
    lists("marks come first", |counts, marks, steps| {
        lines(counts, marks.into_iter().map(|[state, is_final]| [is_final, state]).collect(), steps)
    });
    lists("only final states are listed", |counts, mut marks, steps| {
        marks.retain(|[_, is_final]| *is_final == 1);
        lines(counts, marks, steps)
    });
    lists("states from 1", |counts, marks, steps| {
        let marks = marks.into_iter().map(|[state, is_final]| [state + 1, is_final]);
        let steps = steps.into_iter().map(|[state, by, target]| [state + 1, by, target + 1]);
        lines(counts, marks.collect(), steps.collect())
    });
    lists("labels from 0", |counts, marks, steps| {
        let steps = steps.into_iter().map(|[state, by, target]| [state, by.max(1) - 1, target]);
        lines(counts, marks, steps.collect())
    });
    lists("targets before labels", |counts, marks, steps| {
        let steps = steps.into_iter().map(|[state, by, target]| [state, target, by]);
        lines(counts, marks, steps.collect())
    });
    lists("edges by label", |counts, marks, mut steps| {
        steps.sort_by_key(|[state, by, _]| [*by, *state]);
        lines(counts, marks, steps)
    });
    lists("edges by target", |counts, marks, mut steps| {
        steps.sort_by_key(|[state, _, target]| [*state, *target]);
        lines(counts, marks, steps)
    });
    lists("99 comes first", |counts, marks, mut steps| {
        steps.sort_by_key(|[state, by, _]| [*state, (by + 1) % 100]);
        lines(counts, marks, steps)
    });
    lists("the last edge is lost", |counts, marks, mut steps| {
        steps.pop();
        lines(counts, marks, steps)
    });
    lists("the last edge is lost and not counted", |[states, edges], marks, mut steps| {
        steps.pop();
        lines([states, edges.max(1) - 1], marks, steps)
    });
    lists("edges stand before states", |counts, marks, steps| {
        let mut all = lines(counts, marks, steps);
        all[1..].rotate_left(counts[0] as usize);
        all
    });
}

#[test]
fn other_ways_to_answer_are_found() {
    is_found("the listing is printed", |folder| says(print::explain_folder(folder)));
    answers("nothing is printed", 0, |_| Some(Vec::new()));
    for length in [65_536, 103_586, 200_000] {
        is_found(&format!("cut at {length} bytes"), |folder| {
            says(cut(&right(folder), length).to_vec())
        });
    }
    is_found("no LF at the end", |folder| {
        let text = right(folder);
        says(text[..text.len() - 1].to_vec())
    });
    is_found("five columns", |folder| {
        let text = right(folder);
        let lines = text.split_inclusive(|&byte| byte == b'\n');
        says(
            lines
                .flat_map(|line| &line[usize::from(line.len() > 2 * COLUMNS)..])
                .copied()
                .collect(),
        )
    });
    is_found("another status", |folder| Output {
        status: ExitStatus::from_raw(256),
        ..says(right(folder))
    });
    is_found("refused with another status", |folder| {
        let text = right(folder);
        Output { status: ExitStatus::from_raw(i32::from(number(&text) > 0) << 8), ..says(text) }
    });
    is_found("something said", |folder| Output {
        stderr: b"no automaton".to_vec(),
        ..says(right(folder))
    });
}
