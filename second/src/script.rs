//! The script `explain`, run on random folders: its listing, the smallest automaton, the views of both,
//! the formula that it writes back and its verdicts at several states are the second explainer's texts,
//! and a refusal is told in the same words whatever was asked for.

use std::io;
use std::path::Path;
use std::process::{Command, Output, Stdio};

use crate::inputs::folders::{Files, NUMBERS};
use crate::inputs::kinds::{self, must};
use crate::inputs::lists::{LIST, LISTS, typed};
use crate::inputs::views::{BY_SETS, LONGER, WAYS, folder, word_count};
use crate::print;
use crate::reply::Reply;
use crate::tally::{Expected, Kind, Outcome, Tally};
use crate::trials::{self, Trials, shown};
use crate::views::{self, Form, View};

const PART: &str = "folder";

/// With so many folders every expected number and every expected kind occurs.
pub const ENOUGH: u64 = 300;

/// What a view may show, by a name.
struct Sign {
    /// The options of each view that must show it.
    views: &'static [&'static str],
    name: &'static str,
    is_in: fn(&str) -> bool,
}

const fn caption(name: &'static str, is_in: fn(&str) -> bool) -> Sign {
    Sign { views: &["--dot"], name, is_in }
}

const fn dot(name: &'static str, is_in: fn(&str) -> bool) -> Sign {
    Sign { views: &["--dot", "--smallest --dot"], name, is_in }
}

const fn aut(name: &'static str, is_in: fn(&str) -> bool) -> Sign {
    Sign { views: &["--aut", "--smallest --aut"], name, is_in }
}

const fn words(name: &'static str, is_in: fn(&str) -> bool) -> Sign {
    Sign { views: &["--words", "--smallest --words"], name, is_in }
}

const fn smallest(name: &'static str, is_in: fn(&str) -> bool) -> Sign {
    Sign { views: &[SMALLEST], name, is_in }
}

const fn formula(name: &'static str, is_in: fn(&str) -> bool) -> Sign {
    Sign { views: &[FORMULA], name, is_in }
}

const fn starts(name: &'static str, is_in: fn(&str) -> bool) -> Sign {
    Sign { views: &[STARTS], name, is_in }
}

const SMALLEST: &str = "--smallest";
const FORMULA: &str = "--formula";
const STARTS: &str = "--starts";

/// A folder with a listing that is refused: its formula is too long when it is written back, the list
/// of states is refused, or words lead to too many sets of rows.
const REFUSED: &str = "refused of a folder with a listing";
/// A folder with too many rows or edges that is answered.
const NOT_BUILT: &str = "written of a folder without a listing";

/// Each of these must be in some text of its view.
const SIGNS: [Sign; 32] = [
    caption("all witnesses", |text| text.contains("\"holds: all witnesses\"")),
    caption("all counterexamples", |text| text.contains("\"does not hold: all counterexamples\"")),
    caption("no witness", |text| text.contains("\"does not hold: no word is a witness\"")),
    caption("no counterexample", |text| text.contains("\"holds: no word is a counterexample\"")),
    dot("two edges in one", |text| joined(text).any(|edges| edges == 2)),
    dot("more edges in one", |text| joined(text).any(|edges| edges > 2)),
    aut("(silent)", |text| text.contains("\"(silent)\"")),
    aut("(idle)", |text| text.contains("\"(idle)\"")),
    aut("(i)", |text| text.contains("\"(i)\"")),
    aut("(tau)", |text| text.contains("\"(tau)\"")),
    aut("i!", |text| text.contains("\"i!\"")),
    aut("tau?", |text| text.contains("\"tau?\"")),
    aut("final rows", |text| text.matches("\"(final)\"").count() > 1),
    words("none of several", |text| text == "(more)\n" || text == "(infinitely many more)\n"),
    words("none at all", |text| text == "(no more)\n"),
    words("(empty)", |text| text.starts_with("(empty)\n")),
    words("(no more)", |text| text.ends_with("\n(no more)\n")),
    words("(more)", |text| text.ends_with("\n(more)\n")),
    words("(infinitely many more)", |text| text.ends_with("\n(infinitely many more)\n")),
    words("two of one length", |text| {
        let words = text.lines().filter(|line| !line.starts_with('('));
        let lengths: Vec<usize> = words.map(|word| word.split(' ').count()).collect();
        lengths.windows(2).any(|pair| pair[0] == pair[1])
    }),
    smallest("no words", |text| text == "     1     0\n     0     0\n"),
    smallest("one final state", |text| {
        text.starts_with("     1") && text.contains("     0     1\n")
    }),
    smallest("a final start and other states", |text| {
        !text.starts_with("     1") && text.lines().nth(1) == Some("     0     1")
    }),
    formula("round brackets", |text| text.contains('(')),
    formula("all labels", |text| text.contains("[*")),
    formula("no labels", |text| text.contains("~*")),
    formula("several names", |text| sets(text).any(|set| set.contains('|'))),
    formula("marked names", |text| sets(text).any(|set| set.contains(['?', '!']))),
    starts("no state", |text| text == "     1     0\n"),
    starts("holds at all", |text| text.starts_with("     1") && verdicts(text).next().is_some()),
    starts("holds at some", |text| {
        text.starts_with("     0") && verdicts(text).any(|of| of == "1")
    }),
    starts("holds at none", |text| {
        text.starts_with("     0") && verdicts(text).all(|of| of == "0")
    }),
];

/// Behind each state.
fn verdicts(text: &str) -> impl Iterator<Item = &str> {
    text.lines().skip(1).filter_map(|line| line.split_whitespace().nth(1))
}

/// What stands in square brackets.
fn sets(text: &str) -> impl Iterator<Item = &str> {
    text.split('[').skip(1).filter_map(|rest| rest.split(']').next())
}

/// How many edges each line of an edge has.
fn joined(text: &str) -> impl Iterator<Item = usize> {
    let edges = text.lines().filter(|line| line.contains(" -> "));
    edges.map(|edge| edge.split("\\n").count())
}

/// What should have occurred among enough folders and did not.
pub fn missing(tally: &Tally) -> Vec<String> {
    let signs =
        SIGNS.iter().flat_map(|sign| sign.views.iter().map(|view| must(view, sign.name, &[0])));
    let refused = [SMALLEST, FORMULA, STARTS].map(|view| must(view, REFUSED, &[0]));
    let written = [FORMULA, STARTS].map(|view| must(view, NOT_BUILT, &[11, 12]));
    let lists = LISTS.iter().map(|way| must(LIST, way.name, &[0]));
    let ways = [WAYS.as_slice(), &[LONGER, BY_SETS]].into_iter();
    let ways = ways.flat_map(|ways| kinds::expected(PART, ways));
    let expected: Vec<Expected> =
        ways.chain(signs).chain(refused).chain(written).chain(lists).collect();
    tally.missing(&NUMBERS, ENOUGH, &expected)
}

/// Makes so many folders, one after the other in one place, and runs the script on each, for its
/// listing and for each view. The first on which it differs is told and kept.
pub fn run(
    explain: impl Fn(View, &Path) -> io::Result<Output>,
    place: &Path,
    seed: u64,
    count: u64,
) -> Result<Tally, String> {
    let mut tally = Tally::new("views");
    let folder = |index| folder(seed, index);
    Trials { place, seed, count }.each(folder, |index, name, files| {
        let mut shown = Shown { kinds: vec![Kind { part: PART, name }], ..Shown::default() };
        let words = Form::Words(word_count(seed, index));
        let (list, states) = typed(seed, index, files.table.contents());
        shown.kinds.push(Kind { part: LIST, name: list });
        let forms = [Form::Text, Form::Dot, Form::Aut, words];
        let views = forms.map(View::Listing).into_iter().chain(forms.map(View::Smallest));
        for view in views.chain([View::Formula, View::Starts(&states)]) {
            let output = explain(view, place).map_err(|error| error.to_string())?;
            let asked = format!("explain {view}");
            let agrees = shown.agrees(view, files, output);
            agrees.map_err(|told| format!("{}: {told}", asked.trim_end()))?;
        }
        tally.count(&shown.kinds, Outcome::of(shown.number));
        Ok(())
    })?;
    Ok(tally)
}

/// What was shown of one folder.
#[derive(Default)]
struct Shown {
    kinds: Vec<Kind>,
    /// Of the listing, or of what it is refused by.
    number: u32,
    /// Each refusal, and what it is told by on standard error.
    words: Vec<(Reply, Vec<u8>)>,
}

impl Shown {
    fn agrees(&mut self, view: View, files: &Files, output: Output) -> Result<(), String> {
        match views::text(view, files.table.contents(), files.formula.contents()) {
            Ok(text) => {
                self.kinds.extend(signs(view, &text));
                if self.number != 0 {
                    self.kinds.push(Kind { part: view.options(), name: NOT_BUILT });
                }
                trials::answers(text.as_bytes(), &output)
            }
            Err(refusal) => self.is_refusal(view, refusal.into(), output),
        }
    }

    /// Its line stands in place of an automaton's text only; the words are the same for each view.
    fn is_refusal(&mut self, view: View, refusal: Reply, output: Output) -> Result<(), String> {
        let line = match view {
            View::Listing(Form::Text) | View::Smallest(Form::Text) => print::refusal(refusal),
            _ => Vec::new(),
        };
        trials::writes(&line, 1, &output)?;
        if view == View::Listing(Form::Text) {
            self.number = refusal.number;
        } else if self.number == 0 {
            self.kinds.push(Kind { part: view.options(), name: REFUSED });
        }
        let known = self.words.iter().find(|(known, _)| *known == refusal);
        let words = known.map_or(&output.stderr, |(_, words)| words);
        if *words != output.stderr || words.is_empty() {
            let [words, others] = [words, &output.stderr].map(|words| shown(words));
            return Err(format!("standard error: {others}, of the listing: {words}"));
        }
        self.words.push((refusal, output.stderr));
        Ok(())
    }
}

fn signs(view: View, text: &str) -> impl Iterator<Item = Kind> {
    let part = view.options();
    let are_in = move |sign: &&Sign| sign.views.contains(&part) && (sign.is_in)(text);
    SIGNS.iter().filter(are_in).map(move |sign| Kind { part, name: sign.name })
}

/// The output of a script for this folder.
pub fn output_of(script: &Path, view: View, folder: &Path) -> io::Result<Output> {
    let mut command = Command::new(script);
    match view {
        View::Starts(list) => command.args([STARTS, list]),
        _ => command.args(view.to_string().split_whitespace()),
    };
    command.arg(folder).stdin(Stdio::null()).output()
}
