//! Running the script finds faults: each of these scripts is wrong in one thing.

use std::fs;
use std::os::unix::process::ExitStatusExt;
use std::path::{Path, PathBuf};
use std::process::{ExitStatus, Output};

use second::enumeration::least;
use second::formula::Formula;
use second::listing::Listing;
use second::print::{files_in, line_of, refusal};
use second::reply::Reply;
use second::script;
use second::table::Table;
use second::verdict::holds;
use second::views::{Form, View, text};

/// As in .ci/program.
const SEED: u64 = 1;
const FOLDERS: u64 = 300;

fn place(test: &str) -> PathBuf {
    std::env::temp_dir().join(format!("second-script-{}-{test}", std::process::id()))
}

fn says(code: i32, stdout: &[u8], stderr: &[u8]) -> Output {
    let status = ExitStatus::from_raw(code << 8);
    Output { status, stdout: stdout.to_vec(), stderr: stderr.to_vec() }
}

/// What the script writes and how it exits.
fn right(view: View, folder: &Path) -> Output {
    let [table, formula] = files_in(folder);
    match (text(view, &table, &formula), view) {
        (Ok(text), _) => says(0, text.as_bytes(), b""),
        (Err(refused), View::Listing(Form::Text) | View::Smallest(Form::Text)) => {
            says(1, &refusal(refused.into()), b"refused\n")
        }
        (Err(_), _) => says(1, b"", b"refused\n"),
    }
}

#[test]
fn a_right_script_is_not_blamed_and_leaves_no_folder() {
    let place = place("right");
    let explain = |view: View, folder: &Path| Ok(right(view, folder));
    let tally = script::run(explain, &place, SEED, FOLDERS).expect("no difference");
    assert_eq!(tally.inputs, FOLDERS);
    assert_eq!(script::missing(&tally), [""; 0]);
    assert!(!place.exists());
}

/// What is told of a script that is wrong, if it is found; the folder is kept, and removed here.
fn told(test: &str, wrong: impl Fn(View, &Path, Output) -> Output) -> Option<String> {
    let place = place(test);
    let explain = |view: View, folder: &Path| Ok(wrong(view, folder, right(view, folder)));
    let told = script::run(explain, &place, SEED, FOLDERS).err()?;
    assert!(told.contains(&place.display().to_string()), "{told}");
    fs::remove_dir_all(&place).expect("the folder is kept");
    Some(told)
}

struct Shown<'a> {
    view: View<'a>,
    folder: &'a Path,
    lines: Vec<String>,
}

/// What is wrong with the lines of a view.
type Fault = (&'static str, fn(&mut Shown));

/// Each is found, and told of this view.
fn are_found(view: &str, faults: &[Fault]) {
    let mut missed = Vec::new();
    for (name, change) in faults {
        let wrong = |asked: View, folder: &Path, output: Output| {
            if !output.status.success() || asked.options() != view {
                return output;
            }
            let text = str::from_utf8(&output.stdout).expect("ASCII");
            let lines = text.lines().map(String::from).collect();
            let mut shown = Shown { view: asked, folder, lines };
            change(&mut shown);
            let text: String = shown.lines.iter().map(|line| format!("{line}\n")).collect();
            says(0, text.as_bytes(), b"")
        };
        let told = told(view, wrong);
        let found = told.as_ref().and_then(|told| told.split(" of ").next());
        println!("{name}: {}", found.unwrap_or("not found"));
        match told {
            Some(told) => assert!(told.contains(&format!("\nexplain {view}")), "{told}"),
            None => missed.push(*name),
        }
    }
    assert_eq!(missed, [""; 0]);
}

impl Shown<'_> {
    fn replace(&mut self, from: &str, to: &str) {
        self.lines.iter_mut().for_each(|line| *line = line.replace(from, to));
    }

    /// Without the closing line.
    fn words(&mut self) -> &mut [String] {
        self.lines.split_last_mut().expect("a closing line").1
    }

    fn closing(&mut self) -> &mut String {
        self.lines.last_mut().expect("a closing line")
    }

    fn question(&self) -> (Table, Formula) {
        let [table, formula] = files_in(self.folder);
        let table = Table::read(&table).expect("a table");
        let formula = Formula::read(&table, line_of(&formula)).expect("a formula");
        (table, formula)
    }
}

fn length(word: &str) -> usize {
    if word == "(empty)" { 0 } else { word.split(' ').count() }
}

/// Along how many paths from row 0 to final rows the word leads.
fn paths(listing: &Listing, word: &[u8]) -> usize {
    let mut ends = vec![0];
    for &label in word {
        let leaving = ends.iter().flat_map(|&row| listing.edges_from(row));
        ends = leaving.filter(|edge| edge.label == label).map(|edge| edge.target).collect();
    }
    ends.iter().filter(|&&row| listing.rows[row as usize].is_final).count()
}

#[test]
fn faults_in_words_are_found() {
    are_found(
        "--words",
        &[
            ("the last of several words of one length is lost", |shown| {
                let is_tied =
                    |at: &usize| length(&shown.lines[at - 1]) == length(&shown.lines[*at]);
                if let Some(at) = (1..shown.lines.len() - 1).rev().find(is_tied) {
                    shown.lines.remove(at);
                }
            }),
            ("words of one length fall", |shown| {
                let tied = |word: &String, next: &String| length(word) == length(next);
                shown.words().chunk_by_mut(tied).for_each(<[String]>::reverse);
            }),
            ("words of one length rise by their names", |shown| {
                shown.words().sort_by_key(|word| (length(word), word.clone()));
            }),
            ("idle steps come first", |shown| {
                let is_other = |name: &str| name != "(idle)";
                let others = |word: &str| word.split(' ').map(is_other).collect::<Vec<bool>>();
                shown.words().sort_by_key(|word| (length(word), others(word)));
            }),
            ("a word stands once for each of its paths", |shown| {
                let (table, formula) = shown.question();
                let listing = Listing::of(&table, &formula);
                let asked = shown.lines.len() - 1;
                let words = least(&table, &formula, asked).words;
                let times = words.iter().map(|word| paths(&listing, word));
                let again = shown
                    .lines
                    .iter()
                    .zip(times)
                    .flat_map(|(line, times)| std::iter::repeat_n(line.clone(), times));
                let again = again.take(asked).collect::<Vec<String>>();
                shown.lines.splice(..asked, again);
            }),
            ("words of more labels than there are rows are lost", |shown| {
                let (table, formula) = shown.question();
                let rows = Listing::of(&table, &formula).rows.len();
                let closing = shown.lines.pop().expect("a closing line");
                shown.lines.retain(|word| length(word) <= rows);
                shown.lines.push(closing);
            }),
            ("the empty word is an empty line", |shown| shown.replace("(empty)", "")),
            ("the empty word is lost", |shown| shown.lines.retain(|line| line != "(empty)")),
            ("`(no more)` for infinitely many", |shown| {
                shown.replace("(infinitely many more)", "(no more)");
            }),
            ("`(more)` for infinitely many", |shown| {
                shown.replace("(infinitely many more)", "(more)");
            }),
            ("`(no more)` for finitely many", |shown| shown.replace("(more)", "(no more)")),
            ("`(more)` behind exactly as many as asked for", |shown| {
                if shown.view == View::Listing(Form::Words(shown.lines.len() - 1)) {
                    shown.replace("(no more)", "(more)");
                }
            }),
            ("`(no more)` if none is asked for", |shown| {
                if shown.view == View::Listing(Form::Words(0)) {
                    *shown.closing() = "(no more)".into();
                }
            }),
        ],
    );
}

/// An edge of a graph, read from its line.
struct DotEdge<'a> {
    rows: &'a str,
    names: Vec<&'a str>,
}

impl DotEdge<'_> {
    fn of(line: &str) -> Option<DotEdge<'_>> {
        let (rows, label) = line.strip_suffix("\"];")?.split_once(" [label=\"")?;
        rows.contains(" -> ").then(|| DotEdge { rows, names: label.split("\\n").collect() })
    }

    fn row(&self) -> Option<&str> {
        self.rows.split(" -> ").next()
    }

    fn line(&self) -> String {
        format!("{} [label=\"{}\"];", self.rows, self.names.join("\\n"))
    }
}

/// With other lines for each edge.
fn with_edges(shown: &mut Shown, change: impl Fn(DotEdge) -> Vec<String>) {
    let lines = shown.lines.iter().flat_map(|line| match DotEdge::of(line) {
        Some(edge) => change(edge),
        None => vec![line.clone()],
    });
    shown.lines = lines.collect();
}

fn stand_apart(shown: &mut Shown) {
    with_edges(shown, |DotEdge { rows, names }| {
        let apart = |name| DotEdge { rows, names: vec![name] }.line();
        names.into_iter().map(apart).collect()
    });
}

fn names_fall(shown: &mut Shown) {
    with_edges(shown, |mut edge| {
        edge.names.reverse();
        vec![edge.line()]
    });
}

#[test]
fn faults_in_graphs_are_found() {
    are_found(
        "--dot",
        &[
            ("final rows have no ring", |shown| shown.replace(", shape=doublecircle", "")),
            ("row 0 has no ring", |shown| {
                let of_row_0 = |line: &&mut String| line.starts_with("  0 [");
                for line in shown.lines.iter_mut().filter(of_row_0) {
                    *line = line.replace(", shape=doublecircle", "");
                }
            }),
            ("edges to different rows are one", |shown| {
                shown.lines.dedup_by(|next, line| {
                    let (Some(other), Some(edge)) = (DotEdge::of(next), DotEdge::of(line)) else {
                        return false;
                    };
                    let names = [edge.names.clone(), other.names.clone()].concat();
                    let joined = DotEdge { rows: edge.rows, names }.line();
                    let are_joined = edge.row() == other.row();
                    if are_joined {
                        *line = joined;
                    }
                    are_joined
                });
            }),
            ("edges between the same rows stand apart", stand_apart),
            ("the names of one edge fall", names_fall),
            ("joined edges stand behind the others of their row", |shown| {
                let row =
                    |line: &str| DotEdge::of(line).and_then(|edge| edge.row().map(String::from));
                let are_of_one = |line: &String, next: &String| row(line) == row(next);
                let is_joined = |line: &String| DotEdge::of(line).map(|edge| edge.names.len() > 1);
                let rows = shown.lines.chunk_by_mut(are_of_one);
                rows.for_each(|edges| edges.sort_by_key(is_joined));
            }),
            ("state and place are exchanged", |shown| {
                shown.replace("state ", "machine state ");
                shown.replace("\\nplace ", "\\nstate ");
                shown.replace("machine state ", "place ");
            }),
            ("the formula's blanks are dropped", |shown| {
                let formula = shown.lines[0].split('"').nth(1).expect("a formula");
                shown.lines[0] = format!("digraph \"{}\" {{", formula.replace(' ', ""));
            }),
            ("what holds has witnesses", |shown| {
                shown.replace("\"holds: no word is a counterexample\"", "\"holds: all witnesses\"");
            }),
            ("what does not hold has counterexamples", |shown| {
                shown.replace("no word is a witness", "all counterexamples");
            }),
        ],
    );
}

#[test]
fn faults_in_the_aldebaran_format_are_found() {
    are_found(
        "--aut",
        &[
            ("`i` is written bare", |shown| shown.replace("\"(i)\"", "\"i\"")),
            ("`tau` is written bare", |shown| shown.replace("\"(tau)\"", "\"tau\"")),
            ("`i!` is written in brackets", |shown| shown.replace("\"i!\"", "\"(i!)\"")),
            ("`tau?` is written in brackets", |shown| shown.replace("\"tau?\"", "\"(tau?)\"")),
            ("a silent step is an internal one", |shown| shown.replace("(silent)", "i")),
            ("an idle step is a silent one", |shown| shown.replace("(idle)", "(silent)")),
            ("final rows have no loop", |shown| {
                shown.lines.retain(|line| !line.contains("\"(final)\""));
            }),
            ("the loops of final rows are not counted", |shown| {
                let loops = shown.lines.iter().filter(|line| line.contains("\"(final)\"")).count();
                let counts: Vec<&str> = shown.lines[0].split(',').collect();
                let edges = counts[1].parse::<usize>().expect("a count") - loops;
                shown.lines[0] = format!("{},{edges},{}", counts[0], counts[2]);
            }),
            ("the loops of final rows stand at their rows", |shown| {
                let row = |line: &String| line[1..].split(',').next()?.parse::<usize>().ok();
                shown.lines[1..].sort_by_key(row);
            }),
        ],
    );
}

/// The names of each set in the only line.
fn with_sets(shown: &mut Shown, change: impl Fn(&mut Vec<&str>)) {
    let line = shown.lines[0].split_inclusive('[').map(|part| match part.split_once(']') {
        Some((set, rest)) => {
            let sets = set.split(';').map(|set| {
                let mut names: Vec<&str> = set.split('|').collect();
                change(&mut names);
                names.join("|")
            });
            format!("{}]{rest}", sets.collect::<Vec<String>>().join(";"))
        }
        None => part.into(),
    });
    shown.lines[0] = line.collect();
}

#[test]
fn faults_in_formulas_are_found() {
    are_found(
        "--formula",
        &[
            ("the line is shown as typed", |shown| {
                let [_, formula] = files_in(shown.folder);
                shown.lines[0] = String::from_utf8_lossy(line_of(&formula)).into();
            }),
            ("the names of a set fall", |shown| with_sets(shown, |names| names.reverse())),
            ("the names of a set rise as text", |shown| with_sets(shown, |names| names.sort())),
            ("the last name of several is lost", |shown| {
                with_sets(shown, |names| names.truncate(names.len().max(2) - 1));
            }),
            ("a mark is dropped", |shown| shown.replace("?", "")),
            ("no blank stands behind `]`", |shown| shown.replace("] ", "]")),
            ("none stands before `~`", |shown| shown.replace("] ~", "]~")),
            ("none stands before `(`", |shown| shown.replace("] (", "](")),
            ("blanks stand about `|`", |shown| shown.replace("T|", "T | ")),
            ("no labels are all labels", |shown| shown.replace("~*", "*")),
            ("a double negation is simplified", |shown| shown.replace("~~", "")),
            ("brackets stand where none are needed", |shown| {
                shown.lines[0] = format!("({})", shown.lines[0]);
            }),
            ("no brackets stand behind `|`", |shown| shown.replace("|(T|T)", "|T|T")),
            ("one line more", |shown| shown.lines.push(String::new())),
        ],
    );
}

/// In place of this view another one of the same folder.
fn instead(shown: &mut Shown, view: View) {
    let [table, formula] = files_in(shown.folder);
    let text = text(view, &table, &formula).expect("a view");
    shown.lines = text.lines().map(String::from).collect();
}

/// Where the lines of edges begin, in the text of a smallest automaton.
fn first_edge(shown: &Shown) -> usize {
    1 + shown.lines[0][..6].trim_start().parse::<usize>().expect("a count")
}

#[test]
fn faults_in_smallest_automata_are_found() {
    are_found(
        "--smallest",
        &[
            ("the listing is shown", |shown| instead(shown, View::Listing(Form::Text))),
            ("a view is shown", |shown| instead(shown, View::Smallest(Form::Aut))),
            ("the counts are exchanged", |shown| {
                let (states, edges) = shown.lines[0].split_at(6);
                shown.lines[0] = [edges, states].concat();
            }),
            ("final marks are lost", |shown| {
                let edges = first_edge(shown);
                shown.lines[1..edges].iter_mut().for_each(|line| line.replace_range(6.., "     0"));
            }),
            ("the last edge is lost", |shown| {
                if shown.lines.len() > first_edge(shown) {
                    shown.lines.pop();
                }
            }),
            ("the edges of a state fall", |shown| {
                let edges = first_edge(shown);
                let are_of_one = |line: &String, next: &String| line[..6] == next[..6];
                let states = shown.lines[edges..].chunk_by_mut(are_of_one);
                states.for_each(<[String]>::reverse);
            }),
            ("one line more", |shown| shown.lines.push(String::new())),
        ],
    );
}

#[test]
fn faults_in_views_of_smallest_automata_are_found() {
    are_found(
        "--smallest --dot",
        &[
            ("the picture of the listing", |shown| instead(shown, View::Listing(Form::Dot))),
            ("what the words are stands below", |shown| {
                shown.lines.insert(1, "  label=\"holds: all witnesses\";".into());
            }),
            ("an empty line stands in its place", |shown| {
                shown.lines.insert(1, "  label=\"\";".into());
            }),
            ("nodes have no label", |shown| {
                for line in shown.lines.iter_mut().filter(|line| !line.contains(" -> ")) {
                    *line = line.split(" [label=").next().expect("a part").into();
                }
            }),
            ("final states have no ring", |shown| shown.replace(", shape=doublecircle", "")),
            ("edges between the same states stand apart", stand_apart),
            ("the names of one edge fall", names_fall),
        ],
    );
    are_found(
        "--smallest --aut",
        &[
            ("the listing", |shown| instead(shown, View::Listing(Form::Aut))),
            ("`i` is written bare", |shown| shown.replace("\"(i)\"", "\"i\"")),
            ("`tau` is written bare", |shown| shown.replace("\"(tau)\"", "\"tau\"")),
            ("an idle step is a silent one", |shown| shown.replace("(idle)", "(silent)")),
            ("final states have no loop", |shown| {
                shown.lines.retain(|line| !line.contains("\"(final)\""));
            }),
        ],
    );
    are_found(
        "--smallest --words",
        &[
            ("the last word is lost", |shown| {
                if let Some(last) = shown.lines.len().checked_sub(2) {
                    shown.lines.remove(last);
                }
            }),
            ("words of one length fall", |shown| {
                let tied = |word: &String, next: &String| length(word) == length(next);
                shown.words().chunk_by_mut(tied).for_each(<[String]>::reverse);
            }),
            ("the empty word is lost", |shown| shown.lines.retain(|line| line != "(empty)")),
            ("`(more)` for infinitely many", |shown| {
                shown.replace("(infinitely many more)", "(more)");
            }),
            ("`(no more)` for finitely many", |shown| shown.replace("(more)", "(no more)")),
        ],
    );
}

#[test]
fn too_many_sets_of_rows_are_refused_in_each_view_and_the_line_stands_in_one() {
    let too_many = |view: View, folder: &Path| {
        let [table, formula] = files_in(folder);
        let refused = text(view, &table, &formula).err().map(Reply::from);
        refused.is_some_and(|refused| refused.number == 20)
    };
    let is_found = |test: &str, asked: &str, wrong: &dyn Fn(View, &Output) -> Output| {
        let told = told(test, |view, folder, output| {
            match too_many(view, folder) && view.options() == asked {
                true => wrong(view, &output),
                false => output,
            }
        });
        let told = told.expect(test);
        assert!(told.contains(&format!("\nexplain {asked}")), "{told}");
    };
    let line = b"    20   257\n";
    is_found("no line", "--smallest", &|_, output| says(1, b"", &output.stderr));
    is_found("another figure", "--smallest", &|_, output| {
        says(1, b"    20   256\n", &output.stderr)
    });
    is_found("other words", "--smallest --dot", &|_, _| says(1, b"", b"too many sets\n"));
    for asked in ["--smallest --dot", "--smallest --aut", "--smallest --words"] {
        is_found("line", asked, &|_, output| says(1, line, &output.stderr));
        is_found("silent", asked, &|_, _| says(1, b"", b""));
        is_found("success", asked, &|_, output| says(0, b"", &output.stderr));
    }
    for asked in ["--dot", "--aut", "--words"] {
        let told = told("listing", |view, folder, output| {
            let View::Listing(form) = view else { return output };
            match too_many(View::Smallest(form), folder) && view.options() == asked {
                true => says(1, b"", b"refused\n"),
                false => output,
            }
        });
        assert!(told.expect(asked).contains(&format!("\nexplain {asked}")));
    }
}

#[test]
fn a_formula_that_is_too_long_is_refused_and_one_without_a_listing_is_not() {
    let too_long = |view: View, folder: &Path| {
        let [table, formula] = files_in(folder);
        let refused = text(view, &table, &formula).err();
        view == View::Formula && refused.is_some_and(|refused| Reply::from(refused).number == 15)
    };
    let written = told("written", |view, folder, output| match too_long(view, folder) {
        true => says(0, b"EU[*] T\n", b""),
        false => output,
    });
    assert!(written.expect("found").contains("\nexplain --formula: "));
    let silent = told("silent", |view, folder, output| match too_long(view, folder) {
        true => says(1, b"", b""),
        false => output,
    });
    assert!(silent.expect("found").contains("explain --formula: standard error: 0 bytes"));
    let line = told("line", |view, folder, output| match too_long(view, folder) {
        true => says(1, b"    15   513\n", &output.stderr),
        false => output,
    });
    assert!(line.expect("found").contains("\nexplain --formula: "));
    let built = told("built", |view, folder, output| match view {
        View::Formula => {
            match text(View::Listing(Form::Text), &files_in(folder)[0], &files_in(folder)[1]) {
                Err(_) => says(1, b"", b"refused\n"),
                Ok(_) => output,
            }
        }
        _ => output,
    });
    assert!(built.expect("found").contains("\nexplain --formula: "));
}

/// With another line for each listed state.
fn with_verdicts(shown: &mut Shown, change: impl Fn(&Shown, u8, bool) -> String) {
    let (table, formula) = shown.question();
    let lines = shown.lines[1..].iter().map(|line| {
        let state: u8 = line[..6].trim_start().parse().expect("a state");
        let at_state = Table { start: state, ..table.clone() };
        change(shown, state, holds(&at_state, &formula))
    });
    let lines = lines.collect::<Vec<String>>();
    shown.lines.splice(1.., lines);
}

fn line(numbers: [u64; 2]) -> String {
    numbers.map(|number| format!("{number:>6}")).concat()
}

#[test]
fn faults_in_verdicts_are_found() {
    are_found(
        "--starts",
        &[
            ("the verdict is that of the table's start", |shown| {
                let (table, formula) = shown.question();
                let verdict = holds(&table, &formula);
                with_verdicts(shown, |_, state, _| line([state.into(), verdict.into()]));
            }),
            ("the last state has the verdict of the one before", |shown| {
                if let [_, .., before, last] = &mut shown.lines[..] {
                    last.replace_range(6.., &before[6..]);
                }
            }),
            ("all hold if one does", |shown| {
                let any = shown.lines[1..].iter().any(|line| line.ends_with('1'));
                shown.lines[0].replace_range(..6, &format!("{:>6}", u8::from(any)));
            }),
            ("all hold if the last does", |shown| {
                let last = shown.lines.last().is_some_and(|line| line.ends_with('1'));
                shown.lines[0].replace_range(..6, &format!("{:>6}", u8::from(last)));
            }),
            ("it does not hold at none", |shown| {
                if shown.lines.len() == 1 {
                    shown.lines[0] = line([0, 0]);
                }
            }),
            ("those are counted that hold", |shown| {
                let times = shown.lines[1..].iter().filter(|line| line.ends_with('1')).count();
                shown.lines[0].replace_range(6.., &format!("{times:>6}"));
            }),
            ("the count comes first", |shown| {
                let (all, count) = shown.lines[0].split_at(6);
                shown.lines[0] = [count, all].concat();
            }),
            ("verdicts come before their states", |shown| {
                with_verdicts(shown, |_, state, verdict| line([verdict.into(), state.into()]));
            }),
            ("states are counted from 1", |shown| {
                with_verdicts(shown, |_, state, verdict| {
                    line([u64::from(state) + 1, verdict.into()])
                });
            }),
            ("the last state is lost", |shown| {
                if shown.lines.len() > 1 {
                    shown.lines.pop();
                }
            }),
            ("they fall", |shown| shown.lines[1..].reverse()),
            ("numbers as they are typed", |shown| {
                let View::Starts(list) = shown.view else { panic!("no list") };
                let typed = list.split_whitespace().zip(&mut shown.lines[1..]);
                typed.for_each(|(state, line)| line.replace_range(..6, &format!("{state:>6}")));
            }),
        ],
    );
}

#[test]
fn a_list_that_is_refused_is_told_and_one_of_no_state_is_not_refused() {
    let refused = |view: View, folder: &Path| {
        let [table, formula] = files_in(folder);
        let refused = text(view, &table, &formula).err().map(Reply::from);
        refused.is_some_and(|refused| refused.number == 16)
    };
    let is_found = |test: &str, wrong: &dyn Fn(View, &Path, Output) -> Output| {
        let told = told(test, wrong).expect(test);
        assert!(told.contains("\nexplain --starts "), "{told}");
    };
    is_found("accepted", &|view, folder, output| match refused(view, folder) {
        true => says(0, b"     1     0\n", b""),
        false => output,
    });
    is_found("silent list", &|view, folder, output| match refused(view, folder) {
        true => says(1, b"", b""),
        false => output,
    });
    is_found("line of a list", &|view, folder, output| match refused(view, folder) {
        true => says(1, b"    16     0\n", &output.stderr),
        false => output,
    });
    is_found("no state", &|view, _, output| match (view, &output.stdout[..]) {
        (View::Starts(_), b"     1     0\n") => says(1, b"", b"refused\n"),
        _ => output,
    });
}

fn is_told(test: &str, piece: &str, wrong: fn(View, Output) -> Output) {
    let told = told(test, |view, _, output| wrong(view, output)).expect(test);
    assert!(told.contains(piece), "{told}");
}

fn code(output: &Output) -> i32 {
    output.status.code().expect("a code")
}

#[test]
fn another_exit_or_other_words_of_a_refusal_are_found() {
    is_told("success", "\nexplain: exit status: 0", |view, output| match view {
        View::Listing(Form::Text) => says(0, &output.stdout, &output.stderr),
        _ => output,
    });
    is_told("quiet", "explain --words", |view, output| match view {
        View::Listing(Form::Words(_)) => says(code(&output), &output.stdout, b""),
        _ => output,
    });
    is_told("others", "explain --aut: standard error: 8 bytes", |view, output| {
        match code(&output) {
            1 if view == View::Listing(Form::Aut) => says(1, &output.stdout, b"no view\n"),
            _ => output,
        }
    });
    is_told("line", "explain --dot: expected: 0 bytes", |view, output| match code(&output) {
        1 if view == View::Listing(Form::Dot) => says(1, b"     1     1\n", &output.stderr),
        _ => output,
    });
    is_told("warned", "explain --dot: standard error: 7 bytes", |view, output| match view {
        View::Listing(Form::Dot) => says(code(&output), &output.stdout, b"warned\n"),
        _ => output,
    });
}
