//! The commands of the second explainer.

use std::fs;
use std::io::{self, Write};
use std::path::Path;
use std::process::ExitCode;
use std::time::Instant;

use second::digests::answers::Explainer;
use second::digests::{BASE, CORPORA, Corpus};
use second::entries::SECOND;
use second::print_combined::{self, Asked};
use second::reply::Reply;
use second::tally::{self, Tally};
use second::views::{Form, View};
use second::{
    bench, digests, fuzz, link, openfst, print, print_smallest, print_verdicts, program, read_back,
    script, starts, views,
};

const USAGE: &str = "second explain FOLDER
second dot FOLDER
second aut FOLDER
second words NUMBER FOLDER
second smallest [dot | aut | words NUMBER] FOLDER
second formula FOLDER
second starts LIST FOLDER
second combine FIRST SECOND
second program FILE --seed NUMBER --count NUMBER
second print_verdicts FILE --seed NUMBER --count NUMBER
second print_combined FILE --seed NUMBER --count NUMBER
second print_smallest FILE --seed NUMBER --count NUMBER
second views SCRIPT --seed NUMBER --count NUMBER
second combined SCRIPT --seed NUMBER --count NUMBER
second openfst FOLDER --seed NUMBER --count NUMBER
second fuzz --seed NUMBER --count NUMBER
second digests FILE [--corpus NAME] [--compare STORED | --each ENTRY KIND]
second bench [--before BUILD] [--library BUILD] [ENTRY]";

/// What should have occurred and did not.
type Missing = fn(&Tally) -> Vec<String>;

fn main() -> ExitCode {
    let words: Vec<String> = std::env::args().skip(1).collect();
    let words: Vec<&str> = words.iter().map(String::as_str).collect();
    match words[..] {
        ["explain", folder] => {
            wrote(io::stdout().write_all(&print::explain_folder(Path::new(folder))))
        }
        ["dot" | "aut" | "words", .., folder] => {
            automaton(View::Listing, &words[..words.len() - 1], folder)
        }
        ["smallest", ref form @ .., folder] => automaton(View::Smallest, form, folder),
        ["formula", folder] => view(View::Formula, folder),
        ["starts", list, folder] if starts::in_columns(list).is_some() => {
            view(View::Starts(list), folder)
        }
        ["combine", first, second] => {
            let [first, second] = [first, second].map(|file| fs::read(file).unwrap_or_default());
            wrote(io::stdout().write_all(&print_combined::printed(&first, &second)))
        }
        ["program", file, ref inputs @ ..] => {
            seeded(inputs, |seed, count| in_folders(&PROGRAM, file, seed, count))
        }
        ["print_verdicts", file, ref inputs @ ..] => {
            seeded(inputs, |seed, count| in_folders(&PRINT_VERDICTS, file, seed, count))
        }
        ["print_combined", file, ref inputs @ ..] => {
            seeded(inputs, |seed, count| in_folders(&PRINT_COMBINED, file, seed, count))
        }
        ["print_smallest", file, ref inputs @ ..] => {
            seeded(inputs, |seed, count| in_folders(&PRINT_SMALLEST, file, seed, count))
        }
        ["combined", file, ref inputs @ ..] => {
            seeded(inputs, |seed, count| in_folders(&COMBINED, file, seed, count))
        }
        ["views", file, ref inputs @ ..] => {
            seeded(inputs, |seed, count| in_folders(&VIEWS, file, seed, count))
        }
        ["openfst", folder, ref inputs @ ..] => {
            seeded(inputs, |seed, count| wrote(openfst(Path::new(folder), seed, count)))
        }
        ["fuzz", ref inputs @ ..] => seeded(inputs, fuzz),
        ["digests", file, "--corpus", name, ref asked @ ..] => {
            match CORPORA.iter().find(|corpus| corpus.name == name) {
                Some(corpus) => digests(file, corpus, asked),
                None => usage(),
            }
        }
        ["digests", file, ref asked @ ..] => digests(file, &BASE, asked),
        ["bench", ref asked @ ..] => bench(asked),
        _ => usage(),
    }
}

fn usage() -> ExitCode {
    eprintln!("{USAGE}");
    ExitCode::from(2)
}

/// With seed and count, in either order.
fn seeded(inputs: &[&str], compare: impl Fn(u64, u64) -> ExitCode) -> ExitCode {
    let (seed, count) = match inputs {
        ["--seed", seed, "--count", count] | ["--count", count, "--seed", seed] => (seed, count),
        _ => return usage(),
    };
    match (seed.parse(), count.parse()) {
        (Ok(seed), Ok(count)) => compare(seed, count),
        _ => usage(),
    }
}

fn wrote(written: io::Result<()>) -> ExitCode {
    match written {
        Ok(()) => ExitCode::SUCCESS,
        Err(error) => {
            eprintln!("second: {error}");
            ExitCode::FAILURE
        }
    }
}

/// An earlier build beside the library, and another one in its place, are shared libraries.
fn bench(asked: &[&str]) -> ExitCode {
    let (before, asked) = option("--before", asked);
    let (library, asked) = option("--library", asked);
    let part = match asked {
        [] => "",
        [part] if bench::has(part) => part,
        _ => return usage(),
    };
    let before = before.map(|file| link::loaded::library::<0>(Path::new(file))).transpose();
    let library = library.map(|file| link::loaded::library::<1>(Path::new(file))).transpose();
    match before.and_then(|before| Ok((before, library?))) {
        Ok((before, library)) => {
            let library = library.unwrap_or_else(link::library);
            wrote(bench::run(before.as_ref(), &library, part, &mut io::stdout()))
        }
        Err(told) => {
            eprintln!("second: {told}");
            ExitCode::from(2)
        }
    }
}

/// What stands behind this word, if it comes first, and the rest.
fn option<'a>(word: &str, asked: &'a [&'a str]) -> (Option<&'a str>, &'a [&'a str]) {
    match asked {
        [first, file, rest @ ..] if *first == word => (Some(file), rest),
        _ => (None, asked),
    }
}

/// The text of an automaton, or the view of it that is named.
fn automaton(of: fn(Form) -> View<'static>, form: &[&str], folder: &str) -> ExitCode {
    let form = match form {
        [] => Some(Form::Text),
        ["dot"] => Some(Form::Dot),
        ["aut"] => Some(Form::Aut),
        ["words", count] => count.parse::<u32>().ok().map(|count| Form::Words(count as usize)),
        _ => None,
    };
    form.map_or_else(usage, |form| view(of(form), folder))
}

fn view(view: View, folder: &str) -> ExitCode {
    let [table, formula] = print::files_in(Path::new(folder));
    match views::text(view, &table, &formula) {
        Ok(text) => wrote(io::stdout().write_all(text.as_bytes())),
        Err(refusal) => {
            let reply = refusal.into();
            let is_printed =
                matches!(view, View::Smallest(Form::Text) | View::Formula | View::Starts(_));
            if is_printed && io::stdout().write_all(&print::refusal(reply)).is_err() {
                return ExitCode::FAILURE;
            }
            let Reply { number, figure } = reply;
            eprintln!("second: refused by {number}, figure {figure}");
            ExitCode::FAILURE
        }
    }
}

/// A comparison in so many random folders.
struct Comparison {
    name: &'static str,
    /// Of a program's file, in a place, from a seed.
    run: fn(&Path, &Path, u64, u64) -> Result<Tally, String>,
    enough: u64,
    missing: Missing,
}

const PROGRAM: Comparison = Comparison {
    name: "program",
    run: |file, place, seed, count| {
        program::run(|folder| program::output_in(file, folder), place, seed, count)
    },
    enough: program::ENOUGH,
    missing: program::missing,
};

const PRINT_VERDICTS: Comparison = Comparison {
    name: "print_verdicts",
    run: |file, place, seed, count| {
        let print = |folder: &Path, list: &[u8]| print_verdicts::output_in(file, folder, list);
        print_verdicts::run(print, place, seed, count)
    },
    enough: print_verdicts::ENOUGH,
    missing: print_verdicts::missing,
};

const PRINT_COMBINED: Comparison = Comparison {
    name: "print_combined",
    run: |file, place, seed, count| of_pairs(Asked::Program, file, place, seed, count),
    enough: print_combined::ENOUGH,
    missing: print_combined::missing,
};

const PRINT_SMALLEST: Comparison = Comparison {
    name: "print_smallest",
    run: |file, place, seed, count| {
        print_smallest::run(|folder| program::output_in(file, folder), place, seed, count)
    },
    enough: print_smallest::ENOUGH,
    missing: print_smallest::missing,
};

const COMBINED: Comparison = Comparison {
    name: "combined",
    run: |file, place, seed, count| of_pairs(Asked::Script, file, place, seed, count),
    enough: print_combined::ENOUGH,
    missing: print_combined::missing,
};

fn of_pairs(
    asked: Asked,
    file: &Path,
    place: &Path,
    seed: u64,
    count: u64,
) -> Result<Tally, String> {
    print_combined::run(asked, |folder| asked.output_in(file, folder), place, seed, count)
}

const VIEWS: Comparison = Comparison {
    name: "views",
    run: |file, place, seed, count| {
        script::run(|view, folder| script::output_of(file, view, folder), place, seed, count)
    },
    enough: script::ENOUGH,
    missing: script::missing,
};

fn in_folders(comparison: &Comparison, file: &str, seed: u64, count: u64) -> ExitCode {
    let Comparison { name, run, enough, missing } = *comparison;
    let Ok(file) = Path::new(file).canonicalize() else {
        eprintln!("second: there is no program {file}");
        return ExitCode::from(2);
    };
    let place = std::env::temp_dir().join(format!("second-{name}-{}", std::process::id()));
    let begin = Instant::now();
    match run(&file, &place, seed, count) {
        Err(told) => {
            println!("{told}");
            ExitCode::FAILURE
        }
        Ok(tally) => {
            let seconds = begin.elapsed().as_secs_f64();
            println!("{name}: {count} folders agree, {seconds:.1} s");
            all_occurred(&[tally], count >= enough, missing)
        }
    }
}

/// A line for each listing: its number, and how many states and edges its smallest automaton has.
fn openfst(folder: &Path, seed: u64, count: u64) -> io::Result<()> {
    for (number, (states, edges)) in openfst::write(folder, seed, count)?.iter().enumerate() {
        println!("{number} {states} {edges}");
    }
    Ok(())
}

fn fuzz(seed: u64, count: u64) -> ExitCode {
    let mut tallies = Vec::new();
    let mut begin = Instant::now();
    let outcome = fuzz::run(&SECOND, &link::library(), seed, count, |tally| {
        println!("{}: {count} inputs agree, {:.1} s", tally.of, begin.elapsed().as_secs_f64());
        tallies.push(tally);
        begin = Instant::now();
    });
    let outcome = outcome.and_then(|()| read_back::run(&link::library(), seed, count));
    match outcome {
        Err(told) => {
            println!("{told}");
            ExitCode::FAILURE
        }
        Ok(None) => {
            eprintln!(
                "second: the library is not linked (--all-features), so nothing was compared"
            );
            ExitCode::from(2)
        }
        Ok(Some(tally)) => {
            let (name, seconds) = (tally.of, begin.elapsed().as_secs_f64());
            println!("{name}: {count} formulas are what was written, {seconds:.1} s");
            tallies.push(tally);
            all_occurred(&tallies, count >= fuzz::ENOUGH, |tally| match tally.of {
                read_back::NAME => read_back::missing(tally),
                _ => fuzz::missing(tally),
            })
        }
    }
}

/// Prints what occurred; among enough inputs, whatever did not occur is a failure.
fn all_occurred(tallies: &[Tally], are_enough: bool, missing: Missing) -> ExitCode {
    print!("{}", tally::table(tallies));
    let missing: Vec<String> = tallies.iter().flat_map(missing).collect();
    for told in &missing {
        println!("{told}");
    }
    match (missing.is_empty(), are_enough) {
        (true, _) => ExitCode::SUCCESS,
        (false, true) => ExitCode::FAILURE,
        (false, false) => {
            println!("these were too few inputs to expect all of that");
            ExitCode::SUCCESS
        }
    }
}

fn digests(file: &str, corpus: &Corpus, asked: &[&str]) -> ExitCode {
    match asked {
        [] => with_explainer(file, |explainer| {
            print!("{}", digests::file(explainer, corpus)?);
            Ok(ExitCode::SUCCESS)
        }),
        ["--compare", stored] => {
            with_explainer(file, |explainer| compare_digests(explainer, corpus, stored))
        }
        ["--each", entry, kind] => {
            with_explainer(file, |explainer| each_digest(explainer, corpus, entry, kind))
        }
        _ => usage(),
    }
}

/// With all of the library and this program; whatever is missing is told and never passed over.
fn with_explainer(file: &str, work: impl Fn(&Explainer) -> Result<ExitCode, String>) -> ExitCode {
    let place = std::env::temp_dir().join(format!("second-digests-{}", std::process::id()));
    let outcome = match Path::new(file).canonicalize() {
        Err(error) => Err(format!("{file}: {error}")),
        Ok(program) => work(&Explainer { entries: link::library(), program, place }),
    };
    outcome.unwrap_or_else(|told| {
        eprintln!("second: {told}");
        ExitCode::from(2)
    })
}

fn compare_digests(
    explainer: &Explainer,
    corpus: &Corpus,
    stored: &str,
) -> Result<ExitCode, String> {
    let begin = Instant::now();
    let text = fs::read_to_string(stored).map_err(|error| format!("{stored}: {error}"))?;
    let new = digests::file(explainer, corpus)?;
    Ok(match digests::difference(&text, &new) {
        Some(told) => {
            println!("{told}\ndigests: not those of {stored}");
            ExitCode::FAILURE
        }
        None => {
            let seconds = begin.elapsed().as_secs_f64();
            println!("digests: those of {stored}, {seconds:.1} s");
            ExitCode::SUCCESS
        }
    })
}

fn each_digest(
    explainer: &Explainer,
    corpus: &Corpus,
    entry: &str,
    name: &str,
) -> Result<ExitCode, String> {
    let kind = corpus.kind(entry, name).ok_or_else(|| format!("{entry} has no kind {name}"))?;
    digests::each(explainer, &kind, |line| println!("{line}"))?;
    Ok(ExitCode::SUCCESS)
}
