//! The samples, and what the documents show of them.

mod common;

use std::collections::BTreeSet;
use std::fs;
use std::path::{Path, PathBuf};

use common::{M, question};
use second::print::{explain_folder, files_in};
use second::print_combined::printed;
use second::table::IDLE;
use second::views::{self, Form, View};

fn root() -> PathBuf {
    Path::new(env!("CARGO_MANIFEST_DIR")).join("..")
}

fn read(path: &str) -> String {
    fs::read_to_string(root().join(path)).expect(path)
}

fn listing(sample: &str) -> String {
    String::from_utf8(explain_folder(&root().join(sample))).expect("ASCII")
}

fn smallest(sample: &str) -> String {
    let [table, formula] = files_in(&root().join(sample));
    views::text(View::Smallest(Form::Text), &table, &formula).expect(sample)
}

/// Whether a listing has a line with these numbers.
fn has_line(listing: &str, numbers: &str) -> bool {
    let columns: String = numbers.split(' ').map(|number| format!("{number:>6}")).collect();
    listing.lines().any(|line| line == columns)
}

/// The texts that stand in four columns, without these.
fn shown(document: &str) -> Vec<String> {
    let mut blocks = vec![String::new()];
    for line in document.lines() {
        match (line.strip_prefix("    "), blocks.last_mut()) {
            (Some(text), Some(block)) => *block += &format!("{text}\n"),
            _ => blocks.push(String::new()),
        }
    }
    blocks.retain(|block| !block.is_empty());
    blocks
}

#[test]
fn the_example_shows_the_changer_with_its_listing_and_words_byte_for_byte() {
    let shown = shown(&read("docs/EXAMPLE.md"));
    let table = read("samples/changer/table.txt");
    let formula = read("samples/changer/formula.txt");
    let words = View::Listing(Form::Words(5));
    let words = views::text(words, table.as_bytes(), formula.as_bytes()).expect("words");
    let directions = read("samples/directions/formula.txt");
    let short_forms = read("samples/short_forms/formula.txt");
    let listing = listing("samples/changer");
    let smallest = smallest("samples/changer");
    let written = ["short_forms", "directions"]
        .map(|sample| read(&format!("samples/{sample}/written_back.txt")));
    let [first, second] = written;
    let (command, [changer, channel, _]) = (combine_command("\n"), side_by_side());
    let ways = words_of_both(5);
    let texts = [table, formula, listing, words, smallest, directions, short_forms, first, second];
    let texts = texts.into_iter().chain([changer, channel, command, ways]);
    assert_eq!(shown, Vec::from_iter(texts));
}

/// The two tables and that of both.
fn side_by_side() -> [String; 3] {
    ["changer", "channel", "table"].map(|name| read(&format!("samples/side_by_side/{name}.txt")))
}

fn words_of_both(count: usize) -> String {
    let [_, _, table] = side_by_side();
    let formula = read("samples/side_by_side/formula.txt");
    let words = View::Listing(Form::Words(count));
    views::text(words, table.as_bytes(), formula.as_bytes()).expect("words")
}

fn combine_command(end: &str) -> String {
    let [changer, channel] =
        ["changer", "channel"].map(|name| format!("samples/side_by_side/{name}.txt"));
    format!("bin/explain --combine {changer} {channel}{end}")
}

#[test]
fn the_readme_shows_how_two_tables_are_combined_and_the_words_of_both() {
    let shown = shown(&read("README.md"));
    let combined = combine_command(" >samples/side_by_side/table.txt\n");
    let asked = "bin/explain --words 3 samples/side_by_side\n";
    assert!(shown.contains(&[&combined, asked, &words_of_both(3)].concat()));
}

/// As many pairs can be reached as the changer has states, and their automaton is its own, but for marks.
#[test]
fn the_changer_and_the_channel_are_the_changer_that_waits() {
    let [changer, channel, table] = side_by_side();
    assert_eq!(printed(changer.as_bytes(), channel.as_bytes()), table.as_bytes());
    assert_eq!(read("samples/side_by_side/formula.txt"), read("samples/changer/formula.txt"));
    let [both, alone] = ["side_by_side", "changer"].map(|sample| {
        let edges = read(&format!("samples/{sample}/automaton.aut")).replace(['?', '!'], "");
        edges.lines().map(String::from).collect::<BTreeSet<String>>()
    });
    assert_eq!(both, alone);
    let reached = question(&table, "EU[*] T").listing().rows;
    let reached: BTreeSet<u8> = reached.iter().map(|row| row.state).collect();
    assert_eq!(reached, BTreeSet::from([0, 4, 8, 9, 10, 11, 12]));
    assert!(table.starts_with("    16     7    27     0\n"));
}

#[test]
fn the_listing_of_both_is_as_the_example_tells() {
    let (example, listing) = (read("docs/EXAMPLE.md"), listing("samples/side_by_side"));
    assert!(listing.starts_with("     1     1     8    10\n"));
    assert!(example.contains("has 8 rows and 10 edges"));
    for edge in ["2 4 5", "3 4 5", "2 4 4", "4 6 2", "5 99 7"] {
        assert!(example.contains(&format!("`{edge}`")), "{edge}");
        assert!(has_line(&listing, edge), "{edge}");
    }
}

#[test]
fn the_readme_shows_verdicts_of_the_changer_byte_for_byte() {
    let [table, formula] =
        ["table", "formula"].map(|name| read(&format!("samples/changer/{name}.txt")));
    let list = "0 3 5";
    let verdicts = views::text(View::Starts(list), table.as_bytes(), formula.as_bytes());
    let command = format!("bin/explain --starts \"{list}\" samples/changer\n");
    assert!(shown(&read("README.md")).contains(&(command + &verdicts.expect("verdicts"))));
}

#[test]
fn the_readme_shows_the_smallest_automaton_of_m_byte_for_byte() {
    let command = "bin/explain --smallest samples/m\n".to_owned();
    assert!(shown(&read("README.md")).contains(&(command + &smallest("samples/m"))));
}

#[test]
fn the_smallest_automaton_is_as_the_example_tells() {
    let (example, smallest) = (read("docs/EXAMPLE.md"), smallest("samples/changer"));
    for edge in ["4 6 2", "4 99 7"] {
        assert!(example.contains(&format!("`{edge}`")), "{edge}");
        assert!(has_line(&smallest, edge), "{edge}");
    }
}

#[test]
fn the_changer_and_the_short_forms_have_the_same_smallest_automaton() {
    let [changer, short_forms] = ["samples/changer", "samples/short_forms"].map(smallest);
    assert_eq!(changer, short_forms);
    assert_ne!(listing("samples/changer"), listing("samples/short_forms"));
}

/// Each ends in the idle step of the wait.
fn words_into_the_wait() -> [Vec<u8>; 3] {
    [vec![1, 2, 5], vec![1, 2, 3, 5], vec![1, 2, 5, 6, 5]].map(|ways| [ways, vec![IDLE]].concat())
}

#[test]
fn the_changer_comes_to_wait_in_the_three_ways_that_the_documents_tell() {
    let (readme, example) = (read("README.md"), read("docs/EXAMPLE.md"));
    let table = read("samples/changer/table.txt");
    let formula = read("samples/changer/formula.txt");
    let question = question(&table, formula.trim_end());
    let names = ["req", "send", "clamp", "ack", "drop", "retry", "done"];
    for way in ["req send drop", "req send clamp drop", "req send drop retry drop"] {
        for document in [&readme, &example] {
            assert!(document.contains(&format!("`{way}`")), "{way}");
        }
        let label = |name| names.iter().position(|known| *known == name).expect("a name") as u8 + 1;
        let into_the_wait: Vec<u8> = way.split(' ').map(label).collect();
        assert!(question.accepts(&[into_the_wait.as_slice(), &[IDLE]].concat()), "{way}");
    }
    for edge in ["2 5 5", "3 5 5", "2 5 4", "4 6 2", "5 99 7"] {
        assert!(example.contains(&format!("`{edge}`")), "{edge}");
        assert!(has_line(&listing("samples/changer"), edge), "{edge}");
    }
}

#[test]
fn the_sample_with_directions_is_the_changer_with_marks() {
    let marked = read("samples/directions/table.txt");
    assert_eq!(marked.replace(['?', '!'], ""), read("samples/changer/table.txt"));
    let names = ["req?", "send!", "clamp", "ack?", "drop", "retry!", "done!"];
    for (name, number) in names.into_iter().zip(1..) {
        assert!(marked.contains(&format!("{number:>6} {name}\n")), "{name}");
    }
}

#[test]
fn the_listing_with_directions_is_as_the_example_tells() {
    let (example, listing) = (read("docs/EXAMPLE.md"), listing("samples/directions"));
    assert!(listing.starts_with("     1     1    11    16\n"));
    assert!(example.contains("with 11 rows and 16 edges"));
    for edge in ["1 2 2", "1 2 3"] {
        assert!(example.contains(&format!("`{edge}`")), "{edge}");
        assert!(has_line(&listing, edge), "{edge}");
    }
    let sent_done = |line: &&str| line.len() == 18 && &line[6..12] == "     7";
    assert_eq!(listing.lines().filter(sent_done).count(), 1);
}

/// Each way into the wait, from its last command on.
#[test]
fn after_some_command_the_changer_receives_nothing_and_comes_to_wait() {
    let table = read("samples/directions/table.txt");
    let formula = read("samples/directions/formula.txt");
    assert_eq!(formula, "EU[*;!] EU[~?] EX[.] T\n");
    let ways = question(&table, formula.trim_end());
    assert_eq!((ways.verdict(), ways.class()), (1, 1));
    for word in words_into_the_wait() {
        assert!(ways.accepts(&word), "{word:?}");
        assert!(!ways.accepts(&word[1..]), "{word:?}");
        assert!(!ways.accepts(&word[..word.len() - 1]), "{word:?}");
    }
}

#[test]
fn the_listing_with_short_forms_is_as_the_example_tells() {
    let (example, listing) = (read("docs/EXAMPLE.md"), listing("samples/short_forms"));
    assert!(listing.starts_with("     0     2     9    11\n"));
    assert!(example.contains("with 9 rows and 11 edges"));
    for edge in ["2 5 4", "4 6 2", "2 5 5", "3 5 5", "5 99 7"] {
        assert!(example.contains(&format!("`{edge}`")), "{edge}");
        assert!(has_line(&listing, edge), "{edge}");
    }
}

/// After each drop a retry, and after each acknowledgement the end: the second holds, and the ways in
/// which the first is broken are those into the wait.
#[test]
fn a_drop_is_not_always_answered_by_a_retry() {
    let table = read("samples/short_forms/table.txt");
    assert_eq!(table, read("samples/changer/table.txt"));
    let formula = read("samples/short_forms/formula.txt");
    assert_eq!(formula, "AG (BOX[drop] AX[retry] T & BOX[ack] AX[done] T)\n");
    let always = question(&table, formula.trim_end());
    assert_eq!((always.verdict(), always.class()), (0, 2));
    assert_eq!(question(&table, "AG BOX[ack] AX[done] T").verdict(), 1);
    let into_the_wait = question(&table, read("samples/changer/formula.txt").trim_end());
    assert_eq!(always.words(4), into_the_wait.words(4));
    for word in words_into_the_wait() {
        assert!(always.accepts(&word) && into_the_wait.accepts(&word), "{word:?}");
    }
}

#[test]
fn the_samples_have_table_m() {
    assert_eq!(read("samples/m/table.txt"), M);
    assert_eq!(read("samples/m/formula.txt"), "EU[*;ack] T\n");
}
