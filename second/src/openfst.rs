//! Random listings and their smallest automata as texts that OpenFst reads, so that its minimal
//! automata can be held against them (.ci/openfst).

use std::fs;
use std::io;
use std::path::Path;

use crate::inputs::kinds::Kinds;
use crate::inputs::rng::Rng;
use crate::inputs::sets;
use crate::listing::Listing;
use crate::smallest::{Automaton, smallest};

/// OpenFst takes long for more.
const MOST_EDGES: usize = 20_000;

/// A line for each edge, then one for each final state. The first line names the start; an
/// automaton without words has no line. OpenFst's label 0 is no letter, so that each is one more.
fn text(
    edges: impl Iterator<Item = (usize, u8, usize)>,
    finals: impl Iterator<Item = bool>,
) -> String {
    let edges = edges.map(|(from, by, to)| format!("{from} {to} {}\n", u32::from(by) + 1));
    let finals = finals.enumerate().filter(|(_, is_final)| *is_final);
    edges.chain(finals.map(|(state, _)| format!("{state}\n"))).collect()
}

fn of_listing(listing: &Listing) -> String {
    let edges = listing.edges.iter();
    let edges = edges.map(|edge| (edge.row.into(), edge.label, edge.target.into()));
    text(edges, listing.rows.iter().map(|row| row.is_final))
}

fn of_automaton(automaton: &Automaton) -> String {
    text(automaton.edges(), automaton.finals.iter().copied())
}

/// The files N.listing and N.smallest of so many listings, none of which has too many sets of rows.
/// Answers how many states and edges each automaton has.
pub fn write(folder: &Path, seed: u64, count: u64) -> io::Result<Vec<(usize, usize)>> {
    fs::create_dir_all(folder)?;
    let drawn = (0..).filter_map(|index| {
        let rng = &mut Rng::of_input(seed, "openfst", index);
        let question = sets::question(rng, &mut Kinds::default());
        let listing = Listing::of(&question.table, &question.formula);
        // Of those with one row only some.
        let is_taken =
            listing.edges.len() <= MOST_EDGES && (listing.rows.len() > 1 || index % 9 == 0);
        let automaton = smallest(&listing).ok().filter(|_| is_taken)?;
        Some((listing, automaton))
    });
    let written = drawn.zip(0..count).map(|((listing, automaton), number)| {
        let file = |end: &str| folder.join(format!("{number}.{end}"));
        fs::write(file("listing"), of_listing(&listing))?;
        fs::write(file("smallest"), of_automaton(&automaton))?;
        Ok((automaton.states(), automaton.edges().count()))
    });
    written.collect()
}

#[cfg(test)]
mod tests {
    use super::*;
    use crate::formula::Formula;
    use crate::table::Table;

    #[test]
    fn the_first_line_names_the_start_and_letters_are_one_more() {
        let table = Table::read(b"     2     1     1     1\n     1 a\n     1     1     0\n");
        let table = table.expect("a table");
        let texts = ["EU[*] EX[.] T", "T", "EX[.] T"].map(|formula| {
            let formula = Formula::read(&table, formula.as_bytes()).expect("a formula");
            let listing = Listing::of(&table, &formula);
            [of_listing(&listing), of_automaton(&smallest(&listing).expect("few sets"))]
        });
        let idle = ["0 1 2\n1 1 100\n1 2 100\n2\n", "0 1 2\n1 2 100\n2 2 100\n2\n"];
        assert_eq!(texts, [idle, ["0\n", "0\n"], ["", ""]]);
    }
}
