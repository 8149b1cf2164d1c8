//! The corpus `base`, whose answers `corpus/base.txt` holds. This generator is left alone and uses
//! nothing else of the crate, so that its inputs stay what they are, byte for byte; new kinds of
//! input get a new corpus beside it, as in `marks`, `short`, `idle`, `written`, `names`, `starts`,
//! `combined` and `smallest`.

mod calls;
pub mod combined;
mod damage;
mod folders;
mod formulas;
pub mod idle;
pub mod marks;
pub mod names;
mod questions;
mod read_formula;
mod read_table;
mod rng;
pub mod short;
pub mod smallest;
pub mod starts;
mod tables;
pub mod written;

pub use folders::File;
use questions::Question;
use rng::Rng;

/// So many bytes on either side of a lent buffer belong to nobody and must stay.
pub const GUARD: usize = 16;

/// A buffer that is lent to be written, and the number that fills it before.
pub struct Lent {
    pub length: usize,
    pub fill: u64,
}

impl Lent {
    fn drawn(rng: &Rng, length: usize) -> Lent {
        Lent { length, fill: rng.draw() }
    }

    /// What stands in the buffer and in the guards before the call.
    pub fn buffer(&self) -> Vec<u8> {
        rng::filled(self.fill, self.length + 2 * GUARD)
    }
}

/// One call of an entry: bytes lent for reading and buffers lent for writing.
pub enum Input {
    ReadTable {
        text: Vec<u8>,
        table: Lent,
    },
    TableText {
        table: Vec<u8>,
        text: Lent,
    },
    Combine {
        first: Vec<u8>,
        second: Vec<u8>,
        combined: Lent,
    },
    ReadFormula {
        table: Vec<u8>,
        text: Vec<u8>,
        formula: Lent,
    },
    WriteFormula {
        table: Vec<u8>,
        formula: Vec<u8>,
        text: Lent,
    },
    /// A line over a table's text, read, written back and read again.
    ReadBack {
        table: Vec<u8>,
        line: Vec<u8>,
        text: Lent,
    },
    Verdict {
        table: Vec<u8>,
        formula: Vec<u8>,
    },
    Verdicts {
        table: Vec<u8>,
        formula: Vec<u8>,
        starts: Vec<u8>,
        answers: Lent,
    },
    Build {
        table: Vec<u8>,
        formula: Vec<u8>,
        rows: Lent,
        edges: Lent,
    },
    Smallest {
        table: Vec<u8>,
        formula: Vec<u8>,
        rows: Lent,
        edges: Lent,
        smallest: Lent,
        work: Lent,
    },
    Accepts {
        table: Vec<u8>,
        formula: Vec<u8>,
        word: Vec<u8>,
    },
    /// From both texts through every entry in turn; long buffers are lent for what is prepared.
    Texts {
        table: Vec<u8>,
        formula: Vec<u8>,
        rows: Lent,
        edges: Lent,
        word: Vec<u8>,
    },
    Program {
        table: File,
        formula: File,
    },
}

/// Inputs of one kind; a later change of meaning touches some kinds only.
pub struct Kind {
    pub entry: &'static str,
    pub name: &'static str,
    pub count: u64,
    make: Make,
}

#[derive(Clone, Copy)]
enum Make {
    Input(fn(&Rng) -> Input),
    /// The entry's input of a question.
    Asked(fn(&Rng) -> Question, fn(&Rng, Question) -> Input),
}

const fn kind(
    entry: &'static str,
    name: &'static str,
    count: u64,
    make: fn(&Rng) -> Input,
) -> Kind {
    Kind { entry, name, count, make: Make::Input(make) }
}

impl Kind {
    /// The same input for the same index.
    pub fn input(&self, index: u64) -> Input {
        let rng = &Rng::of(self.entry, self.name, index);
        match self.make {
            Make::Input(make) => make(rng),
            Make::Asked(make, input) => input(rng, make(rng)),
        }
    }

    pub fn inputs(&self) -> impl Iterator<Item = Input> {
        (0..self.count).map(|index| self.input(index))
    }
}

/// The kinds of an entry that asks a question of prepared bytes.
fn asked(
    entry: &'static str,
    which: usize,
    input: fn(&Rng, Question) -> Input,
) -> impl Iterator<Item = Kind> {
    questions::ASKED.into_iter().map(move |asked| Kind {
        entry,
        name: asked.name,
        count: asked.counts[which],
        make: Make::Asked(asked.make, input),
    })
}

/// Those of them whose prepared bytes are damaged, short or longer, in the counts of words.
fn refused(entry: &'static str, input: fn(&Rng, Question) -> Input) -> impl Iterator<Item = Kind> {
    const BEGINNINGS: [&str; 3] = ["table-", "formula-", "both-"];
    asked(entry, 2, input)
        .filter(|kind| BEGINNINGS.iter().any(|begins| kind.name.starts_with(begins)))
}

pub fn kinds() -> impl Iterator<Item = Kind> {
    read_table::KINDS
        .into_iter()
        .chain(read_formula::KINDS)
        .chain(asked("verdict", 0, |_, question| calls::verdict(question)))
        .chain(asked("build", 1, calls::build))
        .chain(calls::BUILD)
        .chain(asked("accepts", 2, calls::accepts))
        .chain(calls::ACCEPTS)
        .chain(calls::TEXTS)
        .chain(folders::KINDS)
}

#[cfg(test)]
mod tests {
    use super::*;

    fn count(entry: &str) -> u64 {
        kinds().filter(|kind| kind.entry == entry).map(|kind| kind.count).sum()
    }

    #[test]
    fn each_entry_has_20_000_inputs_and_the_program_500() {
        for entry in ["read_table", "read_formula", "verdict", "build", "accepts"] {
            assert_eq!(count(entry), 20_000, "{entry}");
        }
        assert_eq!((count("texts"), count("program")), (5_000, 500));
    }

    /// Of the prepared table that is lent.
    fn some_state_has_no_exit(input: &Input) -> Option<bool> {
        let (Input::Verdict { table, .. }
        | Input::Build { table, .. }
        | Input::Accepts { table, .. }) = input
        else {
            return None;
        };
        let [states, steps] = [0, 3].map(|at| u16::from_le_bytes([table[at], table[at + 1]]));
        let has_exit = |state: u16| {
            table[tables::STEPS..]
                .chunks(3)
                .take(steps.into())
                .any(|step| u16::from(step[0]) == state)
        };
        Some(!(0..states).all(has_exit))
    }

    #[test]
    fn a_kind_is_named_by_whether_all_states_have_exits() {
        for kind in kinds().chain(idle::kinds()) {
            let lacking = match kind.name {
                name if name.contains("with-exits") => false,
                name if name.contains("some-without") => true,
                _ => continue,
            };
            let mut tables = kind.inputs().filter_map(|input| some_state_has_no_exit(&input));
            assert!(tables.all(|some| some == lacking), "{} {}", kind.entry, kind.name);
        }
    }

    fn no_two_have_one_name(kinds: impl Iterator<Item = Kind>) {
        let mut names: Vec<_> = kinds.map(|kind| (kind.entry, kind.name)).collect();
        names.sort_unstable();
        assert!(names.windows(2).all(|pair| pair[0] != pair[1]));
    }

    #[test]
    fn no_two_kinds_of_an_entry_have_one_name_in_a_corpus() {
        no_two_have_one_name(kinds());
        no_two_have_one_name(marks::kinds());
        no_two_have_one_name(short::kinds());
        no_two_have_one_name(idle::kinds());
        no_two_have_one_name(written::kinds());
        no_two_have_one_name(names::kinds());
        no_two_have_one_name(starts::kinds());
        no_two_have_one_name(combined::kinds());
        no_two_have_one_name(smallest::kinds());
    }
}
