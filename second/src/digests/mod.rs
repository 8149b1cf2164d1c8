//! Digests of every reply and every lent byte over a corpus, one line for each kind of input, and
//! their comparison with the stored ones.

pub mod sha256;
mod lines;
mod inputs;
pub mod answers;

use std::collections::BTreeMap;

pub use lines::difference;

use crate::corpus::{self, Input, Kind};
use answers::Explainer;
use inputs::Inputs;
use lines::line;
use sha256::{Sha256, hex};

/// Inputs of many kinds, whose digests stand in a file of the same name in `corpus/`.
pub struct Corpus {
    pub name: &'static str,
    generator: &'static str,
    kinds: fn() -> Vec<Kind>,
}

pub const BASE: Corpus =
    Corpus { name: "base", generator: "second/src/corpus", kinds: || corpus::kinds().collect() };

pub const MARKS: Corpus = Corpus {
    name: "marks",
    generator: "second/src/corpus/marks.rs",
    kinds: || corpus::marks::kinds().collect(),
};

pub const SHORT: Corpus = Corpus {
    name: "short",
    generator: "second/src/corpus/short.rs",
    kinds: || corpus::short::kinds().collect(),
};

pub const IDLE: Corpus = Corpus {
    name: "idle",
    generator: "second/src/corpus/idle.rs",
    kinds: || corpus::idle::kinds().collect(),
};

pub const WRITTEN: Corpus = Corpus {
    name: "written",
    generator: "second/src/corpus/written.rs",
    kinds: || corpus::written::kinds().collect(),
};

pub const NAMES: Corpus = Corpus {
    name: "names",
    generator: "second/src/corpus/names.rs",
    kinds: || corpus::names::kinds().collect(),
};

pub const STARTS: Corpus = Corpus {
    name: "starts",
    generator: "second/src/corpus/starts.rs",
    kinds: || corpus::starts::kinds().collect(),
};

pub const COMBINED: Corpus = Corpus {
    name: "combined",
    generator: "second/src/corpus/combined.rs",
    kinds: || corpus::combined::kinds().collect(),
};

pub const SMALLEST: Corpus = Corpus {
    name: "smallest",
    generator: "second/src/corpus/smallest.rs",
    kinds: || corpus::smallest::kinds().collect(),
};

pub const CORPORA: [Corpus; 9] =
    [BASE, MARKS, SHORT, IDLE, WRITTEN, NAMES, STARTS, COMBINED, SMALLEST];

impl Corpus {
    pub fn kinds(&self) -> Vec<Kind> {
        (self.kinds)()
    }

    pub fn kind(&self, entry: &str, name: &str) -> Option<Kind> {
        self.kinds().into_iter().find(|kind| (kind.entry, kind.name) == (entry, name))
    }

    fn heading(&self) -> String {
        let Corpus { name, generator, .. } = self;
        format!(
            "\
# The corpus {name} ({generator}) and what is answered to it, one line for each kind of input.
# Entry, kind, inputs, SHA-256 of their digests in turn, how often each number was answered.
# An input's digest is over the reply, the count of edges and every lent byte after the call, or
# over the program's outputs and exit code. The first line is over the inputs themselves.
"
        )
    }
}

/// Of one kind; each input is shown before it is answered.
pub fn kind_line(
    explainer: &Explainer,
    kind: &Kind,
    mut seen: impl FnMut(&Input),
) -> Result<String, String> {
    let mut sha = Sha256::default();
    let mut numbers: BTreeMap<u32, u64> = BTreeMap::new();
    for input in kind.inputs() {
        seen(&input);
        let answer = explainer.answer(&input)?;
        sha.add(&answer.digest);
        *numbers.entry(answer.number).or_default() += 1;
    }
    let numbers: Vec<String> =
        numbers.iter().map(|(number, times)| format!("{number}:{times}")).collect();
    Ok(line(kind.entry, kind.name, kind.count, sha.digest(), &numbers.join(" ")))
}

/// One line for each input: index, number, figure, digest.
pub fn each(
    explainer: &Explainer,
    kind: &Kind,
    mut tell: impl FnMut(String),
) -> Result<(), String> {
    for (index, input) in kind.inputs().enumerate() {
        let answer = explainer.answer(&input)?;
        let (number, figure, digest) = (answer.number, answer.figure, hex(&answer.digest));
        tell(format!("{index:>6}  {number:>2}  {figure:>6}  {digest}"));
    }
    Ok(())
}

/// The whole file.
pub fn file(explainer: &Explainer, corpus: &Corpus) -> Result<String, String> {
    let mut inputs = Inputs::default();
    let mut lines = Vec::new();
    for kind in corpus.kinds() {
        inputs.begin(&kind);
        lines.push(kind_line(explainer, &kind, |input| inputs.add(input))?);
    }
    Ok(format!("{}{}\n{}\n", corpus.heading(), inputs.line(), lines.join("\n")))
}

/// The line of all inputs, whatever is answered to them: it changes only if the generator does.
pub fn inputs_line(corpus: &Corpus) -> String {
    let mut inputs = Inputs::default();
    for kind in corpus.kinds() {
        inputs.begin(&kind);
        kind.inputs().for_each(|input| inputs.add(&input));
    }
    inputs.line()
}
