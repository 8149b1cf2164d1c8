//! Random formulas, written by one explainer and read again by it: the same prepared bytes, and then
//! the same text.

use crate::entries::{Entries, ReadFormula, WriteFormula};
use crate::formula::MAX_BYTES;
use crate::fuzz::Disagreement;
use crate::inputs::kinds::{self, Kinds};
use crate::inputs::rng::{Rng, filled};
use crate::inputs::{formula_texts, tables, written};
use crate::prepared::{self, FORMULA_LENGTH};
use crate::reply::Reply;
use crate::tally::{Outcome, Tally};

pub const NAME: &str = "read back";

const TEXT: &str = "text";
const LINE: &str = "line";
const PREPARED: &str = "prepared";

/// An expected number is answered at least once in so many inputs.
const ONCE_IN: u64 = 200;

/// What should have occurred among enough inputs and did not.
pub fn missing(tally: &Tally) -> Vec<String> {
    let texts = kinds::expected(TEXT, &formula_texts::TEXTS).into_iter();
    let lines = kinds::expected(LINE, &written::LINES);
    let prepared = kinds::expected(PREPARED, &written::QUESTIONS);
    let expected: Vec<_> = texts.chain(lines).chain(prepared).collect();
    tally.missing(&[0, 15], ONCE_IN, &expected)
}

/// Makes so many formulas, more than half of them from texts. None if the explainer cannot both read
/// and write.
pub fn run(of: &Entries, seed: u64, count: u64) -> Result<Option<Tally>, Disagreement> {
    let (Some(read), Some(write)) = (of.read_formula, of.write_formula) else {
        return Ok(None);
    };
    let mut tally = Tally::new(NAME);
    for index in 0..count {
        let rng = &mut Rng::of_input(seed, NAME, index);
        let mut kinds = Kinds::default();
        let (table, formula) = formula(rng, &mut kinds, read);
        let number = match formula {
            Ok(formula) => {
                let circle = Circle { read, write, table: &table };
                let told = |told| Disagreement { seed, index, told: format!("{NAME}: {told}") };
                circle.closes(&formula, [rng.draw(), rng.draw()]).map_err(told)?
            }
            Err(refusal) => refusal.number,
        };
        tally.count(&kinds.0, Outcome::of(number));
    }
    Ok(Some(tally))
}

/// A table and a formula, both prepared; the formula may be read from a text that is refused.
fn formula(
    rng: &mut Rng,
    kinds: &mut Kinds,
    read: ReadFormula,
) -> (Vec<u8>, Result<Vec<u8>, Reply>) {
    let (table, text) = match rng.below(5) {
        0 | 1 => {
            let question = kinds.make(rng, PREPARED, &written::QUESTIONS, &());
            let table = prepared::table_bytes(&question.table);
            return (table, Ok(prepared::formula_bytes(&question.formula)));
        }
        2 => kinds.make(rng, LINE, &written::LINES, &()),
        _ => {
            let size = tables::size(rng, 60);
            let table = tables::table(rng, &mut Kinds::default(), size);
            let text = kinds.make(rng, TEXT, &formula_texts::TEXTS, &table);
            (table, text)
        }
    };
    let table = prepared::table_bytes(&table);
    let formula = read_from(read, &table, &text, rng.draw());
    (table, formula)
}

fn read_from(read: ReadFormula, table: &[u8], text: &[u8], fill: u64) -> Result<Vec<u8>, Reply> {
    let mut formula = filled(fill, FORMULA_LENGTH);
    match read(table, text, &mut formula) {
        Reply { number: 0, .. } => Ok(formula),
        refusal => Err(refusal),
    }
}

struct Circle<'a> {
    read: ReadFormula,
    write: WriteFormula,
    table: &'a [u8],
}

impl Circle<'_> {
    fn written(&self, formula: &[u8], fill: u64) -> Result<Vec<u8>, Reply> {
        let mut text = filled(fill, MAX_BYTES);
        match (self.write)(self.table, formula, &mut text) {
            Reply { number: 0, figure } => {
                text.truncate(figure as usize);
                Ok(text)
            }
            refusal => Err(refusal),
        }
    }

    /// 0, or 15 for a text that is too long. The numbers fill what is lent.
    fn closes(&self, formula: &[u8], fills: [u64; 2]) -> Result<u32, String> {
        let text = match self.written(formula, fills[0]) {
            Ok(text) => text,
            Err(Reply { number: 15, figure }) if figure > MAX_BYTES as u64 => return Ok(15),
            Err(refusal) => return Err(format!("writing answers {refusal:?}")),
        };
        let shown = text.escape_ascii();
        let again = read_from(self.read, self.table, &text, fills[0])
            .map_err(|refusal| format!("reading \"{shown}\" answers {refusal:?}"))?;
        if again != formula {
            return Err(format!("\"{shown}\" is read as another formula"));
        }
        match self.written(&again, fills[1]) {
            Ok(other) if other == text => Ok(0),
            other => Err(format!("\"{shown}\" is written as {other:?} when read")),
        }
    }
}
