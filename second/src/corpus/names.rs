//! The corpus `names`, whose answers `corpus/names.txt` holds: names that nearly equal each other, of
//! each length, in texts of tables, looked up by formulas and in prepared bytes, and equal ones there.
//! Like the corpus `base`, whose random numbers, tables and formulas it uses, it is left alone.

use super::formulas::{FORMULA_LENGTH, Formula, spaced};
use super::questions::either;
use super::rng::Rng;
use super::tables::Exits::Any;
use super::tables::{TABLE_LENGTH, Table};
use super::{Input, Kind, Lent, calls, kind};

const MARKS: &[u8; 2] = b"?!";
const LETTERS: &[u8; 26] = b"abcdefghijklmnopqrstuvwxyz";
const NAME_BYTES: &[u8; 37] = b"abcdefghijklmnopqrstuvwxyz0123456789_";

pub const KINDS: [Kind; 37] = [
    kind("read_table", "one-byte-apart-1-to-3", 400, |rng| read(rng, two(rng, apart(rng, 1, 3)))),
    kind("read_table", "one-byte-apart-4-to-7", 400, |rng| read(rng, two(rng, apart(rng, 4, 7)))),
    kind("read_table", "one-byte-apart-8-to-12", 500, |rng| read(rng, two(rng, apart(rng, 8, 12)))),
    kind("read_table", "one-byte-apart-13", 200, |rng| read(rng, two(rng, apart(rng, 13, 13)))),
    kind("read_table", "one-the-beginning", 400, |rng| read(rng, two(rng, beginning(rng)))),
    kind("read_table", "equal-1-to-3", 150, |rng| read(rng, two(rng, equal(rng, 1, 3)))),
    kind("read_table", "equal-4-to-7", 150, |rng| read(rng, two(rng, equal(rng, 4, 7)))),
    kind("read_table", "equal-8-to-13", 200, |rng| read(rng, two(rng, equal(rng, 8, 13)))),
    kind("read_table", "forty-near", 60, |rng| read(rng, forty(rng))),
    kind("read_table", "forty-near-one-equal", 60, |rng| {
        let mut table = forty(rng);
        let label = rng.between(1, 39);
        table.names[label] = table.names[rng.below(label)].clone();
        read(rng, table)
    }),
    kind("read_formula", "one-byte-apart-1-to-3", 300, |rng| look_up(rng, apart(rng, 1, 3))),
    kind("read_formula", "one-byte-apart-4-to-7", 300, |rng| look_up(rng, apart(rng, 4, 7))),
    kind("read_formula", "one-byte-apart-8-to-12", 400, |rng| look_up(rng, apart(rng, 8, 12))),
    kind("read_formula", "one-byte-apart-13", 150, |rng| look_up(rng, apart(rng, 13, 13))),
    kind("read_formula", "one-the-beginning", 300, |rng| look_up(rng, beginning(rng))),
    kind("read_formula", "absent-by-a-byte-1-to-3", 300, |rng| miss(rng, apart(rng, 1, 3))),
    kind("read_formula", "absent-by-a-byte-4-to-7", 300, |rng| miss(rng, apart(rng, 4, 7))),
    kind("read_formula", "absent-by-a-byte-8-to-12", 400, |rng| miss(rng, apart(rng, 8, 12))),
    kind("read_formula", "absent-by-a-byte-13", 150, |rng| miss(rng, apart(rng, 13, 13))),
    kind("read_formula", "absent-but-a-beginning", 300, |rng| miss(rng, beginning(rng))),
    kind("read_formula", "ten-of-forty-near", 60, |rng| {
        let table = forty(rng);
        let first = rng.pick(&[0, 10, 20, 30]);
        let heads = table.names[first..first + 10].iter().flat_map(|name| head(name)).collect();
        read_over(rng, &table, heads)
    }),
    kind("read_formula", "slots-equal", 150, |rng| look_up(rng, equal(rng, 1, 13))),
    kind("verdict", "slots-one-byte-apart-1-to-3", 200, |rng| verdict(rng, apart(rng, 1, 3))),
    kind("verdict", "slots-one-byte-apart-4-to-7", 200, |rng| verdict(rng, apart(rng, 4, 7))),
    kind("verdict", "slots-one-byte-apart-8-to-12", 300, |rng| verdict(rng, apart(rng, 8, 12))),
    kind("verdict", "slots-one-byte-apart-13", 100, |rng| verdict(rng, apart(rng, 13, 13))),
    kind("verdict", "slots-one-the-beginning", 200, |rng| verdict(rng, beginning(rng))),
    kind("verdict", "slots-equal-1-to-3", 100, |rng| verdict(rng, equal(rng, 1, 3))),
    kind("verdict", "slots-equal-4-to-7", 100, |rng| verdict(rng, equal(rng, 4, 7))),
    kind("verdict", "slots-equal-8-to-13", 150, |rng| verdict(rng, equal(rng, 8, 13))),
    kind("verdict", "forty-slots-near", 40, |rng| calls::verdict(either(rng, forty(rng)))),
    kind("accepts", "slots-one-byte-apart", 300, |rng| accepts(rng, apart(rng, 1, 13))),
    kind("accepts", "slots-one-the-beginning", 150, |rng| accepts(rng, beginning(rng))),
    kind("accepts", "slots-equal", 150, |rng| accepts(rng, equal(rng, 1, 13))),
    kind("texts", "one-byte-apart", 200, |rng| texts(rng, apart(rng, 1, 13))),
    kind("texts", "one-the-beginning", 100, |rng| texts(rng, beginning(rng))),
    kind("texts", "equal", 50, |rng| texts(rng, equal(rng, 1, 13))),
];

pub fn kinds() -> impl Iterator<Item = Kind> {
    KINDS.into_iter()
}

type Two = [Vec<u8>; 2];

/// A name of so many bytes, often with a mark; the thirteenth is one.
fn named(rng: &Rng, length: usize) -> Vec<u8> {
    let mut name = vec![rng.pick(LETTERS)];
    name.extend((1..length).map(|_| rng.pick(NAME_BYTES)));
    if length == 13 || length > 1 && rng.one_in(3) {
        name[length - 1] = rng.pick(MARKS);
    }
    name
}

/// Another in one byte, at any place.
fn near(rng: &Rng, name: &[u8]) -> Vec<u8> {
    let at = rng.below(name.len());
    let is_last = at > 0 && at + 1 == name.len();
    let mut near = name.to_vec();
    while near == name {
        near[at] = match at {
            0 => rng.pick(LETTERS),
            12 => rng.pick(MARKS),
            _ if is_last && rng.one_in(4) => rng.pick(MARKS),
            _ => rng.pick(NAME_BYTES),
        };
    }
    near
}

/// Two names of one length that differ in one byte.
fn apart(rng: &Rng, least: usize, most: usize) -> Two {
    let name = named(rng, rng.between(least, most));
    let near = near(rng, &name);
    [name, near]
}

fn equal(rng: &Rng, least: usize, most: usize) -> Two {
    let name = named(rng, rng.between(least, most));
    [name.clone(), name]
}

/// Two names of which one begins as the other, in either order.
fn beginning(rng: &Rng) -> Two {
    let name = named(rng, rng.between(2, 13));
    let part = name[..rng.between(1, name.len() - 1)].to_vec();
    if rng.one_in(2) { [name, part] } else { [part, name] }
}

/// A small table; neither of these is a name of it.
fn without(rng: &Rng, two: &Two) -> Table {
    loop {
        let table = Table::drawn(rng, Any, rng.between(1, 6), rng.between(2, 6), rng.below(13));
        if !two.iter().any(|name| table.names.contains(name)) {
            return table;
        }
    }
}

/// A small table in which two labels have these names.
fn two(rng: &Rng, two: Two) -> Table {
    let mut table = without(rng, &two);
    let labels = table.labels();
    let label = rng.below(labels);
    let other = (label + rng.between(1, labels - 1)) % labels;
    [table.names[label], table.names[other]] = two;
    table
}

/// Of 40 labels, each another in one byte than one before it.
fn forty(rng: &Rng) -> Table {
    let mut names = vec![named(rng, rng.between(3, 13))];
    while names.len() < 40 {
        let near = near(rng, &names[rng.below(names.len())]);
        if !names.contains(&near) {
            names.push(near);
        }
    }
    let table = Table::drawn(rng, Any, rng.between(1, 6), 40, rng.below(20));
    Table { names, ..table }
}

fn read(rng: &Rng, table: Table) -> Input {
    Input::ReadTable { text: table.text(), table: Lent::drawn(rng, TABLE_LENGTH) }
}

fn head(name: &[u8]) -> Vec<u8> {
    [b"EX[".as_slice(), name, b"] "].concat()
}

/// Behind these heads stands `T`.
fn read_over(rng: &Rng, table: &Table, heads: Vec<u8>) -> Input {
    let text = [heads.as_slice(), b"T"].concat();
    let formula = Lent::drawn(rng, FORMULA_LENGTH);
    Input::ReadFormula { table: table.bytes(), text, formula }
}

/// Each of two names of a table, in either order.
fn look_up(rng: &Rng, names: Two) -> Input {
    let [one, other] = names.each_ref().map(|name| head(name));
    let heads = if rng.one_in(2) { [one, other] } else { [other, one] };
    read_over(rng, &two(rng, names), heads.concat())
}

/// The table has the first of two names only; the other one is looked up, often behind it.
fn miss(rng: &Rng, names: Two) -> Input {
    let mut table = without(rng, &names);
    let heads = names.each_ref().map(|name| head(name));
    let before = rng.below(3);
    let heads = [heads[0].repeat(before), heads[1].clone()].concat();
    let label = rng.below(table.labels());
    let [known, _] = names;
    table.names[label] = known;
    read_over(rng, &table, heads)
}

fn verdict(rng: &Rng, names: Two) -> Input {
    calls::verdict(either(rng, two(rng, names)))
}

fn accepts(rng: &Rng, names: Two) -> Input {
    calls::accepts(rng, either(rng, two(rng, names)))
}

/// Both texts in turn, and a word of any letters.
fn texts(rng: &Rng, names: Two) -> Input {
    let table = two(rng, names);
    let formula = Formula::small(rng, rng.between(1, 2) as u8, table.labels());
    let formula = spaced(rng, &formula.tokens(rng, &table.names), 1);
    let word = (0..rng.below(7)).map(|_| rng.below(table.labels() + 1) as u8).collect();
    let [rows, edges] = [3 * 200, 5 * 1_200].map(|length| Lent::drawn(rng, length));
    Input::Texts { table: table.text(), formula, rows, edges, word }
}

#[cfg(test)]
mod tests {
    use std::collections::BTreeSet;

    use super::super::tables::NAMES;
    use super::*;

    /// The length and the place at which two names alone differ, if they do.
    fn place(one: &[u8], other: &[u8]) -> Option<(usize, usize)> {
        let differing = |at: &usize| one[*at] != other[*at];
        let mut places = (0..one.len()).filter(|_| one.len() == other.len()).filter(differing);
        let place = places.next()?;
        places.next().is_none().then_some((one.len(), place))
    }

    fn names(table: &[u8]) -> Vec<&[u8]> {
        let slots = table[NAMES..].chunks(16).take(table[2].into());
        slots.map(|slot| &slot[1..=slot[0].into()]).collect()
    }

    /// Those of the prepared tables of an entry's kinds, by a part of their names.
    fn places(entry: &str, part: &str) -> BTreeSet<(usize, usize)> {
        let kinds = kinds().filter(|kind| kind.entry == entry && kind.name.contains(part));
        let tables = kinds.flat_map(|kind| kind.inputs().collect::<Vec<_>>());
        let tables = tables.filter_map(|input| match input {
            Input::ReadFormula { table, .. } | Input::Verdict { table, .. } => Some(table),
            _ => None,
        });
        let places = |table: Vec<u8>| {
            let names = names(&table);
            let pairs = names.iter().flat_map(|one| names.iter().map(move |other| (one, other)));
            pairs.filter_map(|(one, other)| place(one, other)).collect::<Vec<_>>()
        };
        tables.flat_map(places).collect()
    }

    #[test]
    fn names_of_each_length_differ_at_each_place() {
        let all: BTreeSet<_> =
            (1..=13).flat_map(|length| (0..length).map(move |place| (length, place))).collect();
        assert_eq!(places("read_formula", "one-byte-apart"), all);
        assert_eq!(places("verdict", "one-byte-apart"), all);
    }
}
