//! The corpus `short`, whose answers `corpus/short.txt` holds: lines with `&`, `EF`, `AG`, `DIA` and
//! `BOX`, what is wrong about one, and texts in which they are written out. Like the corpus `base`,
//! whose random numbers and tables it uses, it is left alone.

use super::damage::{cut, damaged};
use super::folders::File;
use super::formulas::{FORMULA_LENGTH, MAX_BYTES, spaced};
use super::rng::Rng;
use super::tables::Exits::{self, All, Any, Lacking};
use super::tables::Table;
use super::{Input, Kind, Lent, kind};

pub const KINDS: [Kind; 38] = [
    kind("read_formula", "class-1", 600, |rng| over(rng, small, |rng, of| few(rng, of, 1, 0))),
    kind("read_formula", "class-2", 600, |rng| over(rng, small, |rng, of| few(rng, of, 2, 0))),
    kind("read_formula", "blanks", 400, |rng| over(rng, small, |rng, of| few(rng, of, 2, 3))),
    kind("read_formula", "written-out", 300, |rng| {
        over(rng, small, |rng, of| written_out(&line(rng, of, 2, rng.between(5, 20))))
    }),
    kind("read_formula", "each-in-each", 400, |rng| over(rng, small, each_in_each)),
    kind("read_formula", "without-short-forms", 200, |rng| {
        over(rng, small, |rng, of| super::read_formula::written(rng, of, 1, 1))
    }),
    kind("read_formula", "over-no-labels", 200, |rng| {
        over(rng, Table::without_labels, |rng, of| few(rng, of, 2, 1))
    }),
    kind("read_formula", "over-largest-tables", 60, |rng| {
        over(rng, Table::largest, |rng, of| few(rng, of, 2, 1))
    }),
    kind("read_formula", "39-to-41-nodes", 400, |rng| over(rng, small, about_40_nodes)),
    kind("read_formula", "511-to-513-bytes", 240, |rng| over(rng, small, about_512_bytes)),
    kind("read_formula", "most-nodes", 100, |rng| over(rng, small, |rng, _| most_nodes(rng))),
    kind("read_formula", "without-class", 400, |rng| {
        over(rng, small, |rng, of| few(rng, of, 0, 1))
    }),
    kind("read_formula", "and-beside-or", 300, |rng| over(rng, small, beside_or)),
    kind("read_formula", "unknown-name", 300, |rng| over(rng, small, unknown_name)),
    kind("read_formula", "keyword-in-part", 200, |rng| {
        edited(rng, is_keyword, |rng, tokens, at| {
            let part = rng.between(1, tokens[at].len() - 1);
            tokens[at].truncate(part);
            tokens.truncate(rng.pick(&[at + 1, tokens.len()]));
        })
    }),
    kind("read_formula", "keyword-at-the-end", 150, |rng| {
        edited(rng, is_short, |_, tokens, at| tokens.truncate(at + 1))
    }),
    kind("read_formula", "blank-in-a-keyword", 100, |rng| {
        edited(rng, is_keyword, |rng, tokens, at| {
            let before = rng.between(1, tokens[at].len() - 1);
            tokens[at].insert(before, b' ');
        })
    }),
    kind("read_formula", "other-keyword", 100, |rng| {
        edited(rng, is_keyword, |rng, tokens, at| {
            tokens[at] = rng.pick(&["EG", "AF", "AU", "DIX", "BX", "BOXX", "ag", "ef"]).into();
        })
    }),
    kind("read_formula", "set-behind-ef-or-ag", 100, |rng| {
        edited(
            rng,
            |token| matches!(token, b"EF" | b"AG"),
            |rng, tokens, at| {
                let set = [b"[".to_vec(), rng.pick(&["*", "?", "."]).into(), b"]".to_vec()];
                tokens.splice(at + 1..at + 1, set);
            },
        )
    }),
    kind("read_formula", "no-set-behind-dia-or-box", 100, |rng| {
        edited(rng, has_set, |_, tokens, at| drop(tokens.drain(at + 1..=end_of_set(tokens, at))))
    }),
    kind("read_formula", "silent-step-in-dia-or-box", 100, |rng| {
        edited(rng, has_set, |_, tokens, at| {
            let end = end_of_set(tokens, at);
            tokens.splice(at + 2..end, [b".".to_vec()]);
        })
    }),
    kind("read_formula", "two-sets-in-dia-or-box", 100, |rng| {
        edited(rng, has_set, |_, tokens, at| {
            let end = end_of_set(tokens, at);
            tokens.splice(end..end, [b";".to_vec(), b"*".to_vec()]);
        })
    }),
    kind("read_formula", "and-without-a-side", 200, |rng| {
        edited(
            rng,
            |_| true,
            |rng, tokens, at| {
                tokens.insert(rng.pick(&[0, at, tokens.len()]), b"&".to_vec());
            },
        )
    }),
    kind("read_formula", "and-in-a-set", 150, |rng| {
        edited(
            rng,
            |token| token == b"[",
            |rng, tokens, at| {
                let end = end_of_set(tokens, at);
                tokens.splice(end..end, [b"&".to_vec(), rng.pick(&["*", "a", "?"]).into()]);
            },
        )
    }),
    kind("read_formula", "damaged", 600, |rng| {
        over(rng, small, |rng, of| damaged(rng, few(rng, of, 2, 1), byte))
    }),
    kind("read_formula", "cut", 200, |rng| {
        over(rng, small, |rng, of| cut(rng, few(rng, of, 2, 1)))
    }),
    kind("texts", "class-1-with-exits", 500, |rng| texts(rng, small(rng, All), 1)),
    kind("texts", "class-1-some-without", 400, |rng| texts(rng, small(rng, Lacking), 1)),
    kind("texts", "class-2-with-exits", 500, |rng| texts(rng, small(rng, All), 2)),
    kind("texts", "class-2-some-without", 400, |rng| texts(rng, small(rng, Lacking), 2)),
    kind("texts", "no-labels", 200, |rng| texts(rng, Table::without_labels(rng, Any), 1)),
    kind("program", "class-1", 40, |rng| files(rng, All, |rng, of| few(rng, of, 1, 1))),
    kind("program", "class-2", 40, |rng| files(rng, Lacking, |rng, of| few(rng, of, 2, 1))),
    kind("program", "39-to-41-nodes", 20, |rng| files(rng, All, about_40_nodes)),
    kind("program", "511-to-513-bytes", 15, |rng| files(rng, All, about_512_bytes)),
    kind("program", "and-beside-or", 10, |rng| files(rng, All, beside_or)),
    kind("program", "unknown-name", 15, |rng| files(rng, All, unknown_name)),
    kind("program", "formula-damaged", 20, |rng| {
        files(rng, All, |rng, of| damaged(rng, few(rng, of, 2, 1), byte))
    }),
];

pub fn kinds() -> impl Iterator<Item = Kind> {
    KINDS.into_iter()
}

fn over(rng: &Rng, table: fn(&Rng, Exits) -> Table, text: fn(&Rng, &Table) -> Vec<u8>) -> Input {
    let table = table(rng, Any);
    let text = text(rng, &table);
    let formula = Lent::drawn(rng, FORMULA_LENGTH);
    Input::ReadFormula { table: table.bytes(), text, formula }
}

/// Both texts in turn, and a word of any letters.
fn texts(rng: &Rng, table: Table, class: u8) -> Input {
    let formula = few(rng, &table, class, 1);
    let word = (0..rng.below(7)).map(|_| rng.below(table.labels() + 1) as u8).collect();
    let [rows, edges] = [3 * 300, 5 * 2_000].map(|length| Lent::drawn(rng, length));
    Input::Texts { table: table.text(), formula, rows, edges, word }
}

fn files(rng: &Rng, exits: Exits, formula: fn(&Rng, &Table) -> Vec<u8>) -> Input {
    let table = small(rng, exits);
    let mut formula = formula(rng, &table);
    formula.extend(rng.pick(&[Some(b'\n'), None]));
    Input::Program { table: File::Holds(table.text()), formula: File::Holds(formula) }
}

/// A small table, each of whose names has a mark or none.
fn small(rng: &Rng, exits: Exits) -> Table {
    let mut table = Table::small(rng, exits);
    for name in &mut table.names {
        name.extend(rng.pick(&[None, None, Some(b'?'), Some(b'!')]));
    }
    table
}

/// A byte of formulas, often one of a short form.
fn byte(rng: &Rng) -> u8 {
    rng.pick(b"&&&&EFAGDIABOX  T~|()[];.*?a")
}

type Tokens = Vec<Vec<u8>>;

/// A line as it is typed.
enum Line {
    True,
    Or(Box<Line>, Box<Line>),
    And(Box<Line>, Box<Line>),
    /// What stands before the arm: `~`, or a keyword with its brackets.
    Prefix(Tokens, Box<Line>),
}

/// Of the class 1 or 2, or of whatever form (0); written out it has so many nodes. Class 2 has two at
/// least.
fn line(rng: &Rng, table: &Table, class: u8, nodes: usize) -> Line {
    let forms: &[&str] = match (class, nodes) {
        (_, 1) => return Line::True,
        (1, 2) => &["EF", "DIA", "EX", "EU"],
        (1, _) => &["EF", "EF", "DIA", "DIA", "EX", "EU", "~", "~", "~", "|"],
        (2, ..5) => &["~", "~", "AX"],
        (2, ..8) => &["AG", "BOX", "AX", "~"],
        (2, _) => &["AG", "BOX", "AX", "~", "&", "&", "&"],
        (_, ..4) => &["~", "EF", "DIA", "AX"],
        (_, ..6) => &["~", "EF", "DIA", "AX", "AG", "BOX", "|"],
        _ => &["~", "EF", "DIA", "AX", "AG", "BOX", "&", "&", "|"],
    };
    let form = rng.pick(forms);
    let arm = |class, nodes| Box::new(line(rng, table, class, nodes));
    let least = if class == 2 { 2 } else { 1 };
    match form {
        "|" => {
            let left = rng.between(1, nodes - 2);
            Line::Or(arm(class, left), arm(class, nodes - 1 - left))
        }
        "&" => {
            let left = rng.between(least, nodes - 4 - least);
            Line::And(arm(class, left), arm(class, nodes - 4 - left))
        }
        "AG" | "BOX" => Line::Prefix(head(rng, table, form), arm(class, nodes - 3)),
        "~" if class > 0 => Line::Prefix(head(rng, table, form), arm(3 - class, nodes - 1)),
        _ => Line::Prefix(head(rng, table, form), arm(class, nodes - 1)),
    }
}

fn head(rng: &Rng, table: &Table, form: &str) -> Tokens {
    let mut head = vec![form.into()];
    if !matches!(form, "~" | "EF" | "AG") {
        head.push(b"[".to_vec());
        match matches!(form, "EX" | "AX") && rng.one_in(4) {
            true => head.push(b".".to_vec()),
            false => set(rng, table, &mut head),
        }
        if form == "EU" && rng.one_in(2) {
            head.push(b";".to_vec());
            set(rng, table, &mut head);
        }
        head.push(b"]".to_vec());
    }
    head
}

fn set(rng: &Rng, table: &Table, tokens: &mut Tokens) {
    operand(rng, table, tokens, 2);
    if rng.one_in(4) {
        tokens.push(b"|".to_vec());
        operand(rng, table, tokens, 2);
    }
}

/// With at most so many turns.
fn operand(rng: &Rng, table: &Table, tokens: &mut Tokens, turns: usize) {
    match rng.below(10) {
        0 if turns > 0 => {
            tokens.push(b"(".to_vec());
            set(rng, table, tokens);
            tokens.push(b")".to_vec());
        }
        1 | 2 if turns > 0 => {
            tokens.push(b"~".to_vec());
            operand(rng, table, tokens, turns - 1);
        }
        3 => tokens.push(rng.pick(&["?", "!"]).into()),
        4..8 if table.labels() > 0 => tokens.push(some_name(rng, table)),
        _ => tokens.push(b"*".to_vec()),
    }
}

fn some_name(rng: &Rng, table: &Table) -> Vec<u8> {
    table.names[rng.below(table.labels())].clone()
}

impl Line {
    /// A whole formula, with brackets around one in so many terms that do not need them.
    fn tokens(&self, rng: &Rng, brackets: usize) -> Tokens {
        match self {
            Line::Or(left, right) => {
                let right = right.conjunction(rng, brackets);
                [left.tokens(rng, brackets), vec![b"|".to_vec()], right].concat()
            }
            _ => self.conjunction(rng, brackets),
        }
    }

    fn conjunction(&self, rng: &Rng, brackets: usize) -> Tokens {
        match self {
            Line::And(left, right) => {
                let right = right.term(rng, brackets);
                [left.conjunction(rng, brackets), vec![b"&".to_vec()], right].concat()
            }
            _ => self.term(rng, brackets),
        }
    }

    fn term(&self, rng: &Rng, brackets: usize) -> Tokens {
        let bracketed = || {
            let inner = self.tokens(rng, brackets);
            [vec![b"(".to_vec()], inner, vec![b")".to_vec()]].concat()
        };
        match self {
            Line::Or(..) | Line::And(..) => bracketed(),
            _ if rng.one_in(brackets) => bracketed(),
            Line::True => vec![b"T".to_vec()],
            Line::Prefix(head, arm) => [head.clone(), arm.term(rng, brackets)].concat(),
        }
    }
}

fn written_out(line: &Line) -> Vec<u8> {
    let joined = |left: &Line, joint: &[u8], right: &Line| {
        [b"(", written_out(left).as_slice(), joint, &written_out(right), b")"].concat()
    };
    match line {
        Line::True => b"T".to_vec(),
        Line::Or(left, right) => joined(left, b"|", right),
        Line::And(left, right) => {
            let [left, right] = [left, right].map(|side| negated(&written_out(side)));
            [b"(~(", left.as_slice(), b"|", &right, b"))"].concat()
        }
        Line::Prefix(head, arm) => {
            let (set, arm) = (head[1..].concat(), written_out(arm));
            match head[0].as_slice() {
                b"EF" => [b"(EU[*]", arm.as_slice(), b")"].concat(),
                b"AG" => [b"(~EU[*]", negated(&arm).as_slice(), b")"].concat(),
                b"DIA" => [b"(EX", set.as_slice(), &arm, b")"].concat(),
                b"BOX" => [b"(~EX", set.as_slice(), &negated(&arm), b")"].concat(),
                keyword => [keyword, &set, &arm].concat(),
            }
        }
    }
}

fn negated(text: &[u8]) -> Vec<u8> {
    [b"~", text].concat()
}

/// The tokens of a line of so many nodes.
fn tokens(rng: &Rng, table: &Table, class: u8, nodes: usize) -> Tokens {
    line(rng, table, class, nodes).tokens(rng, rng.pick(&[3, 10, 1_000]))
}

/// Mostly of a few nodes, in 512 bytes.
pub fn few(rng: &Rng, table: &Table, class: u8, blanks: usize) -> Vec<u8> {
    loop {
        let nodes = if rng.one_in(16) { rng.between(20, 40) } else { rng.between(2, 20) };
        let text = spaced(rng, &tokens(rng, table, class, nodes), blanks);
        if text.len() <= MAX_BYTES {
            return text;
        }
    }
}

/// One short form in another and so in a third, mostly with `~` between them where the class needs it.
fn each_in_each(rng: &Rng, table: &Table) -> Vec<u8> {
    let (text, mut class) = rng.pick(&[("T", 1), ("EX[.]T", 1), ("~T", 2), ("AX[*]T", 2)]);
    let mut text = text.as_bytes().to_vec();
    for _ in 0..3 {
        let form: &str = rng.pick(&["EF", "AG", "DIA", "BOX", "&", "&"]);
        let needed = if matches!(form, "EF" | "DIA") { 1 } else { 2 };
        let not: &[u8] = if (class != needed) != rng.one_in(8) { b"~" } else { b"" };
        class = needed;
        text = match form {
            "&" if rng.one_in(2) => [b"(", not, &text, b"&AX[*]T)"].concat(),
            "&" => [b"(AX[.]T&", not, &text, b")"].concat(),
            _ => [&head(rng, table, form).concat(), not, &text].concat(),
        };
    }
    text
}

/// In 512 bytes.
fn about_40_nodes(rng: &Rng, table: &Table) -> Vec<u8> {
    loop {
        let class = rng.between(1, 2) as u8;
        let text = tokens(rng, table, class, rng.between(39, 41)).concat();
        if text.len() <= MAX_BYTES {
            return text;
        }
    }
}

/// Blanks stand behind some token but the last.
fn about_512_bytes(rng: &Rng, table: &Table) -> Vec<u8> {
    let length = rng.between(MAX_BYTES - 1, MAX_BYTES + 1);
    loop {
        let mut tokens = tokens(rng, table, 2, rng.between(2, 40));
        let bytes: usize = tokens.iter().map(Vec::len).sum();
        if bytes <= length {
            let at = rng.between(1, tokens.len() - 1);
            tokens.insert(at, vec![b' '; length - bytes]);
            return tokens.concat();
        }
    }
}

/// As many `T` joined by `&` as fit, or other lines of as many bytes.
fn most_nodes(rng: &Rng) -> Vec<u8> {
    let unit: &str = rng.pick(&["T&", "T&", "AG", "~T&", "(T&T)&", "T|T&", "BOX[*]"]);
    let length = rng.pick(&[MAX_BYTES, MAX_BYTES, 100]);
    [unit.repeat((length - 1) / unit.len()).as_bytes(), b"T"].concat()
}

/// Three terms of either class without brackets, `&` and `|` between them.
fn beside_or(rng: &Rng, table: &Table) -> Vec<u8> {
    let term =
        || line(rng, table, rng.between(1, 2) as u8, rng.between(2, 5)).term(rng, 10).concat();
    let (first, last): (&[u8], &[u8]) = rng.pick(&[(b"&", b"|"), (b"|", b"&")]);
    [term().as_slice(), first, &term(), last, &term()].concat()
}

/// Behind a short form.
fn unknown_name(rng: &Rng, table: &Table) -> Vec<u8> {
    let form = rng.pick(&["AG EX[", "EF BOX[*|", "~T & DIA[", "BOX[ ~(", "~T&~T&AX["]);
    let unknown = [b"q", some_name(rng, table).as_slice()].concat();
    let name = &unknown[..unknown.len().min(12)];
    let close: &[u8] = if form.contains('(') { b")" } else { b"" };
    [form.as_bytes(), name, close, b"]", &few(rng, table, 2, 0)].concat()
}

fn is_short(token: &[u8]) -> bool {
    is_keyword(token) || token == b"&"
}

fn is_keyword(token: &[u8]) -> bool {
    has_set(token) || matches!(token, b"EF" | b"AG")
}

fn has_set(token: &[u8]) -> bool {
    matches!(token, b"DIA" | b"BOX")
}

/// Where the square bracket closes.
fn end_of_set(tokens: &Tokens, keyword: usize) -> usize {
    let length = tokens[keyword..].iter().position(|token| token == b"]");
    keyword + length.expect("a bracket that is closed")
}

/// A line over a small table, edited at some token that fits.
fn edited(rng: &Rng, is_fit: fn(&[u8]) -> bool, edit: fn(&Rng, &mut Tokens, usize)) -> Input {
    let table = small(rng, Any);
    let mut tokens = loop {
        let tokens = tokens(rng, &table, rng.between(1, 2) as u8, rng.between(2, 16));
        if tokens.iter().any(|token| is_fit(token)) {
            break tokens;
        }
    };
    let fit: Vec<usize> = (0..tokens.len()).filter(|&at| is_fit(&tokens[at])).collect();
    edit(rng, &mut tokens, rng.pick(&fit));
    let text = spaced(rng, &tokens, rng.below(2));
    let formula = Lent::drawn(rng, FORMULA_LENGTH);
    Input::ReadFormula { table: table.bytes(), text, formula }
}

#[cfg(test)]
mod tests {
    use super::*;

    #[test]
    fn most_inputs_have_a_short_form() {
        let has_short = |text: &[u8]| {
            text.contains(&b'&')
                || text.windows(2).any(is_keyword)
                || text.windows(3).any(is_keyword)
        };
        let (mut with, mut all) = (0, 0);
        for input in kinds().flat_map(|kind| (0..15).map(move |index| kind.input(index))) {
            let (Input::ReadFormula { text, .. }
            | Input::Texts { formula: text, .. }
            | Input::Program { formula: File::Holds(text), .. }) = input
            else {
                continue;
            };
            with += u32::from(has_short(&text));
            all += 1;
        }
        assert!(5 * with > 4 * all, "{with} of {all}");
    }
}
