//! The grammar held against all short texts that the rules of 01, and with them those of 02, generate.

use std::collections::HashSet;

use second::grammar::{Notation, derive};

/// A beginning of three bytes, such as `((E`, needs seven more at most; `((B` and `((D` need eight.
fn longest(notation: Notation) -> usize {
    match notation {
        Notation::Base => 10,
        Notation::Typed => 11,
    }
}

/// All texts of each kind, of at most so many bytes.
#[derive(Default)]
struct Generated {
    formulas: Vec<String>,
    conjunctions: Vec<String>,
    terms: Vec<String>,
    sets: Vec<String>,
    operands: Vec<String>,
}

fn generate(notation: Notation) -> Generated {
    let mut shorter = Generated::default();
    for length in 1..=longest(notation) {
        let operands = shorter.operands_of(length);
        let sets = joined(&shorter.sets, "|", &shorter.operands, length);
        let mut terms = shorter.terms_of(length);
        let mut conjunctions = Vec::new();
        if notation == Notation::Typed {
            terms.extend(shorter.short_forms_of(length));
            conjunctions = joined(&shorter.conjunctions, "&", &shorter.terms, length);
        }
        conjunctions.extend(terms.clone());
        let formulas = joined(&shorter.formulas, "|", &shorter.conjunctions, length);
        shorter.sets.extend(sets.into_iter().chain(operands.clone()));
        shorter.operands.extend(operands);
        shorter.formulas.extend(formulas.into_iter().chain(conjunctions.clone()));
        shorter.conjunctions.extend(conjunctions);
        shorter.terms.extend(terms);
    }
    shorter
}

/// All texts of so many bytes with these tokens in turn and blanks between them.
fn spaced(tokens: &[&str], length: usize) -> Vec<String> {
    let [first, rest @ ..] = tokens else {
        return Vec::from_iter((length == 0).then(String::new));
    };
    let Some(left) = length.checked_sub(first.len()) else {
        return Vec::new();
    };
    let blanks = if rest.is_empty() { 0..1 } else { 0..left + 1 };
    let behind = blanks.flat_map(|blanks| {
        let rest = spaced(rest, left.saturating_sub(blanks));
        rest.into_iter().map(move |rest| format!("{first}{:blanks$}{rest}", ""))
    });
    behind.filter(|text| text.len() == length).collect()
}

/// Those of at most so many bytes; shorter texts were generated first.
fn within(texts: &[String], room: usize) -> impl Iterator<Item = &str> {
    let texts = texts.iter().map(String::as_str);
    texts.take_while(move |text| text.len() <= room)
}

fn pairs<'a>(
    left: &'a [String],
    right: &'a [String],
    room: usize,
) -> impl Iterator<Item = (&'a str, &'a str)> {
    within(left, room)
        .flat_map(move |left| within(right, room - left.len()).map(move |right| (left, right)))
}

/// Texts, a joint and one more part.
fn joined(texts: &[String], joint: &str, parts: &[String], length: usize) -> Vec<String> {
    pairs(texts, parts, length - 1)
        .flat_map(|(text, part)| spaced(&[text, joint, part], length))
        .collect()
}

impl Generated {
    fn operands_of(&self, length: usize) -> Vec<String> {
        let mut operands: Vec<String> = Vec::new();
        for token in ["a", "a_", "a?", "a!", "*", "?", "!"] {
            operands.extend(spaced(&[token], length));
        }
        for operand in &self.operands {
            operands.extend(spaced(&["~", operand], length));
        }
        for set in &self.sets {
            operands.extend(spaced(&["(", set, ")"], length));
        }
        operands
    }

    fn terms_of(&self, length: usize) -> Vec<String> {
        let mut terms = spaced(&["T"], length);
        for term in &self.terms {
            terms.extend(spaced(&["~", term], length));
            terms.extend(spaced(&["EX", "[", ".", "]", term], length));
            terms.extend(spaced(&["AX", "[", ".", "]", term], length));
        }
        for formula in &self.formulas {
            terms.extend(spaced(&["(", formula, ")"], length));
        }
        for (set, term) in pairs(&self.sets, &self.terms, length.saturating_sub(4)) {
            for keyword in ["EX", "AX", "EU"] {
                terms.extend(spaced(&[keyword, "[", set, "]", term], length));
            }
        }
        for (set, then) in pairs(&self.sets, &self.sets, length.saturating_sub(5)) {
            for term in within(&self.terms, length - 5 - set.len() - then.len()) {
                terms.extend(spaced(&["EU", "[", set, ";", then, "]", term], length));
            }
        }
        terms
    }

    fn short_forms_of(&self, length: usize) -> Vec<String> {
        let mut terms = Vec::new();
        for term in &self.terms {
            terms.extend(spaced(&["EF", term], length));
            terms.extend(spaced(&["AG", term], length));
        }
        for (set, term) in pairs(&self.sets, &self.terms, length.saturating_sub(5)) {
            terms.extend(spaced(&["DIA", "[", set, "]", term], length));
            terms.extend(spaced(&["BOX", "[", set, "]", term], length));
        }
        terms
    }
}

fn all_are_in_the_grammar(notation: Notation) {
    let formulas = generate(notation).formulas;
    assert!(formulas.len() > 10_000, "{} texts are too few to tell", formulas.len());
    for text in &formulas {
        assert!(derive(notation, text.as_bytes()).is_ok(), "{text:?}");
    }
    let different: HashSet<&String> = formulas.iter().collect();
    assert_eq!(different.len(), formulas.len());
}

#[test]
fn the_rules_generate_each_text_once_and_each_is_in_the_grammar() {
    all_are_in_the_grammar(Notation::Base);
    all_are_in_the_grammar(Notation::Typed);
}

const TRIED: usize = 3;

fn figures_are_those_of_beginnings(notation: Notation) {
    let formulas = generate(notation).formulas;
    let texts: HashSet<&str> = within(&formulas, TRIED).collect();
    let ends = |text: &str| 0..=text.len().min(TRIED);
    let beginnings: HashSet<&str> =
        formulas.iter().flat_map(|text| ends(text).map(|end| &text[..end])).collect();
    for text in all_texts(TRIED) {
        let known = (0..=text.len()).rev().find(|&end| beginnings.contains(&text[..end]));
        match derive(notation, text.as_bytes()) {
            Ok(_) => assert!(texts.contains(&*text), "{text:?}"),
            Err(figure) => {
                assert!(!texts.contains(&*text), "{text:?}");
                assert_eq!(Some(figure), known, "{text:?}");
            }
        }
    }
}

#[test]
fn figure_6_is_the_longest_beginning_that_a_generated_text_has() {
    figures_are_those_of_beginnings(Notation::Base);
    figures_are_those_of_beginnings(Notation::Typed);
}

fn all_texts(longest: usize) -> Vec<String> {
    let mut texts = vec![String::new()];
    let mut extended = 0;
    while texts[extended].len() < longest {
        for byte in "T~|&()[];.*?!aEAXUFGDIBO _0\n".chars() {
            let longer = format!("{}{byte}", texts[extended]);
            texts.push(longer);
        }
        extended += 1;
    }
    texts
}
