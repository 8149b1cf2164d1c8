//! The short forms of 02 written out: from a line as typed, by its derivation, to a text in the base
//! notation.

use crate::grammar::{self, Mark, Notation};

/// A part of the line, and its text in the base notation.
struct Part {
    begin: usize,
    end: usize,
    text: Vec<u8>,
}

/// The line's text in the base notation. Whatever is no part of a short form is copied.
pub fn written_out(line: &[u8], marks: &[(Mark, usize)]) -> Vec<u8> {
    let mut writing = Writing { line, begins: Vec::new(), parts: Vec::new() };
    for &(mark, offset) in marks {
        writing.take(mark, offset);
    }
    writing.part().text
}

struct Writing<'a> {
    line: &'a [u8],
    /// Of the terms that are not yet at their end.
    begins: Vec<usize>,
    parts: Vec<Part>,
}

impl Writing<'_> {
    fn part(&mut self) -> Part {
        self.parts.pop().expect("parts come before what they are parts of")
    }

    /// 02: "Round brackets stand around each written-out part."
    fn take(&mut self, mark: Mark, end: usize) {
        match mark {
            Mark::TermBegins => self.begins.push(end),
            Mark::True => {
                let begin = self.begin();
                self.parts.push(Part { begin, end, text: self.line[begin..end].to_vec() });
            }
            Mark::Not
            | Mark::Next
            | Mark::AllNext
            | Mark::Until
            | Mark::UntilThen
            | Mark::Brackets => self.term(end, |head, arm, behind| concat(&[head, arm, behind])),
            Mark::Eventually => {
                self.term(end, |head, arm, _| concat(&[b"(EU[*]", &head[2..], arm, b")"]));
            }
            Mark::Always => {
                self.term(end, |head, arm, _| concat(&[b"(~EU[*]~", &head[2..], arm, b")"]));
            }
            Mark::Diamond => {
                self.term(end, |head, arm, _| concat(&[b"(EX", &head[3..], arm, b")"]));
            }
            Mark::Box => {
                self.term(end, |head, arm, _| concat(&[b"(~EX", &head[3..], b"~", arm, b")"]));
            }
            Mark::Or => self.joined(|left, joint, right| concat(&[left, joint, right])),
            Mark::And => {
                self.joined(|left, _, right| concat(&[b"(~(~", left, b"|~", right, b"))"]));
            }
            // What stands in square brackets is a part of its term's head.
            _ => {}
        }
    }

    fn begin(&mut self) -> usize {
        self.begins.pop().expect("a term begins before it ends")
    }

    /// A term with one arm, made of what stands before the arm, the arm's text and what stands behind.
    fn term(&mut self, end: usize, text: impl Fn(&[u8], &[u8], &[u8]) -> Vec<u8>) {
        let (begin, arm) = (self.begin(), self.part());
        let (head, behind) = (&self.line[begin..arm.begin], &self.line[arm.end..end]);
        self.parts.push(Part { begin, end, text: text(head, &arm.text, behind) });
    }

    /// Two parts and what joins them.
    fn joined(&mut self, text: impl Fn(&[u8], &[u8], &[u8]) -> Vec<u8>) {
        let (right, left) = (self.part(), self.part());
        let joint = &self.line[left.end..right.begin];
        let text = text(&left.text, joint, &right.text);
        self.parts.push(Part { begin: left.begin, end: right.end, text });
    }
}

fn concat(parts: &[&[u8]]) -> Vec<u8> {
    parts.concat()
}

/// Where the name that begins at this offset of what is written out stands in the line with these
/// marks: both have the same names in the same order.
pub fn offset_in_line(line: &[(Mark, usize)], text: &[u8], offset: usize) -> usize {
    let text = grammar::derive(Notation::Base, text).expect("written out in the base notation");
    let before = names(&text).take_while(|&name| name < offset).count();
    names(line).nth(before).expect("as many names in the line")
}

/// Where names begin.
fn names(marks: &[(Mark, usize)]) -> impl Iterator<Item = usize> {
    let names = marks.iter().filter(|(mark, _)| *mark == Mark::NameBegins);
    names.map(|&(_, offset)| offset)
}
