//! One call of an entry, made of two explainers and held against each other: number, figure, every
//! further value and every lent byte.

use crate::entries::Entries;
use crate::inputs::rng::filled;
use crate::interface::interface;
use crate::reply::Reply;
use crate::tally::Outcome;

/// So many bytes on either side of a lent buffer belong to nobody and must stay.
const GUARD: usize = 16;

/// A buffer that is lent to be written, with what stands in it before.
#[derive(Clone, Copy, Debug)]
pub struct Lent {
    pub length: usize,
    pub fill: u64,
}

impl Lent {
    fn buffer(self) -> Vec<u8> {
        filled(self.fill, self.length + 2 * GUARD)
    }
}

fn inside(buffer: &mut [u8]) -> &mut [u8] {
    let end = buffer.len() - GUARD;
    &mut buffer[GUARD..end]
}

/// All that a call shows of itself.
#[derive(Debug, PartialEq, Eq)]
pub struct Answer {
    pub reply: Reply,
    /// What the call writes beside the figure if it accepts.
    values: Vec<(&'static str, u64)>,
    /// The buffers that the call may write, guards included.
    written: Vec<Vec<u8>>,
    /// The buffers that the call may only read.
    read: Vec<Vec<u8>>,
}

impl Answer {
    /// What is written beside the figure, by its name in the header.
    pub fn value(&self, name: &str) -> u64 {
        let mut values = self.values.iter();
        values.find(|(known, _)| *known == name).expect("the entry writes such a value").1
    }
}

/// Stands where only an accepted call writes.
const UNWRITTEN: u64 = 0x5a5a_5a5a_5a5a_5a5a;

pub trait Case {
    const ENTRY: &'static str;

    fn outcome(reply: Reply) -> Outcome {
        let is_one_of_few = match reply.number {
            0 => matches!(Self::ENTRY, "verdict" | "verdicts" | "accepts"),
            number => matches!(number, 10 | 14),
        };
        Outcome { number: reply.number, figure: is_one_of_few.then_some(reply.figure) }
    }

    /// None if the explainer lacks the entry.
    fn answer(&self, of: &Entries) -> Option<Answer>;

    /// The case as an expression of Rust.
    fn code(&self) -> String;
}

/// A slice as a case holds it, and as a call is handed it.
macro_rules! held {
    (read) => { Vec<u8> };
    (written) => { Lent };
}

macro_rules! buffer {
    (read $held:expr) => {
        $held.clone()
    };
    (written $held:expr) => {
        $held.buffer()
    };
}

macro_rules! lent {
    (read $buffer:ident) => {
        &$buffer
    };
    (written $buffer:ident) => {
        inside(&mut $buffer)
    };
}

macro_rules! keep {
    (read $buffer:ident $read:ident $written:ident) => {
        $read.push($buffer)
    };
    (written $buffer:ident $read:ident $written:ident) => {
        $written.push($buffer)
    };
}

macro_rules! code {
    (read $held:expr) => {
        literal(&$held)
    };
    (written $held:expr) => {
        format!("{:?}", $held)
    };
}

macro_rules! cases {
    ($($type:ident $entry:ident $function:ident($($slice:ident: $kind:tt),*) [$($value:ident),*];)*) => {$(
        pub struct $type {
            $(pub $slice: held!($kind)),*
        }

        impl Case for $type {
            const ENTRY: &'static str = stringify!($entry);

            #[allow(unused_mut)]
            fn answer(&self, of: &Entries) -> Option<Answer> {
                $(let mut $slice = buffer!($kind self.$slice);)*
                $(let mut $value = UNWRITTEN;)*
                let reply = of.$entry?($(lent!($kind $slice),)* $(&mut $value),*);
                let (mut read, mut written) = (Vec::new(), Vec::new());
                $(keep!($kind $slice read written);)*
                Some(Answer { reply, values: vec![$((stringify!($value), $value)),*], written, read })
            }

            fn code(&self) -> String {
                let fields = [$(format!("{}: {}", stringify!($slice), code!($kind self.$slice))),*];
                format!("{} {{ {} }}", stringify!($type), fields.join(", "))
            }
        }
    )*};
}

interface!(cases);

/// What the two explainers answer differently, with the inputs as a test.
pub fn disagreement<C: Case>(case: &C, second: &Answer, other: &Answer) -> Option<String> {
    if second == other {
        return None;
    }
    let mut told = Vec::new();
    let mut tell = |line: String| told.push(line);
    let shown = |answer: &Answer| (answer.reply.number, answer.reply.figure);
    let (of_second, of_other) = (shown(second), shown(other));
    tell(format!("{}: number and figure {of_second:?} here, {of_other:?} there", C::ENTRY));
    for ((value, of_second), (_, of_other)) in second.values.iter().zip(&other.values) {
        if of_second != of_other {
            tell(format!("{value} {of_second} here, {of_other} there"));
        }
    }
    for (number, buffers) in second.written.iter().zip(&other.written).enumerate() {
        if let Some(difference) = first_difference(buffers.0, buffers.1, GUARD) {
            tell(format!("written buffer {number}: {difference}"));
        }
    }
    for (number, buffers) in second.read.iter().zip(&other.read).enumerate() {
        if let Some(difference) = first_difference(buffers.0, buffers.1, 0) {
            tell(format!("buffer {number}, only read: {difference}"));
        }
    }
    let (entry, code) = (C::ENTRY, case.code());
    tell(format!("#[test]\nfn {entry}_agrees() {{\n    agree(&{code});\n}}"));
    Some(told.join("\n"))
}

fn first_difference(second: &[u8], other: &[u8], guard: usize) -> Option<String> {
    let at = second.iter().zip(other).position(|(left, right)| left != right)?;
    let offset = at as i64 - guard as i64;
    let (second, other) = (second[at], other[at]);
    Some(format!("byte {offset} is {second} here, {other} there"))
}

/// Bytes as an expression of Rust.
fn literal(bytes: &[u8]) -> String {
    let zeros = bytes.iter().filter(|&&byte| byte == 0).count();
    if zeros >= 64 && zeros >= bytes.len() / 2 {
        return sparse_literal(bytes);
    }
    let last = bytes.last();
    let alike = bytes.iter().rev().take_while(|byte| Some(*byte) == last).count();
    let (head, tail) = bytes.split_at(bytes.len() - if alike < 64 { 0 } else { alike });
    match tail.first() {
        None => format!("b\"{}\".to_vec()", head.escape_ascii()),
        Some(byte) => {
            let head = head.escape_ascii();
            format!("[b\"{head}\".as_slice(), &[{byte}; {alike}]].concat()")
        }
    }
}

/// Prepared bytes are mostly zero.
fn sparse_literal(bytes: &[u8]) -> String {
    let mut parts = Vec::new();
    let mut at = 0;
    while let Some(zeros) = bytes[at..].iter().position(|&byte| byte != 0) {
        let begin = at + zeros;
        let length = bytes[begin..].windows(8).position(|part| part == [0; 8]);
        at = length.map_or(bytes.len(), |length| begin + length);
        parts.push(format!("({begin}, b\"{}\")", bytes[begin..at].escape_ascii()));
    }
    format!("sparse({}, &[{}])", bytes.len(), parts.join(", "))
}

/// So many zeros with some parts set.
pub fn sparse(length: usize, parts: &[(usize, &[u8])]) -> Vec<u8> {
    let mut bytes = vec![0; length];
    for (begin, part) in parts {
        bytes[*begin..begin + part.len()].copy_from_slice(part);
    }
    bytes
}

#[cfg(test)]
mod tests {
    use super::*;

    #[test]
    fn a_literal_says_the_bytes() {
        assert_eq!(literal(b"T | \n\xff"), r#"b"T | \n\xff".to_vec()"#);
        assert_eq!(literal(b""), r#"b"".to_vec()"#);
        let long = [b"T".as_slice(), &[32; 600]].concat();
        assert_eq!(literal(&long), r#"[b"T".as_slice(), &[32; 600]].concat()"#);
        let prepared = sparse(681, &[(0, b"\x01\x01"), (680, b"\x07")]);
        let said = r#"sparse(681, &[(0, b"\x01\x01"), (680, b"\x07")])"#;
        assert_eq!(literal(&prepared), said);
    }
}
