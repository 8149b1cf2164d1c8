//! The formula grammar of 01 as rules over bytes, with the short forms of 02 or without them, and
//! reading by all leftmost derivations at once.
//!
//! A derivation is what it still expects and the marks that it has passed. Each byte keeps the
//! derivations that can take it. Whatever waits for a byte can be finished, so one is left exactly if
//! some grammatical text, of any length, begins as the bytes taken so far.

use crate::table::{MAX_STEM, is_name_byte};

#[derive(Clone, Copy, Debug, PartialEq, Eq)]
pub enum Notation {
    /// That of 01, without short forms.
    Base,
    /// That of a line as typed, with the short forms of 02.
    Typed,
}

/// What a derivation says of the text, in postfix order: arms and operands before their mark.
#[derive(Clone, Copy, Debug, PartialEq, Eq)]
pub enum Mark {
    TermBegins,
    True,
    Not,
    Or,
    Next,
    AllNext,
    Until,
    UntilThen,
    Brackets,
    /// `&`.
    And,
    /// `EF`.
    Eventually,
    /// `AG`.
    Always,
    /// `DIA`.
    Diamond,
    /// `BOX`.
    Box,
    SilentStep,
    NameBegins,
    NameEnds,
    AllLabels,
    Received,
    Sent,
    Complement,
    Union,
}

#[derive(Clone, Copy)]
enum Rule {
    Formula,
    MoreConjunctions,
    Conjunction,
    MoreTerms,
    Term,
    BareTerm,
    ShortForm,
    Condition,
    Set,
    MoreOperands,
    Operand,
    Direction,
}

#[derive(Clone, Copy)]
enum Symbol {
    Byte(u8),
    Letter,
    NameByte,
    /// At most so many further bytes of a name's stem.
    NameRest(usize),
    Blanks,
    Part(Rule),
    Says(Mark),
}

use Rule::*;
use Symbol::*;

type Symbols = &'static [Symbol];

/// Blanks are expected only between two tokens, in one place each, so a text has one derivation. In
/// the base notation nothing is a short form.
#[rustfmt::skip]
fn alternatives(notation: Notation, rule: Rule) -> &'static [Symbols] {
    match rule {
        Formula => &[&[Part(Conjunction), Part(MoreConjunctions)]],
        MoreConjunctions => &[
            &[],
            &[Blanks, Byte(b'|'), Blanks, Part(Conjunction), Says(Mark::Or), Part(MoreConjunctions)],
        ],
        Conjunction => &[&[Part(Term), Part(MoreTerms)]],
        MoreTerms => match notation {
            Notation::Base => &[&[]],
            Notation::Typed => &[
                &[],
                &[Blanks, Byte(b'&'), Blanks, Part(Term), Says(Mark::And), Part(MoreTerms)],
            ],
        },
        Term => &[&[Says(Mark::TermBegins), Part(BareTerm)]],
        BareTerm => &[
            &[Byte(b'T'), Says(Mark::True)],
            &[Byte(b'~'), Blanks, Part(Term), Says(Mark::Not)],
            &[Byte(b'E'), Byte(b'X'), Blanks, Byte(b'['), Blanks, Part(Condition), Blanks, Byte(b']'), Blanks,
                Part(Term), Says(Mark::Next)],
            &[Byte(b'A'), Byte(b'X'), Blanks, Byte(b'['), Blanks, Part(Condition), Blanks, Byte(b']'), Blanks,
                Part(Term), Says(Mark::AllNext)],
            &[Byte(b'E'), Byte(b'U'), Blanks, Byte(b'['), Blanks, Part(Set), Blanks, Byte(b']'), Blanks,
                Part(Term), Says(Mark::Until)],
            &[Byte(b'E'), Byte(b'U'), Blanks, Byte(b'['), Blanks, Part(Set), Blanks, Byte(b';'), Blanks, Part(Set),
                Blanks, Byte(b']'), Blanks, Part(Term), Says(Mark::UntilThen)],
            &[Byte(b'('), Blanks, Part(Formula), Blanks, Byte(b')'), Says(Mark::Brackets)],
            &[Part(ShortForm)],
        ],
        ShortForm => match notation {
            Notation::Base => &[],
            Notation::Typed => &[
                &[Byte(b'E'), Byte(b'F'), Blanks, Part(Term), Says(Mark::Eventually)],
                &[Byte(b'A'), Byte(b'G'), Blanks, Part(Term), Says(Mark::Always)],
                &[Byte(b'D'), Byte(b'I'), Byte(b'A'), Blanks, Byte(b'['), Blanks, Part(Set), Blanks, Byte(b']'), Blanks,
                    Part(Term), Says(Mark::Diamond)],
                &[Byte(b'B'), Byte(b'O'), Byte(b'X'), Blanks, Byte(b'['), Blanks, Part(Set), Blanks, Byte(b']'), Blanks,
                    Part(Term), Says(Mark::Box)],
            ],
        },
        Condition => &[
            &[Byte(b'.'), Says(Mark::SilentStep)],
            &[Part(Set)],
        ],
        Set => &[&[Part(Operand), Part(MoreOperands)]],
        MoreOperands => &[
            &[],
            &[Blanks, Byte(b'|'), Blanks, Part(Operand), Says(Mark::Union), Part(MoreOperands)],
        ],
        Operand => &[
            &[Says(Mark::NameBegins), Letter, NameRest(MAX_STEM - 1), Part(Direction), Says(Mark::NameEnds)],
            &[Byte(b'*'), Says(Mark::AllLabels)],
            &[Byte(b'?'), Says(Mark::Received)],
            &[Byte(b'!'), Says(Mark::Sent)],
            &[Byte(b'~'), Blanks, Part(Operand), Says(Mark::Complement)],
            &[Byte(b'('), Blanks, Part(Set), Blanks, Byte(b')')],
        ],
        Direction => &[
            &[],
            &[Byte(b'?')],
            &[Byte(b'!')],
        ],
    }
}

/// What a stem may go on with, by the bytes that it may still have.
static NAME_GOES_ON: [[Symbol; 2]; MAX_STEM] = {
    let mut goes_on = [[NameByte, NameRest(0)]; MAX_STEM];
    let mut bytes = 1;
    while bytes < MAX_STEM {
        goes_on[bytes] = [NameByte, NameRest(bytes - 1)];
        bytes += 1;
    }
    goes_on
};

fn takes(symbol: Symbol, byte: u8) -> bool {
    match symbol {
        Byte(expected) => byte == expected,
        Letter => byte.is_ascii_lowercase(),
        NameByte => is_name_byte(byte),
        NameRest(_) | Blanks | Part(_) | Says(_) => false,
    }
}

/// The end of a chain.
const NONE: u32 = u32::MAX;

#[derive(Clone, Copy)]
struct Derivation {
    expects: Symbols,
    /// What is expected after that, as a chain in `Derivations::later`.
    later: u32,
    /// The marks passed, as a chain in `Derivations::passed`.
    passed: u32,
}

/// The derivations that are left, with the chains that they share.
struct Derivations {
    notation: Notation,
    later: Vec<(Symbols, u32)>,
    passed: Vec<(Mark, usize, u32)>,
    open: Vec<Derivation>,
    /// Each waits for a byte of its symbol.
    waiting: Vec<(Symbol, Derivation)>,
    finished: Option<Derivation>,
}

/// The marks of the text's derivation with their offsets, or the length of the longest beginning
/// that some text grammatical in this notation has.
pub fn derive(notation: Notation, text: &[u8]) -> Result<Vec<(Mark, usize)>, usize> {
    let mut left = Derivations::of_formulas(notation);
    for (offset, &byte) in text.iter().enumerate() {
        left.expand(offset);
        left.take(byte);
        if left.open.is_empty() {
            return Err(offset);
        }
    }
    left.expand(text.len());
    left.marks().ok_or(text.len())
}

impl Derivations {
    fn of_formulas(notation: Notation) -> Derivations {
        Derivations {
            notation,
            later: Vec::new(),
            passed: Vec::new(),
            open: vec![Derivation { expects: &[Part(Formula)], later: NONE, passed: NONE }],
            waiting: Vec::new(),
            finished: None,
        }
    }

    fn take(&mut self, byte: u8) {
        let taking = self.waiting.drain(..);
        let taking = taking.filter(|(symbol, _)| takes(*symbol, byte));
        self.open.extend(taking.map(|(_, derivation)| derivation));
    }

    /// Replaces rules by their alternatives until each derivation waits for a byte or is finished.
    fn expand(&mut self, offset: usize) {
        self.finished = None;
        while let Some(derivation) = self.open.pop() {
            match derivation.expects {
                [] => self.resume(derivation),
                [symbol, after @ ..] => self.advance(*symbol, after, derivation, offset),
            }
        }
    }

    fn resume(&mut self, derivation: Derivation) {
        if derivation.later == NONE {
            self.finished = Some(derivation);
            return;
        }
        let (expects, later) = self.later[derivation.later as usize];
        self.open.push(Derivation { expects, later, ..derivation });
    }

    fn advance(&mut self, symbol: Symbol, after: Symbols, from: Derivation, offset: usize) {
        let passes = Derivation { expects: after, ..from };
        match symbol {
            Byte(_) | Letter | NameByte => self.waiting.push((symbol, passes)),
            Blanks => {
                self.open.push(passes);
                self.waiting.push((Byte(b' '), from));
            }
            NameRest(bytes) => {
                self.open.push(passes);
                if bytes > 0 {
                    self.enter(&NAME_GOES_ON[bytes], passes);
                }
            }
            Part(rule) => {
                for alternative in alternatives(self.notation, rule) {
                    self.enter(alternative, passes);
                }
            }
            Says(mark) => {
                let passed = self.passed.len() as u32;
                self.passed.push((mark, offset, from.passed));
                self.open.push(Derivation { passed, ..passes });
            }
        }
    }

    fn enter(&mut self, expects: Symbols, after: Derivation) {
        let mut later = after.later;
        if !after.expects.is_empty() {
            later = self.later.len() as u32;
            self.later.push((after.expects, after.later));
        }
        self.open.push(Derivation { expects, later, ..after });
    }

    fn marks(&self) -> Option<Vec<(Mark, usize)>> {
        let mut marks = Vec::new();
        let mut chain = self.finished?.passed;
        while chain != NONE {
            let (mark, offset, before) = self.passed[chain as usize];
            marks.push((mark, offset));
            chain = before;
        }
        marks.reverse();
        Some(marks)
    }
}

#[cfg(test)]
mod tests {
    use super::*;

    const BOTH: [Notation; 2] = [Notation::Base, Notation::Typed];

    fn beginning(notation: Notation, text: &str) -> usize {
        derive(notation, text.as_bytes()).expect_err(text)
    }

    fn is_in_both(text: &str) -> bool {
        BOTH.iter().all(|&notation| derive(notation, text.as_bytes()).is_ok())
    }

    fn marks(text: &str) -> Vec<Mark> {
        let marks = derive(Notation::Typed, text.as_bytes()).expect(text);
        let marks = marks.into_iter().map(|(mark, _)| mark);
        marks.filter(|mark| !matches!(mark, Mark::TermBegins | Mark::Brackets)).collect()
    }

    #[test]
    fn the_longest_beginning_counts_every_viable_byte() {
        for (text, figure) in [
            ("", 0),
            (" ", 0),
            (" T", 0),
            ("T ", 2),
            ("T  \n", 3),
            ("TT", 1),
            ("T)", 1),
            ("T|", 2),
            ("T | |", 4),
            ("t", 0),
            ("E", 1),
            ("ET", 1),
            ("E X[*] T", 1),
            ("EX", 2),
            ("EXT", 2),
            ("EX[]", 3),
            ("EX[a T", 5),
            ("EX[a.", 4),
            ("EX[.|a] T", 4),
            ("EX[a;b] T", 4),
            ("EX[a|.] T", 5),
            ("EX[_a] T", 3),
            ("EX[aB] T", 4),
            ("EX[~] T", 4),
            ("EX[a b] T", 5),
            ("EX[(a|b] T", 7),
            ("EX[a)] T", 4),
            ("EX[T] T", 3),
            ("EU[.] T", 3),
            ("EU[a;.] T", 5),
            ("EU[a;b;c] T", 6),
            ("EU[a;b]", 7),
            ("AU", 1),
            ("(T", 2),
            ("()", 1),
            ("((T)", 4),
            ("(T))", 3),
            ("~", 1),
            ("~|T", 1),
            ("T~T", 1),
            ("T\u{e9}", 1),
            ("EX[req ?] T", 7),
            ("EX[req?a", 7),
            ("EX[req?_", 7),
            ("EX[req?(", 7),
            ("EX[req?~", 7),
            ("EX[req?*", 7),
            ("EX[req?.", 7),
            ("EX[clamp??", 9),
            ("EX[clamp?!", 9),
            ("EX[clamp!?", 9),
            ("EX[abcdefghijklm?", 15),
            ("EX[abcdefghijkl?", 16),
            ("EX[abcdefghijkl?a", 16),
            ("EX[?a", 4),
            ("EX[??", 4),
            ("EX[?!", 4),
            ("EX[? a", 5),
            ("EX[~?~", 5),
            ("EX[?.] T", 4),
            ("EX[.?] T", 4),
            ("EX[.|?] T", 4),
            ("EX[?|.] T", 5),
            ("EU[.;?] T", 3),
            ("EU[?;.] T", 5),
            ("?", 0),
            ("T?", 1),
            ("EX?", 2),
            ("EX[a]?", 5),
        ] {
            for notation in BOTH {
                assert_eq!(beginning(notation, text), figure, "{notation:?} {text:?}");
            }
        }
    }

    #[test]
    fn the_longest_beginning_counts_short_forms_as_typed() {
        for (text, figure) in [
            ("D", 1),
            ("DI", 2),
            ("DIA", 3),
            ("DIAT", 3),
            ("DIA T", 4),
            ("DIA[", 4),
            ("DIA[.", 4),
            ("DIA[ .", 5),
            ("DIA[]", 4),
            ("DIA[a;b] T", 5),
            ("DIA[a|.] T", 6),
            ("DIA[a] ", 7),
            ("D IA[a] T", 1),
            ("DA", 1),
            ("DIX", 2),
            ("DIDIA[a] T", 2),
            ("B", 1),
            ("BO", 2),
            ("BO[", 2),
            ("BOX", 3),
            ("BOX[", 4),
            ("BOX[.] T", 4),
            ("BOX[req;", 7),
            ("BOX(T)", 3),
            ("BOXT", 3),
            ("BX", 1),
            ("EF", 2),
            ("EF ", 3),
            ("EF[req] T", 2),
            ("EF|T", 2),
            ("EFF", 2),
            ("AG", 2),
            ("AG ", 3),
            ("AG [req]", 3),
            ("AG&T", 2),
            ("AGG", 2),
            ("T&", 2),
            ("T & ", 4),
            ("T&&T", 2),
            ("T &&", 3),
            ("T&|T", 2),
            ("T|&T", 2),
            ("T&)", 2),
            ("(T&", 3),
            ("(T&)", 3),
            ("(&T)", 1),
            ("&", 0),
            ("& T", 0),
            ("~&T", 1),
            ("EX[req]&T", 7),
            ("EX[req&ack", 6),
            ("EX[req &", 7),
            ("EX[&", 3),
            ("EX[~&", 4),
            ("EX[(req&", 7),
            ("EX[.&.] T", 4),
            ("EU[a;b&c] T", 6),
            ("EX[EF", 3),
            ("EX[AG", 3),
            ("EX[DIA", 3),
            ("EX[BOX", 3),
            ("EG T", 1),
            ("AF T", 1),
            ("AU[a] T", 1),
            ("E F T", 1),
            ("A G T", 1),
            ("ef T", 0),
            ("dia[a] T", 0),
            ("T EF T", 2),
            ("TAGT", 1),
        ] {
            assert_eq!(beginning(Notation::Typed, text), figure, "{text:?}");
        }
    }

    #[test]
    fn the_base_notation_has_no_short_form() {
        for (text, figure) in [
            ("T&T", 1),
            ("T & T", 2),
            ("(T&T)", 2),
            ("EF T", 1),
            ("AG T", 1),
            ("DIA[a] T", 0),
            ("BOX[a] T", 0),
            ("~DIA[a] T", 1),
            ("EX[a]AGT", 6),
        ] {
            assert_eq!(beginning(Notation::Base, text), figure, "{text:?}");
            assert!(derive(Notation::Typed, text.as_bytes()).is_ok(), "{text:?}");
        }
    }

    #[test]
    fn a_keyword_needs_no_blank_behind_it() {
        for text in [
            "AGT",
            "EFT",
            "EFEX[a]T",
            "DIA[a]T",
            "BOX[a]T",
            "AGAGEFEFDIA[a]BOX[b]T",
            "AG(T)",
            "EF~T",
            "AG  EF  DIA  [  a  |  ?  ]  BOX  [  ~  *  ]  T  &  T",
            "EFT&AGT|DIA[*]T&(T|T)",
        ] {
            assert!(derive(Notation::Typed, text.as_bytes()).is_ok(), "{text}");
        }
    }

    #[test]
    fn a_beginning_ends_before_the_thirteenth_byte_of_a_name() {
        assert!(is_in_both("EX[abcdefghijkl] T"));
        for notation in BOTH {
            assert_eq!(beginning(notation, "EX[abcdefghijklm] T"), 15);
            assert_eq!(beginning(notation, "EX[a12345678901_] T"), 15);
        }
        assert_eq!(beginning(Notation::Typed, "BOX[abcdefghijklm] T"), 16);
    }

    #[test]
    fn a_mark_stands_right_behind_its_name_and_ends_it() {
        for text in [
            "EX[a?] T",
            "EX[abcdefghijkl!] T",
            "EX[a? | b! | c] T",
            "EX[~(a?|?)] T",
            "EU[a?;b!] T",
            "EU[a? ; b! ] T",
        ] {
            assert!(is_in_both(text), "{text}");
        }
    }

    #[test]
    fn an_operand_of_a_direction_stands_wherever_a_name_may() {
        for text in
            ["EX[?] T", "AX[!] T", "EU[?;!] T", "EX[~?] T", "EX[~ ~ ( ! | a | ? )] T", "EU[?|?] T"]
        {
            assert!(is_in_both(text), "{text}");
        }
    }

    #[test]
    fn blanks_stand_between_any_two_tokens() {
        assert!(is_in_both("~  EX  [  ~  (  a  |  *  )  ]  (  T  |  T  )"));
        assert!(is_in_both("EU [ a ; b ] T"));
        assert!(is_in_both("EX [ . ] T"));
    }

    #[test]
    fn terms_are_grouped_from_the_left_and_conjunctions_first() {
        use Mark::{Always, And, Not, Or, True};
        assert_eq!(marks("T|T|T"), [True, True, Or, True, Or]);
        assert_eq!(marks("T&T&T"), [True, True, And, True, And]);
        assert_eq!(marks("T|T&T"), [True, True, True, And, Or]);
        assert_eq!(marks("T&T|T"), [True, True, And, True, Or]);
        assert_eq!(marks("(T|T)&T"), [True, True, Or, True, And]);
        assert_eq!(marks("~T&T"), [True, Not, True, And]);
        assert_eq!(marks("AG T & T"), [True, Always, True, And]);
        assert_eq!(marks("AG (T & T)"), [True, True, And, Always]);
    }

    #[test]
    fn a_beginning_may_be_longer_than_any_accepted_formula() {
        for deep in ["(", "~", "EX[*]"].map(|unit| unit.repeat(5_000)) {
            assert_eq!(beginning(Notation::Base, &deep), deep.len());
            assert_eq!(beginning(Notation::Typed, &deep), deep.len());
        }
        for deep in ["AG", "DIA[*]", "T&"].map(|unit| unit.repeat(5_000)) {
            assert_eq!(beginning(Notation::Typed, &deep), deep.len());
        }
    }
}
