//! A line with short forms as terms and joints, written out by them: right, or with one fault.

/// What is wrong with an expansion.
#[derive(Clone, Copy, PartialEq, Eq)]
pub enum Fault {
    None,
    OrBindsTighter,
    AndBindsAsOr,
    GroupedFromTheRight,
    EventuallyBySilentSteps,
    AlwaysWithoutInnerNot,
    BoxAsDiamond,
    DoubleNegationSimplified,
    /// `AG T` and `BOX[A] T` have a class, as `AX[A] T` has.
    AlwaysOfTrue,
}

pub struct Line {
    terms: Vec<Term>,
    /// `|` or `&` between each two terms.
    joints: Vec<u8>,
}

enum Term {
    True,
    /// `~` or a keyword, with its set.
    Prefix(String, Box<Term>),
    Brackets(Line),
}

impl Line {
    /// Of a line that is grammatical.
    pub fn read(text: &[u8]) -> Line {
        let unread = text.iter().copied().filter(|&byte| byte != b' ');
        formula(&mut unread.collect::<Vec<u8>>().as_slice())
    }

    /// Of the line as typed, not of its expansion.
    pub fn nodes(&self) -> usize {
        self.joints.len() + self.terms.iter().map(Term::nodes).sum::<usize>()
    }

    pub fn written_out(&self, fault: Fault) -> String {
        let mut terms = self.terms.iter().map(|term| term.written_out(fault));
        let first = terms.next().expect("a line has a term");
        let rest: Vec<(u8, String)> = self.joints.iter().copied().zip(terms).collect();
        match fault {
            Fault::AndBindsAsOr => rest.iter().fold(first, |left, (joint, right)| match joint {
                b'|' => format!("({left}|{right})"),
                _ => and(&left, right, fault),
            }),
            Fault::OrBindsTighter => {
                let parts = grouped(first, &rest, b'&');
                conjunction(parts.iter().map(|part| or(part)).collect(), fault)
            }
            _ => {
                let parts = grouped(first, &rest, b'|').into_iter();
                or(&parts.map(|part| conjunction(part, fault)).collect::<Vec<String>>())
            }
        }
    }
}

/// The terms between any two of these joints.
fn grouped(first: String, rest: &[(u8, String)], joint: u8) -> Vec<Vec<String>> {
    let mut groups = vec![vec![first]];
    for (before, term) in rest {
        if *before == joint {
            groups.push(Vec::new());
        }
        groups.last_mut().expect("the first one").push(term.clone());
    }
    groups
}

fn or(parts: &[String]) -> String {
    match parts {
        [part] => part.clone(),
        _ => format!("({})", parts.join("|")),
    }
}

fn conjunction(terms: Vec<String>, fault: Fault) -> String {
    let joined = match fault {
        Fault::GroupedFromTheRight => {
            terms.into_iter().rev().reduce(|right, left| and(&left, &right, fault))
        }
        _ => terms.into_iter().reduce(|left, right| and(&left, &right, fault)),
    };
    joined.expect("a conjunction has a term")
}

fn and(left: &str, right: &str, fault: Fault) -> String {
    format!("(~({}|{}))", not(left, fault), not(right, fault))
}

fn not(term: &str, fault: Fault) -> String {
    match term.strip_prefix('~') {
        Some(arm) if fault == Fault::DoubleNegationSimplified => arm.into(),
        _ => format!("~{term}"),
    }
}

impl Term {
    fn nodes(&self) -> usize {
        match self {
            Term::True => 1,
            Term::Prefix(_, arm) => 1 + arm.nodes(),
            Term::Brackets(line) => line.nodes(),
        }
    }

    fn written_out(&self, fault: Fault) -> String {
        match self {
            Term::True => "T".into(),
            Term::Prefix(prefix, arm) => prefixed(prefix, arm, fault),
            Term::Brackets(line) => format!("({})", line.written_out(fault)),
        }
    }
}

fn prefixed(prefix: &str, arm: &Term, fault: Fault) -> String {
    let written = arm.written_out(fault);
    let negated = match (arm, fault) {
        (_, Fault::AlwaysWithoutInnerNot) if prefix == "AG" => written.clone(),
        (Term::True, Fault::AlwaysOfTrue) => "~~T".into(),
        _ => not(&written, fault),
    };
    match (prefix, prefix.get(3..)) {
        ("EF", _) if fault == Fault::EventuallyBySilentSteps => format!("(EU[~*]{written})"),
        ("EF", _) => format!("(EU[*]{written})"),
        ("AG", _) => format!("(~EU[*]{negated})"),
        (_, Some(set)) if prefix.starts_with("DIA") => format!("(EX{set}{written})"),
        (_, Some(set)) if prefix.starts_with("BOX") => match fault {
            Fault::BoxAsDiamond => format!("(EX{set}{written})"),
            _ => format!("(~EX{set}{negated})"),
        },
        _ => format!("{prefix}{written}"),
    }
}

fn formula(unread: &mut &[u8]) -> Line {
    let mut line = Line { terms: vec![term(unread)], joints: Vec::new() };
    while let [joint @ (b'|' | b'&'), rest @ ..] = *unread {
        *unread = rest;
        line.joints.push(*joint);
        line.terms.push(term(unread));
    }
    line
}

fn term(unread: &mut &[u8]) -> Term {
    match take(unread, 1).as_str() {
        "T" => Term::True,
        "(" => {
            let line = formula(unread);
            take(unread, 1);
            Term::Brackets(line)
        }
        "~" => Term::Prefix("~".into(), Box::new(term(unread))),
        first => {
            let rest = match (first, unread[0]) {
                (_, b'F' | b'G') => 1,
                _ => unread.iter().position(|&byte| byte == b']').expect("a set's end") + 1,
            };
            let prefix = format!("{first}{}", take(unread, rest));
            Term::Prefix(prefix, Box::new(term(unread)))
        }
    }
}

fn take(unread: &mut &[u8], count: usize) -> String {
    let (taken, rest) = unread.split_at(count);
    *unread = rest;
    String::from_utf8(taken.to_vec()).expect("ASCII")
}
