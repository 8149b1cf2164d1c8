//! What is written of a folder: its listing or its smallest automaton, or a view of one of them for
//! Graphviz, in the Aldebaran format, or by its least words; or its formula, written back; or its
//! verdicts at several states.

use std::fmt;

use crate::entries;
use crate::enumeration::{self, More};
use crate::formula::{Class, Formula};
use crate::listing::{Edge, Listing};
use crate::print::{self, EDGE_PLACES, ROW_PLACES};
use crate::reply::Refusal;
use crate::smallest::{Automaton, smallest};
use crate::table::{IDLE, SILENT, Table};
use crate::{starts, verdict, writing};

/// How an automaton is shown.
#[derive(Clone, Copy, Debug, PartialEq, Eq)]
pub enum Form {
    /// As a program prints it.
    Text,
    Dot,
    Aut,
    Words(usize),
}

#[derive(Clone, Copy, Debug, PartialEq, Eq)]
pub enum View<'a> {
    Listing(Form),
    /// What has a listing may be refused by 20.
    Smallest(Form),
    /// Nothing is built for it, so its refusals are 1 to 9 and 15.
    Formula,
    /// Of a list of states, as it is typed. Nothing is built for it, so its refusals are 1 to 9 and 16.
    Starts(&'a str),
}

impl View<'_> {
    /// The script's options for it.
    pub fn options(self) -> &'static str {
        match self {
            View::Listing(Form::Text) => "",
            View::Listing(Form::Dot) => "--dot",
            View::Listing(Form::Aut) => "--aut",
            View::Listing(Form::Words(_)) => "--words",
            View::Smallest(Form::Text) => "--smallest",
            View::Smallest(Form::Dot) => "--smallest --dot",
            View::Smallest(Form::Aut) => "--smallest --aut",
            View::Smallest(Form::Words(_)) => "--smallest --words",
            View::Formula => "--formula",
            View::Starts(_) => "--starts",
        }
    }
}

/// The options, and what stands behind them.
impl fmt::Display for View<'_> {
    fn fmt(&self, to: &mut fmt::Formatter) -> fmt::Result {
        let options = self.options();
        match self {
            View::Listing(Form::Words(count)) | View::Smallest(Form::Words(count)) => {
                write!(to, "{options} {count}")
            }
            View::Starts(list) => write!(to, "{options} \"{list}\""),
            _ => write!(to, "{options}"),
        }
    }
}

/// Of a folder with these two files, if it is not refused.
pub fn text(view: View, table: &[u8], formula: &[u8]) -> Result<String, Refusal> {
    match view {
        View::Listing(form) => {
            let explained = Explained::of(table, formula)?;
            let text = || print::explain_files(table, formula);
            Ok(explained.shown(form, &explained.listed(), text))
        }
        View::Smallest(form) => {
            let explained = Explained::of(table, formula)?;
            let automaton = smallest(&explained.listing)?;
            Ok(explained.shown(form, &Graph::of(&automaton), || automaton.text()))
        }
        View::Formula => written_back(table, print::line_of(formula)),
        View::Starts(list) => {
            let list = starts::in_columns(list).expect("a list");
            Ok(ascii(starts::text(&starts::verdicts(table, formula, &list)?)))
        }
    }
}

fn ascii(text: Vec<u8>) -> String {
    String::from_utf8(text).expect("ASCII")
}

fn written_back(table: &[u8], line: &[u8]) -> Result<String, Refusal> {
    let table = Table::read(table)?;
    let formula = Formula::read(&table, line)?;
    let text = entries::short_enough(writing::text(&table, &formula))?;
    Ok(ascii(text) + "\n")
}

/// An automaton as it is drawn. Node 0 is the start.
struct Graph {
    /// What the words are, if that is told.
    caption: Option<&'static str>,
    nodes: Vec<Node>,
    /// Node by node.
    edges: Vec<Edge>,
}

struct Node {
    label: String,
    is_final: bool,
}

impl Graph {
    /// Of the smallest automaton.
    fn of(automaton: &Automaton) -> Graph {
        let nodes = automaton.finals.iter().enumerate();
        let nodes = nodes.map(|(state, &is_final)| Node { label: state.to_string(), is_final });
        let edges = automaton.edges().map(|(state, label, target)| Edge {
            row: state as u16,
            label,
            target: target as u16,
        });
        Graph { caption: None, nodes: nodes.collect(), edges: edges.collect() }
    }
}

/// A question that is accepted, with its listing.
pub struct Explained<'a> {
    line: &'a str,
    table: Table,
    formula: Formula,
    pub listing: Listing,
}

impl Explained<'_> {
    /// The question of these two files.
    pub fn of<'a>(table: &[u8], formula: &'a [u8]) -> Result<Explained<'a>, Refusal> {
        let line = print::line_of(formula);
        let table = Table::read(table)?;
        let formula = Formula::read(&table, line)?;
        let listing = Listing::of(&table, &formula);
        entries::has_places(&listing, ROW_PLACES, EDGE_PLACES)?;
        let line = str::from_utf8(line).expect("a formula is ASCII");
        Ok(Explained { line, table, formula, listing })
    }

    fn listed(&self) -> Graph {
        let nodes = self.listing.rows.iter().map(|row| Node {
            label: format!("state {}\\nplace {}", row.state, row.place),
            is_final: row.is_final,
        });
        let edges = self.listing.edges.clone();
        Graph { caption: Some(self.outcome()), nodes: nodes.collect(), edges }
    }

    fn shown(&self, form: Form, graph: &Graph, text: impl Fn() -> Vec<u8>) -> String {
        match form {
            Form::Text => ascii(text()),
            Form::Dot => self.dot(graph),
            Form::Aut => self.aut(graph),
            Form::Words(count) => self.words(count),
        }
    }

    fn name(&self, label: u8) -> &str {
        match label {
            SILENT => "(silent)",
            IDLE => "(idle)",
            _ => str::from_utf8(&self.table.names[label as usize - 1]).expect("a name is ASCII"),
        }
    }

    fn names<'a>(&self, labels: impl Iterator<Item = &'a u8>, between: &str) -> String {
        labels.map(|&label| self.name(label)).collect::<Vec<&str>>().join(between)
    }

    fn outcome(&self) -> &'static str {
        match (verdict::holds(&self.table, &self.formula), self.formula.root_class()) {
            (true, Class::Witnesses) => "holds: all witnesses",
            (false, Class::Counterexamples) => "does not hold: all counterexamples",
            (false, Class::Witnesses) => "does not hold: no word is a witness",
            (true, Class::Counterexamples) => "holds: no word is a counterexample",
        }
    }

    fn dot(&self, graph: &Graph) -> String {
        let caption = graph.caption.map(|caption| format!("  label=\"{caption}\";\n"));
        let nodes = graph.nodes.iter().zip(0..).map(|(node, number)| {
            let ring = if node.is_final { ", shape=doublecircle" } else { "" };
            format!("  {number} [label=\"{}\"{ring}];\n", node.label)
        });
        let leaving = graph.edges.chunk_by(|edge, next| edge.row == next.row);
        let edges = leaving
            .flat_map(|leaving| leaving.iter().filter_map(|edge| self.dot_edge(edge, leaving)));
        format!(
            "digraph \"{}\" {{\n{}  rankdir=LR;\n  node [shape=circle];\n  \
            start [shape=point];\n  start -> 0;\n{}}}\n",
            self.line,
            caption.unwrap_or_default(),
            nodes.chain(edges).collect::<String>()
        )
    }

    /// Of all edges between the same nodes, at the first one's place.
    fn dot_edge(&self, edge: &Edge, leaving: &[Edge]) -> Option<String> {
        let Edge { row, target, .. } = *edge;
        let beside = leaving.iter().filter(|other| other.target == target);
        let mut labels: Vec<u8> = beside.map(|other| other.label).collect();
        labels.sort_unstable();
        let names = self.names(labels.iter(), "\\n");
        (edge.label == labels[0]).then(|| format!("  {row} -> {target} [label=\"{names}\"];\n"))
    }

    fn aut(&self, graph: &Graph) -> String {
        let Graph { nodes, edges, .. } = graph;
        let ends = (0..nodes.len()).filter(|&node| nodes[node].is_final);
        let ends: Vec<String> = ends.map(|node| format!("({node},\"(final)\",{node})\n")).collect();
        let steps = edges.iter().map(|edge| {
            let name = match self.name(edge.label) {
                // The internal step of CADP, and of mCRL2.
                name @ ("i" | "tau") => format!("({name})"),
                name => name.into(),
            };
            format!("({},\"{name}\",{})\n", edge.row, edge.target)
        });
        let first = format!("des (0,{},{})\n", edges.len() + ends.len(), nodes.len());
        std::iter::once(first).chain(steps).collect::<String>() + &ends.concat()
    }

    /// By the question itself: each of its automata has these words.
    fn words(&self, count: usize) -> String {
        let least = enumeration::least(&self.table, &self.formula, count);
        let lines = least.words.iter().map(|word| match word.is_empty() {
            true => "(empty)\n".into(),
            false => self.names(word.iter(), " ") + "\n",
        });
        let closing = match least.more {
            More::None => "(no more)\n",
            More::Finitely => "(more)\n",
            More::Infinitely => "(infinitely many more)\n",
        };
        lines.collect::<String>() + closing
    }
}
