//! Time per call of the library's entries beside the baseline's, and beside those of an earlier build
//! if there is one, on the same inputs in one run.

use std::hint::black_box;
use std::io::{self, Write};
use std::time::{Duration, Instant};

use crate::baseline::BASELINE;
use crate::entries::{EDGE_PLACE, Entries, NONE, ROW_PLACE};
use crate::formula::{Formula, MAX_BYTES, MAX_NODES};
use crate::inputs::kinds::Kinds;
use crate::inputs::questions::{Question, longest_listing};
use crate::inputs::rng::Rng;
use crate::inputs::{pairs, sets, tables, written};
use crate::listing::Listing;
use crate::prepared::{self, FORMULA_LENGTH, TABLE_LENGTH};
use crate::reply::Reply;
use crate::smallest::{SMALLEST_LENGTH, WORK_LENGTH};
use crate::table::{MAX_LABELS, MAX_STATES, MAX_TEXT, MAX_TRANSITIONS, Table};
use crate::word::MAX_WORD;

/// The explainers are timed in turn, so often; the shortest time of each counts.
const ROUNDS: usize = 31;
const ROUND: Duration = Duration::from_millis(4);

#[derive(Default)]
struct Input {
    size: &'static str,
    table_text: Vec<u8>,
    formula_text: Vec<u8>,
    table: Vec<u8>,
    formula: Vec<u8>,
    /// The table that is combined with the other.
    second: Vec<u8>,
    /// All states.
    starts: Vec<u8>,
    word: Vec<u8>,
    /// That each call answers.
    number: u32,
}

impl Input {
    fn new(size: &'static str, formula_text: Vec<u8>, question: &Question) -> Input {
        let Question { table, formula } = question;
        Input {
            size,
            table_text: table.text(),
            formula_text,
            table: prepared::table_bytes(table),
            formula: prepared::formula_bytes(formula),
            starts: (0..table.states).map(|state| state as u8).collect(),
            word: word_along(&Listing::of(table, formula)),
            ..Input::default()
        }
    }
}

fn inputs() -> [Input; 3] {
    [small(), typical(), largest()]
}

/// Table M of 01.
fn small() -> Input {
    let text = b"     3     2     3     0\n     1 req\n     2 ack\n     \
        0     1     1\n     1     0     2\n     1     2     0\n";
    let table = Table::read(text).expect("a table");
    read("small", table, b"EU[*;ack] T")
}

const NAMES: [&str; 8] = ["load", "unload", "clamp", "release", "frame", "drop", "retry", "ack"];

fn typical() -> Input {
    let formula =
        b"EU[~(drop | retry); frame] (EX[.] EU[*; ack] T | EU[clamp | load] ~AX[~release] AX[*] T)";
    read("typical", typical_table(NAMES), formula)
}

fn typical_table(names: [&str; 8]) -> Table {
    let mut table = tables::with_counts(&mut Rng::new(2), &mut Kinds::default(), 30, 8, 90);
    table.names = names.map(|name| name.as_bytes().to_vec()).into();
    table
}

/// What has marks, for the readings.
fn directed() -> [Input; 2] {
    [marked(), operands()]
}

/// The typical question with marks, and an operand of each direction.
fn marked() -> Input {
    let names = ["load!", "unload!", "clamp!", "release!", "frame?", "drop", "retry!", "ack?"];
    let formula = b"EU[~(drop | retry!); frame?] (EX[.] EU[*; ?] T | EU[clamp! | !] \
        ~AX[~release!] AX[*] T)";
    read("marked", typical_table(names), formula)
}

/// 40 nodes and 512 bytes of operands of a direction, over the longest names with marks.
fn operands() -> Input {
    let table = tables::longest_table(&mut Rng::new(3));
    read("operands", table, &padded(&b"EX[?|!|?|!|?]".repeat(MAX_NODES - 1)))
}

/// What has forty names that begin alike, for the readings.
fn alike() -> [Input; 2] {
    [forty(), short_names()]
}

/// Each of the names once, 430 bytes of them.
fn forty() -> Input {
    let name = |label: usize| match label {
        0..=30 => format!("label_{label:05}"),
        _ => format!("label_{label:04}"),
    };
    let names: Vec<String> = (1..=MAX_LABELS).map(name).collect();
    of_operands("forty", &names, names.len())
}

/// Of one to seven bytes; each stands twice, and once more as long as they fit.
fn short_names() -> Input {
    let name = |label: usize| {
        let (length, last) = (label % 7, b'a' + (label / 7) as u8);
        format!("{}{}", &"sender"[..length], char::from(last))
    };
    let names: Vec<String> = (0..MAX_LABELS).map(name).collect();
    of_operands("short names", &names, 97)
}

/// 40 nodes and 512 bytes over a largest table of these labels: so many operands, in turn.
fn of_operands(size: &'static str, names: &[String], operands: usize) -> Input {
    let mut table = tables::table_of_most(&mut Rng::new(3));
    table.names = names.iter().map(|name| name.clone().into_bytes()).collect();
    let set: Vec<&str> = names.iter().map(String::as_str).cycle().take(operands).collect();
    let heads = format!("EX[{}]{}", set.join("|"), "~".repeat(MAX_NODES - 2));
    read(size, table, &padded(heads.as_bytes()))
}

/// With `T` as the last of 512 bytes, behind blanks.
fn padded(heads: &[u8]) -> Vec<u8> {
    let mut text = heads.to_vec();
    text.resize(MAX_BYTES - 1, b' ');
    text.push(b'T');
    text
}

/// What has short forms, for reading a formula.
fn short_forms() -> [Input; 4] {
    [short(), diamonds(), boxes(), conjunction()]
}

/// Over the typical question's table.
fn short() -> Input {
    let formula =
        b"AG (BOX[frame] ~EX[.] EU[*; ack] T & ~EF DIA[drop | retry] T & BOX[clamp | load] \
        AX[~release] AX[*] T)";
    read("short", typical_table(NAMES), formula)
}

/// 39 short forms, the most that an accepted line has.
fn diamonds() -> Input {
    of_names("diamonds", &"DIA[z|z|z|z]".repeat(MAX_NODES - 1))
}

/// 228 names in 12 short forms; of such lines this one takes the baseline longest.
fn boxes() -> Input {
    let form = format!("BOX[{}]", ["z"; 19].join("|"));
    of_names("boxes", &(form.repeat(12) + "~~~"))
}

/// 40 nodes and 512 bytes, over a largest table whose last label is `z`.
fn of_names(size: &'static str, heads: &str) -> Input {
    let mut table = tables::table_of_most(&mut Rng::new(3));
    table.names = (1..MAX_LABELS).map(|label| format!("a{label}").into_bytes()).collect();
    table.names.push(b"z".to_vec());
    read(size, table, &padded(heads.as_bytes()))
}

/// 512 bytes of 1,277 nodes, the most there can be; refused.
fn conjunction() -> Input {
    let table = tables::table_of_most(&mut Rng::new(3));
    let text = [b"~T".as_slice(), &b"&T".repeat(MAX_BYTES / 2 - 1)].concat();
    let reply = Formula::read(&table, &text).expect_err("too many nodes");
    Input { number: Reply::from(reply).number, formula_text: text, ..read("ands", table, b"T") }
}

fn read(size: &'static str, table: Table, text: &[u8]) -> Input {
    let formula = Formula::read(&table, text).expect("a formula");
    Input::new(size, text.to_vec(), &Question { table, formula })
}

/// What has many names, for writing a formula back.
fn many_names() -> [Input; 2] {
    [names(), longest()]
}

/// 512 bytes, most of them names, over a largest table.
fn names() -> Input {
    let rng = &mut Rng::new(3);
    let Question { table: Table { names, .. }, formula } = written::of_length(rng, MAX_BYTES);
    let kinds = &mut Kinds::default();
    let table = tables::with_counts(rng, kinds, MAX_STATES, names.len(), MAX_TRANSITIONS);
    to_write("names", &Question { table: Table { names, ..table }, formula })
}

/// Over 40,000 bytes, the most there can be; refused.
fn longest() -> Input {
    let question = written::longest(&mut Rng::new(3));
    Input { number: 15, ..to_write("longest", &question) }
}

/// Prepared bytes alone.
fn to_write(size: &'static str, question: &Question) -> Input {
    Input {
        size,
        table: prepared::table_bytes(&question.table),
        formula: prepared::formula_bytes(&question.formula),
        ..Input::default()
    }
}

/// What is combined.
fn side_by_side() -> [Input; 3] {
    let small = ["req", "ack"].map(|stem| [format!("{stem}!"), format!("{stem}?")]);
    let [small, other] = [[0, 1], [1, 0]].map(|marks| {
        let names = small.iter().zip(marks).map(|(names, mark)| names[mark].as_str());
        drawn([2, 3], names.collect())
    });
    let typical = ["load", "unload", "clamp!", "release!", "frame?", "drop", "retry!", "ack?"];
    let channel = ["clamp?", "release?", "frame!", "ack!", "lost", "retry?"];
    [
        to_combine("small", [small, other]),
        to_combine("typical", [drawn([12, 30], typical.into()), drawn([8, 20], channel.into())]),
        to_combine("largest", pairs::of_most(&mut Rng::new(3))),
    ]
}

/// Of so many states and transitions.
fn drawn([states, transitions]: [usize; 2], names: Vec<&str>) -> Table {
    let kinds = &mut Kinds::default();
    let drawn = tables::with_counts(&mut Rng::new(2), kinds, states, names.len(), transitions);
    Table { names: names.into_iter().map(Vec::from).collect(), ..drawn }
}

fn to_combine(size: &'static str, tables: [Table; 2]) -> Input {
    let [table, second] = tables.map(|table| prepared::table_bytes(&table));
    Input { size, table, second, ..Input::default() }
}

/// What has few sets of rows, for the smallest automaton, and what it takes long for.
fn of_sets() -> [Input; 6] {
    // 69 rows, 119 edges, 113 sets, 102 states.
    let formula =
        b"EU[~(drop | retry); frame] (EX[.] EU[clamp; ack] T | EU[load] ~AX[~release] AX[*] T)";
    let made = |size, make: fn(&mut Rng) -> Question| to_write(size, &make(&mut Rng::new(3)));
    [
        small(),
        read("typical", typical_table(NAMES), formula),
        made("largest", sets::longest_listing),
        made("states", sets::of_most_states),
        made("rounds", sets::of_most_rounds),
        Input { number: 20, ..made("refused", longest_listing) },
    ]
}

/// The longest listing; its formula's text, with long names, is another of 40 nodes and 512 bytes.
fn largest() -> Input {
    let mut question = longest_listing(&mut Rng::new(3));
    question.table.names = (1..=MAX_LABELS).map(tables::longest_stem).collect();
    let mut text = Vec::new();
    for label in 1..=20 {
        text.extend_from_slice(b"EX[");
        text.extend_from_slice(&question.table.names[label * 2 - 1]);
        text.extend_from_slice(b"]EU[*]");
    }
    text.truncate(text.len() - b"EU[*]".len());
    Input::new("largest", padded(&text), &question)
}

/// Labels along the listing, through rows that were not left before as long as there are any.
fn word_along(listing: &Listing) -> Vec<u8> {
    let mut left = vec![false; listing.rows.len()];
    let mut word = Vec::new();
    let mut row = 0;
    while word.len() < MAX_WORD {
        left[row as usize] = true;
        let edges = listing.edges_from(row);
        let fresh = edges.iter().find(|edge| !left[edge.target as usize]);
        let Some(edge) = fresh.or(edges.last()) else {
            break;
        };
        word.push(edge.label);
        row = edge.target;
    }
    word
}

/// The lent buffers, large enough for every input.
struct Buffers {
    table: Vec<u8>,
    formula: Vec<u8>,
    /// Of a formula or a table.
    text: Vec<u8>,
    answers: Vec<u8>,
    rows: Vec<u8>,
    edges: Vec<u8>,
    smallest: Vec<u8>,
    work: Vec<u8>,
}

type Call = fn(&Entries, &Input, &mut Buffers) -> Option<Reply>;

const CALLS: [(&str, Call); 12] = [
    ("read_table", read_table),
    ("table_text", table_text),
    (COMBINE, combine),
    ("read_formula", read_formula),
    ("write_formula", write_formula),
    ("verdict", verdict),
    ("verdicts", verdicts),
    ("build", build),
    (SMALLEST, smallest),
    ("accepts", accepts),
    ("whole", whole),
    ("explain", explain),
];

fn read_table(of: &Entries, input: &Input, lent: &mut Buffers) -> Option<Reply> {
    Some(of.read_table?(&input.table_text, &mut lent.table))
}

fn table_text(of: &Entries, input: &Input, lent: &mut Buffers) -> Option<Reply> {
    Some(of.table_text?(&input.table, &mut lent.text))
}

const COMBINE: &str = "combine";

fn combine(of: &Entries, input: &Input, lent: &mut Buffers) -> Option<Reply> {
    Some(of.combine?(&input.table, &input.second, &mut lent.table))
}

fn read_formula(of: &Entries, input: &Input, lent: &mut Buffers) -> Option<Reply> {
    Some(of.read_formula?(&input.table, &input.formula_text, &mut lent.formula))
}

fn write_formula(of: &Entries, input: &Input, lent: &mut Buffers) -> Option<Reply> {
    Some(of.write_formula?(&input.table, &input.formula, &mut lent.text))
}

fn verdict(of: &Entries, input: &Input, _: &mut Buffers) -> Option<Reply> {
    Some(of.verdict?(&input.table, &input.formula))
}

fn verdicts(of: &Entries, input: &Input, lent: &mut Buffers) -> Option<Reply> {
    Some(of.verdicts?(&input.table, &input.formula, &input.starts, &mut lent.answers))
}

fn build(of: &Entries, input: &Input, lent: &mut Buffers) -> Option<Reply> {
    let mut edge_count = 0;
    let (rows, edges) = (&mut lent.rows, &mut lent.edges);
    Some(of.build?(&input.table, &input.formula, rows, edges, &mut edge_count))
}

const SMALLEST: &str = "smallest";

fn smallest(of: &Entries, input: &Input, lent: &mut Buffers) -> Option<Reply> {
    let mut edge_count = 0;
    Some(of.smallest?(
        &input.table,
        &input.formula,
        &mut lent.rows,
        &mut lent.edges,
        &mut lent.smallest,
        &mut lent.work,
        &mut edge_count,
    ))
}

fn accepts(of: &Entries, input: &Input, _: &mut Buffers) -> Option<Reply> {
    Some(of.accepts?(&input.table, &input.formula, &input.word))
}

/// Both readings, the verdict and building.
fn whole(of: &Entries, input: &Input, lent: &mut Buffers) -> Option<Reply> {
    read_table(of, input, lent)?;
    read_formula(of, input, lent)?;
    verdict(of, input, lent)?;
    build(of, input, lent)
}

/// Both texts in one call; the largest formula's text is not that of the longest listing.
fn explain(of: &Entries, input: &Input, lent: &mut Buffers) -> Option<Reply> {
    let [mut verdict, mut formula_class, mut edge_count] = [0; 3];
    Some(of.explain?(
        &input.table_text,
        &input.formula_text,
        &mut lent.table,
        &mut lent.formula,
        &mut lent.rows,
        &mut lent.edges,
        &mut verdict,
        &mut formula_class,
        &mut edge_count,
    ))
}

/// Whether some row's name has this part.
pub fn has(part: &str) -> bool {
    CALLS.iter().any(|(entry, _)| entry.contains(part))
}

/// The rows whose names have this part; all have the empty one. With an earlier build its times stand
/// first, and before the ratio what part of them the library takes.
pub fn run(
    before: Option<&Entries>,
    library: &Entries,
    part: &str,
    out: &mut impl Write,
) -> io::Result<()> {
    let mut lent = Buffers {
        table: vec![0; TABLE_LENGTH],
        formula: vec![0; FORMULA_LENGTH],
        text: vec![0; MAX_TEXT],
        answers: vec![0; MAX_STATES],
        rows: vec![0; 10_496 * ROW_PLACE],
        edges: vec![0; 1_000_000 * EDGE_PLACE],
        smallest: vec![0; SMALLEST_LENGTH],
        work: vec![0; WORK_LENGTH],
    };
    write_row(out, before.is_some(), ["entry", "input"], HEAD.map(str::to_owned))?;
    let (inputs, directed, alike, side_by_side) = (inputs(), directed(), alike(), side_by_side());
    let (short_forms, many_names, of_sets) = (short_forms(), many_names(), of_sets());
    let explainers = [before.unwrap_or(&NONE), library, &BASELINE];
    for (entry, call) in CALLS.into_iter().filter(|(entry, _)| entry.contains(part)) {
        let directed = directed.iter().filter(|_| entry.starts_with("read_"));
        let alike = alike.iter().filter(|_| entry.starts_with("read_"));
        let short_forms = short_forms.iter().filter(|_| entry == "read_formula");
        let many_names = many_names.iter().filter(|_| entry == "write_formula");
        let inputs: &[Input] = match entry {
            COMBINE => &side_by_side,
            SMALLEST => &of_sets,
            _ => &inputs,
        };
        let inputs = inputs.iter().chain(directed).chain(alike).chain(short_forms);
        for input in inputs.chain(many_names) {
            let times = time(explainers.map(|of| (of, call)), input, &mut lent);
            write_row(out, before.is_some(), [entry, input.size], columns(times))?;
        }
        if entry == "verdicts" {
            write_beside_one(out, library, &largest(), &mut lent)?;
        }
    }
    Ok(())
}

/// The library's verdicts at all states of an input beside its verdict at the start.
fn write_beside_one(
    out: &mut impl Write,
    library: &Entries,
    input: &Input,
    lent: &mut Buffers,
) -> io::Result<()> {
    if let [Some(all), Some(one)] = time([(library, verdicts), (library, verdict)], input, lent) {
        let (starts, ratio) = (input.starts.len(), all / one);
        let [all, one] = [all, one].map(in_microseconds);
        writeln!(out, "verdicts at {starts} starts {all}, one verdict {one}: {ratio:.2}")?;
    }
    Ok(())
}

const HEAD: [&str; 5] = ["before", "library", "baseline", "of before", "ratio"];

/// Three times and two ratios; what an explainer lacks is a dash.
fn columns([before, library, baseline]: [Option<f64>; 3]) -> [String; 5] {
    let shown = |seconds: Option<f64>| seconds.map_or("-".into(), in_microseconds);
    let of = |other: Option<f64>| match (library, other) {
        (Some(library), Some(other)) => format!("{:.2}", library / other),
        _ => "-".into(),
    };
    [shown(before), shown(library), shown(baseline), of(before), of(baseline)]
}

/// Without an earlier build its two columns are left out.
fn write_row(
    out: &mut impl Write,
    with_before: bool,
    [entry, input]: [&str; 2],
    [before, library, baseline, of_before, ratio]: [String; 5],
) -> io::Result<()> {
    write!(out, "{entry:13} {input:11}")?;
    if with_before {
        write!(out, " {before:>12}")?;
    }
    write!(out, " {library:>12} {baseline:>12}")?;
    if with_before {
        write!(out, " {of_before:>9}")?;
    }
    writeln!(out, " {ratio:>7}")
}

fn in_microseconds(seconds: f64) -> String {
    format!("{:.3} us", seconds * 1e6)
}

/// Seconds per call, each of an explainer, or none if it lacks the entry.
fn time<const N: usize>(
    timed: [(&Entries, Call); N],
    input: &Input,
    lent: &mut Buffers,
) -> [Option<f64>; N] {
    let mut shortest = [None; N];
    let mut calls = [1; N];
    for _ in 0..ROUNDS {
        for (which, (of, call)) in timed.into_iter().enumerate() {
            let Some(reply) = call(of, input, lent) else {
                continue;
            };
            assert_eq!(reply.number, input.number, "{}", input.size);
            let seconds = round(call, of, input, lent, &mut calls[which]);
            let least = shortest[which].get_or_insert(seconds);
            *least = seconds.min(*least);
        }
    }
    shortest
}

/// One round; the calls it takes are found in the first and kept.
fn round(call: Call, of: &Entries, input: &Input, lent: &mut Buffers, calls: &mut u32) -> f64 {
    loop {
        let begin = Instant::now();
        for _ in 0..*calls {
            black_box(call(black_box(of), black_box(input), lent));
        }
        let took = begin.elapsed();
        if took >= ROUND / 2 {
            return took.as_secs_f64() / f64::from(*calls);
        }
        *calls *= 2;
    }
}
