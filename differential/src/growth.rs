//! Times of each call on inputs that grow, ours beside the crate's: a table for each input, a picture for each call.
use std::collections::BTreeSet;
use std::hint::black_box;
use std::io;
use std::path::Path;

use crate::asm::access;
use crate::figures::{grouped, head, row, time};
use crate::numbers::query::Query;
use crate::numbers::{binary, Outcome};
use crate::object::{encode, fair};
use crate::parts::{Label, Parts};
use crate::picture::{self, Panel};
use crate::prng::Prng;
use crate::records;
use crate::reference::ask_crate;
use crate::speed::{best, forms, Time};
use crate::under::Calls;

/// An input that grows.
struct Input {
    name: &'static str,
    /// What its sizes count.
    unit: &'static str,
    sizes: [usize; 4],
    parts: fn(usize) -> Parts,
    times: fn(&Calls, &Parts) -> Vec<Time>,
}

const DECADES: [usize; 4] = [1_000, 10_000, 100_000, 1_000_000];

const INPUTS: [Input; 5] = [
    Input { name: "objects", unit: "words of the object", sizes: DECADES, parts: mixed, times: queries },
    Input { name: "labels, rising", unit: "labels", sizes: DECADES, parts: |n| labels((0..n).collect()), times: files },
    Input { name: "labels, random", unit: "labels", sizes: [1_024, 4_096, 16_384, 65_536], parts: |n| labels(shuffled(n)), times: files },
    Input { name: "a source with lines", unit: "bytes of source", sizes: DECADES, parts: source, times: files },
    Input { name: "one block", unit: "words of the block", sizes: [1_000, 4_000, 16_000, 65_535], parts: block, times: files },
];

/// A fair object of so many words: a quarter labels, a quarter line blocks, half source.
fn mixed(words: usize) -> Parts {
    let (labels, blocks) = (words / 4 / 7, words / 4 / 104);
    let label = |i| Label { name: format!("L{i:07}").into(), addr: i as u16, external: false, start: i as u64 };
    let line_block = |i: usize| (101 * i as u64, (0..100).map(|a| a + (i % 600) as u16 * 100).collect());
    let rest = words - 7 * labels - 104 * blocks - 1;
    Parts {
        labels: (0..labels).map(label).collect(),
        lines: (0..blocks).map(line_block).collect(),
        source: Some(b" HALT\n".iter().copied().cycle().take(3 * rest).collect()),
        ..Parts::default()
    }
}

/// Labels by name, the place of each by address and source start, and a source.
fn labels(places: Vec<usize>) -> Parts {
    let share = places.len().div_ceil(1 << 16); // labels that an address has
    let label =
        |(i, at): (usize, usize)| Label { name: format!("L{i:07}").into(), addr: (at / share) as u16, external: false, start: at as u64 };
    Parts { labels: places.into_iter().enumerate().map(label).collect(), source: Some(b"\n".to_vec()), ..Parts::default() }
}

fn shuffled(n: usize) -> Vec<usize> {
    let mut out: Vec<usize> = (0..n).collect();
    Prng::new(9).shuffle(&mut out);
    out
}

/// A source of so many bytes, of whose lines nine in ten have an address.
pub fn source(bytes: usize) -> Parts {
    let text = b"    ADD R0, R0, #1 ; 1\n";
    let line_block = |i: usize| (10 * i as u64, (0..9).map(|a| a + 10 * i as u16).collect());
    Parts {
        lines: (0..bytes / text.len() / 10).map(line_block).collect(),
        source: Some(text.iter().copied().cycle().take(bytes).collect()),
        ..Parts::default()
    }
}

/// One block, of whose words one in 16 is uninitialised.
fn block(words: usize) -> Parts {
    let mut r = Prng::new(8);
    Parts { blocks: vec![(0, (0..words).map(|_| (!r.once_in(16)).then(|| r.next() as u16)).collect())], ..Parts::default() }
}

/// Both forms' calls, on a binary file with its labels by address, as the text form has them.
fn files(calls: &Calls, p: &Parts) -> Vec<Time> {
    let Outcome::Given(file) = binary::write(p) else { unreachable!("the line blocks are short") };
    let mut list = records::records(&file).expect("it was written");
    let address = |record: &[u8]| if record[0] == 1 { u16::from_le_bytes([record[1], record[2]]) } else { 0 };
    list.sort_by_key(|record| (record[0], address(record)));
    forms(calls, p, &[&file[..7], &list.concat()].concat())
}

/// `check`, `is_fair`, `lending_fee` and the queries, which ask for what lies last.
fn queries(calls: &Calls, p: &Parts) -> Vec<Time> {
    assert!(fair(p), "all is looked at");
    let (object, o) = (encode(p), access::build(p));
    let source = p.source.as_deref().unwrap_or_default();
    let last = source.iter().filter(|b| **b == b'\n').count() as u64;
    let asks = [
        ("count_lines", Query::CountLines),
        ("raw_line_span", Query::RawLineSpan(last)),
        ("line_span", Query::LineSpan(last)),
        ("get_pos_pair", Query::GetPosPair(source.len() as u64)),
        ("get", Query::Get(p.lines.last().map_or(0, |block| block.0))),
        ("find", Query::Find(0xFFFF)), // no line has it
    ];
    let check = calls.queries.map(|q| best(|| (q.check)(black_box(&object))));
    let is_fair = calls.is_fair.map(|ask| best(|| ask(black_box(&object))));
    let lending_fee = calls.lending_fee.map(|ask| best(|| ask(black_box(&object), true)));
    let alone = [("check", check), ("is_fair", is_fair), ("lending_fee", lending_fee)];
    let mut out: Vec<Time> = alone.into_iter().map(|(call, ours)| Time { call, ours, theirs: None }).collect();
    out.extend(asks.map(|(call, q)| Time {
        call,
        ours: calls.queries.map(|ours| best(|| (ours.query)(black_box(&object), q))),
        theirs: Some(best(|| ask_crate(black_box(&o), q))),
    }));
    out
}

/// One side's times of a call, one for each size of the input.
struct Row {
    call: &'static str,
    ours: bool,
    ns: Vec<f64>,
}

/// Every call's times on an input, our side before the crate's. A call that isn't linked is left out.
fn measure(calls: &Calls, input: &Input) -> Vec<Row> {
    let mut rows: Vec<Row> = vec![];
    for size in input.sizes {
        for t in (input.times)(calls, &(input.parts)(size)).iter().filter(|t| t.ours.is_some()) {
            for (ours, ns) in [(true, t.ours), (false, t.theirs)] {
                let Some(ns) = ns else { continue };
                match rows.iter_mut().find(|r| r.call == t.call && r.ours == ours) {
                    Some(row) => row.ns.push(ns),
                    None => rows.push(Row { call: t.call, ours, ns: vec![ns] }),
                }
            }
        }
    }
    rows
}

/// A table of one input.
fn print_table(input: &Input, rows: &[Row]) {
    let [first, .., last] = input.sizes;
    println!("\n{}: {}\n", input.name, input.unit);
    let sizes = input.sizes.map(grouped);
    println!("{}", head(["call", "side"].into_iter().chain(sizes.iter().map(String::as_str)).chain(["time / size"])));
    for r in rows {
        let growth = (r.ns[r.ns.len() - 1] / r.ns[0]) / (last as f64 / first as f64);
        let side = if r.ours { "ours" } else { "the crate" };
        let times = r.ns.iter().map(|ns| time(*ns));
        println!("{}", row([r.call.into(), side.into()].into_iter().chain(times).chain([format!("{growth:.2}")])));
    }
}

/// What a picture says below its panels.
fn notes(call: &str) -> [&'static str; 2] {
    let objects = "Objects: a quarter labels, a quarter line blocks, half source.";
    let labels = "The labels lie in the file by address; their names then rise, or are random.";
    match call {
        "check" | "is_fair" | "lending_fee" => [objects, "The crate has no such call."],
        "binary length" | "text length" => [labels, "The crate has no such call: its deserialize stands beside ours."],
        "binary read" | "text read" => [labels, "Ours fills a lent buffer, sorted and without a heap; the crate makes maps."],
        "binary write" | "text write" => ["By address, the names of the labels rise, or are random.", "Ours checks the object first."],
        _ => [objects, "What lies last is asked for. Ours checks the object; the crate's tables stand ready."],
    }
}

/// A picture of a call: a panel for each input that it was timed on.
fn draw(call: &str, grown: &[(Input, Vec<Row>)]) -> String {
    let points = |input: &Input, row: &Row| input.sizes.iter().map(|n| *n as f64).zip(row.ns.iter().copied()).collect();
    let panels = grown.iter().filter(|(_, rows)| rows.iter().any(|r| r.call == call)).map(|(input, rows)| Panel {
        title: input.name,
        unit: input.unit,
        lines: rows.iter().filter(|r| r.call == call).map(|r| points(input, r)).collect(),
    });
    picture::svg(call, &panels.collect::<Vec<_>>(), &notes(call))
}

/// The tables on standard output, and the pictures in a folder, if one is named.
pub fn print(calls: &Calls, pictures: Option<&Path>) -> io::Result<()> {
    println!("\ntime / size: from the first size to the last, how much more time for how much more of the input; 1 is linear");
    let grown = INPUTS.map(|input| {
        let rows = measure(calls, &input);
        print_table(&input, &rows);
        (input, rows)
    });
    let Some(folder) = pictures else { return Ok(()) };
    std::fs::create_dir_all(folder)?;
    let calls: BTreeSet<&str> = grown.iter().flat_map(|(_, rows)| rows).map(|r| r.call).collect();
    calls.into_iter().try_for_each(|call| std::fs::write(folder.join(call.replace(' ', "_") + ".svg"), draw(call, &grown)))
}
