//! The driver. README.md has the commands.
use std::io::{stdin, Read};
use std::path::Path;
use std::process::exit;
use std::time::Instant;

use lc3_differential::gen::Depth;
use lc3_differential::numbers::query::{Query, Values};
use lc3_differential::numbers::tariff::Fee;
use lc3_differential::reference::{self, Answer, Object};
use lc3_differential::under::{self, Plan};
use lc3_differential::{ffi, growth, hex, marked, rust, speed, stack, vectors};

const USAGE: &str = "\
differential run [--cases N] [--seed S] [--short none|quick|full] [--long N] [--many N] [--strict]
differential read-binary | read-text [--hex]         a file on standard input, raw or in hex digits
differential write-binary | write-text               an object's words in hex
differential count_lines | raw_line_span N | line_span N | get_pos_pair N | get N | find N | is_fair    the same
differential lending_fee 0|1                         the same; 1: a member
differential marked                                  document 01's cases marked M
differential vectors queries | binary | text         the lists for the test programs
differential speed                                   times of the library's calls beside the crate's, with their bars
differential growth [FOLDER]                         the same on inputs that grow; pictures in the folder
differential stack [--strict]                        the stack that the library's calls use; strict: over 128 KiB is a failure";

fn stop(why: &str) -> ! {
    eprintln!("differential: {why}\n{USAGE}");
    exit(2)
}

fn input() -> Vec<u8> {
    let mut bytes = vec![];
    stdin().read_to_end(&mut bytes).unwrap_or_else(|e| stop(&e.to_string()));
    bytes
}

fn hex_input<T>(parse: fn(&str) -> Option<T>) -> T {
    let text = String::from_utf8(input()).unwrap_or_default();
    parse(&text).unwrap_or_else(|| stop("hex digits wanted on standard input"))
}

/// The value after the last mention of an option.
fn option<'a>(args: &'a [String], name: &str) -> Option<&'a str> {
    let at = args.iter().rposition(|a| a == name)?;
    Some(args.get(at + 1).unwrap_or_else(|| stop(&format!("{name} wants a value"))))
}

fn number(args: &[String], name: &str, default: u64) -> u64 {
    option(args, name).map_or(default, |v| v.parse().unwrap_or_else(|_| stop(&format!("{name} wants a number"))))
}

/// A run, and its exit status: 1 for a difference, or with --strict for a number not reached or too few calls accepted.
fn run(args: &[String]) -> i32 {
    let depth = match option(args, "--short") {
        None | Some("quick") => Depth::Quick,
        Some("full") => Depth::Full,
        Some("none") => Depth::None,
        Some(other) => stop(&format!("--short {other}?")),
    };
    let plan = Plan {
        seed: number(args, "--seed", 1),
        cases: number(args, "--cases", 100_000),
        depth,
        long: number(args, "--long", 4),
        many: number(args, "--many", 10),
    };
    let calls = match ffi::LINKED {
        [] => under::paper::CALLS,
        _ => ffi::calls(),
    };
    match ffi::LINKED {
        [] => println!("no library is linked: document 01's numbers, as this program has them, stand in for it"),
        groups => println!("linked: {}", groups.join(", ")),
    }
    println!(
        "seed {}, {} random cases of each call, short inputs {depth:?}, {} long line blocks, {} times many records\n",
        plan.seed, plan.cases, plan.long, plan.many
    );
    let start = Instant::now();
    let table = under::run(&calls, &plan);
    table.print();
    let gaps = table.gaps();
    gaps.iter().for_each(|g| println!("too little: {g}"));
    println!("{:.1} seconds", start.elapsed().as_secs_f64());
    let strict = args.iter().any(|a| a == "--strict");
    i32::from(table.differences > 0 || (strict && !gaps.is_empty()))
}

/// `number=N crate=gave|refused|panicked|unasked runs=in|out:WHY out=..`, `-` for no output.
fn show<T>(a: Answer<T>, value: impl Fn(&T) -> String) {
    let runs = a.excluded.map_or("in".into(), |why| format!("out:{why:?}"));
    println!("number={} crate={} runs={runs} out={}", a.number, a.crate_did, a.value.as_ref().map_or("-".into(), value));
    if let Some(what) = a.difference {
        println!("the two sides differ: {what}");
    }
}

fn query(q: Query) {
    show(Object::new(hex_input(hex::parse_words)).query(q), |(first, second): &Values| format!("{first} {second}"));
}

/// The fee and its three addends.
fn lending_fee(member: u64) {
    if member > 1 {
        stop("0, or 1 for a member");
    }
    let shown = |f: &Fee| format!("{} {} {} {}", f.fee, f.base, f.words, f.labels);
    show(Object::new(hex_input(hex::parse_words)).lending_fee(member == 1), shown);
}

fn main() {
    let args: Vec<String> = std::env::args().skip(1).collect();
    let argument = || args.get(1).and_then(|a| a.parse().ok()).unwrap_or_else(|| stop("a number wanted"));
    let object = || Object::new(hex_input(hex::parse_words));
    let file = || if args.iter().any(|a| a == "--hex") { hex_input(hex::parse_bytes) } else { input() };
    rust::quiet();
    match args.first().map(String::as_str).unwrap_or_default() {
        "run" => exit(run(&args[1..])),
        "read-binary" => show(reference::read_binary(&file()), |w| hex::words(w)),
        "read-text" => show(reference::read_text(&file()), |w| hex::words(w)),
        "write-binary" => show(object().write_binary(), |b| hex::bytes(b)),
        "write-text" => show(object().write_text(), |b| hex::bytes(b)),
        "is_fair" => show(object().is_fair(), |fair| fair.to_string()),
        "count_lines" => query(Query::CountLines),
        "raw_line_span" => query(Query::RawLineSpan(argument())),
        "line_span" => query(Query::LineSpan(argument())),
        "get_pos_pair" => query(Query::GetPosPair(argument())),
        "get" => query(Query::Get(argument())),
        "find" => query(Query::Find(u16::try_from(argument()).unwrap_or_else(|_| stop("an address has 16 bits")))),
        "lending_fee" => lending_fee(argument()),
        "marked" => exit(i32::from(!marked::print())),
        "vectors" => match args.get(1).map(String::as_str) {
            Some("queries") => vectors::queries(),
            Some("binary") => vectors::binary(),
            Some("text") => vectors::text(),
            _ => stop("queries, binary or text?"),
        },
        "speed" => speed::print(&ffi::calls()),
        "growth" => growth::print(&ffi::calls(), args.get(1).map(Path::new)).unwrap_or_else(|e| stop(&e.to_string())),
        "stack" => {
            let strict = args.iter().any(|a| a == "--strict");
            exit(i32::from(!stack::print(&ffi::calls(), strict).unwrap_or_else(|e| stop(&e.to_string()))))
        }
        _ => stop("what?"),
    }
}
