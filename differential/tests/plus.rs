//! Request P8: texts with a `+` whose answer is known, what leaves the runs, and wrong text calls that a run must find.
use std::collections::BTreeSet;

use lc3_differential::gen::plus::{case, known, Cell, Known, Place, Stands};
use lc3_differential::gen::{object, Depth};
use lc3_differential::numbers::{text, text_write, Excluded, Outcome};
use lc3_differential::object::decode;
use lc3_differential::parts::Parts;
use lc3_differential::prng::Prng;
use lc3_differential::reference::read_text;
use lc3_differential::table::{Call, Table};
use lc3_differential::under::{paper, run, Calls, Filled, Form, Host, Plan};
use lc3_differential::{marked, rust};

const FEW: Plan = Plan { seed: 5, cases: 2000, depth: Depth::None, long: 0, many: 0 };
/// Nothing but texts and fees that are known.
const KNOWN: Plan = Plan { cases: 0, ..FEW };

const TEXT: Form = paper::CALLS.text.unwrap();
const HOST: Host = paper::CALLS.host.unwrap();

type Read = fn(&[u8], &mut [u32]) -> Filled;
type Length = fn(&[u8]) -> Filled;

fn reads(read: Read) -> Calls {
    Calls { text: Some(Form { read, ..TEXT }), ..Calls::default() }
}
fn lengths(length: Length) -> Calls {
    Calls { text: Some(Form { length, ..TEXT }), ..Calls::default() }
}
fn host(text_length: Length) -> Calls {
    Calls { host: Some(Host { text_length, ..HOST }), ..Calls::default() }
}

/// How often a run finds the calls wrong on the texts that are known.
fn differences(calls: &Calls) -> u64 {
    rust::quiet();
    run(calls, &KNOWN).differences_of(Call::PlusSign)
}

/// The number cells of a table's rows, in the columns that have one.
fn table<'a>(lines: &[&'a str], columns: usize, numbers: &[(usize, Cell)], out: &mut Vec<(Cell, &'a str)>) {
    for line in lines.iter().skip(1) {
        let cells: Vec<&str> = line.splitn(columns, " | ").collect();
        out.extend(numbers.iter().filter_map(|(column, cell)| Some((*cell, cells.get(*column)?.trim()))));
    }
}

fn blocks<'a>(lines: &[&'a str], out: &mut Vec<(Cell, &'a str)>) {
    let mut lines = lines.iter();
    while let (Some(address), Some(count)) = (lines.next(), lines.next()) {
        out.extend([(Cell::BlockAddress, *address), (Cell::Count, *count)]);
        let entries = count.trim_start_matches('+').parse().unwrap_or(0);
        out.extend(lines.by_ref().take(entries).map(|entry| (Cell::Entry, *entry)));
    }
}

/// The number cells of a text, without a look at what they have in them.
fn cells(text: &str) -> Vec<(Cell, &str)> {
    let mut groups: Vec<Vec<&str>> = vec![];
    for line in text.lines().filter(|l| !l.starts_with('#') && !l.trim().is_empty()) {
        match groups.last_mut() {
            Some(group) if !line.starts_with('.') => group.push(line),
            _ => groups.push(vec![line]),
        }
    }
    let mut out = vec![];
    for group in &groups {
        let body = &group[1..];
        match group[0] {
            ".TEXT" => blocks(body, &mut out),
            ".SYMBOL" => table(body, 3, &[(0, Cell::SymbolAddress), (1, Cell::Ext)], &mut out),
            ".LINKER_INFO" => table(body, 2, &[(0, Cell::LinkerAddress)], &mut out),
            ".DEBUG" => {
                let (labels, lines) = body.split_at(body.iter().position(|l| l.starts_with('=')).unwrap_or(body.len()));
                table(labels, 2, &[(1, Cell::Index)], &mut out);
                table(lines.get(1..).unwrap_or_default(), 3, &[(0, Cell::Line), (1, Cell::LineAddress)], &mut out);
            }
            _ => {}
        }
    }
    out
}

/// The same text with a 0 for a `+` that comes before digits in cells of that kind: what a reader sees that passes it over.
fn passed_over(file: &[u8], kind: Cell) -> Vec<u8> {
    let mut out = file.to_vec();
    let Ok(text) = std::str::from_utf8(file) else { return out };
    for (_, cell) in cells(text).into_iter().filter(|(cell, s)| *cell == kind && s.len() > 1 && s.starts_with('+')) {
        out[cell.as_ptr() as usize - file.as_ptr() as usize] = b'0';
    }
    out
}

/// A call that passes a `+` over in one kind of cell: a read, a length, the host's length.
fn wrong_in<const KIND: usize>() -> [Calls; 3] {
    let wrong = |f: &[u8]| (TEXT.length)(&passed_over(f, Cell::ALL[KIND]));
    [reads(|f, out| (TEXT.read)(&passed_over(f, Cell::ALL[KIND]), out)), lengths(wrong), host(wrong)]
}

/// What a right read gives, as parts.
fn parts(file: &[u8]) -> Option<Parts> {
    let mut words = vec![0; file.len()];
    match (TEXT.read)(file, &mut words) {
        (0, n) => decode(&words[..n]),
        _ => None,
    }
}

/// Whether one of the decimals satisfies that.
fn a_decimal(file: &[u8], is: fn(&str) -> bool) -> bool {
    std::str::from_utf8(file).is_ok_and(|text| cells(text).iter().any(|(cell, s)| !cell.is_hex() && is(s)))
}

/// The right length, but for texts that are refused by that number where they shouldn't be.
fn refused(file: &[u8], number: u8, also: fn(&[u8]) -> bool) -> Filled {
    match (TEXT.length)(file) {
        (0, _) if also(file) => (number, 0),
        right => right,
    }
}

#[test]
fn marked_cases() {
    rust::quiet();
    assert!(marked::print());
}

/// The rules differ just where a `+` decides, and the crate goes by document 01's.
#[test]
fn what_leaves_the_runs() {
    rust::quiet();
    let read = |groups: &str| {
        let a = read_text(format!("LC-3 OBJ FILE\n{groups}").as_bytes());
        assert_eq!(a.difference, None);
        (a.number, a.value.is_some(), a.excluded, a.crate_did)
    };
    let out = Some(Excluded::PlusSign);
    assert_eq!(read(".TEXT\n+0FF\n0\n"), (24, false, out, "gave"));
    assert_eq!(read(".TEXT\n3000\n0\n3000\n+0\n"), (24, false, out, "refused"));
    assert_eq!(read(".TEXT\n3000\n+0\n.DEBUG\n=\n"), (24, false, out, "panicked"));
    assert_eq!(read(".TEXT\n3000\n+0\n.TEXT\n3000\n++0\n"), (24, false, None, "refused"));
    assert_eq!(read(".TEXT\n+3000\n0\n"), (24, false, None, "refused"));
    assert_eq!(read(".DEBUG\nLABEL | INDEX\n+A | 5\n=\n=\n"), (0, true, None, "gave"));
    assert_eq!(read(".DEBUG\nLABEL | INDEX\nA | +5\n=\n"), (27, false, Some(Excluded::OneDivider), "panicked"));
}

/// Each text has the `+` that its place says, and what was to be around it: zeros, either case of digits, blanks, CR LF.
#[test]
fn the_texts() {
    let mut r = Prng::new(3);
    let random: Vec<Known> = (0..2000).map(|_| case(&mut r)).collect();
    let all = known();
    for Known { place, file, answer, decides } in random.iter().chain(&all) {
        let signs = match place {
            Place::Nowhere => 0,
            Place::Number(_, Stands::Twice) => 2,
            _ => 1,
        };
        assert_eq!(file.iter().filter(|b| **b == b'+').count(), signs, "{place:?}");
        assert_eq!(answer.is_err(), matches!(place, Place::Number(..)));
        assert!(decides.is_none_or(|cell| *answer == Err(cell.number())));
        // A wrong call sees another text just where it should.
        for kind in Cell::ALL {
            let here =
                matches!(place, Place::Number(cell, stands) if *cell == kind && *stands != Stands::Alone && *stands != Stands::After);
            assert_eq!(passed_over(file, kind) != *file, here, "{place:?}");
        }
    }
    for list in [&random, &all] {
        let reached: BTreeSet<Cell> = list.iter().filter_map(|known| known.decides).collect();
        assert_eq!(reached.len(), 9);
        let has = |what: &str| list.iter().filter(|known| String::from_utf8_lossy(&known.file).contains(what)).count();
        for what in ["\r\n", "000000000000000000000000000000", "\u{3000}", "\t", "b", "B", "\n+", "| +"] {
            assert!(has(what) > list.len() / 50, "{what:?}");
        }
    }
}

#[test]
fn no_difference_in_the_numbers() {
    rust::quiet();
    let table = run(&paper::CALLS, &FEW);
    assert_eq!(table.differences, 0);
    assert!(!table.gaps().iter().any(|gap| gap.contains("PlusSign")));
}

#[test]
fn a_kind_that_is_missing_is_told() {
    let mut table = Table::default();
    let missing = |table: &Table| table.gaps().iter().filter(|gap| gap.starts_with("PlusSign")).count();
    for (i, cell) in Cell::ALL.into_iter().enumerate() {
        assert_eq!(missing(&table), 9 - i);
        table.plus(cell);
    }
    assert_eq!(missing(&table), 0);
}

#[test]
fn a_sign_passed_over_is_found() {
    let wrong = [
        wrong_in::<0>(),
        wrong_in::<1>(),
        wrong_in::<2>(),
        wrong_in::<3>(),
        wrong_in::<4>(),
        wrong_in::<5>(),
        wrong_in::<6>(),
        wrong_in::<7>(),
        wrong_in::<8>(),
    ];
    for (kind, calls) in Cell::ALL.iter().zip(&wrong) {
        for (i, calls) in calls.iter().enumerate() {
            assert!(differences(calls) > 0, "{kind:?}, call {i}");
        }
    }
}

#[test]
fn wrong_reads_are_found() {
    let wrong: [(&str, Read); 5] = [
        ("a write before the refusal", |f, out| {
            let r = (TEXT.read)(f, out);
            if matches!(r.0, 24 | 26 | 28) && !out.is_empty() {
                out[0] ^= 1;
            }
            r
        }),
        ("a write of the words that the crate reads", |f, out| {
            if let Outcome::Given(p) = text::read_with_signs(f) {
                out.iter_mut().zip(lc3_differential::object::encode(&p)).for_each(|(to, word)| *to = word);
            }
            (TEXT.read)(f, out)
        }),
        ("a length beside the refusal", |f, out| match (TEXT.read)(f, out) {
            (n @ (24 | 26 | 28), _) => (n, out.len()),
            r => r,
        }),
        ("26 for 28", |f, out| match (TEXT.read)(f, out) {
            (28, _) => (26, 0),
            r => r,
        }),
        ("24 for 26", |f, out| match (TEXT.read)(f, out) {
            (26, _) => (24, 0),
            r => r,
        }),
    ];
    for (name, read) in wrong {
        assert!(differences(&reads(read)) > 0, "{name}");
    }
}

#[test]
fn wrong_lengths_are_found() {
    let wrong: [(&str, Length); 11] = [
        ("document 01's own rule", |f| match text::read_with_signs(f) {
            Outcome::Given(p) => (0, lc3_differential::object::encode(&p).len()),
            Outcome::Refused(n, _) => (n, 0),
        }),
        ("a length beside the refusal", |f| match (TEXT.length)(f) {
            (n @ (24 | 26 | 28), _) => (n, 1),
            r => r,
        }),
        ("28 for 24", |f| match (TEXT.length)(f) {
            (24, _) => (28, 0),
            r => r,
        }),
        ("26 for 28", |f| match (TEXT.length)(f) {
            (28, _) => (26, 0),
            r => r,
        }),
        ("a label's name refused", |f| refused(f, 26, |f| parts(f).is_some_and(|p| p.labels.iter().any(|l| l.name.starts_with(b"+"))))),
        ("a relocation's name refused", |f| {
            refused(f, 26, |f| parts(f).is_some_and(|p| p.relocs.iter().any(|(_, name)| name.starts_with(b"+"))))
        }),
        ("a SOURCE cell refused", |f| refused(f, 28, |f| parts(f).is_some_and(|p| p.source.is_some_and(|s| s.contains(&b'+'))))),
        ("a comment refused", |f| refused(f, 24, |f| f.split(|b| *b == b'\n').any(|l| l.starts_with(b"#") && l.contains(&b'+')))),
        ("leading zeros refused", |f| refused(f, 26, |f| a_decimal(f, |s| s.len() > 1 && s.starts_with('0')))),
        ("over 20 digits refused", |f| refused(f, 26, |f| a_decimal(f, |s| s.len() > 20))),
        ("any `+` refused", |f| refused(f, 26, |f| f.contains(&b'+'))),
    ];
    for (name, length) in wrong {
        assert!(differences(&lengths(length)) > 0, "{name}");
        assert!(differences(&host(length)) > 0, "the host's: {name}");
    }
}

/// Nothing that is written has a `+` in a number: both rules read it alike. Names have one at times.
#[test]
fn the_writer_puts_none() {
    let mut r = Prng::new(4);
    let mut signs = 0;
    for i in 0..20_000 {
        let fair = i % 2 == 0;
        let file = text_write::write(&object::parts(&mut r, fair));
        assert_eq!(text::read(&file), text::read_with_signs(&file));
        // Names with a newline make rows of their own.
        assert!(!fair || cells(std::str::from_utf8(&file).unwrap()).iter().all(|(_, s)| !s.starts_with('+')));
        signs += u64::from(file.contains(&b'+'));
    }
    assert!(signs > 500);
}

/// But a name that has a newline in it, so that the object isn't fair, brings with it whatever stands after: here a row of its own.
#[test]
fn a_newline_in_a_name_may_bring_one() {
    let relocs = vec![(0x3000, b"A\n+0FF | B".to_vec())];
    let file = text_write::write(&Parts { source: Some(vec![]), relocs, ..Parts::default() });
    assert_eq!(text::read(&file), Outcome::Refused(26, Some(Excluded::PlusSign)));
    assert_eq!(text::read_with_signs(&file).number(), 0);
}
