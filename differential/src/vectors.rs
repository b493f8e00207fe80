//! Lists of calls and their answers, for programs that replay them without Rust at hand.
//!
//! Queries: a line is `CALL INPUT ARG NUMBER FIRST SECOND`, fields parted by one space. CALL is a letter: c count_lines,
//! r raw_line_span, s line_span, p get_pos_pair, g get, f find, k check. INPUT is the object's words, 8 hexadecimal digits each, empty
//! where it has none. ARG, FIRST and SECOND have 16 digits, NUMBER has 2; a value that a call doesn't have is 0.
//! Lending fees (request P14), after them: `l INPUT ARG NUMBER FEE BASE WORDS LABELS`, likewise. ARG is 1 for a member, else 0.
//!
//! Files: a line is `CALL INPUT NUMBER OUTPUT`. CALL is B binary read, b binary write, T text read, t text write. INPUT and OUTPUT are
//! bytes, 2 digits each, or words; a refusal has no OUTPUT. A binary file that is written has its records in the object's order, relocation
//! addresses low byte first (request P10).
use std::collections::{BTreeMap, BTreeSet};
use std::ops::RangeInclusive;

use crate::gen;
use crate::marked::{self, Input};
use crate::numbers::query::{Query, Values};
use crate::numbers::tariff::{self, Fee};
use crate::object::encode;
use crate::parts::{Label, Parts};
use crate::prng::Prng;
use crate::reference::{self, Answer, Object};

/// For each call and number, the shortest lines and others at random; the characters of a line; the inputs that they are chosen from.
const SHORTEST: usize = 5;
const OTHERS: usize = 15;
const WIDEST: usize = 4000;
const OBJECTS: u64 = 30_000;

/// In digits; of nothing, none.
fn bytes(b: &[u8]) -> String {
    b.iter().map(|x| format!("{x:02X}")).collect()
}

fn words(w: &[u32]) -> String {
    w.iter().map(|x| format!("{x:08X}")).collect()
}

fn letter_and_argument(q: Query) -> (char, u64) {
    match q {
        Query::CountLines => ('c', 0),
        Query::RawLineSpan(line) => ('r', line),
        Query::LineSpan(line) => ('s', line),
        Query::GetPosPair(index) => ('p', index),
        Query::Get(line) => ('g', line),
        Query::Find(address) => ('f', address.into()),
    }
}

/// The lines of one call and number, with their rank: the length, or any number. An input is offered once.
#[derive(Default)]
struct Lines {
    shortest: BTreeSet<(u64, String)>,
    others: BTreeSet<(u64, String)>,
    inputs: BTreeSet<String>,
}

#[derive(Default)]
struct Kept(BTreeMap<(char, u8), Lines>);

impl Kept {
    /// A line of the call and the number; `rest` follows the input.
    fn offer(&mut self, r: &mut Prng, call: char, number: u8, input: String, rest: String) {
        let line = format!("{call} {input} {rest}");
        let Lines { shortest, others, inputs } = self.0.entry((call, number)).or_default();
        if line.len() > WIDEST || !inputs.insert(input) {
            return;
        }
        for (lines, rank, most) in [(shortest, line.len() as u64, SHORTEST), (others, r.next(), OTHERS)] {
            lines.insert((rank, line.clone()));
            if lines.len() > most {
                lines.pop_last();
            }
        }
    }

    /// A call that fills a buffer, where it is in the runs, or refused: a number is the documents', also where the crate isn't asked or
    /// goes by another rule.
    fn fills<T, U>(
        &mut self,
        r: &mut Prng,
        call: char,
        (input, show): (&[T], fn(&[T]) -> String),
        a: &Answer<Vec<U>>,
        out: fn(&[U]) -> String,
    ) {
        held(a);
        if a.excluded.is_none() || a.number != 0 {
            let filled = a.value.as_deref().map(out).unwrap_or_default();
            self.offer(r, call, a.number, show(input), format!("{:02X} {filled}", a.number));
        }
    }

    fn lending_fee(&mut self, r: &mut Prng, object: &[u32], member: bool, a: &Answer<Fee>) {
        held(a);
        let Fee { fee, base, words: started, labels } = a.value.unwrap_or_default();
        let answer = format!("{:016X} {:02X} {fee:016X} {base:016X} {started:016X} {labels:016X}", u64::from(member), a.number);
        self.offer(r, 'l', a.number, words(object), answer);
    }

    fn print(&self) {
        let kept = self.0.values().flat_map(|l| l.shortest.iter().chain(&l.others));
        let lines: BTreeSet<&String> = kept.map(|(_, line)| line).collect();
        lines.iter().for_each(|line| println!("{line}"));
    }
}

fn held<T>(a: &Answer<T>) {
    assert_eq!(a.difference, None, "the reference's sides differ");
}

/// The list of queries; the same for every run.
pub fn queries() {
    let mut r = Prng::new(6);
    let mut kept = Kept::default();
    for _ in 0..OBJECTS {
        let object = Object::new(gen::object::case(&mut r));
        let check = object.check();
        held(&check);
        let answer = |arg: u64, number: u8, (first, second): Values| format!("{arg:016X} {number:02X} {first:016X} {second:016X}");
        kept.offer(&mut r, 'k', check.number, words(&object.words), answer(0, check.number, (0, 0)));
        for q in gen::query::one_of_each(&mut r, object.parts()) {
            let (call, arg) = letter_and_argument(q);
            let a = object.query(q);
            held(&a);
            kept.offer(&mut r, call, a.number, words(&object.words), answer(arg, a.number, a.value.unwrap_or_default()));
        }
    }
    kept.print();
    lending_fees();
}

/// The list of lending fees; the same for every run. Those that are known come first, for others and for members.
fn lending_fees() {
    let mut r = Prng::new(10);
    let known = gen::tariff::known();
    for (known, member) in known.iter().flat_map(|known| [(known, false), (known, true)]) {
        let mut one = Kept::default();
        let paper = tariff::ask(&known.words, member);
        one.lending_fee(&mut r, &known.words, member, &reference::known_fee(known.fee(member), Some(paper)));
        one.print();
    }
    let mut kept = Kept::default();
    for _ in 0..OBJECTS {
        let (object, member) = (Object::new(gen::tariff::case(&mut r)), r.once_in(2));
        if known.iter().all(|known| known.words != object.words) {
            kept.lending_fee(&mut r, &object.words, member, &object.lending_fee(member));
        }
    }
    kept.print();
}

/// The same letter composed and decomposed, as two labels and as two relocations.
fn accents() -> Parts {
    let names: [&[u8]; 2] = [b"e\xCC\x81", b"\xC3\xA9"];
    let mut p = Parts { source: Some(b"\n".to_vec()), ..Parts::default() };
    for (i, name) in names.into_iter().enumerate() {
        *p.label_mut(name) = Label { name: name.into(), addr: 0x3000 + i as u16, external: true, start: i as u64 };
        p.relocs.push((0x3010 + i as u16, name.into()));
    }
    p
}

/// Groups of texts, each of a sentence of document 01 that cases at random seldom show: `.TEXT` lines aren't trimmed, and a count is below
/// 2^16; EXT is below 2^8, INDEX and LINE below 2^64; a table without lines is empty; relocations alone are dropped.
const SENTENCES: [&str; 18] = [
    ".TEXT\n3000\n0\n",
    ".TEXT\n 3000\n0\n",
    ".TEXT\n3000 \n0\n",
    ".TEXT\n3000\n0 \n.SYMBOL\n",
    ".TEXT\n3000\n1\n 1234\n",
    ".TEXT\n3000\n65536\n",
    ".SYMBOL\nADDR | EXT | LABEL\n3000 | 255 | A\n",
    ".SYMBOL\nADDR | EXT | LABEL\n3000 | 256 | A\n",
    ".DEBUG\nLABEL | INDEX\nA | 18446744073709551615\n=\n=\n",
    ".DEBUG\nLABEL | INDEX\nA | 18446744073709551616\n=\n=\n",
    ".DEBUG\n=\nLINE | ADDR | SOURCE\n00000000000000000000000000000000 | ????\n=\n",
    ".DEBUG\n=\nLINE | ADDR | SOURCE\n18446744073709551616 | ????\n=\n",
    ".SYMBOL\n.LINKER_INFO\n.DEBUG\n=\n=\n",
    ".DEBUG\n",
    ".LINKER_INFO\nADDR | LABEL\n3000 | A\n",
    ".LINKER_INFO\nADDR | LABEL\n3000 | A\n.DEBUG\n=\n=\n",
    ".LINKER_INFO\nADDR | LABEL\n3000 | A\n.SYMBOL\nADDR | EXT | LABEL\n3000 | 0 | A\n",
    ".LINKER_INFO\nADDR | LABEL\n3000 | A\n.DEBUG\n=\nLINE | ADDR | SOURCE\n0 | ????\n=\n",
];

/// Groups of texts about request P8: a `+` in each kind of number cell; the same in rows as they are written, which a reader may know by
/// their columns; in which order it is asked for; where it does nothing, in a name or in a SOURCE cell; where document 01's own rule refuses
/// too; blanks around it, which `.TEXT` lines keep; and zeros before a number.
const PLUS_SIGNS: [&str; 46] = [
    ".TEXT\n+0FF\n0\n",
    ".TEXT\n3000\n+0\n",
    ".TEXT\n3000\n+1\n1234\n",
    ".TEXT\n3000\n1\n+0FF\n",
    ".SYMBOL\nADDR | EXT | LABEL\n+0FF | 0 | A\n",
    ".SYMBOL\nADDR | EXT | LABEL\n3000 | +0 | A\n",
    ".LINKER_INFO\nADDR | LABEL\n+0FF | A\n",
    ".DEBUG\nLABEL | INDEX\nA | +5\n=\n=\n",
    ".DEBUG\n=\nLINE | ADDR | SOURCE\n+0 | ????\n=\n",
    ".DEBUG\n=\nLINE | ADDR | SOURCE\n0 | +0FF\n1 | ????\n=\n",
    ".TEXT\n3000\n3\n1234\n+0FF\n????\n",
    ".TEXT\n3000\n1\n1234\n+001\n0\n",
    ".SYMBOL\nADDR | EXT | LABEL\n3001 |   0 | A\n+0FF |   0 | B\n",
    ".SYMBOL\nADDR | EXT | LABEL\n3001 |   0 | A\n3002 |  +1 | B\n",
    ".LINKER_INFO\nADDR | LABEL\n3001 | A\n+0FF | B\n",
    ".DEBUG\nLABEL | INDEX\nA     |     5\nB     |    +6\n====================\n====================\n",
    ".DEBUG\n====================\nLINE | ADDR | SOURCE\n   0 | ???? | a\\n\n  +1 | 3000 | b\\n\n   2 | ???? | \n====================\n",
    ".DEBUG\n====================\nLINE | ADDR | SOURCE\n   0 | ???? | a\\n\n   1 | +0FF | b\\n\n   2 | ???? | \n====================\n",
    ".DEBUG\n====================\nLINE | ADDR | SOURCE\n   0 | ???? | +\\n\n   1 | 3000 | +1\\n\n   2 | ???? | \n====================\n",
    ".TEXT\n3000\n0\n3000\n+0\n",
    ".DEBUG\nLABEL | INDEX\nA | +5\n",
    ".DEBUG\n=\nLINE | ADDR | SOURCE\n0 | ????\n=\n.DEBUG\n=\nLINE | ADDR | SOURCE\n+0 | ????\n=\n",
    ".SYMBOL\nADDR | EXT | LABEL\n3000 | 1 | +A\n",
    ".DEBUG\nLABEL | INDEX\n+A | 5\n=\n=\n",
    ".SYMBOL\nADDR | EXT | LABEL\n3000 | 0 | A\n.LINKER_INFO\nADDR | LABEL\n3001 | +A\n",
    ".DEBUG\n=\nLINE | ADDR | SOURCE\n0 | ???? | +1\n=\n",
    "#+0FF\n.TEXT\n3000\n1\n# +1\n00FF\n",
    ".DEBUG\n=\nLINE | ADDR | SOURCE\n0 | ???? | \\u{+41}\n=\n",
    ".TEXT\n+\n0\n",
    ".TEXT\n3000\n+\n",
    ".TEXT\n+3000\n0\n",
    ".TEXT\n0+FF\n0\n",
    ".TEXT\n++FF\n0\n",
    ".DEBUG\nLABEL | INDEX\nA | +\n=\n=\n",
    ".DEBUG\nLABEL | INDEX\nA | ++5\n=\n=\n",
    ".DEBUG\nLABEL | INDEX\nA | 5+\n=\n=\n",
    ".DEBUG\nLABEL | INDEX\nA |  +5 \n=\n=\n",
    ".DEBUG\n=\nLINE | ADDR | SOURCE\n +0  |  ???? \n=\n",
    ".SYMBOL\nADDR | EXT | LABEL\n +0FF | 0 | A\n",
    ".TEXT\n +0FF\n0\n",
    ".TEXT\n+0FF \n0\n",
    ".TEXT\n3000\n +1\n1234\n",
    ".TEXT\n3000\n000000000000000000000000000001\n00FF\n",
    ".DEBUG\nLABEL | INDEX\nA | 000000000000000000000000000005\n=\n=\n",
    ".DEBUG\nLABEL | INDEX\nA | 000018446744073709551615\n=\n=\n",
    ".DEBUG\nLABEL | INDEX\nA | 000018446744073709551616\n=\n=\n",
];

/// Unicode's 25 White_Space characters (P6) and what stands beside each, with x180E, x200B and xFEFF.
const BESIDE_WHITE_SPACE: [RangeInclusive<u32>; 12] = [
    0x8..=0xE,
    0x1F..=0x21,
    0x84..=0x86,
    0x9F..=0xA1,
    0x167F..=0x1681,
    0x180E..=0x180E,
    0x1FFF..=0x200B,
    0x2027..=0x202A,
    0x202E..=0x2030,
    0x205E..=0x2060,
    0x2FFF..=0x3001,
    0xFEFF..=0xFEFF,
];

/// Of each of these two texts: trimmed at both ends or 21, a blank line or 22.
fn white_space_texts() -> impl Iterator<Item = String> {
    let characters = BESIDE_WHITE_SPACE.into_iter().flatten().filter_map(char::from_u32);
    characters.flat_map(|c| [format!("{c}LC-3 OBJ FILE{c}"), format!("LC-3 OBJ FILE\n{c}\n")])
}

/// The list of files of one form; the same for every run.
fn files(read: (char, fn(&mut Prng) -> Vec<u8>, fn(&[u8]) -> Answer<Vec<u32>>), write: (char, fn(&Object) -> Answer<Vec<u8>>)) {
    let mut r = Prng::new(7);
    let mut kept = Kept::default();
    let both = |kept: &mut Kept, r: &mut Prng, file: &[u8], object: Vec<u32>| {
        kept.fills(r, read.0, (file, bytes), &(read.2)(file), words);
        let object = Object::new(object);
        kept.fills(r, write.0, (&object.words, words), &(write.1)(&object), bytes);
    };
    for _ in 0..OBJECTS {
        let (file, object) = ((read.1)(&mut r), gen::object::case(&mut r));
        both(&mut kept, &mut r, &file, object);
    }
    kept.print();
    let mut accented = Kept::default();
    let object = encode(&accents());
    let file = (write.1)(&Object::new(object.clone())).value.expect("the accents are well formed");
    both(&mut accented, &mut r, &file, object);
    accented.print();
}

/// About P13's bound: six header bytes, 10 with no room; a line block alone with no address and with two, 5 of 5 words and 7 of 7; and
/// document 01's 77 bytes, 18 of 35.
fn room_files() -> [Vec<u8>; 4] {
    let (_, example, _) = marked::example();
    [example[..6].to_vec(), gen::room::alone(0), gen::room::alone(2), example]
}

pub fn binary() {
    files(('B', gen::binary::case, reference::read_binary), ('b', Object::write_binary));
    let mut r = Prng::new(9);
    // About P10: what document 01's object gives now, and the request's own cases.
    let example = Input::WriteBinary(marked::example().0);
    let relocations = marked::relocations().into_iter().map(|(_, input, _)| input);
    for input in room_files().map(Input::ReadBinary).into_iter().chain([example]).chain(relocations) {
        let mut one = Kept::default();
        match input {
            Input::ReadBinary(file) => one.fills(&mut r, 'B', (&file, bytes), &reference::read_binary(&file), words),
            Input::WriteBinary(object) => one.fills(&mut r, 'b', (&object, words), &Object::new(object.clone()).write_binary(), bytes),
            Input::ReadText(_) | Input::WriteText(_) => unreachable!("this list has binary files"),
        }
        one.print();
    }
}

pub fn text() {
    files(('T', gen::text::case, reference::read_text), ('t', Object::write_text));
    let mut r = Prng::new(8);
    let mut sentences = Kept::default();
    for groups in SENTENCES {
        let file = format!("LC-3 OBJ FILE\n{groups}").into_bytes();
        sentences.fills(&mut r, 'T', (&file, bytes), &reference::read_text(&file), words);
    }
    sentences.print();
    let plus_signs = PLUS_SIGNS.iter().map(|groups| format!("LC-3 OBJ FILE\n{groups}"));
    for text in white_space_texts().chain(plus_signs) {
        let mut one = Kept::default();
        one.fills(&mut r, 'T', (text.as_bytes(), bytes), &reference::read_text(text.as_bytes()), words);
        one.print();
    }
}
