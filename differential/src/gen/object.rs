//! Random well formed objects, wild or fair.
use crate::object::encode;
use crate::parts::{Label, Parts};
use crate::prng::Prng;

/// Names that a fair object may have; the accents stand composed and decomposed.
const FAIR_NAMES: &[&str] = &[
    "A", "B", "a", "LOOP", "LOOP2", "loop", "HALT", "X_1", "é", "e\u{301}", "É", "\u{212B}", "Å", "A\u{30A}", "ß", "日本", "🦀",
    "\u{200B}", "\u{FEFF}Z", "|", "a|b", "\u{0}", "\u{7F}", "ADDR", "LABEL", "????", "\\n", "'", "\"", "+1", "-", "0000", "A.", "A#", "A=",
    "\u{10FFFF}", "\u{180E}", "ÀÈ", "a_rather_long_name_for_a_label_so_that_its_column_is_wide", "日本語日本語日本語",
];

/// Names that a text file loses or changes.
const WILD_NAMES: &[&str] = &[
    "", " ", "  A", "A ", "\tB", "A B", "A | B", " | ", "|", ".A", ".TEXT", ".DEBUG", "#", "#A", "=", "====", "\n", "A\nB", "A\r",
    "\u{85}", "\u{A0}X", "X\u{3000}", "\u{2028}", "\u{1680}", "\r\n.TEXT\n", "LABEL | INDEX", "0 | ???? | ",
];

/// Pieces of source text.
const PIECES: &[&str] = &[
    "a", "b", " ", "  ", "\t", "\r", "'", "\"", "\\", "\\n", "\\u{41}", "é", "e\u{301}", "日", "🦀", "\u{0}", "\u{7F}", "\u{80}", "\u{85}",
    "\u{B}", "\u{C}", "\u{1C}", "\u{205F}", "\u{A0}", "\u{2028}", "\u{3000}", "\u{FFFD}", ".orig x3000", "ADD R0, R0, #1 ; one", " | ",
    "#", "=", ".", "~", "\u{10FFFF}", "\u{FFFF}",
];

pub fn name(r: &mut Prng, fair: bool) -> Vec<u8> {
    if !fair && r.once_in(3) {
        return r.pick(WILD_NAMES).as_bytes().to_vec();
    }
    if r.once_in(4) {
        return format!("L{}", r.below(1000)).into_bytes();
    }
    if r.once_in(8) {
        return format!("{}{}", r.pick(FAIR_NAMES), r.pick(FAIR_NAMES)).into_bytes();
    }
    r.pick(FAIR_NAMES).as_bytes().to_vec()
}

fn address(r: &mut Prng) -> u16 {
    match r.below(4) {
        0 => r.pick(&[0, 1, 0xFF, 0x100, 0x3000, 0x3001, 0x0130, 0xFDFF, 0xFE00, 0xFFFF]),
        1 => 0x3000 + r.below(32) as u16,
        _ => r.next() as u16,
    }
}

/// A 64-bit number near its ends, or in between.
pub fn wide(r: &mut Prng) -> u64 {
    match r.below(5) {
        0 => r.below(20) as u64,
        1 => u64::MAX - r.below(6) as u64,
        2 => 10u64.pow(r.below(20) as u32) - r.below(2) as u64,
        3 => r.next() >> r.below(64),
        _ => r.below(2000) as u64,
    }
}

fn source(r: &mut Prng) -> Vec<u8> {
    let mut out = String::new();
    for _ in 0..r.below(9) {
        for _ in 0..r.below(4) {
            out.push_str(r.pick(PIECES));
        }
        out.push_str(r.pick(&["\n", "\n", "\n", "\r\n", "\n\n", ""]));
    }
    out.into_bytes()
}

fn addresses(r: &mut Prng, count: usize, fair: bool) -> Vec<u16> {
    let mut out: Vec<u16> = (0..count).map(|_| address(r)).collect();
    out.sort();
    if fair || !r.once_in(4) {
        out.dedup();
    }
    out
}

/// Line blocks that end before the next; where wild, also empty, touching, or past the largest line.
fn wild_lines(r: &mut Prng) -> Vec<(u64, Vec<u16>)> {
    let mut out = vec![];
    let mut from = match r.below(4) {
        0 => u64::MAX - r.below(8) as u64,
        1 => wide(r),
        _ => r.below(3) as u64,
    };
    for _ in 0..r.below(5) {
        let count = r.below(5);
        let addrs = addresses(r, count, false);
        let n = addrs.len() as u64;
        out.push((from, addrs));
        let Some(end) = from.checked_add(n.max(1)).and_then(|e| e.checked_add(r.below(3) as u64)) else { break };
        from = if r.once_in(12) { end.max(u64::MAX - r.below(5) as u64) } else { end };
    }
    out
}

fn fair_lines(r: &mut Prng, last_line: u64) -> Vec<(u64, Vec<u16>)> {
    let mut out = vec![];
    let mut from = r.below(3) as u64;
    while from < last_line && !r.once_in(4) {
        let count = 1 + r.below(3);
        let mut addrs = addresses(r, count, true);
        addrs.truncate((last_line - from) as usize);
        let end = from + addrs.len() as u64;
        out.push((from, addrs));
        from = end + 1 + r.below(2) as u64;
    }
    out
}

/// A fair object's lines with one thing that isn't: blocks that touch, an end on the last line, equal addresses, an empty block.
fn nearly_fair(r: &mut Prng, lines: &mut Vec<(u64, Vec<u16>)>) {
    if lines.is_empty() {
        return;
    }
    let at = r.below(lines.len());
    let count = lines[at].1.len() as u64;
    match r.below(4) {
        0 if at > 0 => lines[at].0 = lines[at - 1].0 + lines[at - 1].1.len() as u64,
        1 => {
            let last = lines.last_mut().unwrap();
            last.0 += 1;
        }
        2 if count > 1 => lines[at].1[1] = lines[at].1[0],
        _ => lines[at].1.clear(),
    }
}

/// A well formed object; one that is fair, or nearly, where asked.
pub fn parts(r: &mut Prng, fair: bool) -> Parts {
    let mut p = Parts::default();
    for _ in 0..r.below(4) {
        let count = if r.once_in(50) { r.below(400) } else { r.below(5) };
        let data = (0..count).map(|_| (!r.once_in(4)).then(|| address(r))).collect();
        let addr = address(r);
        Parts::put(&mut p.blocks, addr, data);
    }
    if r.once_in(8) {
        return p;
    }
    for _ in 0..r.below(5) {
        let name = name(r, fair);
        let l = Label { name: name.clone(), addr: address(r), external: r.once_in(3), start: wide(r) };
        *p.label_mut(&name) = l;
    }
    if fair || !r.once_in(5) {
        let src = source(r);
        p.lines = match fair {
            true => fair_lines(r, src.iter().filter(|b| **b == b'\n').count() as u64),
            false => wild_lines(r),
        };
        if fair && r.once_in(4) {
            nearly_fair(r, &mut p.lines);
        }
        p.source = Some(src);
    }
    for _ in 0..r.below(4) {
        let (addr, name) = (address(r), name(r, fair));
        Parts::put(&mut p.relocs, addr, name);
    }
    p
}

/// The words of an object with one small fault, or none.
pub fn damaged_words(r: &mut Prng, mut w: Vec<u32>) -> Vec<u32> {
    for _ in 0..1 + r.below(2) {
        if w.is_empty() {
            w.push(r.next() as u32);
            continue;
        }
        let at = r.below(w.len());
        match r.below(7) {
            0 => w[at] ^= 1 << r.below(32),
            1 => w.truncate(at),
            2 => {
                w.remove(at);
            }
            3 => w.insert(at, w[at]),
            4 => {
                let other = r.below(w.len());
                w.swap(at, other);
            }
            5 => w[at] = (w[at] & 0x1FFF_FFFF) | (r.below(8) as u32) << 29,
            _ => {
                let end = at + 1 + r.below((w.len() - at).min(8));
                let copy = w[at..end].to_vec();
                let to = r.below(w.len() + 1);
                w.splice(to..to, copy);
            }
        }
    }
    w
}

/// The words of a random object, one in five of them damaged.
pub fn case(r: &mut Prng) -> Vec<u32> {
    let fair = r.once_in(2);
    let words = encode(&parts(r, fair));
    match r.once_in(5) {
        true => damaged_words(r, words),
        false => words,
    }
}
