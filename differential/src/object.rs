//! Document 01, "The holding", an object here: words to parts and back, well formed, fair.
use crate::numbers::utf8::{is_utf8, white_space};
use crate::parts::{Label, Parts};

fn number(out: &mut Vec<u32>, v: u64) {
    for part in [v & 0xFF_FFFF, v >> 24 & 0xFF_FFFF, v >> 48] {
        out.push(6 << 29 | part as u32);
    }
}

fn text(out: &mut Vec<u32>, bytes: &[u8]) {
    for c in bytes.chunks(3) {
        let payload = c.iter().enumerate().map(|(i, b)| u32::from(*b) << (8 * i)).sum::<u32>();
        out.push(7 << 29 | (c.len() as u32) << 24 | payload);
    }
}

/// The words of parts, in the parts' order.
pub fn encode(p: &Parts) -> Vec<u32> {
    let mut out = vec![];
    for (addr, data) in &p.blocks {
        out.push(u32::from(*addr));
        out.extend(data.iter().map(|w| 1 << 29 | w.map_or(0, |v| 1 << 16 | u32::from(v))));
    }
    for l in &p.labels {
        out.push(2 << 29 | u32::from(l.external) << 16 | u32::from(l.addr));
        number(&mut out, l.start);
        text(&mut out, &l.name);
    }
    for (first, addrs) in &p.lines {
        out.push(3 << 29);
        number(&mut out, *first);
        out.extend(addrs.iter().map(|a| 1 << 29 | 1 << 16 | u32::from(*a)));
    }
    if let Some(src) = &p.source {
        out.push(4 << 29);
        text(&mut out, src);
    }
    for (addr, name) in &p.relocs {
        out.push(5 << 29 | u32::from(*addr));
        text(&mut out, name);
    }
    out
}

/// A place in the words.
struct Walk<'a> {
    words: &'a [u32],
}

impl Walk<'_> {
    /// The next word, if `want` takes it.
    fn take<T>(&mut self, want: impl Fn(u32) -> Option<T>) -> Option<T> {
        let (first, rest) = self.words.split_first()?;
        let got = want(*first)?;
        self.words = rest;
        Some(got)
    }
    /// The payload of a word of this kind whose other bits are 0.
    fn kind(&mut self, kind: u32, mask: u32) -> Option<u32> {
        self.take(|w| (w >> 29 == kind && w & 0x1FFF_FFFF & !mask == 0).then_some(w & mask))
    }
    fn number(&mut self) -> Option<u64> {
        let low = u64::from(self.kind(6, 0xFF_FFFF)?);
        let mid = u64::from(self.kind(6, 0xFF_FFFF)?);
        let high = u64::from(self.kind(6, 0xFFFF)?);
        Some(high << 48 | mid << 24 | low)
    }
    /// All text words here; None if one is ill made.
    fn text(&mut self) -> Option<Vec<u8>> {
        let mut out = vec![];
        let mut ended = false;
        while self.words.first().is_some_and(|w| w >> 29 == 7) {
            let w = self.kind(7, 0x3FF_FFFF)?;
            let count = (w >> 24) as usize;
            let bytes = [w as u8, (w >> 8) as u8, (w >> 16) as u8];
            if ended || count == 0 || bytes[count..].iter().any(|b| *b != 0) {
                return None;
            }
            ended = count < 3;
            out.extend(&bytes[..count]);
        }
        is_utf8(&out).then_some(out)
    }
    fn next_kind(&self) -> Option<u32> {
        self.words.first().map(|w| w >> 29)
    }
}

/// Whether each of a list is before the next.
fn rising<T>(list: &[T], before: impl Fn(&T, &T) -> bool) -> bool {
    list.windows(2).all(|w| before(&w[0], &w[1]))
}

/// The parts of a well formed object; None for any other words.
pub fn decode(words: &[u32]) -> Option<Parts> {
    let mut p = Parts::default();
    let mut at = Walk { words };
    while at.next_kind() == Some(0) {
        let addr = at.kind(0, 0xFFFF)? as u16;
        let mut data = vec![];
        while at.next_kind() == Some(1) {
            let w = at.kind(1, 0x1_FFFF)?;
            if w >> 16 == 0 && w != 0 {
                return None;
            }
            data.push((w >> 16 == 1).then_some(w as u16));
        }
        if data.len() > 0xFFFF {
            return None;
        }
        p.blocks.push((addr, data));
    }
    while at.next_kind() == Some(2) {
        let w = at.kind(2, 0x1_FFFF)?;
        let start = at.number()?;
        let name = at.text()?;
        p.labels.push(Label { name, addr: w as u16, external: w >> 16 == 1, start });
    }
    while at.next_kind() == Some(3) {
        at.kind(3, 0)?;
        let first = at.number()?;
        let mut addrs = vec![];
        while at.next_kind() == Some(1) {
            let w = at.kind(1, 0x1_FFFF)?;
            if w >> 16 == 0 {
                return None;
            }
            addrs.push(w as u16);
        }
        p.lines.push((first, addrs));
    }
    if at.next_kind() == Some(4) {
        at.kind(4, 0)?;
        p.source = Some(at.text()?);
    }
    while at.next_kind() == Some(5) {
        let addr = at.kind(5, 0xFFFF)? as u16;
        p.relocs.push((addr, at.text()?));
    }
    (at.words.is_empty() && ordered(&p)).then_some(p)
}

/// The rules of order, and that line blocks need a source.
fn ordered(p: &Parts) -> bool {
    rising(&p.blocks, |a, b| a.0 < b.0)
        && rising(&p.labels, |a, b| a.name < b.name)
        && rising(&p.lines, |a, b| a.0 < b.0 && line_end(a) <= u128::from(b.0))
        && p.lines.iter().all(|(_, addrs)| rising(addrs, |a, b| a <= b))
        && rising(&p.relocs, |a, b| a.0 < b.0)
        && (p.lines.is_empty() || p.source.is_some())
}

/// First line + count, as a whole number.
pub fn line_end((first, addrs): &(u64, Vec<u16>)) -> u128 {
    u128::from(*first) + addrs.len() as u128
}

/// Document 01's "fair", of well formed parts.
pub fn fair(p: &Parts) -> bool {
    let Some(src) = &p.source else { return !p.has_symbols() };
    let name = |n: &[u8]| {
        let s = std::str::from_utf8(n).unwrap();
        !s.is_empty() && !s.chars().any(white_space) && !s.starts_with(['.', '#', '='])
    };
    let last_line = src.iter().filter(|b| **b == b'\n').count() as u128;
    p.labels.iter().all(|l| name(&l.name))
        && p.relocs.iter().all(|(_, n)| name(n))
        && p.lines.iter().all(|l| (1..=0xFFFF).contains(&l.1.len()) && rising(&l.1, |a, b| a < b) && line_end(l) <= last_line)
        && rising(&p.lines, |a, b| line_end(a) < u128::from(b.0))
}

/// Relocation addresses byte-swapped and sorted anew: what a file reads as that has them high byte first.
pub fn swapped(p: &Parts) -> Parts {
    let mut out = p.clone();
    for (addr, _) in &mut out.relocs {
        *addr = addr.swap_bytes();
    }
    out.relocs.sort_by_key(|(a, _)| *a);
    out
}

/// Whether the two address bytes of a relocation differ, so that their order shows.
pub fn swap_changes(p: &Parts) -> bool {
    p.relocs.iter().any(|(a, _)| a.swap_bytes() != *a)
}

/// Whether relocations have another order by their addresses byte-swapped.
pub fn swap_reorders(p: &Parts) -> bool {
    !rising(&p.relocs, |a, b| a.0.swap_bytes() < b.0.swap_bytes())
}
