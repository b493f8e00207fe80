//! What to ask of an object's line and source tables.
use super::object::wide;
use crate::numbers::query::Query;
use crate::parts::Parts;
use crate::prng::Prng;

/// A line: mostly one of the source, else just past it, near the largest, or any.
fn line(r: &mut Prng, source: &[u8]) -> u64 {
    let count = source.iter().filter(|b| **b == b'\n').count() + 1;
    match r.below(8) {
        0 => count as u64 + r.below(2) as u64,
        1 => u64::MAX - r.below(3) as u64,
        2 => wide(r),
        _ => r.below(count) as u64,
    }
}

/// A source byte index: mostly in the source, its end and just past it among them.
pub fn index(r: &mut Prng, source: &[u8]) -> u64 {
    match r.below(8) {
        0 => u64::MAX - r.below(3) as u64,
        1 => wide(r),
        _ => r.below(source.len() + 3) as u64,
    }
}

/// A line to find the address of, and an address to find the line of: mostly such as a block has, or its neighbours.
fn mapped(r: &mut Prng, p: &Parts) -> (u64, u16) {
    let source = p.source.as_deref().unwrap_or_default();
    let full: Vec<_> = p.lines.iter().filter(|l| !l.1.is_empty()).collect();
    if full.is_empty() || r.once_in(10) {
        return (line(r, source), r.next() as u16);
    }
    let (first, addrs) = full[r.below(full.len())];
    let asked = match r.below(8) {
        0 => first.wrapping_sub(1),
        1 => first.wrapping_add(addrs.len() as u64),
        _ => first.wrapping_add(r.below(addrs.len()) as u64),
    };
    let near = if r.once_in(8) { 1 } else { 0 };
    (asked, addrs[r.below(addrs.len())].wrapping_add(near))
}

/// One query of each kind. Words that aren't well formed are asked too: each query says 1.
pub fn one_of_each(r: &mut Prng, parts: Option<&Parts>) -> [Query; 6] {
    let none = Parts::default();
    let p = parts.unwrap_or(&none);
    let source = p.source.as_deref().unwrap_or_default();
    let (get, find) = mapped(r, p);
    [
        Query::CountLines,
        Query::RawLineSpan(line(r, source)),
        Query::LineSpan(line(r, source)),
        Query::GetPosPair(index(r, source)),
        Query::Get(get),
        Query::Find(find),
    ]
}
