//! Document 01, "Line and source tables": counting x0A, by plain search.
use super::utf8::{white_after, white_before};
use crate::parts::Parts;

/// A query and what it asks, under the crate's names.
#[derive(Debug, Clone, Copy, PartialEq, Eq)]
pub enum Query {
    CountLines,
    RawLineSpan(u64),
    LineSpan(u64),
    GetPosPair(u64),
    Get(u64),
    Find(u16),
}

/// Two values; a query with one leaves the second 0.
pub type Values = (u64, u64);

/// Where each line starts and ends, its newline included.
fn lines(src: &[u8]) -> Vec<(usize, usize)> {
    let mut out = vec![];
    let mut start = 0;
    for (i, b) in src.iter().enumerate() {
        if *b == 0x0A {
            out.push((start, i + 1));
            start = i + 1;
        }
    }
    out.push((start, src.len()));
    out
}

/// The answer, or 4, 5 or 6, of a well formed object.
pub fn ask(p: &Parts, q: Query) -> Result<Values, u8> {
    let src = p.source.as_ref().ok_or(4)?;
    let lines = lines(src);
    let line_of = |n: u64| lines.get(usize::try_from(n).unwrap()).copied().ok_or(5);
    match q {
        Query::CountLines => Ok((lines.len() as u64, 0)),
        Query::RawLineSpan(n) => line_of(n).map(|(a, e)| (a as u64, e as u64)),
        Query::LineSpan(n) => {
            let (a, e) = line_of(n)?;
            let e = a + white_after(&src[a..e]);
            let a = a + white_before(&src[a..e]);
            Ok((a as u64, e as u64))
        }
        Query::GetPosPair(i) => Ok(get_pos_pair(src, i)),
        Query::Get(n) => {
            let found = p.lines.iter().find_map(|(first, addrs)| {
                let off = n.checked_sub(*first)?;
                addrs.get(usize::try_from(off).unwrap()).copied()
            });
            found.map(|a| (u64::from(a), 0)).ok_or(6)
        }
        Query::Find(a) => {
            let found = p.lines.iter().find_map(|(first, addrs)| addrs.iter().position(|x| *x == a).map(|o| first.wrapping_add(o as u64)));
            found.map(|l| (l, 0)).ok_or(6)
        }
    }
}

/// `get_get_pos_pair` on source bytes, as the exported call: never refuses.
pub fn get_pos_pair(src: &[u8], i: u64) -> Values {
    if i > src.len() as u64 {
        return (src.iter().filter(|b| **b == 0x0A).count() as u64 + 1, i);
    }
    let before = &src[..i as usize];
    let line = before.iter().filter(|b| **b == 0x0A).count() as u64;
    let start = before.iter().rposition(|b| *b == 0x0A).map_or(0, |at| at + 1);
    (line, i - start as u64)
}

/// Whether the block that `find` stops at has the address twice: the Rust may name another neighbour.
pub fn equal_neighbours(p: &Parts, a: u16) -> bool {
    let block = p.lines.iter().find(|(_, addrs)| addrs.contains(&a));
    block.is_some_and(|(_, addrs)| addrs.iter().filter(|x| **x == a).count() > 1)
}
