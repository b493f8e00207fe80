//! Document 01, "Binary form", with request P10: relocation addresses are written low byte first, as all other addresses are.
use super::utf8::is_utf8;
use super::{Excluded, Outcome};
use crate::object::line_end;
use crate::parts::{Label, Parts};

const HEADER: [u8; 7] = [0x6F, 0x62, 0x6A, 0x21, 0x10, 0x00, 0x01];

/// A number of `n` bytes, low byte first, at `at`.
fn low_first(s: &[u8], at: usize, n: usize) -> u64 {
    (0..n).rev().fold(0, |v, i| v << 8 | u64::from(s[at + i]))
}

/// The bytes of a record's fixed part, and its variable part's: 12 if either isn't all there.
fn whole(s: &[u8], fixed: usize, variable: impl Fn(&[u8]) -> u128) -> Result<(&[u8], &[u8], &[u8]), u8> {
    if s.len() < fixed {
        return Err(12);
    }
    let (head, rest) = s.split_at(fixed);
    let n = variable(head);
    if n > rest.len() as u128 {
        return Err(12);
    }
    let (body, rest) = rest.split_at(n as usize);
    Ok((head, body, rest))
}

fn records(mut s: &[u8], p: &mut Parts) -> Result<(), u8> {
    while !s.is_empty() {
        let kind = s[0];
        s = &s[1..];
        let (head, body, rest) = match kind {
            0 => whole(s, 4, |h| 3 * u128::from(low_first(h, 2, 2)))?,
            1 => whole(s, 19, |h| u128::from(low_first(h, 11, 8)))?,
            2 => whole(s, 10, |h| 2 * u128::from(low_first(h, 8, 2)))?,
            3 => whole(s, 8, |h| u128::from(low_first(h, 0, 8)))?,
            4 => whole(s, 10, |h| u128::from(low_first(h, 2, 8)))?,
            _ => return Err(11),
        };
        s = rest;
        if matches!(kind, 1 | 3 | 4) && !is_utf8(body) {
            return Err(13);
        }
        let addr = || low_first(head, 0, 2) as u16;
        match kind {
            0 => {
                let data = body.chunks(3).map(|w| (w[0] == 0xFF).then(|| low_first(w, 1, 2) as u16)).collect();
                Parts::put(&mut p.blocks, addr(), data);
            }
            1 => {
                let l = Label { name: body.to_vec(), addr: addr(), external: head[2] != 0, start: low_first(head, 3, 8) };
                *p.label_mut(body) = l;
            }
            2 => {
                let addrs: Vec<u16> = body.chunks(2).map(|a| low_first(a, 0, 2) as u16).collect();
                if addrs.windows(2).any(|w| w[0] >= w[1]) {
                    return Err(14);
                }
                p.source.get_or_insert_with(Vec::new);
                Parts::put(&mut p.lines, low_first(head, 0, 8), addrs);
            }
            3 => p.source.get_or_insert_with(Vec::new).extend(body),
            _ => Parts::put(&mut p.relocs, addr(), body.to_vec()),
        }
    }
    Ok(())
}

/// Binary read: 10 to 15.
pub fn read(file: &[u8]) -> Outcome<Parts> {
    if file.len() < 7 || file[..7] != HEADER {
        return Outcome::Refused(10, None);
    }
    let mut p = Parts::default();
    if let Err(n) = records(&file[7..], &mut p) {
        return Outcome::Refused(n, None);
    }
    if p.lines.windows(2).any(|w| line_end(&w[0]) > u128::from(w[1].0)) {
        let wraps = p.lines.windows(2).any(|w| line_end(&w[0]) > u128::from(u64::MAX));
        return Outcome::Refused(15, wraps.then_some(Excluded::SumWraps));
    }
    if p.labels.is_empty() && p.source.is_none() {
        p.relocs.clear();
    }
    Outcome::Given(p)
}

/// Binary write of a well formed object, records in the object's order: 2.
pub fn write(p: &Parts) -> Outcome<Vec<u8>> {
    if p.lines.iter().any(|(_, a)| a.len() > 0xFFFF) {
        return Outcome::Refused(2, Some(Excluded::Truncates));
    }
    let mut out = HEADER.to_vec();
    let mut put = |n: usize, v: u64| out.extend((0..n).map(|i| (v >> (8 * i)) as u8));
    for (addr, data) in &p.blocks {
        put(1, 0);
        put(2, (*addr).into());
        put(2, data.len() as u64);
        for w in data {
            put(3, w.map_or(0, |v| 0xFF | u64::from(v) << 8));
        }
    }
    for l in &p.labels {
        put(1, 1);
        put(2, l.addr.into());
        put(1, l.external.into());
        put(8, l.start);
        put(8, l.name.len() as u64);
        l.name.iter().for_each(|b| put(1, (*b).into()));
    }
    for (first, addrs) in &p.lines {
        put(1, 2);
        put(8, *first);
        put(2, addrs.len() as u64);
        addrs.iter().for_each(|a| put(2, (*a).into()));
    }
    if let Some(src) = &p.source {
        put(1, 3);
        put(8, src.len() as u64);
        src.iter().for_each(|b| put(1, (*b).into()));
    }
    for (addr, name) in &p.relocs {
        put(1, 4);
        put(2, (*addr).into());
        put(8, name.len() as u64);
        name.iter().for_each(|b| put(1, (*b).into()));
    }
    Outcome::Given(out)
}
