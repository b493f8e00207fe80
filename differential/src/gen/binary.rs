//! Binary files: records of objects in any order, doubled, cut, spliced.
use super::{damage_bytes, object};
use crate::numbers::binary::write;
use crate::numbers::Outcome;
use crate::prng::Prng;
use crate::records;

/// The records of a random object, and the header they follow.
fn file(r: &mut Prng, fair: bool) -> Vec<u8> {
    let p = object::parts(r, fair);
    match write(&p) {
        Outcome::Given(f) => f,
        Outcome::Refused(..) => unreachable!("generated line blocks are short"),
    }
}

/// One file: records of one to three objects, changed by record or by byte, or not at all.
pub fn case(r: &mut Prng) -> Vec<u8> {
    let fair = r.once_in(2);
    let first = file(r, fair);
    let mut list: Vec<Vec<u8>> = records::records(&first).unwrap().into_iter().map(<[u8]>::to_vec).collect();
    if r.once_in(4) {
        let second = file(r, fair);
        list.extend(records::records(&second).unwrap().into_iter().map(<[u8]>::to_vec));
    }
    if r.once_in(2) {
        r.shuffle(&mut list);
    }
    if !list.is_empty() && r.once_in(3) {
        let (from, to) = (r.below(list.len()), r.below(list.len() + 1));
        let mut copy = list[from].clone();
        if r.once_in(2) {
            damage_bytes(r, &mut copy, 1);
        }
        list.insert(to, copy);
    }
    if r.once_in(8) {
        list.push(line_record(r));
        list.push(line_record(r));
    }
    let mut out = [&first[..7], &list.concat()].concat();
    match r.below(8) {
        0 => damage_bytes(r, &mut out, 0),
        1 | 2 => damage_bytes(r, &mut out, 7),
        3 => {
            damage_bytes(r, &mut out, 7);
            damage_bytes(r, &mut out, 7);
        }
        _ => {}
    }
    out
}

/// A line record with few addresses and a first line near 0, or near the largest.
fn line_record(r: &mut Prng) -> Vec<u8> {
    let first = match r.once_in(2) {
        true => r.below(6) as u64,
        false => u64::MAX - r.below(6) as u64,
    };
    let count = r.below(4);
    let mut out = vec![2];
    out.extend(first.to_le_bytes());
    out.extend((count as u16).to_le_bytes());
    let mut a = r.below(4) as u16;
    for _ in 0..count {
        out.extend(a.to_le_bytes());
        a += r.below(5).min(1) as u16;
    }
    out
}
