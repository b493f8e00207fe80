//! Cases: random well formed objects, the files of such, damaged copies, texts with a `+`, lists of trips, short inputs in full, and
//! numbers.

pub mod binary;
pub mod edges;
pub mod many;
pub mod object;
pub mod plus;
pub mod query;
pub mod room;
pub mod short;
pub mod tariff;
pub mod text;
pub mod trips;
pub mod white;

use crate::prng::Prng;

/// How far short inputs are made in full.
#[derive(Debug, Clone, Copy, PartialEq, Eq)]
pub enum Depth {
    None,
    Quick,
    Full,
}

/// One small change of bytes, anywhere from `from` on.
pub fn damage_bytes(r: &mut Prng, file: &mut Vec<u8>, from: usize) {
    let n = file.len();
    if n <= from {
        file.push(r.next() as u8);
        return;
    }
    let at = from + r.below(n - from);
    match r.below(9) {
        8 => {
            // Bytes that are UTF-8 or just aren't: overlong, surrogate, past the last, cut, and the ends of each length.
            let some: [&[u8]; 10] = [
                b"\xC0\x80", b"\xE0\x9F\xBF", b"\xED\xA0\x80", b"\xED\x9F\xBF", b"\xF4\x90\x80\x80", b"\xF4\x8F\xBF\xBF",
                b"\xF0\x8F\xBF\xBF", b"\xE2\x80", b"\xC2\x85", b"\xEF\xBB\xBF",
            ];
            let put = r.pick(&some);
            let end = if r.once_in(2) { (at + put.len()).min(n) } else { at };
            file.splice(at..end, put.iter().copied());
        }
        0 => file.truncate(at),
        1 => file[at] ^= 1 << r.below(8),
        2 => file[at] = r.pick(&[0, 1, 2, 3, 4, 5, 0x7F, 0x80, 0xC3, 0xE2, 0xF4, 0xFF]),
        3 => file.insert(at, r.next() as u8),
        4 => {
            file.remove(at);
        }
        5 => {
            let end = at + r.below((n - at).min(24)) + 1;
            let copy = file[at..end].to_vec();
            let to = from + r.below(n - from + 1);
            file.splice(to..to, copy);
        }
        6 => {
            let end = at + r.below((n - at).min(24)) + 1;
            file.drain(at..end);
        }
        _ => {
            let other = from + r.below(n - from);
            file.swap(at, other);
        }
    }
}
