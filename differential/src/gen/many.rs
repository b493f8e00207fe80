//! Files and objects with thousands of records: sorting that works on a part at a time has to go round more than once.
use crate::numbers::{binary, text_write, Outcome};
use crate::object::encode;
use crate::parts::{Label, Parts};
use crate::prng::Prng;
use crate::records;

/// A count near a power of two from 1,024 on, or in between.
fn count(r: &mut Prng) -> usize {
    match r.below(3) {
        0 => 1024 - 2 + r.below(5),
        1 => 2048 - 2 + r.below(5),
        _ => 1000 + r.below(3500),
    }
}

/// Names of which many begin alike, and some begin others; fewer of them than are asked for, so that some come twice.
fn name(r: &mut Prng, count: usize) -> Vec<u8> {
    let begin = r.pick(&["L", "L1", "LOOP_", "é", "a_rather_long_name_for_a_label_"]);
    format!("{begin}{}", r.below(count / 4 + 1)).into_bytes()
}

/// Parts with many labels and relocations, many blocks, or many line blocks; or all of these.
fn parts(r: &mut Prng) -> Parts {
    let mut p = Parts { source: Some(b"a\nb\n".to_vec()), ..Parts::default() };
    let which = r.below(4);
    if which == 0 || which == 3 {
        for _ in 0..count(r) {
            let name = name(r, 2000);
            let label = Label { name: name.clone(), addr: r.below(3000) as u16, external: r.once_in(2), start: r.below(3000) as u64 };
            *p.label_mut(&name) = label;
        }
        p.relocs = addresses(r).into_iter().map(|a| (a, name(r, 2000))).collect();
    }
    if which == 1 || which == 3 {
        p.blocks = addresses(r).into_iter().map(|a| (a, (0..r.below(3)).map(|_| Some(r.next() as u16)).collect())).collect();
    }
    if which == 2 || which == 3 {
        let mut first = 0;
        for a in addresses(r) {
            first += 1 + r.below(4) as u64;
            let addrs: Vec<u16> = (0..r.below(3) as u16).map(|i| a.saturating_add(2 * i)).filter(|a| *a < u16::MAX).collect();
            let end = first + addrs.len() as u64;
            p.lines.push((first, addrs));
            first = end;
        }
        // Long enough for every line, so that a text file's rows have all numbers.
        p.source = Some(b"a\n".repeat(first as usize + 1));
    }
    p
}

/// Rising addresses, none twice.
fn addresses(r: &mut Prng) -> Vec<u16> {
    let mut out: Vec<u16> = (0..count(r)).map(|_| r.next() as u16).collect();
    out.sort();
    out.dedup();
    out
}

/// The words of an object.
pub fn object(r: &mut Prng) -> Vec<u32> {
    encode(&parts(r))
}

/// Rising, falling, mixed, or rising but for a few.
fn reorder<T>(r: &mut Prng, list: &mut [T]) {
    match r.below(4) {
        0 => {}
        1 => list.reverse(),
        2 => r.shuffle(list),
        _ => {
            for _ in 0..4.min(list.len()) {
                let (a, b) = (r.below(list.len()), r.below(list.len()));
                list.swap(a, b);
            }
        }
    }
}

/// A binary file: records of two such objects, in some order, later ones replacing.
pub fn binary(r: &mut Prng) -> Vec<u8> {
    let file = |p: &Parts| match binary::write(p) {
        Outcome::Given(f) => f,
        Outcome::Refused(..) => unreachable!("the line blocks are short"),
    };
    let (first, second) = (file(&parts(r)), file(&parts(r)));
    let mut list = records::records(&first).unwrap();
    if r.once_in(2) {
        // Line blocks of both would overlap.
        list.extend(records::records(&second).unwrap().into_iter().filter(|record| record[0] != 2));
    }
    reorder(r, &mut list);
    [&first[..7], &list.concat()].concat()
}

/// A text file: the rows of each table in some order, some of them twice.
pub fn text(r: &mut Prng) -> Vec<u8> {
    let written = text_write::write(&parts(r));
    change_tables(&written, |rows| {
        let all = rows.clone();
        for _ in 0..r.below(20).min(all.len()) {
            rows.push(r.pick(&all));
        }
        reorder(r, rows);
    })
}

/// A written text file with each table's rows changed, but for those of the line table, which are numbered.
pub fn change_tables(written: &[u8], mut change: impl FnMut(&mut Vec<&str>)) -> Vec<u8> {
    let lines: Vec<&str> = std::str::from_utf8(written).unwrap().lines().collect();
    let mut out: Vec<&str> = vec![];
    let mut at = 0;
    while at < lines.len() {
        out.push(lines[at]);
        at += 1;
        // The rows after a header.
        if matches!(lines[at - 1].split(" | ").next().map(str::trim), Some("ADDR" | "LABEL")) {
            let end = lines[at..].iter().position(|l| !l.contains(" | ")).map_or(lines.len(), |e| at + e);
            let mut rows = lines[at..end].to_vec();
            change(&mut rows);
            out.extend(rows);
            at = end;
        }
    }
    out.join("\n").into_bytes()
}
