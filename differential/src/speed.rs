//! Times of our calls beside the crate's, each the best of several batches, in processor time: on three objects, with their bars.
use std::hint::black_box;

use crate::asm::access;
use crate::asm::encoding::{BinaryFormat, ObjFileFormat, TextFormat};
use crate::figures::{head, row, time};
use crate::object::encode;
use crate::parts::{Label, Parts};
use crate::prng::Prng;
use crate::under::{Calls, Form};

/// A typical assignment: 50 labels, 400 lines, about 12 KB of source, one block.
pub fn assignment() -> Parts {
    let mut r = Prng::new(6);
    let mut p = Parts::default();
    let mut src = String::new();
    let (mut addrs, mut words) = (vec![], vec![]);
    for l in 0..400u16 {
        if l % 8 == 0 {
            let name = format!("LABEL_{}", r.below(100_000));
            *p.label_mut(name.as_bytes()) =
                Label { name: name.clone().into(), addr: 0x3000 + l, external: l % 80 == 0, start: src.len() as u64 };
            if l % 80 == 0 {
                p.relocs.push((0x3000 + l, name.clone().into()));
            }
            src += &name;
        }
        src += "    ADD R0, R0, #1 ; counts\n";
        if l % 10 == 9 {
            p.lines.push((u64::from(l) - addrs.len() as u64, std::mem::take(&mut addrs)));
        } else {
            addrs.push(0x3000 + l);
        }
        words.push((!r.once_in(10)).then(|| r.next() as u16));
    }
    p.blocks.push((0x3000, words));
    p.source = Some(src.into());
    p
}

/// Labels with addresses and source starts in random order; the crate writes and reads them in hash order.
pub fn labels(count: usize) -> Parts {
    let mut r = Prng::new(7);
    let mut p = Parts::default();
    while p.labels.len() < count {
        let name = format!("L{:05X}", r.below(1 << 20));
        *p.label_mut(name.as_bytes()) =
            Label { name: name.clone().into(), addr: r.next() as u16, external: false, start: r.below(60_000) as u64 };
    }
    p.source = Some(b"\n".to_vec());
    p
}

/// One block of 60,000 words.
pub fn block() -> Parts {
    let mut r = Prng::new(8);
    Parts { blocks: vec![(0, (0..60_000).map(|_| (!r.once_in(16)).then(|| r.next() as u16)).collect())], ..Parts::default() }
}

/// This thread's processor time in nanoseconds: unlike the time of day, it stands still while a busy machine does other work.
fn clock() -> f64 {
    #[repr(C)]
    struct Timespec {
        seconds: i64,
        nanoseconds: i64,
    }
    extern "C" {
        fn clock_gettime(clock: i32, time: *mut Timespec) -> i32;
    }
    const THREAD: i32 = 3; // CLOCK_THREAD_CPUTIME_ID of Linux
    let mut t = Timespec { seconds: 0, nanoseconds: 0 };
    // SAFETY: the call fills a struct laid out as 64-bit Linux has it.
    assert_eq!(unsafe { clock_gettime(THREAD, &mut t) }, 0, "the clock is there");
    t.seconds as f64 * 1e9 + t.nanoseconds as f64
}

/// The best of up to 300 batches of about a millisecond; of three longer calls; or one that takes over two seconds.
pub fn best<T>(mut f: impl FnMut() -> T) -> f64 {
    let mut batch = |times: u32| {
        let start = clock();
        for _ in 0..times {
            black_box(f());
        }
        (clock() - start) / f64::from(times)
    };
    let first = batch(1);
    if first > 2e9 {
        return first;
    }
    let once = batch(1).min(batch(1)).min(first).max(1.0);
    let times = (1e6 / once).clamp(1.0, 1e5) as u32;
    let batches = (3e8 / (once * f64::from(times))) as u32;
    (0..batches).map(|_| batch(times)).fold(once, f64::min)
}

/// The time of a call, in nanoseconds, on each side that has it.
pub struct Time {
    pub call: &'static str,
    pub ours: Option<f64>,
    pub theirs: Option<f64>,
}

/// Both forms' calls: the writes of an object, the reads of a binary file and of the crate's text file of it.
pub fn forms(calls: &Calls, p: &Parts, binary: &[u8]) -> Vec<Time> {
    let (object, o) = (encode(p), access::build(p));
    let text = TextFormat::serialize(&o);
    let read = best(|| BinaryFormat::deserialize(black_box(binary)));
    let write = best(|| BinaryFormat::serialize(black_box(&o)));
    let mut out = form(["binary length", "binary read", "binary write"], calls.binary, &object, binary, [read, read, write]);
    let read = best(|| TextFormat::deserialize(black_box(&text)));
    let write = best(|| TextFormat::serialize(black_box(&o)));
    out.extend(form(["text length", "text read", "text write"], calls.text, &object, text.as_bytes(), [read, read, write]));
    out
}

/// A form's calls, with buffers of the very length. The crate's read stands beside our length, which it doesn't have.
fn form(names: [&'static str; 3], form: Option<Form>, object: &[u32], file: &[u8], theirs: [f64; 3]) -> Vec<Time> {
    let ours = form.map(|form| {
        let (number, len) = (form.length)(file);
        assert_eq!(number, 0, "the file reads");
        let (mut words, mut bytes) = (vec![0; len], vec![0; file.len()]);
        assert_eq!((form.write)(object, &mut bytes), (0, file.len()), "the object is written");
        [
            best(|| (form.length)(black_box(file))),
            best(|| (form.read)(black_box(file), &mut words)),
            best(|| (form.write)(black_box(object), &mut bytes)),
        ]
    });
    (0..3).map(|i| Time { call: names[i], ours: ours.map(|ns| ns[i]), theirs: Some(theirs[i]) }).collect()
}

/// The lending fee, and the check that it begins with. The crate has neither; where the fee isn't linked, nothing.
fn fee(calls: &Calls, object: &[u32]) -> Vec<Time> {
    let Some(lending_fee) = calls.lending_fee else { return vec![] };
    let check = calls.queries.map(|q| best(|| (q.check)(black_box(object))));
    let fee = best(|| lending_fee(black_box(object), true));
    vec![Time { call: "check", ours: check, theirs: None }, Time { call: "lending fee", ours: Some(fee), theirs: None }]
}

/// How many times the crate's time ours may be at most.
fn bar(object: char, call: &str) -> Option<f64> {
    match (object, call) {
        (_, "binary length" | "text length" | "check" | "lending fee") => None,
        (_, "binary write") => Some(8.0),
        ('b', "binary read") => Some(2.0),
        _ => Some(1.0),
    }
}

/// A table of the three objects. The labels lie in the crate's binary file in its hash order.
pub fn print(calls: &Calls) {
    println!(
        "(a) a typical assignment: 50 labels, 400 lines, 12 KB of source; (b) 2,500 labels in random order; (c) one block of 60,000 words"
    );
    println!("\n{}", head(["object", "call", "the crate", "ours", "ours / crate", "bar"]));
    for (object, p) in [('a', assignment()), ('b', labels(2_500)), ('c', block())] {
        let files = forms(calls, &p, &BinaryFormat::serialize(&access::build(&p)));
        for t in files.into_iter().chain(fee(calls, &encode(&p))) {
            let shown = |ns: Option<f64>| ns.map_or("-".into(), time);
            let ratio = t.ours.zip(t.theirs).map(|(ours, theirs)| ours / theirs);
            let bar = bar(object, t.call);
            let missed = if ratio.zip(bar).is_some_and(|(ratio, bar)| ratio > bar) { ": **missed**" } else { "" };
            println!(
                "{}",
                row([
                    format!("({object})"),
                    t.call.into(),
                    shown(t.theirs),
                    shown(t.ours),
                    ratio.map_or("-".into(), |r| format!("{r:.2}")),
                    bar.map_or("-".into(), |b| format!("at most {b}{missed}")),
                ])
            );
        }
    }
}
