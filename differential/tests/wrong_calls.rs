//! A run finds nothing in the numbers' own calls, and finds every wrong call.
use std::hint::black_box;

use lc3_differential::gen::Depth;
use lc3_differential::numbers::query::Query;
use lc3_differential::under::{paper, run, Calls, Form, Host, Plan, Queries};
use lc3_differential::{rust, stack};

const FEW: Plan = Plan { seed: 5, cases: 2000, depth: Depth::None, long: 0, many: 0 };
const FIXED: Plan = Plan { cases: 0, depth: Depth::Quick, ..FEW };

const BINARY: Form = paper::CALLS.binary.unwrap();
const TEXT: Form = paper::CALLS.text.unwrap();
const QUERIES: Queries = paper::CALLS.queries.unwrap();
const HOST: Host = paper::CALLS.host.unwrap();
const WHITE: fn(u32) -> u8 = paper::CALLS.is_white_space.unwrap();

fn binary(form: Form) -> Calls {
    Calls { binary: Some(form), ..Calls::default() }
}
fn text(form: Form) -> Calls {
    Calls { text: Some(form), ..Calls::default() }
}
fn query(f: fn(&[u32], Query) -> (u8, u64, u64)) -> Calls {
    Calls { queries: Some(Queries { query: f, ..QUERIES }), ..Calls::default() }
}
fn host(host: Host) -> Calls {
    Calls { host: Some(host), ..Calls::default() }
}
fn white_space(f: fn(u32) -> u8) -> Calls {
    Calls { is_white_space: Some(f), ..Calls::default() }
}

#[test]
fn no_difference_in_the_numbers() {
    rust::quiet();
    assert_eq!(run(&paper::CALLS, &FEW).differences, 0);
}

/// Document 01's term c, and faults that only a look at the whole buffer shows.
#[test]
fn wrong_calls_are_found() {
    rust::quiet();
    let wrong: [(&str, Calls); 28] = [
        ("a reader that refuses all", binary(Form { read: |_, _| (10, 0), ..BINARY })),
        ("a length told over untouched buffers", text(Form { write: |w, out| (TEXT.write)(w, &mut out.to_vec()), ..TEXT })),
        (
            "a reader that says 3 with space to spare",
            text(Form {
                read: |f, out| {
                    let k = out.len().saturating_sub(1);
                    (TEXT.read)(f, &mut out[..k])
                },
                ..TEXT
            }),
        ),
        (
            "a lookup that says 6 of a line with an address",
            query(|w, q| match q {
                Query::Get(_) => (6, 0, 0),
                _ => (QUERIES.query)(w, q),
            }),
        ),
        ("a writer of an unchanging empty file", binary(Form { write: |_, out| (BINARY.write)(&[], out), ..BINARY })),
        (
            "a writer that clears the rest",
            text(Form {
                write: |w, out| {
                    let r = (TEXT.write)(w, out);
                    if r.0 == 0 {
                        out[r.1..].fill(0)
                    }
                    r
                },
                ..TEXT
            }),
        ),
        (
            "a reader that fills as far as it goes and then says 3",
            binary(Form {
                read: |f, out| {
                    let mut all = vec![0; 1000];
                    let r = (BINARY.read)(f, &mut all);
                    if r.0 != 0 || r.1 <= out.len() || out.is_empty() {
                        return (BINARY.read)(f, out);
                    }
                    out[0] = all[0];
                    (3, 0)
                },
                ..BINARY
            }),
        ),
        (
            "a length beside a refusal",
            binary(Form {
                read: |f, out| {
                    let r = (BINARY.read)(f, out);
                    if r.0 == 3 {
                        (3, out.len() + 1)
                    } else {
                        r
                    }
                },
                ..BINARY
            }),
        ),
        (
            "values beside a refusal",
            query(|w, q| match (QUERIES.query)(w, q) {
                (5, _, _) => (5, 1, 0),
                r => r,
            }),
        ),
        (
            "a write before the refusal",
            binary(Form {
                read: |f, out| {
                    let r = (BINARY.read)(f, out);
                    if r.0 == 15 && !out.is_empty() {
                        out[0] ^= 1
                    }
                    r
                },
                ..BINARY
            }),
        ),
        (
            "a length that counts one too many",
            text(Form {
                length: |f| {
                    let r = (TEXT.length)(f);
                    (r.0, r.1 + usize::from(r.1 == 1))
                },
                ..TEXT
            }),
        ),
        (
            "a label at another address",
            binary(Form {
                write: |w, out| {
                    let r = (BINARY.write)(w, out);
                    if r.1 > 30 && out[7] == 1 {
                        out[8] ^= 1
                    }
                    r
                },
                ..BINARY
            }),
        ),
        (
            "a host's binary that doesn't look at line blocks",
            host(Host {
                binary_length: |f| match (HOST.binary_length)(f) {
                    (15, _) => (0, 0),
                    r => r,
                },
                ..HOST
            }),
        ),
        ("a host's text that gives the file's length", host(Host { text_length: |f| ((HOST.text_length)(f).0, f.len()), ..HOST })),
        (
            "a host's position past the end within the last line",
            host(Host { get_pos_pair: |s, i| (HOST.get_pos_pair)(s, i.min(s.len() as u64)), ..HOST }),
        ),
        ("a check that says yes to all", Calls { queries: Some(Queries { check: |_| 0, ..QUERIES }), ..Calls::default() }),
        ("a test that says fair of all", Calls { is_fair: Some(|w| ((QUERIES.check)(w), 1 - (QUERIES.check)(w))), ..Calls::default() }),
        ("x180E too, which was White_Space once", white_space(|n| WHITE(n) | u8::from(n == 0x180E))),
        ("x200B too, a space without width", white_space(|n| WHITE(n) | u8::from(n == 0x200B))),
        ("xFEFF too, once a space that breaks no line", white_space(|n| WHITE(n) | u8::from(n == 0xFEFF))),
        ("x85 left out", white_space(|n| WHITE(n) & u8::from(n != 0x85))),
        ("x3000 left out", white_space(|n| WHITE(n) & u8::from(n != 0x3000))),
        ("x86 in place of x85", white_space(|n| WHITE(if n == 0x85 || n == 0x86 { n ^ 3 } else { n }))),
        ("a test on the low 16 bits alone", white_space(|n| WHITE(n & 0xFFFF))),
        ("a test on the low 24 bits alone", white_space(|n| WHITE(n & 0xFF_FFFF))),
        ("a test that says White_Space of all", white_space(|_| 1)),
        ("a test that says White_Space of none", white_space(|_| 0)),
        ("a yes that isn't 1", white_space(|n| 2 * WHITE(n))),
    ];
    for (name, calls) in wrong {
        assert!(run(&calls, &FEW).differences > 0, "{name}");
    }
}

/// Faults that only a look at all numbers shows: one more or fewer differs by itself and by the count, one in place of another twice.
#[test]
fn one_number_of_all_is_found() {
    rust::quiet();
    let differ = |f: fn(u32) -> u8| {
        let table = run(&white_space(f), &FIXED);
        (table.differences, table.white_spaces)
    };
    assert_eq!(differ(WHITE), (0, Some(25)));
    assert_eq!(differ(|n| WHITE(n) | u8::from(n == 0x1_D173)), (2, Some(26)));
    assert_eq!(differ(|n| WHITE(n) & u8::from(n != 0x2007)), (2, Some(24)));
    assert_eq!(differ(|n| WHITE(if n == 0x2007 || n == 0xE_0020 { n ^ 0xE_2027 } else { n })), (2, Some(25)));
}

/// A refused call, or one that fills wrong, isn't measured for a sound one; and a deep one is a failure where that is asked for.
#[test]
fn the_stack_of_wrong_calls() {
    let passes = |calls: &Calls, strict: bool| stack::print(calls, strict).unwrap();
    assert!(passes(&paper::CALLS, true));
    assert!(!passes(&binary(Form { read: |_, _| (10, 0), ..BINARY }), false));
    assert!(!passes(&text(Form { write: |w, out| (TEXT.write)(w, &mut out.to_vec()), ..TEXT }), false));
    assert!(!passes(&query(|w, q| ((QUERIES.query)(w, q).0, 0, 0)), false));
    const IS_FAIR: fn(&[u32]) -> (u8, u8) = paper::CALLS.is_fair.unwrap();
    let is_fair = |w: &[u32]| {
        black_box(&mut [0u8; 128 << 10]);
        IS_FAIR(w)
    };
    let deep = Calls { is_fair: Some(is_fair), ..Calls::default() };
    assert!(passes(&deep, false) && !passes(&deep, true));
    assert!(!passes(&Calls::default(), true), "nothing was measured");
}
