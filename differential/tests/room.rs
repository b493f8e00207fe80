//! Request P13: its bound, files that meet it, and wrong binary reads that a run must find by it.
use lc3_differential::gen::{room as files, Depth};
use lc3_differential::numbers::room;
use lc3_differential::prng::Prng;
use lc3_differential::reference::{read_binary, read_text};
use lc3_differential::rust;
use lc3_differential::table::Call;
use lc3_differential::under::{paper, run, Calls, Filled, Form, Plan};

const FEW: Plan = Plan { seed: 5, cases: 2000, depth: Depth::None, long: 0, many: 0 };
const FIXED: Plan = Plan { cases: 0, depth: Depth::Quick, ..FEW };

const BINARY: Form = paper::CALLS.binary.unwrap();

/// How often a run finds a binary read wrong that has as much room as the request says is enough.
fn differences(read: fn(&[u8], &mut [u32]) -> Filled, plan: &Plan) -> u64 {
    rust::quiet();
    let calls = Calls { binary: Some(Form { read, ..BINARY }), ..Calls::default() };
    run(&calls, plan).differences_of(Call::BinaryRoom)
}

/// Whether a file is the header and one line block.
fn alone(file: &[u8]) -> bool {
    file.len() >= 18 && file[7] == 2 && file.len() == 18 + 2 * usize::from(u16::from_le_bytes([file[16], file[17]]))
}

#[test]
fn the_bound() {
    let words = [(0, 0), (6, 0), (7, 0), (8, 0), (9, 1), (10, 1), (17, 5), (18, 5), (77, 35), (131_088, 65_540)];
    for (bytes, most) in words {
        assert_eq!(room::binary(bytes), most, "{bytes}");
    }
}

#[test]
fn a_line_block_alone_meets_it() {
    rust::quiet();
    for k in files::counts() {
        let file = files::alone(k);
        assert!(alone(&file));
        assert_eq!(read_binary(&file).value.map(|w| w.len()), Some(5 + usize::from(k)));
        assert_eq!(room::binary(file.len()), 5 + usize::from(k));
    }
}

/// Of accepted files only the header alone and a line block alone have as many words as they may; others of odd length have at least two
/// fewer.
#[test]
fn nothing_else_meets_it() {
    rust::quiet();
    let mut r = Prng::new(3);
    for _ in 0..20_000 {
        let file = files::case(&mut r);
        let Some(words) = read_binary(&file).value else { continue };
        let spare = room::binary(file.len()) - words.len();
        match file.len() % 2 {
            0 => assert_eq!(spare == 0, alone(&file), "{file:?}"),
            _ => assert!(spare >= 2 || (file.len() == 7 && spare == 0), "{file:?}"),
        }
    }
}

#[test]
fn no_difference_in_the_numbers() {
    assert_eq!(differences(BINARY.read, &FEW) + differences(BINARY.read, &FIXED), 0);
}

#[test]
fn wrong_reads_are_found() {
    type Read = fn(&[u8], &mut [u32]) -> Filled;
    let wrong: [(&str, Read); 6] = [
        ("3 where a line block alone has just enough room", |f, out| match alone(f) && out.len() == room::binary(f.len()) {
            true => (BINARY.read)(f, &mut out[1..]),
            false => (BINARY.read)(f, out),
        }),
        ("words filled, and 3", |f, out| match (BINARY.read)(f, out) {
            (0, n) if n == out.len() => (3, 0),
            r => r,
        }),
        ("3 of what is refused", |f, out| match (BINARY.read)(f, out) {
            (14 | 15, _) if out.len() == room::binary(f.len()) => (3, 0),
            r => r,
        }),
        ("a length beside a refusal", |f, out| match (BINARY.read)(f, out) {
            (12, _) => (12, out.len()),
            r => r,
        }),
        ("the rest of the room cleared", |f, out| {
            let r = (BINARY.read)(f, out);
            out[r.1..].fill(0);
            r
        }),
        ("the last word left alone", |f, out| match (BINARY.read)(f, &mut out.to_vec()) {
            (0, n) if n > 0 => {
                let last = out[n - 1];
                let r = (BINARY.read)(f, out);
                out[n - 1] = last;
                r
            }
            r => r,
        }),
    ];
    for (name, read) in wrong {
        assert!(differences(read, &FEW) > 0, "{name}");
    }
}

/// Faults at one length alone: the two longest line blocks, and the header with nothing after it.
#[test]
fn one_length_is_found() {
    let long = |f: &[u8], out: &mut [u32]| match (BINARY.read)(f, out) {
        (0, n) if n == out.len() && n == 65_540 => (3, 0),
        r => r,
    };
    assert_eq!(differences(long, &FIXED), 1);
    let cut = |f: &[u8], out: &mut [u32]| {
        let k = out.len().min(65_538);
        (BINARY.read)(f, &mut out[..k])
    };
    assert_eq!(differences(cut, &FIXED), 2);
    let empty = |f: &[u8], out: &mut [u32]| if f.len() == 7 && out.is_empty() { (3, 0) } else { (BINARY.read)(f, out) };
    assert!(differences(empty, &FIXED) > 0);
}

/// Rows of the debug label table have many words for their bytes, 5 for 6 with a short name, and still fewer.
#[test]
fn text_words_are_fewer_than_bytes() {
    rust::quiet();
    let rows: String = ('A'..='Z').chain('a'..='z').map(|name| format!("{name} | 0\n")).collect();
    let file = format!("LC-3 OBJ FILE\n.DEBUG\nLABEL | INDEX\n{rows}=\n=\n");
    let words = read_text(file.as_bytes()).value.unwrap().len();
    assert_eq!(words, 5 * 52);
    assert!(3 * words > 2 * file.len() && words < file.len());
}
