//! test FILE..: what the calls answer of each file, and of the places of a source.
//! test small CALL FILE: what one call answers in a thread of 128 KiB of stack. test.sh compares both.
mod lc3_host;

use std::thread;

fn read(name: &str) -> Vec<u8> {
    std::fs::read(name).expect("a file")
}

fn measure(name: &str) {
    let bytes = read(name);
    let b = lc3_host::binary_length(&bytes);
    let t = lc3_host::text_length(&bytes);
    println!("{} bytes: binary {}, {} words; text {}, {} words", bytes.len(), b.number, b.len, t.number, t.len);
}

fn place(source: &[u8], index: u64) {
    let p = lc3_host::get_pos_pair(source, index);
    println!("place {} of {}: line {}, column {}", index, source.len(), p.line, p.column);
}

/// A call of the bytes: its number and words, or the line and the column of their end.
fn make(call: &str, bytes: &[u8]) -> (u64, u64) {
    let measured = |m: lc3_host::Measured| (m.number.into(), m.len as u64);
    match call {
        "lc3_binary_length" => measured(lc3_host::binary_length(bytes)),
        "lc3_text_length" => measured(lc3_host::text_length(bytes)),
        _ => {
            let p = lc3_host::get_pos_pair(bytes, bytes.len() as u64);
            (p.line, p.column)
        }
    }
}

fn small(call: &str, name: &str) {
    let bytes = read(name);
    let (first, second) = thread::scope(|scope| {
        let thread = thread::Builder::new().stack_size(128 * 1024).spawn_scoped(scope, || make(call, &bytes));
        thread.expect("a thread").join().expect("an answer")
    });
    println!("{first}, {second}");
}

fn main() {
    let words: Vec<String> = std::env::args().skip(1).collect();
    if let [mode, call, name] = &words[..] {
        if mode == "small" {
            return small(call, name);
        }
    }
    words.iter().for_each(|name| measure(name));
    let source = b"a\nb\n";
    for index in 0..7 {
        place(source, index);
    }
    place(source, u64::MAX);
    place(&[], 0);
    place(&[], 1);
}
