//! The stack that each call of the libraries uses, on document 01's example and on 5,000 labels. The language's machine has no stack, so
//! no proof sees it: a call that needs more than its thread has ends the process, whatever the input.
mod input;
mod thread;

use std::fmt::Debug;
use std::io;

use crate::figures::{head, row};
use crate::numbers::query::Query;
use crate::parts::Parts;
use crate::records;
use crate::reference::{self, Answer, Object};
use crate::under::{Calls, Filled, Form};
use input::Input;
use thread::{Memory, Used};

/// What a call and the thread that makes it may use together, in KiB.
const LIMIT: usize = 128;

/// What a call must answer: number 0, on which both sides of the reference go together.
fn given<T>(want: Answer<T>) -> io::Result<T> {
    match want {
        Answer { number: 0, value: Some(v), difference: None, .. } => Ok(v),
        _ => Err(io::Error::other("the reference has no answer to an input of the stack's measurement")),
    }
}

/// A query of each kind, for what lies last.
fn asks(p: &Parts) -> [(&'static str, Query); 6] {
    let source = p.source.as_deref().unwrap_or_default();
    let last = source.iter().filter(|b| **b == b'\n').count() as u64;
    let (first, addrs) = p.lines.last().cloned().unwrap_or_default();
    [
        ("runs_count_lines", Query::CountLines),
        ("runs_raw_line_span", Query::RawLineSpan(last)),
        ("runs_line_span", Query::LineSpan(last)),
        ("runs_get_pos_pair", Query::GetPosPair(source.len() as u64)),
        ("runs_get", Query::Get(first + addrs.len() as u64 - 1)),
        ("runs_find", Query::Find(addrs[addrs.len() - 1])),
    ]
}

/// What was measured so far.
struct Measured {
    memory: Memory,
    /// Each call, input by input, and how much was used.
    used: Vec<(&'static str, Used)>,
    /// Answers that aren't right, in words.
    wrong: Vec<String>,
}

impl Measured {
    fn call<T: PartialEq + Debug>(&mut self, call: &'static str, want: T, ask: impl FnMut() -> T) -> io::Result<()> {
        let (used, answers) = self.memory.used(ask)?;
        for got in answers.iter().filter(|got| **got != want) {
            self.wrong.push(format!("{call}: wanted {want:?}, got {got:?}"));
        }
        self.used.push((call, used));
        Ok(())
    }

    /// A filling call, with room for just what it fills.
    fn fills<T: Clone + Default + PartialEq>(
        &mut self,
        call: &'static str,
        want: &[T],
        ask: impl Fn(&mut [T]) -> Filled,
        order: impl Fn(&[T]) -> Vec<T>,
    ) -> io::Result<()> {
        let mut out = vec![T::default(); want.len()];
        self.call(call, (0, want.len()), || ask(&mut out))?;
        if order(&out) != want {
            self.wrong.push(format!("{call}: what was filled"));
        }
        Ok(())
    }

    fn object(&mut self, calls: &Calls, object: &Object) -> io::Result<()> {
        let words = &object.words[..];
        if let Some(queries) = calls.queries {
            given(object.check())?;
            self.call("runs_check", 0, || (queries.check)(words))?;
            for (call, query) in object.parts().map(asks).into_iter().flatten() {
                let (first, second) = given(object.query(query))?;
                self.call(call, (0, first, second), || (queries.query)(words, query))?;
            }
        }
        if let Some(is_fair) = calls.is_fair {
            let fair = given(object.is_fair())?;
            self.call("runs_is_fair", (0, fair.into()), || is_fair(words))?;
        }
        if let Some(is_white_space) = calls.is_white_space {
            let last = 0x3000; // of its tests
            let white = given(reference::is_white_space(last))?;
            self.call("runs_is_white_space", white.into(), || is_white_space(last))?;
        }
        if let Some(lending_fee) = calls.lending_fee {
            let fee = given(object.lending_fee(true))?;
            self.call("runs_tariff", (0, fee), || lending_fee(words, true))?;
        }
        Ok(())
    }

    /// The length and the read of a form.
    fn reads(&mut self, [length, read]: [&'static str; 2], form: Form, file: &[u8], want: &[u32]) -> io::Result<()> {
        self.call(length, (0, want.len()), || (form.length)(file))?;
        self.fills(read, want, |out| (form.read)(file, out), <[u32]>::to_vec)
    }

    fn files(&mut self, calls: &Calls, input: &Input) -> io::Result<()> {
        let Input { object, binary, text } = input;
        let from_binary = given(reference::read_binary(binary))?;
        let from_text = given(reference::read_text(text))?;
        if let Some(form) = calls.binary {
            self.reads(["runs_binary_length", "runs_binary_read"], form, binary, &from_binary)?;
            let in_order = |f: &[u8]| records::canonical(f).unwrap_or_default();
            self.fills("runs_binary_write", &given(object.write_binary())?, |out| (form.write)(&object.words, out), in_order)?;
        }
        if let Some(form) = calls.text {
            self.reads(["runs_text_length", "runs_text_read"], form, text, &from_text)?;
            self.fills("runs_text_write", &given(object.write_text())?, |out| (form.write)(&object.words, out), <[u8]>::to_vec)?;
        }
        if let Some(host) = calls.host {
            self.call("lc3_binary_length", (0, from_binary.len()), || (host.binary_length)(binary))?;
            self.call("lc3_text_length", (0, from_text.len()), || (host.text_length)(text))?;
            let source = object.parts().and_then(|p| p.source.as_deref()).unwrap_or_default();
            let end = source.len() as u64;
            self.call("lc3_get_pos_pair", given(reference::source_position(source, end))?, || (host.get_pos_pair)(source, end))?;
        }
        Ok(())
    }
}

/// A table in markdown. Whether every answer was right and, where `strict`, something was measured and nothing is over the limit.
pub fn print(calls: &Calls, strict: bool) -> io::Result<bool> {
    let mut memory = Memory::new()?;
    let empty = memory.used(|| ())?.0;
    if !memory.sees_known_uses()? {
        println!("stack: a known use isn't measured right");
        return Ok(false);
    }
    let mut measured = Measured { memory, used: vec![], wrong: vec![] };
    for input in [input::document_01(), input::labels()] {
        measured.object(calls, &input.object)?;
        measured.files(calls, &input)?;
    }
    let Measured { used, wrong, .. } = measured;
    let (first, second) = used.split_at(used.len() / 2);
    let kib = |bytes: usize| format!("{:.1}", bytes as f64 / 1024.0);
    let over = |used: &Used| used.all > LIMIT << 10;
    let cell = |used: &Used| kib(used.call) + if over(used) { " over" } else { "" };
    println!(
        "A thread that makes no call uses {} KiB of its stack. Each call beside that; over: more than {LIMIT} KiB with it.\n",
        kib(empty.all)
    );
    println!("{}", head(["call", "document 01, KiB", "5,000 labels, KiB"]));
    for ((call, first), (_, second)) in first.iter().zip(second) {
        println!("{}", row([call.to_string(), cell(first), cell(second)]));
    }
    let many = used.iter().filter(|(_, used)| over(used)).count();
    println!();
    wrong.iter().for_each(|what| println!("wrong answer: {what}"));
    println!("stack: {many} of {} measurements over {LIMIT} KiB", used.len());
    Ok(wrong.is_empty() && !(strict && (many > 0 || used.is_empty())))
}
