//! The calls under test, held against the reference: numbers, values, lengths, what is filled and what is left alone.
use crate::gen;
use crate::gen::plus;
use crate::gen::tariff::Known;
use crate::gen::trips::{self, Format, Trip};
use crate::gen::Depth;
use crate::hex;
use crate::marked::{self, Input};
use crate::numbers::query::{Query, Values};
use crate::numbers::room;
use crate::numbers::tariff::{self, Fee};
use crate::numbers::Excluded;
use crate::object::{encode, swap_changes};
use crate::prng::Prng;
use crate::records;
use crate::reference::{self, Answer, Object};
use crate::table::{Call, Table};

/// Number and length.
pub type Filled = (u8, usize);

/// The three calls of a form.
#[derive(Clone, Copy)]
pub struct Form {
    /// Number and length in words of what the bytes read as; no buffer.
    pub length: fn(&[u8]) -> Filled,
    pub read: fn(&[u8], &mut [u32]) -> Filled,
    pub write: fn(&[u32], &mut [u8]) -> Filled,
}

/// The check and the queries on an object.
#[derive(Clone, Copy)]
pub struct Queries {
    pub check: fn(&[u32]) -> u8,
    /// Number and two values, 0 where there is none.
    pub query: fn(&[u32], Query) -> (u8, u64, u64),
}

/// The host's calls.
#[derive(Clone, Copy)]
pub struct Host {
    /// Number and length in words of what the bytes read as.
    pub binary_length: fn(&[u8]) -> Filled,
    pub text_length: fn(&[u8]) -> Filled,
    /// On source bytes.
    pub get_pos_pair: fn(&[u8], u64) -> Values,
}

/// The calls by group. A group that is None isn't compared, and the crate still is.
#[derive(Default, Clone, Copy)]
pub struct Calls {
    pub queries: Option<Queries>,
    pub binary: Option<Form>,
    pub text: Option<Form>,
    /// Number, and 1 if fair.
    pub is_fair: Option<fn(&[u32]) -> (u8, u8)>,
    /// 1 for White_Space, of any number.
    pub is_white_space: Option<fn(u32) -> u8>,
    /// Number and fee, of an object, for a member or not.
    pub lending_fee: Option<fn(&[u32], bool) -> (u8, Fee)>,
    pub host: Option<Host>,
}

/// How much to compare.
#[derive(Clone, Copy)]
pub struct Plan {
    pub seed: u64,
    /// Random cases of each call.
    pub cases: u64,
    /// How far short inputs, and numbers for White_Space, are tried in full; None also leaves out the large cases.
    pub depth: Depth,
    /// Objects with a line block too long for a binary file, for that write alone; each has over 65,535 words.
    pub long: u64,
    /// Binary files, text files and objects with thousands of records, of each so many.
    pub many: u64,
}

/// What stands in buffers before a call: any values, so that a wrong write shows.
trait Element: Copy + PartialEq {
    fn of(n: u64) -> Self;
}
impl Element for u8 {
    fn of(n: u64) -> u8 {
        n as u8
    }
}
impl Element for u32 {
    fn of(n: u64) -> u32 {
        n as u32
    }
}

/// How many numbers are White_Space: request P6's law.
const WHITE_SPACES: u64 = 25;

/// Elements on both sides of a lent buffer, which nothing may touch.
const AROUND: usize = 4;

/// A buffer with so much room, and the elements around it.
fn before<T: Element>(room: usize, salt: u64) -> Vec<T> {
    let odd = salt | 1;
    (0..room + 2 * AROUND).map(|i| T::of(odd.wrapping_mul(2 * i as u64 + 1) >> 40)).collect()
}

/// How much room a filling call is given: none, one too little, just enough and more; where it is refused, none and some.
fn rooms<T>(value: &Option<Vec<T>>, some: usize) -> Vec<usize> {
    match value {
        None => vec![0, some],
        Some(v) if v.is_empty() => vec![0, some],
        Some(v) if v.len() == 1 => vec![0, 1, 1 + some],
        Some(v) => vec![0, v.len() - 1, v.len(), v.len() + some],
    }
}

/// What a call tells that fills so much of so much room.
fn fitting(length: usize, room: usize) -> Filled {
    if length > room {
        (3, 0)
    } else {
        (0, length)
    }
}

struct Run<'a> {
    calls: &'a Calls,
    table: Table,
    rng: Prng,
    /// For buffers alone, so that the cases are the same whatever is linked.
    buffers: Prng,
    /// For White_Space alone, so that the cases of the other calls are what they are without it.
    white: Prng,
    /// For request P13 alone, files and buffers, likewise.
    room: Prng,
    /// For request P14 alone, likewise.
    tariff: Prng,
    /// For request P8 alone, texts and buffers, likewise.
    plus: Prng,
    /// For request P10 alone, likewise: buffers for binary files about relocations, and lists of trips.
    relocations: Prng,
    trips: Prng,
}

impl Run<'_> {
    /// Counts a case, and a difference between the reference's own two sides.
    fn case<T>(&mut self, call: Call, input: &dyn Fn() -> String, want: &Answer<T>) {
        self.table.case(call, want.excluded.map(|why| (why, want.crate_did)));
        self.sides(call, input, want);
    }

    /// A difference between the reference's own two sides.
    fn sides<T>(&mut self, call: Call, input: &dyn Fn() -> String, want: &Answer<T>) {
        if let Some(what) = &want.difference {
            self.table.differs(call, input, &|| what.clone());
        }
    }

    /// Counts a call, and a difference.
    fn call<T: PartialEq + std::fmt::Debug>(&mut self, call: Call, input: &dyn Fn() -> String, number: u8, want: T, got: T) {
        self.table.call(call, number);
        self.ours(call, input, want, got);
    }

    /// A difference between ours and the reference.
    fn ours<T: PartialEq + std::fmt::Debug>(&mut self, call: Call, input: &dyn Fn() -> String, want: T, got: T) {
        if got != want {
            self.table.differs(call, input, &|| format!("wanted {want:?}, got {got:?}"));
        }
    }

    /// A filling call, with several buffers.
    fn fills<T: Element>(
        &mut self,
        call: Call,
        input: &dyn Fn() -> String,
        want: &Answer<Vec<T>>,
        ask: &dyn Fn(&mut [T]) -> Filled,
        order: &dyn Fn(&[T]) -> Vec<T>,
    ) {
        let some = 1 + self.buffers_of(call).below(40);
        for room in rooms(&want.value, some) {
            let before = before(room, self.buffers_of(call).next());
            self.fills_one(call, input, want, ask, order, before);
        }
    }

    /// Where a row's buffers come from: that of request P10 has its own, so that those of the other rows are what they are without it.
    fn buffers_of(&mut self, call: Call) -> &mut Prng {
        match call {
            Call::Relocations => &mut self.relocations,
            _ => &mut self.buffers,
        }
    }

    /// A filling call, with one buffer.
    fn fills_one<T: Element>(
        &mut self,
        call: Call,
        input: &dyn Fn() -> String,
        want: &Answer<Vec<T>>,
        ask: &dyn Fn(&mut [T]) -> Filled,
        order: &dyn Fn(&[T]) -> Vec<T>,
        before: Vec<T>,
    ) {
        let room = before.len() - 2 * AROUND;
        let told = match &want.value {
            None => (want.number, 0),
            Some(v) => fitting(v.len(), room),
        };
        let filled = self.lends(call, input, told, ask, before).filter(|filled| !filled.is_empty());
        if filled.is_some_and(|filled| want.value != Some(order(&filled))) {
            self.table.differs(call, input, &|| format!("room for {room}: what was filled"));
        }
    }

    /// A filling call, with one buffer, by its number and length alone, and what is left alone. What it filled, where it told these.
    fn lends<T: Element>(
        &mut self,
        call: Call,
        input: &dyn Fn() -> String,
        told: Filled,
        ask: &dyn Fn(&mut [T]) -> Filled,
        before: Vec<T>,
    ) -> Option<Vec<T>> {
        let room = before.len() - 2 * AROUND;
        let mut after = before.clone();
        let got = ask(&mut after[AROUND..AROUND + room]);
        self.call(call, &|| format!("{} with room for {room}", input()), told.0, told, got);
        let end = AROUND + told.1;
        if after[..AROUND] != before[..AROUND] || after[end..] != before[end..] {
            self.table.differs(call, input, &|| format!("room for {room}: what was to be left alone"));
        }
        after.truncate(end);
        after.drain(..AROUND);
        (got == told).then_some(after)
    }

    /// A length without a buffer.
    fn length(&mut self, call: Call, file: &[u8], want: &Answer<Vec<u32>>, ask: fn(&[u8]) -> Filled) {
        self.table.case(call, want.excluded.map(|why| (why, want.crate_did)));
        let words = want.value.as_ref().map_or(0, Vec::len);
        self.call(call, &|| hex::bytes(file), want.number, (want.number, words), ask(file));
    }

    fn file(&mut self, form: Option<Form>, length: Call, read: Call, file: &[u8], want: &Answer<Vec<u32>>) {
        let input = || hex::bytes(file);
        self.case(read, &input, want);
        self.position(file);
        let Some(form) = form else { return };
        self.length(length, file, want, form.length);
        self.fills(read, &input, want, &|out| (form.read)(file, out), &|w| w.to_vec());
    }

    fn binary_file(&mut self, file: &[u8]) {
        let want = reference::read_binary(file);
        self.file(self.calls.binary, Call::BinaryLength, Call::BinaryRead, file, &want);
        if let Some(host) = self.calls.host {
            self.length(Call::HostBinary, file, &want, host.binary_length);
        }
        self.binary_room(file, &want);
    }

    /// Request P13 of any binary file: an accepted one has at most so many words, and a read with this much room never gives 3.
    /// Whether it has just so many.
    fn binary_room(&mut self, file: &[u8], want: &Answer<Vec<u32>>) -> bool {
        let (call, input) = (Call::BinaryRoom, || hex::bytes(file));
        let room = room::binary(file.len());
        let before = before(room, self.room.next()); // drawn also where nothing is linked: the cases stay the same
        self.table.case(call, want.excluded.map(|why| (why, want.crate_did)));
        let words = want.value.as_ref().map(Vec::len);
        if let Some(words) = words {
            self.table.room(file.len(), words == room);
            if words > room {
                self.table.differs(call, &input, &|| format!("{words} words, of {room} at most"));
            }
        }
        if let Some(form) = self.calls.binary {
            self.fills_one(call, &input, want, &|out| (form.read)(file, out), &|w| w.to_vec(), before);
        }
        words == Some(room)
    }

    /// A file for request P13 alone, so that the other calls' cases are what they are without it.
    fn room_file(&mut self, file: &[u8]) -> bool {
        let want = reference::read_binary(file);
        self.sides(Call::BinaryRoom, &|| hex::bytes(file), &want);
        self.binary_room(file, &want)
    }

    /// A line block alone has just as many words as request P13 allows, so that no fewer would do.
    fn line_blocks_alone(&mut self) {
        for k in gen::room::counts() {
            if !self.room_file(&gen::room::alone(k)) {
                self.table.differs(Call::BinaryRoom, &|| format!("a line block of {k} alone"), &|| "not the most words".into());
            }
        }
    }

    fn text_file(&mut self, file: &[u8]) {
        let want = reference::read_text(file);
        self.file(self.calls.text, Call::TextLength, Call::TextRead, file, &want);
        if want.value.as_ref().is_some_and(|words| words.len() > file.len()) {
            self.table.differs(Call::TextRead, &|| hex::bytes(file), &|| "more words than bytes".into());
        }
        if let Some(host) = self.calls.host {
            self.length(Call::HostText, file, &want, host.text_length);
        }
    }

    /// A text with a `+`, whose answer is known (request P8): both of the reference's sides and all three calls are held against it. It is
    /// counted by itself, so that the other calls' cases are what they are without it.
    fn plus_sign(&mut self, known: &plus::Known) {
        let (call, file) = (Call::PlusSign, &known.file[..]);
        let (some, salt) = (1 + self.plus.below(40), self.plus.next()); // drawn also where nothing is linked: the cases stay the same
        let want = reference::known_text(file, &known.answer, known.decides.is_some());
        let input = |asked: &str| format!("{asked} of {} ({:?})", hex::bytes(file), known.place);
        self.case(call, &|| input("the answer"), &want);
        if let Some(cell) = known.decides.filter(|_| want.excluded == Some(Excluded::PlusSign)) {
            self.table.plus(cell);
        }
        self.lengths(call, &input, file, &want, self.calls.host.map(|host| host.text_length), self.calls.text);
        let Some(form) = self.calls.text else { return };
        for room in rooms(&want.value, some) {
            self.fills_one(call, &|| input("a read"), &want, &|out| (form.read)(file, out), &|w| w.to_vec(), before(room, salt));
        }
    }

    /// Both lengths of a file, where they are linked, in a row that has reads too.
    fn lengths(
        &mut self,
        call: Call,
        input: &dyn Fn(&str) -> String,
        file: &[u8],
        want: &Answer<Vec<u32>>,
        host: Option<fn(&[u8]) -> Filled>,
        form: Option<Form>,
    ) {
        let told = (want.number, want.value.as_ref().map_or(0, Vec::len));
        for (name, ask) in [("the host's length", host), ("the length", form.map(|form| form.length))] {
            if let Some(ask) = ask {
                self.call(call, &|| input(name), told.0, told, ask(file));
            }
        }
    }

    /// A binary file about request P10, counted by itself, so that the other calls' cases are what they are without it.
    fn relocation_file(&mut self, file: &[u8], want: &Answer<Vec<u32>>) {
        let call = Call::Relocations;
        let input = |asked: &str| format!("{asked} of {}", hex::bytes(file));
        self.case(call, &|| input("the answer"), want);
        self.lengths(call, &input, file, want, self.calls.host.map(|host| host.binary_length), self.calls.binary);
        if let Some(form) = self.calls.binary {
            self.fills(call, &|| input("a read"), want, &|out| (form.read)(file, out), &|w| w.to_vec());
        }
    }

    /// The crate's file of an object, as the crate wrote it, where that shows: high byte first, as files written earlier.
    fn earlier_file(&mut self, object: &Object) {
        if !object.parts().is_some_and(swap_changes) {
            return;
        }
        if let Some((file, want)) = object.earlier_file() {
            self.table.earlier_file(want.number == 0);
            self.relocation_file(&file, &want);
        }
    }

    /// Request P10's own cases, counted by themselves likewise.
    fn relocations(&mut self) {
        for (_, input, _) in marked::relocations() {
            match input {
                Input::ReadBinary(file) => self.relocation_file(&file, &reference::read_binary(&file)),
                Input::WriteBinary(words) => self.write_binary(Call::Relocations, &Object::new(words)),
                Input::ReadText(_) | Input::WriteText(_) => unreachable!("the request is about binary files"),
            }
        }
    }

    /// A list of trips, each from what the one before has left standing. Since the beginning of a list is a list, the first words must stand
    /// after each trip; a difference ends the list.
    fn list_of_trips(&mut self, list: &trips::List) {
        let (Some(binary), Some(text)) = (self.calls.binary, self.calls.text) else { return };
        self.table.case(Call::Trips, None);
        self.table.trips(list);
        let mut stands = list.words.clone();
        for (i, trip) in list.trips.iter().enumerate() {
            let form = match trip.format {
                Format::Binary => binary,
                Format::Text => text,
            };
            let input = |asked: &str| format!("{} {:?}: trip {i}, {asked}", hex::words(&list.words), list.trips);
            let Some(after) = self.trip(form, list, trip, &stands, &input) else { return };
            if after != list.words {
                self.table.differs(Call::Trips, &|| input("what then stands"), &|| hex::words(&after));
                return;
            }
            stands = after;
        }
    }

    /// One trip of a list, refused by 3 just where a buffer is too short. What then stands; nothing where a call told something else.
    fn trip(&mut self, form: Form, list: &trips::List, trip: &Trip, stands: &[u32], input: &dyn Fn(&str) -> String) -> Option<Vec<u32>> {
        let call = Call::Trips;
        let length = list.file_length(trip.format);
        let room = trip.bytes.length(length);
        let lent = before(room, trip.bytes.salt);
        let file = self.lends(call, &|| input("the write"), fitting(length, room), &|out| (form.write)(stands, out), lent)?;
        if room < length {
            return Some(stands.to_vec());
        }
        let length = stands.len();
        let room = trip.words.length(length);
        let lent = before(room, trip.words.salt);
        let words = self.lends(call, &|| input("the read"), fitting(length, room), &|out| (form.read)(&file, out), lent)?;
        Some(if room < length { stands.to_vec() } else { words })
    }

    /// The host's `get_pos_pair`, on the bytes of sources and of files.
    fn position(&mut self, source: &[u8]) {
        let Some(host) = self.calls.host else { return };
        let i = gen::query::index(&mut self.buffers, source);
        let input = || format!("{} at {i}", hex::bytes(source));
        let want = reference::source_position(source, i);
        self.case(Call::HostPosition, &input, &want);
        self.call(Call::HostPosition, &input, 0, want.value, Some((host.get_pos_pair)(source, i)));
    }

    /// Every call on an object; of the queries one each.
    fn object(&mut self, words: Vec<u32>) {
        let object = Object::new(words);
        if let Some(p) = object.parts() {
            self.table.object(p);
        }
        self.check_and_fair(&object);
        self.write_binary(Call::BinaryWrite, &object);
        self.write_text(&object);
        for q in gen::query::one_of_each(&mut self.rng, object.parts()) {
            self.query(&object, q);
        }
        if let Some(source) = object.parts().and_then(|p| p.source.as_ref()) {
            self.position(source);
        }
        self.lending_fees(&object);
        self.earlier_file(&object);
    }

    /// Request P14 of any object, for others and for members.
    fn lending_fees(&mut self, object: &Object) {
        for member in [false, true] {
            let input = || format!("{} member {member}", hex::words(&object.words));
            self.lending_fee(&input, &object.words, member, &object.lending_fee(member));
        }
    }

    fn lending_fee(&mut self, input: &dyn Fn() -> String, words: &[u32], member: bool, want: &Answer<Fee>) {
        let call = Call::LendingFee;
        self.case(call, input, want);
        let Some(ask) = self.calls.lending_fee else { return };
        if let Some(fee) = want.value.filter(|_| member) {
            self.table.member(fee.base + fee.words + fee.labels);
        }
        self.call(call, input, want.number, (want.number, want.value.unwrap_or_default()), ask(words, member));
    }

    /// An object whose fee is known: ours is held against it, and the numbers where they are asked. A large one is told by its name.
    fn known_fees(&mut self, known: &Known, numbers: Option<fn(&[u32], bool) -> Result<Fee, u8>>) {
        let Known { name, words, .. } = known;
        for member in [false, true] {
            let input = || format!("{name}, {} .., member {member}", hex::words(&words[..words.len().min(40)]));
            let want = reference::known_fee(known.fee(member), numbers.map(|ask| ask(words, member)));
            self.lending_fee(&input, words, member, &want);
        }
    }

    /// Request P14 at the ends of its ranges. Of a large object the numbers would make parts of up to 0.2 GB each time; they are asked only
    /// where they stand in for ours.
    fn tariff(&mut self) {
        gen::tariff::edges().for_each(|words| self.lending_fees(&Object::new(words)));
        if self.calls.lending_fee.is_some() {
            gen::tariff::large(&mut |known| self.known_fees(known, None));
        }
    }

    fn check_and_fair(&mut self, object: &Object) {
        let input = || hex::words(&object.words);
        let want = object.check();
        self.case(Call::Check, &input, &want);
        if let Some(queries) = self.calls.queries {
            self.call(Call::Check, &input, want.number, want.number, (queries.check)(&object.words));
        }
        let want = object.is_fair();
        self.case(Call::IsFair, &input, &want);
        if let Some(ask) = self.calls.is_fair {
            let fair = u8::from(want.value == Some(true));
            self.call(Call::IsFair, &input, want.number, (want.number, fair), ask(&object.words));
        }
    }

    /// Binary files are compared with their records in the object's order.
    fn write_binary(&mut self, call: Call, object: &Object) {
        let input = || hex::words(&object.words);
        let in_order = |f: &[u8]| records::canonical(f).unwrap_or_else(|| f.to_vec());
        let want = object.write_binary();
        self.case(call, &input, &want);
        if let Some(form) = self.calls.binary {
            self.fills(call, &input, &want, &|out| (form.write)(&object.words, out), &in_order);
        }
    }

    fn write_text(&mut self, object: &Object) {
        let input = || hex::words(&object.words);
        let want = object.write_text();
        self.case(Call::TextWrite, &input, &want);
        if let Some(form) = self.calls.text {
            self.fills(Call::TextWrite, &input, &want, &|out| (form.write)(&object.words, out), &|f| f.to_vec());
        }
    }

    fn query(&mut self, object: &Object, q: Query) {
        let call = Call::of(q);
        let input = || format!("{} {q:?}", hex::words(&object.words));
        let want = object.query(q);
        self.case(call, &input, &want);
        if let Some(queries) = self.calls.queries {
            let (first, second) = want.value.unwrap_or((0, 0));
            self.call(call, &input, want.number, (want.number, first, second), (queries.query)(&object.words, q));
        }
    }

    /// White_Space of each of the numbers, counted at once, since there may be 2^32. How many got a yes from ours.
    fn white_space(&mut self, numbers: impl IntoIterator<Item = u32>) -> u64 {
        let call = Call::IsWhiteSpace;
        let (mut cases, mut yes) = (0, 0);
        let (mut out, mut why) = (0, None); // of this call there is one reason
        for n in numbers {
            let input = || format!("x{n:X}");
            let want = reference::is_white_space(n);
            self.sides(call, &input, &want);
            cases += 1;
            if want.excluded.is_some() {
                out += 1;
                why = want.excluded.map(|why| (why, want.crate_did));
            }
            if let Some(ask) = self.calls.is_white_space {
                let got = ask(n);
                yes += u64::from(got != 0);
                self.ours(call, &input, u8::from(want.value == Some(true)), got);
            }
        }
        self.table.cases(call, cases - out, None);
        self.table.cases(call, out, why);
        if self.calls.is_white_space.is_some() {
            self.table.calls(call, cases, 0);
        }
        yes
    }

    /// White_Space of every number below x110000, of which exactly 25 may get a yes; and of those beyond, all or some.
    fn white_space_in_full(&mut self, depth: Depth) {
        let yes = self.white_space(0..0x11_0000);
        if self.calls.is_white_space.is_some() {
            self.table.white_spaces = Some(yes);
            self.ours(Call::IsWhiteSpace, &|| "all numbers below x110000, how many are".into(), WHITE_SPACES, yes);
        }
        match depth {
            Depth::Full => self.white_space(0x11_0000..=u32::MAX),
            _ => self.white_space(gen::white::beyond()),
        };
    }

    /// A file of each form, an object and a list of trips, with thousands of records.
    fn many(&mut self) {
        let file = gen::many::binary(&mut self.rng);
        self.binary_file(&file);
        let file = gen::many::text(&mut self.rng);
        self.text_file(&file);
        let words = gen::many::object(&mut self.rng);
        self.object(words);
        let list = trips::many(&mut self.trips);
        self.list_of_trips(&list);
    }

    /// Objects too long for a binary file, inputs with many records, known fees, known texts with a `+`, request P10's cases, lists of trips;
    /// the cases marked M, short inputs in full, the large cases, numbers.
    fn fixed(&mut self, plan: &Plan) {
        for _ in 0..plan.long {
            let p = gen::edges::long_line_block(&mut self.rng);
            self.write_binary(Call::BinaryWrite, &Object::new(encode(&p)));
        }
        (0..plan.many).for_each(|_| self.many());
        gen::tariff::known().iter().for_each(|known| self.known_fees(known, Some(tariff::ask)));
        plus::known().iter().for_each(|known| self.plus_sign(known));
        self.relocations();
        trips::fixed().iter().for_each(|list| self.list_of_trips(list));
        if plan.depth == Depth::None {
            return;
        }
        for (_, input, _) in marked::cases() {
            match input {
                Input::ReadBinary(f) => self.binary_file(&f),
                Input::ReadText(f) => self.text_file(&f),
                Input::WriteBinary(w) | Input::WriteText(w) => self.object(w),
            }
        }
        gen::short::binary(plan.depth, &mut |f| self.binary_file(f));
        gen::short::text(plan.depth, &mut |f| self.text_file(f));
        gen::short::objects(plan.depth, &mut |w| self.object(w.to_vec()));
        gen::edges::binary().iter().for_each(|f| self.binary_file(f));
        gen::edges::text().iter().for_each(|f| self.text_file(f.as_bytes()));
        for (_, p) in gen::edges::objects() {
            self.object(encode(&p));
        }
        self.white_space_in_full(plan.depth);
        self.line_blocks_alone();
        self.tariff();
    }

    /// One random case of each call.
    fn round(&mut self) {
        let file = gen::binary::case(&mut self.rng);
        self.binary_file(&file);
        let file = gen::text::case(&mut self.rng);
        self.text_file(&file);
        let words = gen::object::case(&mut self.rng);
        self.object(words);
        let number = gen::white::case(&mut self.white);
        self.white_space([number]);
        let file = gen::room::case(&mut self.room);
        self.room_file(&file);
        let words = gen::tariff::case(&mut self.tariff);
        self.lending_fees(&Object::new(words));
        let known = plus::case(&mut self.plus);
        self.plus_sign(&known);
        let list = trips::case(&mut self.trips);
        self.list_of_trips(&list);
    }
}

pub fn run(calls: &Calls, plan: &Plan) -> Table {
    let (rng, buffers) = (Prng::new(plan.seed), Prng::new(!plan.seed));
    let (white, room) = (Prng::new(plan.seed.reverse_bits()), Prng::new(!plan.seed.reverse_bits()));
    let (tariff, plus) = (Prng::new(plan.seed.rotate_left(32)), Prng::new(!plan.seed.rotate_left(32)));
    let (relocations, trips) = (Prng::new(plan.seed.swap_bytes()), Prng::new(!plan.seed.swap_bytes()));
    let mut run = Run { calls, table: Table::default(), rng, buffers, white, room, tariff, plus, relocations, trips };
    run.fixed(plan);
    run.table.at_random = true;
    for _ in 0..plan.cases {
        run.round();
    }
    run.table
}

/// Document 01's numbers as calls under test, for where the library isn't at hand. A run must find no difference.
pub mod paper {
    use super::{Calls, Filled, Form, Host, Queries};
    use crate::numbers::query::{ask, get_pos_pair, Query};
    use crate::numbers::tariff::{self, Fee};
    use crate::numbers::utf8::is_white;
    use crate::numbers::{binary, text, text_write, Outcome};
    use crate::object::{decode, encode, fair};
    use crate::parts::Parts;

    fn fill<T: Copy>(got: Outcome<Vec<T>>, out: &mut [T]) -> Filled {
        match got {
            Outcome::Refused(n, _) => (n, 0),
            Outcome::Given(v) if v.len() > out.len() => (3, 0),
            Outcome::Given(v) => {
                out[..v.len()].copy_from_slice(&v);
                (0, v.len())
            }
        }
    }
    fn length(p: Outcome<Parts>) -> Filled {
        match p {
            Outcome::Given(p) => (0, encode(&p).len()),
            Outcome::Refused(n, _) => (n, 0),
        }
    }
    fn written(words: &[u32], write: fn(&Parts) -> Outcome<Vec<u8>>, out: &mut [u8]) -> Filled {
        fill(decode(words).map_or(Outcome::Refused(1, None), |p| write(&p)), out)
    }
    fn query(words: &[u32], q: Query) -> (u8, u64, u64) {
        match decode(words).ok_or(1).and_then(|p| ask(&p, q)) {
            Ok((a, b)) => (0, a, b),
            Err(n) => (n, 0, 0),
        }
    }

    fn lending_fee(words: &[u32], member: bool) -> (u8, Fee) {
        match tariff::ask(words, member) {
            Ok(fee) => (0, fee),
            Err(n) => (n, Fee::default()),
        }
    }

    pub const CALLS: Calls = Calls {
        queries: Some(Queries { check: |w| u8::from(decode(w).is_none()), query }),
        binary: Some(Form {
            length: |f| length(binary::read(f)),
            read: |f, out| fill(binary::read(f).map(|p| encode(&p)), out),
            write: |w, out| written(w, binary::write, out),
        }),
        text: Some(Form {
            length: |f| length(text::read(f)),
            read: |f, out| fill(text::read(f).map(|p| encode(&p)), out),
            write: |w, out| written(w, |p| Outcome::Given(text_write::write(p)), out),
        }),
        is_fair: Some(|w| decode(w).map_or((1, 0), |p| (0, fair(&p).into()))),
        is_white_space: Some(|n| is_white(n).into()),
        lending_fee: Some(lending_fee),
        host: Some(Host { binary_length: |f| length(binary::read(f)), text_length: |f| length(text::read(f)), get_pos_pair }),
    };
}
