//! Request P10: relocation addresses low byte first, files written earlier, lists of trips, and wrong calls that a run must find.
use std::cell::Cell;

use lc3_differential::gen::trips::{case, fixed, Buffer, Format, List, Room, Trip};
use lc3_differential::gen::Depth;
use lc3_differential::numbers::{binary, text, text_write, Outcome};
use lc3_differential::object::{decode, encode, fair, swap_changes, swap_reorders, swapped};
use lc3_differential::parts::Parts;
use lc3_differential::prng::Prng;
use lc3_differential::reference::Object;
use lc3_differential::table::Call::{
    self, BinaryLength, BinaryRead, BinaryRoom, BinaryWrite, HostBinary, Relocations, TextRead, TextWrite, Trips,
};
use lc3_differential::table::Table;
use lc3_differential::under::{paper, run, Calls, Filled, Form, Host, Plan};
use lc3_differential::{hex, marked, records, rust};

const FEW: Plan = Plan { seed: 5, cases: 800, depth: Depth::None, long: 0, many: 0 };

const BINARY: Form = paper::CALLS.binary.unwrap();
const TEXT: Form = paper::CALLS.text.unwrap();
const HOST: Host = paper::CALLS.host.unwrap();

type Read = fn(&[u8], &mut [u32]) -> Filled;
type Write = fn(&[u32], &mut [u8]) -> Filled;

/// Trips need both forms.
fn forms(binary: Form, text: Form) -> Calls {
    Calls { binary: Some(binary), text: Some(text), ..Calls::default() }
}
fn writes(write: Write) -> Calls {
    forms(Form { write, ..BINARY }, TEXT)
}
fn reads(read: Read) -> Calls {
    forms(Form { read, ..BINARY }, TEXT)
}

fn fill<T: Copy>(got: Outcome<Vec<T>>, out: &mut [T]) -> Filled {
    match got {
        Outcome::Refused(n, _) => (n, 0),
        Outcome::Given(v) if v.len() > out.len() => (3, 0),
        Outcome::Given(v) => {
            out[..v.len()].copy_from_slice(&v);
            (0, v.len())
        }
    }
}

/// A binary write of an object that is changed first. Records may come in any order.
fn write_changed(w: &[u32], out: &mut [u8], change: fn(&mut Parts)) -> Filled {
    let changed = decode(w).map(|mut p| {
        change(&mut p);
        binary::write(&p)
    });
    fill(changed.unwrap_or(Outcome::Refused(1, None)), out)
}

/// A binary read whose object is then changed.
fn read_changed(f: &[u8], out: &mut [u32], change: fn(&mut Parts)) -> Filled {
    let changed = binary::read(f).map(|mut p| {
        change(&mut p);
        encode(&p)
    });
    fill(changed, out)
}

fn swap_one((addr, _): &mut (u16, Vec<u8>)) {
    *addr = addr.swap_bytes();
}
/// Relocation addresses byte-swapped, in the order in which they stood.
fn swap(p: &mut Parts) {
    p.relocs.iter_mut().for_each(swap_one);
}
fn swap_and_sort(p: &mut Parts) {
    *p = swapped(p);
}

/// Swaps where an address is in no block, and is in one after the swap: as if the file had been written earlier.
fn swap_back(p: &mut Parts) {
    let within = |addr: u16| p.blocks.iter().any(|(at, data)| usize::from(addr.wrapping_sub(*at)) < data.len());
    if p.relocs.iter().any(|(addr, _)| !within(*addr) && within(addr.swap_bytes())) {
        swap_and_sort(p);
    }
}

/// Each relocation gets the next one's name, and the last one the first's.
fn move_names(p: &mut Parts) {
    let names: Vec<Vec<u8>> = p.relocs.iter().map(|(_, name)| name.clone()).collect();
    p.relocs.iter_mut().zip(names.iter().cycle().skip(1)).for_each(|((_, name), next)| name.clone_from(next));
}

/// The relocations of a file that is read, in the order of their records, none of them dropped; a later one replaces.
fn file_order(f: &[u8]) -> Vec<(u16, Vec<u8>)> {
    let mut out: Vec<(u16, Vec<u8>)> = vec![];
    for record in records::records(f).unwrap_or_default().into_iter().filter(|record| record[0] == 4) {
        let addr = u16::from_le_bytes([record[1], record[2]]);
        out.retain(|(a, _)| *a != addr);
        out.push((addr, record[11..].to_vec()));
    }
    out
}

/// A binary read that puts a file's relocations otherwise.
fn read_relocations(f: &[u8], out: &mut [u32], change: fn(&mut Parts, Vec<(u16, Vec<u8>)>)) -> Filled {
    let changed = binary::read(f).map(|mut p| {
        change(&mut p, file_order(f));
        encode(&p)
    });
    fill(changed, out)
}

/// Changes a buffer that a call has refused to fill.
fn touched<T: Default>(r: Filled, out: &mut [T]) -> Filled {
    if r.0 == 3 && !out.is_empty() {
        out[0] = T::default();
    }
    r
}

fn one_less(f: &[u8], (number, length): Filled) -> Filled {
    (number, length.saturating_sub(usize::from(!file_order(f).is_empty())))
}

fn text_write_swapped(w: &[u32], out: &mut [u8]) -> Filled {
    fill(decode(w).map_or(Outcome::Refused(1, None), |p| Outcome::Given(text_write::write(&swapped(&p)))), out)
}
fn text_read_swapped(f: &[u8], out: &mut [u32]) -> Filled {
    fill(text::read(f).map(|p| encode(&swapped(&p))), out)
}

thread_local! {
    static READS: Cell<u64> = const { Cell::new(0) };
}

/// Calls by name, the rows that must find them, and rows that can't.
type Wrong = (&'static str, Calls, &'static [Call], &'static [Call]);

fn high_byte_first() -> Vec<Wrong> {
    let write: Write = |w, out| write_changed(w, out, swap);
    let read: Read = |f, out| read_changed(f, out, swap_and_sort);
    let both = forms(Form { read, write, ..BINARY }, TEXT);
    let text = Form { read: text_read_swapped, write: text_write_swapped, ..TEXT };
    vec![
        ("a writer high byte first, as it was", writes(write), &[BinaryWrite, Relocations, Trips], &[BinaryRead]),
        ("a reader high byte first", reads(read), &[BinaryRead, BinaryRoom, Relocations, Trips], &[BinaryWrite]),
        ("both, so that trips come out alike", both, &[BinaryWrite, BinaryRead, Relocations], &[Trips]),
        ("a text writer high byte first", forms(BINARY, Form { write: text_write_swapped, ..TEXT }), &[TextWrite, Trips], &[TextRead]),
        ("a text reader high byte first", forms(BINARY, Form { read: text_read_swapped, ..TEXT }), &[TextRead, Trips], &[TextWrite]),
        ("text both ways, so that trips come out alike", forms(BINARY, text), &[TextWrite, TextRead], &[Trips]),
        (
            "a swap in each form's read, each undone by the other's",
            forms(Form { read, ..BINARY }, Form { read: text_read_swapped, ..TEXT }),
            &[BinaryRead, TextRead, Trips],
            &[],
        ),
    ]
}

fn wrong_writers() -> Vec<Wrong> {
    let found = &[BinaryWrite, Trips];
    let others: Write = |w, out| write_changed(w, out, |p| p.relocs.iter_mut().skip(1).for_each(swap_one));
    let second: Write = |w, out| write_changed(w, out, |p| p.relocs.iter_mut().skip(1).take(1).for_each(swap_one));
    let labels: Write = |w, out| write_changed(w, out, |p| p.labels.iter_mut().for_each(|l| l.addr = l.addr.swap_bytes()));
    let smaller: Write = |w, out| write_changed(w, out, |p| p.relocs.iter_mut().for_each(|(addr, _)| *addr = addr.swap_bytes().max(*addr)));
    let both: Write = |w, out| {
        write_changed(w, out, |p| {
            let swapped: Vec<_> = p.relocs.iter().map(|(addr, name)| (addr.swap_bytes(), name.clone())).collect();
            p.relocs.extend(swapped);
        })
    };
    vec![
        ("only the first relocation low byte first", writes(others), found, &[]),
        ("only the second relocation high byte first", writes(second), found, &[]),
        ("labels high byte first", writes(labels), found, &[Relocations]),
        ("the smaller byte first", writes(smaller), found, &[]),
        ("each relocation in both orders", writes(both), found, &[]),
        ("a name at another's address", writes(|w, out| write_changed(w, out, move_names)), found, &[]),
        ("the last relocation left out", writes(|w, out| write_changed(w, out, |p| drop(p.relocs.pop()))), found, &[]),
    ]
}

fn wrong_readers() -> Vec<Wrong> {
    let in_file_order: Read = |f, out| read_relocations(f, out, |p, in_file| p.relocs = if p.relocs.is_empty() { vec![] } else { in_file });
    let kept: Read =
        |f, out| read_relocations(f, out, |p, in_file| in_file.into_iter().for_each(|(addr, name)| Parts::put(&mut p.relocs, addr, name)));
    let in_turn: Read = |f, out| {
        READS.set(READS.get() + 1);
        match READS.get() % 2 {
            0 => read_changed(f, out, swap_and_sort),
            _ => (BINARY.read)(f, out),
        }
    };
    vec![
        ("swapped and not sorted anew", reads(|f, out| read_changed(f, out, swap)), &[BinaryRead, Relocations, Trips], &[]),
        // The numbers' writer has the object's order, so that its trips come out alike.
        ("relocations in the order of the file", reads(in_file_order), &[BinaryRead, Relocations], &[Trips]),
        ("a relocation alone kept", reads(kept), &[BinaryRead, Relocations], &[Trips]),
        ("files taken for earlier ones swapped back", reads(|f, out| read_changed(f, out, swap_back)), &[Relocations, Trips], &[]),
        ("relocations dropped", reads(|f, out| read_changed(f, out, |p| p.relocs.clear())), &[BinaryRead, Relocations, Trips], &[]),
        ("a name at another's address", reads(|f, out| read_changed(f, out, move_names)), &[BinaryRead, Relocations, Trips], &[]),
        ("each second read swapped: a second trip hands back something else", reads(in_turn), &[Trips], &[]),
    ]
}

/// Refusals that aren't due, by another number, with a length, or over a changed buffer; and lengths.
fn wrong_refusals() -> Vec<Wrong> {
    let spare: Read = |f, out| {
        let room = out.len().saturating_sub(1);
        (BINARY.read)(f, &mut out[..room])
    };
    let just: Write = |w, out| match (BINARY.write)(w, out) {
        (0, n) if n == out.len() => (3, 0),
        r => r,
    };
    let number: Write = |w, out| match (TEXT.write)(w, out) {
        (3, _) => (2, 0),
        r => r,
    };
    let beside: Read = |f, out| match (BINARY.read)(f, out) {
        (3, _) => (3, out.len()),
        r => r,
    };
    let length = Form { length: |f| one_less(f, (BINARY.length)(f)), ..BINARY };
    let host = Host { binary_length: |f| one_less(f, (HOST.binary_length)(f)), ..HOST };
    vec![
        ("a read that says 3 with room to spare", reads(spare), &[BinaryRead, Trips], &[]),
        ("a write that says 3 with just enough room", writes(just), &[BinaryWrite, Trips], &[]),
        ("a refused write over a changed buffer", writes(|w, out| touched((BINARY.write)(w, out), out)), &[BinaryWrite, Trips], &[]),
        ("a refused read over a changed buffer", reads(|f, out| touched((BINARY.read)(f, out), out)), &[BinaryRead, Trips], &[]),
        ("a text write refused by another number", forms(BINARY, Form { write: number, ..TEXT }), &[TextWrite, Trips], &[]),
        ("a length beside 3", reads(beside), &[BinaryRead, Trips], &[]),
        ("a length told over an untouched buffer", writes(|w, out| (BINARY.write)(w, &mut out.to_vec())), &[BinaryWrite, Trips], &[]),
        ("a length one less where there are relocations", forms(length, TEXT), &[BinaryLength, Relocations], &[Trips]),
        ("the host's likewise", Calls { host: Some(host), ..Calls::default() }, &[HostBinary, Relocations], &[]),
    ]
}

#[test]
fn wrong_calls_are_found() {
    rust::quiet();
    for (name, calls, found, unseen) in [high_byte_first(), wrong_writers(), wrong_readers(), wrong_refusals()].concat() {
        let table = run(&calls, &FEW);
        for row in found {
            assert!(table.differences_of(*row) > 0, "{name}: {row:?}");
        }
        for row in unseen {
            assert_eq!(table.differences_of(*row), 0, "{name}: {row:?}");
        }
    }
}

#[test]
fn no_difference_in_the_numbers() {
    rust::quiet();
    let table = run(&paper::CALLS, &Plan { many: 2, ..FEW });
    assert_eq!(table.differences, 0);
    assert!(!table.gaps().iter().any(|gap| gap.contains("relocation") || gap.contains("Trips") || gap.contains("Relocations")));
}

/// The two record orders are free.
#[test]
fn any_order_of_records_is_right() {
    rust::quiet();
    let calls = writes(|w, out| {
        write_changed(w, out, |p| {
            p.labels.reverse();
            p.relocs.reverse();
        })
    });
    assert_eq!(run(&calls, &FEW).differences, 0);
}

#[test]
fn the_crates_files_are_swapped_before_comparing() {
    let (words, earlier, _) = marked::example();
    let Outcome::Given(written) = binary::write(&decode(&words).unwrap()) else { panic!() };
    assert_ne!(earlier, written);
    assert_eq!(records::swap_relocations(&earlier).as_ref(), Some(&written));
    assert_eq!(records::swap_relocations(&written).as_ref(), Some(&earlier));
    assert_eq!(records::swap_relocations(&earlier[..76]), None);
    let file = |relocs: &str| hex::parse_bytes(&format!("6F626A21100001 {relocs}")).unwrap();
    let zeros = "00".repeat(8);
    // x0102 comes before x0201, whatever the order of their bytes.
    let [a, b] = [format!("04 0201 {zeros}"), format!("04 0102 {zeros}")];
    assert_eq!(records::canonical(&file(&(b.clone() + &a))), Some(file(&(a.clone() + &b))));
    assert_eq!(records::canonical(&file(&(a.clone() + &b))), Some(file(&(a + &b))));
}

/// As document 01 has it, and request P10 leaves it: x0130, written earlier as 01 30, reads as x3001.
#[test]
fn files_written_earlier() {
    rust::quiet();
    let (words, earlier, _) = marked::example();
    let object = Object::new(words);
    let (file, read) = object.earlier_file().unwrap();
    assert_eq!((read.number, &read.difference), (0, &None));
    assert_eq!(file, earlier);
    assert_eq!(read.value, Some(encode(&swapped(object.parts().unwrap()))));
    assert_eq!(read.value.unwrap()[16], 0xA000_3001);
}

/// Most objects show the order of the bytes, and all kinds of lists come.
#[test]
fn the_lists() {
    let mut r = Prng::new(3);
    let lists: Vec<List> = (0..2000).map(|_| case(&mut r)).collect();
    assert!(lists.iter().chain(&fixed()).all(|list| fair(&list.parts) && encode(&list.parts) == list.words));
    let many = |is: fn(&List) -> bool| lists.iter().filter(|list| is(list)).count();
    assert!(many(|list| swap_changes(&list.parts)) > 1200);
    assert!(many(|list| swap_reorders(&list.parts)) > 500);
    assert!(many(|list| list.trips.is_empty()) > 100);
    assert!(many(|list| list.trips.iter().filter(|trip| list.fits(trip) == (true, true)).count() > 3) > 200);
    for format in [Format::Binary, Format::Text] {
        for fits in [(false, false), (false, true), (true, false), (true, true)] {
            let made = |list: &&List| list.trips.iter().any(|trip| trip.format == format && list.fits(trip) == fits);
            assert!(lists.iter().filter(made).count() > 10, "{format:?} {fits:?}");
        }
    }
}

/// A run that can't tell one order of the bytes from the other says so.
#[test]
fn too_little_is_told() {
    let relocations = |addrs: &[u16]| Parts {
        source: Some(vec![]),
        relocs: addrs.iter().map(|addr| (*addr, addr.to_string().into_bytes())).collect(),
        ..Parts::default()
    };
    let mut table = Table::default();
    let missing = |table: &Table| table.gaps().iter().filter(|gap| gap.starts_with("BinaryWrite")).count();
    table.object(&relocations(&[0x1212, 0x3030]));
    assert_eq!(missing(&table), 2);
    table.object(&relocations(&[0x0001, 0x0002]));
    assert_eq!(missing(&table), 1);
    table.object(&relocations(&[0x0002, 0x0100]));
    assert_eq!(missing(&table), 0);
}

#[test]
fn a_kind_of_list_that_is_missing_is_told() {
    let mut table = Table::default();
    let missing = |table: &Table| table.gaps().iter().filter(|gap| gap.starts_with("Trips")).count();
    let list = |addr: u16, trips: &[(Format, Room, Room)]| {
        let parts = Parts { source: Some(vec![]), relocs: vec![(addr, b"A".to_vec())], ..Parts::default() };
        let buffer = |room| Buffer { room, salt: 1 };
        let trip = |(format, bytes, words): &(Format, Room, Room)| Trip { format: *format, bytes: buffer(*bytes), words: buffer(*words) };
        List::new(parts, trips.iter().map(trip).collect())
    };
    let (binary, text) = ((Format::Binary, Room::Just, Room::Just), (Format::Text, Room::More(1), Room::Just));
    table.trips(&list(0x0102, &[binary]));
    assert_eq!(missing(&table), 0, "lists are counted where they are made at random");
    table.at_random = true;
    table.trips(&list(0x1212, &[binary]));
    table.trips(&list(0x1212, &[binary, binary]));
    table.trips(&list(0x0102, &[text, text]));
    assert_eq!(missing(&table), 5);
    table.trips(&list(0x0102, &[binary]));
    assert_eq!(missing(&table), 4);
    table.trips(&list(0x0102, &[binary, binary]));
    assert_eq!(missing(&table), 3);
    table.trips(&list(0x1212, &[binary, text]));
    assert_eq!(missing(&table), 2);
    table.trips(&list(0x1212, &[(Format::Text, Room::OneLess, Room::None)]));
    assert_eq!(missing(&table), 1);
    table.trips(&list(0x1212, &[(Format::Text, Room::Just, Room::OneLess)]));
    assert_eq!(missing(&table), 0);
}
