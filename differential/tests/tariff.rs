//! Request P14: fees that are known, the objects that are asked, and wrong lending fees that a run must find.
use std::collections::BTreeSet;

use lc3_differential::gen::{tariff as objects, Depth};
use lc3_differential::numbers::tariff::{ask, Fee, MOST_WORDS};
use lc3_differential::object::decode;
use lc3_differential::parts::Parts;
use lc3_differential::table::{Call, Table};
use lc3_differential::under::{paper, run, Calls, Plan};
use lc3_differential::{rust, stack};

const FEW: Plan = Plan { seed: 5, cases: 2000, depth: Depth::None, long: 0, many: 0 };
const FIXED: Plan = Plan { cases: 0, depth: Depth::Quick, ..FEW };

type Lending = fn(&[u32], bool) -> (u8, Fee);
const FEE: Lending = paper::CALLS.lending_fee.unwrap();

fn calls(lending_fee: Lending) -> Calls {
    Calls { lending_fee: Some(lending_fee), ..Calls::default() }
}

fn table(lending_fee: Lending, plan: &Plan) -> Table {
    rust::quiet();
    run(&calls(lending_fee), plan)
}

fn differences(lending_fee: Lending, plan: &Plan) -> u64 {
    table(lending_fee, plan).differences_of(Call::LendingFee)
}

/// A fee with other addends, or another reduction of their sum.
fn changed(w: &[u32], member: bool, change: fn(&mut Fee, &[u32], &Parts), reduce: fn(u64) -> u64) -> (u8, Fee) {
    let (number, mut f) = FEE(w, member);
    if number == 0 {
        change(&mut f, w, &decode(w).unwrap());
        let sum = f.base + f.words + f.labels;
        f.fee = if member { reduce(sum) } else { sum };
    }
    (number, f)
}

fn reduced(sum: u64) -> u64 {
    (7 * sum + 5) / 10
}

#[test]
fn the_request_s_own_fees() {
    assert_eq!(ask(&[], false), Ok(Fee { fee: 150, base: 150, words: 0, labels: 0 }));
    assert_eq!(ask(&[], true), Ok(Fee { fee: 105, base: 150, words: 0, labels: 0 }));
    for known in objects::known() {
        assert_eq!([false, true].map(|member| ask(&known.words, member)), [false, true].map(|member| known.fee(member)), "{}", known.name);
    }
}

/// The objects have the lengths that their names say; their sums end on every digit, at either side of a multiple of 256.
#[test]
fn lengths_and_digits() {
    let mut seen = BTreeSet::new();
    for words in objects::edges() {
        let f = ask(&words, false).unwrap();
        seen.insert((words.len() % 256, f.fee % 10));
    }
    assert!([255, 0, 1].iter().all(|length| (0..10).all(|digit| seen.contains(&(*length, digit)))));
    let known = objects::known();
    let named = known.iter().filter_map(|k| Some((k.name.strip_suffix(" words")?.parse().ok()?, k.words.len())));
    assert_eq!(named.filter(|(name, length): &(usize, usize)| name == length).count(), 5);
    let mut lengths = vec![];
    objects::large(&mut |known| lengths.push((known.number, known.words.len())));
    let (most, more) = (MOST_WORDS, MOST_WORDS + 1);
    assert_eq!(lengths[..8], [(0, most), (1, most), (1, most), (1, most), (38, more), (1, more), (1, more), (1, more)]);
    assert_eq!(lengths[8..], [(0, most), (0, most), (38, more)]);
}

#[test]
fn no_difference_in_the_numbers() {
    let few = table(FEE, &FEW);
    assert_eq!(few.differences, 0);
    assert!(few.halves() > 100);
    assert!(few.gaps().iter().any(|gap| gap == "LendingFee: number 38 not reached"));
    let fixed = table(FEE, &FIXED);
    assert_eq!(fixed.differences, 0);
    assert!(fixed.halves() > 20);
}

/// Members are given a fee, and none of them ends on half a cent: a run says so.
#[test]
fn no_half_is_told() {
    let mut table = Table::default();
    table.at_random = true;
    table.call(Call::LendingFee, 0);
    table.member(154);
    let told = |table: &Table| table.gaps().iter().any(|gap| gap.contains("half a cent"));
    assert!(told(&table));
    table.member(155);
    assert!(!told(&table));
}

#[test]
fn wrong_fees_are_found() {
    let wrong: [(&str, Lending); 17] = [
        ("halves down", |w, m| changed(w, m, |_, _, _| {}, |sum| (7 * sum + 4) / 10)),
        ("halves to even", |w, m| changed(w, m, |_, _, _| {}, |sum| reduced(sum) - u64::from(7 * sum % 20 == 5))),
        ("rounded down", |w, m| changed(w, m, |_, _, _| {}, |sum| 7 * sum / 10)),
        ("rounded up", |w, m| changed(w, m, |_, _, _| {}, |sum| (7 * sum).div_ceil(10))),
        ("the reduction rounded, not the fee", |w, m| changed(w, m, |_, _, _| {}, |sum| sum - (3 * sum + 5) / 10)),
        ("256 words counted as two started", |w, m| changed(w, m, |f, w, _| f.words = 4 * (w.len() as u64 / 256 + 1), reduced)),
        ("the last part of 256 words not counted", |w, m| changed(w, m, |f, w, _| f.words = 4 * (w.len() as u64 / 256), reduced)),
        ("255 words are enough to start", |w, m| changed(w, m, |f, w, _| f.words = 4 * w.len().div_ceil(255) as u64, reduced)),
        ("words rounded for each label", |w, m| changed(w, m, |f, _, p| f.words += 4 * p.labels.len() as u64, reduced)),
        ("a cent too few for words", |w, m| changed(w, m, |f, _, _| f.words = f.words / 4 * 3, reduced)),
        ("addends reduced for members", |w, m| match (FEE(w, m), m) {
            ((0, f), true) => (0, Fee { base: reduced(f.base), words: reduced(f.words), labels: reduced(f.labels), ..f }),
            (r, _) => r,
        }),
        ("each addend reduced and rounded by itself", |w, m| match (FEE(w, m), m) {
            ((0, f), true) => (0, Fee { fee: reduced(f.base) + reduced(f.words) + reduced(f.labels), ..f }),
            (r, _) => r,
        }),
        ("members and others swapped", |w, m| FEE(w, !m)),
        ("the fee not reduced", |w, m| changed(w, m, |_, _, _| {}, |sum| sum)),
        ("labels by the bytes of their names", |w, m| {
            changed(w, m, |f, _, p| f.labels = p.labels.iter().map(|l| l.name.len() as u64).sum(), reduced)
        }),
        ("relocations counted too", |w, m| changed(w, m, |f, _, p| f.labels += p.relocs.len() as u64, reduced)),
        ("external labels not counted", |w, m| {
            changed(w, m, |f, _, p| f.labels = p.labels.iter().filter(|l| !l.external).count() as u64, reduced)
        }),
    ];
    for (name, lending_fee) in wrong {
        assert!(differences(lending_fee, &FEW) > 0, "{name}");
    }
}

#[test]
fn wrong_refusals_are_found() {
    let wrong: [(&str, Lending); 3] = [
        ("a refusal that keeps the 150", |w, m| match FEE(w, m) {
            (0, f) => (0, f),
            (n, f) => (n, Fee { base: 150, ..f }),
        }),
        ("a refusal with a fee", |w, m| match FEE(w, m) {
            (0, f) => (0, f),
            (n, f) => (n, Fee { fee: 150, ..f }),
        }),
        ("a refusal for all", |_, _| (1, Fee::default())),
    ];
    for (name, lending_fee) in wrong {
        assert!(differences(lending_fee, &FEW) > 0, "{name}");
    }
}

/// Faults that only the large objects show, and how often each differs: for others and for members.
#[test]
fn faults_of_large_objects_are_found() {
    const REFUSED: (u8, Fee) = (38, Fee { fee: 0, base: 0, words: 0, labels: 0 });
    let wrong: [(&str, Lending, u64); 5] = [
        ("the limit one less", |w, m| if w.len() == MOST_WORDS && FEE(w, m).0 == 0 { REFUSED } else { FEE(w, m) }, 6),
        ("the limit one more", |w, m| if FEE(w, m) == REFUSED { FEE(&w[..MOST_WORDS], m) } else { FEE(w, m) }, 4),
        ("38 asked before 1", |w, m| if w.len() > MOST_WORDS { REFUSED } else { FEE(w, m) }, 6),
        ("a 38 that keeps the 150", |w, m| if FEE(w, m) == REFUSED { (38, Fee { base: 150, ..REFUSED.1 }) } else { FEE(w, m) }, 4),
        ("labels of 16 bits", |w, m| changed(w, m, |f, _, _| f.labels &= 0xFFFF, reduced), 2),
    ];
    for (name, lending_fee, times) in wrong {
        assert_eq!(differences(lending_fee, &FIXED), times, "{name}");
    }
}

#[test]
fn the_stack_of_a_wrong_fee() {
    assert!(stack::print(&calls(FEE), true).unwrap());
    assert!(!stack::print(&calls(|w, m| FEE(w, !m)), false).unwrap());
}
