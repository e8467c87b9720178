//! Times `Crl::read` and `Crl::entry` beside OpenSSL's `d2i_X509_CRL` and `X509_CRL_get0_by_serial`: on a list of 25,000
//! entries with reasons, and on the longest lists of shapes that could be hard to read.

#[path = "../certificate.rs"]
#[allow(dead_code)]
mod certificate;
#[path = "../der.rs"]
#[allow(dead_code)]
mod der;
#[path = "../list.rs"]
mod list;
#[path = "../openssl.rs"]
#[allow(dead_code)]
mod openssl;

use certificate::extension;
use der::{element, INTEGER};
use list::{entry, list, reasoned, serial};
use openssl::{List, Serial};
use std::hint::black_box;
use std::time::Instant;

/// How often each subject is timed.
const ROUNDS: usize = 31;

/// Coprime to each number of items.
const STRIDE: usize = 7_919;

/// The greatest number of octets that a list may have for `Crl::read`.
const MAX_LIST: usize = 1_048_576;

const ENTRIES: u32 = 25_000;

/// What `ts_bench_read_list` answers: the number of the rule that is broken, 0 where none is, and its place.
#[repr(C)]
struct Answer {
    rule: u8,
    at: usize,
}

extern "C" {
    fn ts_bench_read_list(octets: *const u8, length: usize) -> Answer;
    fn ts_bench_find(
        octets: *const u8,
        length: usize,
        serial: *const u8,
        serial_length: usize,
    ) -> bool;
}

/// What is wrong with octets as a list, by its number.
fn read(octets: &[u8]) -> Result<(), String> {
    // SAFETY: the declaration is that of `crates/ts_bench`, where a slice is a pointer and then a length.
    match unsafe { ts_bench_read_list(octets.as_ptr(), octets.len()) } {
        Answer { rule: 0, .. } => Ok(()),
        Answer { rule, at } => Err(format!("rule {rule} at {at}")),
    }
}

/// Whether octets, read as a list, have an entry of this serial number.
fn find(octets: &[u8], serial: &[u8]) -> bool {
    // SAFETY: as above.
    unsafe { ts_bench_find(octets.as_ptr(), octets.len(), serial.as_ptr(), serial.len()) }
}

/// The least time of a call, in nanoseconds: what else the machine does can only add to it.
fn time(mut call: impl FnMut()) -> f64 {
    let times = (0..ROUNDS).map(|_| {
        let start = Instant::now();
        call();
        start.elapsed().as_nanos() as f64
    });
    times.fold(f64::INFINITY, f64::min)
}

/// The list of entries with reasons, and what both readers take for an octet of it. The answer is that of `Crl::read`.
fn tell_plain() -> Result<f64, String> {
    let entries: Vec<_> = (0..ENTRIES).map(reasoned).collect();
    let plain = list(&entries, &[]);
    read(&plain)?;
    let octets = plain.len() as f64;
    let ours = time(|| drop(black_box(read(black_box(&plain)))));
    let theirs = time(|| drop(black_box(List::read(black_box(&plain)))));
    println!("A list of {ENTRIES} entries with reasons, {octets} octets");
    println!("Crl::read     {:>10.3} ns an octet", ours / octets);
    println!("d2i_X509_CRL  {:>10.3} ns an octet", theirs / octets);
    println!("ratio         {:>10.3}", ours / theirs);
    tell_entry(&plain);
    Ok(ours / octets)
}

/// The least times of two calls that take turns, in nanoseconds.
fn times(mut one: impl FnMut(), mut other: impl FnMut()) -> (f64, f64) {
    let mut least = (f64::INFINITY, f64::INFINITY);
    for _ in 0..2 * ROUNDS {
        let start = Instant::now();
        one();
        least.0 = least.0.min(start.elapsed().as_nanos() as f64);
        let start = Instant::now();
        other();
        least.1 = least.1.min(start.elapsed().as_nanos() as f64);
    }
    least
}

/// How fast an entry is found: the last one, and one that is not there. Each is asked for behind a reading, whose time is
/// taken off.
fn tell_entry(plain: &[u8]) {
    for (what, number) in [("the last entry", ENTRIES - 1), ("no entry", ENTRIES)] {
        let wanted = serial(number);
        let (alone, both) = times(
            || drop(black_box(read(black_box(plain)))),
            || {
                black_box(find(plain, &wanted));
            },
        );
        let found = both - alone;
        let gigabytes = plain.len() as f64 / found;
        println!("Crl::entry, {what}: {found:.0} ns, {gigabytes:.2} GB/s");
    }
    let (list, number) = (
        List::read(plain),
        Serial::read(&element(INTEGER, &serial(7))),
    );
    if let (Some(list), Some(number)) = (list, number) {
        let theirs = time(|| {
            black_box(list.has(&number));
        });
        println!("X509_CRL_get0_by_serial: {theirs:.0} ns, on a list that it has sorted");
    }
}

/// The greatest count for which a list fits.
fn longest(make: impl Fn(u32) -> Vec<u8>) -> (u32, Vec<u8>) {
    let (mut fits, mut too_many) = (1, 300_000);
    while fits + 1 < too_many {
        let middle = (fits + too_many) / 2;
        if make(middle).len() <= MAX_LIST {
            fits = middle;
        } else {
            too_many = middle;
        }
    }
    (fits, make(fits))
}

/// So many extensions that nobody knows, all distinct.
fn unknown(count: u32) -> Vec<Vec<u8>> {
    let word = |n: u32| {
        let digits = [n >> 14, n >> 7, n].map(|digit| (digit & 0x7F) as u8);
        vec![0x81 + digits[0], 0x80 | digits[1], digits[2]]
    };
    (0..count).map(|n| extension(&word(n), &[])).collect()
}

/// The same in no order: a large stride from one to the next.
fn shuffled(count: u32) -> Vec<Vec<u8>> {
    let all = unknown(count);
    (0..all.len())
        .map(|n| all[n * STRIDE % all.len()].clone())
        .collect()
}

/// The same, but the last is the first one again, which is refused.
fn repeated(count: u32) -> Vec<Vec<u8>> {
    let mut all = shuffled(count);
    if let (Some(first), true) = (all.first().cloned(), all.len() > 1) {
        all.pop();
        all.push(first);
    }
    all
}

/// Extensions that nobody knows, all distinct, whose identifiers have one of 128 flags of the 262,144 in which the search
/// for a repeat notes them: what somebody would send who knows its hash.
fn colliding() -> Vec<Vec<u8>> {
    let word = |n: u32| {
        let digits = [n >> 21, n >> 14, n >> 7, n].map(|digit| (digit & 0x7F) as u8);
        [
            0x80 | digits[0],
            0x80 | digits[1],
            0x80 | digits[2],
            digits[3],
        ]
    };
    let words = (1 << 21..1 << 28).map(word);
    words
        .filter(|word| flag(word) < 128)
        .map(|word| extension(&word, &[]))
        .collect()
}

/// The flag of an identifier in a long list: by the upper half of its hash, in which each octet is added to what those
/// before it gave, and the sum multiplied by 2^64 over the golden ratio.
fn flag(word: &[u8]) -> u64 {
    let hash = word.iter().fold(0u64, |hash, &octet| {
        let sum = hash.wrapping_add(octet.into());
        sum.wrapping_mul(0x9E37_79B9_7F4A_7C15)
    });
    (hash >> 32) % 262_144
}

fn tell_shape(items: &str, of_plain: f64, make: impl Fn(u32) -> Vec<u8>) {
    let (count, octets) = longest(make);
    let answer = match read(&octets) {
        Ok(()) => "read".to_owned(),
        Err(fault) => fault,
    };
    let whole = time(|| drop(black_box(read(black_box(&octets)))));
    let ours = whole / octets.len() as f64;
    let ratio = ours / of_plain;
    let mark = if ratio > 20.0 { "ABOVE 20" } else { "" };
    let length = octets.len();
    println!("{items:<32}{count:>8}{length:>9}{ours:>11.3}{ratio:>9.2}{mark:>10}  {answer}");
}

/// The longest lists with many extensions, of the list or of its only entry.
fn tell_extensions(of_plain: f64) {
    let reversed = |count| unknown(count).into_iter().rev().collect::<Vec<_>>();
    tell_shape("list extensions, ascending", of_plain, |n| {
        list(&[], &unknown(n))
    });
    tell_shape("list extensions, descending", of_plain, |n| {
        list(&[], &reversed(n))
    });
    tell_shape("list extensions, shuffled", of_plain, |n| {
        list(&[], &shuffled(n))
    });
    tell_shape("list extensions, last again", of_plain, |n| {
        list(&[], &repeated(n))
    });
    let chosen = colliding();
    tell_shape("list extensions, of one hash", of_plain, |n| {
        list(&[], &chosen[..chosen.len().min(n as usize)])
    });
    tell_shape("entry extensions, ascending", of_plain, |n| {
        list(&[entry(0, &unknown(n))], &[])
    });
    tell_shape("entry extensions, descending", of_plain, |n| {
        list(&[entry(0, &reversed(n))], &[])
    });
    tell_shape("entry extensions, shuffled", of_plain, |n| {
        list(&[entry(0, &shuffled(n))], &[])
    });
}

fn main() -> Result<(), String> {
    let of_plain = tell_plain()?;
    println!();
    println!(
        "items                              count   octets   ns/octet    ratio            answer"
    );
    let numbered = |count| (0..count).map(|n| entry(n, &[])).collect::<Vec<_>>();
    tell_shape("entries without extensions", of_plain, |n| {
        list(&numbered(n), &[])
    });
    tell_extensions(of_plain);
    Ok(())
}
