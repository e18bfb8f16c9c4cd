//! The proved code, called as C calls it.

use crate::answer::Answer;

#[repr(C)]
#[derive(Default)]
pub struct BenchAnswer {
    joins: usize,
    length: usize,
    kept_by: usize,
    number: u8,
}

/// `struct lanthuvel_settlement` of include/lanthuvel.h.
#[repr(C)]
#[derive(Default)]
struct Settlement {
    joins: usize,
    length: usize,
    number: u8,
    kept_by: u8,
}

/// `struct lanthuvel_refusal` of include/lanthuvel.h.
#[repr(C)]
#[derive(Default)]
struct Refusal {
    place: usize,
    letter: usize,
    status: u8,
    layer: u8,
    side: u8,
}

type Sheet = *const u8;
type Out = *mut BenchAnswer;
pub type Compare = unsafe extern "C" fn(Sheet, usize, Sheet, usize, *mut u8, usize, usize, Out) -> u8;
pub type Single = unsafe extern "C" fn(Sheet, usize, Sheet, usize, usize, usize, usize, Out) -> u8;
#[rustfmt::skip]
pub type Nest = unsafe extern "C" fn(
    Sheet, usize, Sheet, usize, Sheet, usize, Sheet, usize, Sheet, usize, Sheet, usize, usize, usize, usize, Out,
) -> u8;

#[rustfmt::skip]
extern "C" {
    fn bench_open(s: Sheet, n: usize, times: usize, states: *mut usize) -> u8;
    fn bench_copy(s: Sheet, n: usize, t: Sheet, m: usize, times: usize, states: *mut usize) -> u8;
    fn bench_tables(s: Sheet, n: usize, t: Sheet, m: usize, word: *mut u8, room: usize, times: usize, out: Out) -> u8;
    fn bench_copies(s: Sheet, n: usize, t: Sheet, m: usize, word: *mut u8, room: usize, times: usize, out: Out) -> u8;
    fn bench_dense(s: Sheet, n: usize, t: Sheet, m: usize, word: *mut u8, room: usize, times: usize, out: Out) -> u8;
    fn bench_single(s: Sheet, n: usize, t: Sheet, m: usize, p: usize, q: usize, times: usize, out: Out) -> u8;
    fn bench_single_dense(s: Sheet, n: usize, t: Sheet, m: usize, p: usize, q: usize, times: usize, out: Out) -> u8;
    fn bench_nest(
        a: Sheet, i: usize, b: Sheet, j: usize, c: Sheet, k: usize, d: Sheet, l: usize, e: Sheet, m: usize, f: Sheet, n: usize,
        p: usize, q: usize, times: usize, out: Out,
    ) -> u8;
    fn bench_nest_dense(
        a: Sheet, i: usize, b: Sheet, j: usize, c: Sheet, k: usize, d: Sheet, l: usize, e: Sheet, m: usize, f: Sheet, n: usize,
        p: usize, q: usize, times: usize, out: Out,
    ) -> u8;
    fn lanthuvel_settle(
        s: Sheet, n: usize, t: Sheet, m: usize, word: *mut u8, room: usize, settlement: *mut Settlement, refusal: *mut Refusal,
    ) -> u8;
}

pub const TABLES: Compare = bench_tables;
pub const COPIES: Compare = bench_copies;
pub const DENSE: Compare = bench_dense;
pub const SINGLE: Single = bench_single;
pub const SINGLE_DENSE: Single = bench_single_dense;
pub const NEST: Nest = bench_nest;
pub const NEST_DENSE: Nest = bench_nest_dense;

/// `LANTHUVEL_SECOND` of include/lanthuvel.h.
const SECOND: u8 = 2;

/// Bytes that suffice for the word of every comparing.
const ROOM: usize = 4096;

fn answer(out: &BenchAnswer, word: &[u8]) -> Answer {
    let differ = out.number == 1;
    Answer {
        differ,
        joins: out.joins,
        kept_by: if differ { out.kept_by } else { 0 },
        word: word[..out.length].to_vec(),
    }
}

/// Opens a sheet again and again.
pub fn open(sheet: &[u8], times: usize) {
    let mut states = 0;
    let done = unsafe { bench_open(sheet.as_ptr(), sheet.len(), times, &mut states) };
    assert_eq!(done, 1, "a sheet is not opened");
}

/// Opens two sheets, and copies their disjoint union again and again.
pub fn copy(sheets: [&[u8]; 2], times: usize) {
    let [s, t] = sheets;
    let mut states = 0;
    let done = unsafe { bench_copy(s.as_ptr(), s.len(), t.as_ptr(), t.len(), times, &mut states) };
    assert_eq!(done, 1, "two sheets are not copied");
}

/// Opens two sheets, and compares their starts again and again.
pub fn compare(call: Compare, sheets: [&[u8]; 2], times: usize) -> Answer {
    let [s, t] = sheets;
    let (mut word, mut out) = ([0; ROOM], BenchAnswer::default());
    #[rustfmt::skip]
    let done = unsafe {
        call(s.as_ptr(), s.len(), t.as_ptr(), t.len(), word.as_mut_ptr(), ROOM, times, &mut out)
    };
    assert_eq!(done, 1, "two sheets are not compared");
    answer(&out, &word)
}

/// Opens two sheets, and compares two states of their intersection again and again.
pub fn single(call: Single, sheets: [&[u8]; 2], states: (usize, usize), times: usize) -> Answer {
    let [s, t] = sheets;
    let mut out = BenchAnswer::default();
    #[rustfmt::skip]
    let done = unsafe {
        call(s.as_ptr(), s.len(), t.as_ptr(), t.len(), states.0, states.1, times, &mut out)
    };
    assert_eq!(done, 1, "the states of an intersection are not compared");
    answer(&out, &[0; ROOM])
}

/// Opens six sheets, and compares two states of their intersection again and again.
pub fn nest(call: Nest, sheets: [&[u8]; 6], states: (usize, usize), times: usize) -> Answer {
    let [a, b, c, d, e, f] = sheets;
    let mut out = BenchAnswer::default();
    #[rustfmt::skip]
    let done = unsafe {
        call(
            a.as_ptr(), a.len(), b.as_ptr(), b.len(), c.as_ptr(), c.len(), d.as_ptr(), d.len(), e.as_ptr(), e.len(),
            f.as_ptr(), f.len(), states.0, states.1, times, &mut out,
        )
    };
    assert_eq!(done, 1, "the states of a nest are not compared");
    answer(&out, &[0; ROOM])
}

/// Opens two sheets and compares their starts, in one call. The state that keeps the word is the start of
/// its side, where that of the second is as given.
pub fn settle(sheets: [&[u8]; 2], second_start: usize) -> Answer {
    let [s, t] = sheets;
    let mut word = [0; ROOM];
    let (mut out, mut refusal) = (Settlement::default(), Refusal::default());
    #[rustfmt::skip]
    let status = unsafe {
        lanthuvel_settle(
            s.as_ptr(), s.len(), t.as_ptr(), t.len(), word.as_mut_ptr(), ROOM, &mut out, &mut refusal,
        )
    };
    assert_eq!(status, 0, "two sheets are not settled");
    Answer {
        differ: out.number == 1,
        joins: out.joins,
        kept_by: if out.kept_by == SECOND { second_start } else { 0 },
        word: word[..out.length].to_vec(),
    }
}
