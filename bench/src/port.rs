//! The port's exports. A text or a list is a pointer and a length.

use crate::question::Question;

unsafe extern "C" {
    fn bench_between(lo: i64, hi: i64, items: *const i64, len: usize, question: u8, rounds: usize) -> usize;
    fn bench_chosen(
        first: u8,
        lo: i64,
        second: u8,
        hi: i64,
        items: *const i64,
        len: usize,
        question: u8,
        rounds: usize,
    ) -> usize;
    fn bench_function(ages: *const i64, len: usize, question: u8, rounds: usize) -> usize;
    fn bench_part(ages: *const i64, len: usize, question: u8, rounds: usize) -> usize;
    fn bench_each(least: i64, members: *const i64, len: usize, question: u8, rounds: usize) -> usize;
    fn bench_at_least(
        least: i64,
        needed: usize,
        members: *const i64,
        len: usize,
        question: u8,
        rounds: usize,
    ) -> usize;
    fn bench_nots(depth: usize, t: *const u8, tlen: usize, copies: usize, question: u8, rounds: usize) -> usize;
    fn bench_row(leaves: usize, t: *const u8, tlen: usize, copies: usize, question: u8, rounds: usize) -> usize;
    fn bench_xors(
        xors: usize,
        right: u8,
        t: *const u8,
        tlen: usize,
        copies: usize,
        question: u8,
        rounds: usize,
    ) -> usize;
    fn bench_full(levels: u8, t: *const u8, tlen: usize, copies: usize, question: u8, rounds: usize) -> usize;
    fn bench_listed(m: *const i64, mlen: usize, items: *const i64, len: usize, question: u8, rounds: usize) -> usize;
    fn bench_sorted(m: *const i64, mlen: usize, items: *const i64, len: usize, question: u8, rounds: usize) -> usize;
    fn bench_hashed(m: *const i64, mlen: usize, items: *const i64, len: usize, question: u8, rounds: usize) -> usize;
    fn bench_make_listed(m: *const i64, mlen: usize, item: i64, rounds: usize) -> usize;
    fn bench_make_sorted(m: *const i64, mlen: usize, item: i64, rounds: usize) -> usize;
    fn bench_make_hashed(m: *const i64, mlen: usize, item: i64, rounds: usize) -> usize;
    fn bench_contains(
        p: *const u8,
        plen: usize,
        t: *const u8,
        tlen: usize,
        copies: usize,
        question: u8,
        rounds: usize,
    ) -> usize;
    fn bench_count(
        p: *const u8,
        plen: usize,
        count: usize,
        t: *const u8,
        tlen: usize,
        copies: usize,
        question: u8,
        rounds: usize,
    ) -> usize;
    fn bench_matches(
        p: *const u8,
        plen: usize,
        count: usize,
        t: *const u8,
        tlen: usize,
        copies: usize,
        question: u8,
        rounds: usize,
    ) -> usize;
    fn bench_starts_with(
        p: *const u8,
        plen: usize,
        t: *const u8,
        tlen: usize,
        copies: usize,
        question: u8,
        rounds: usize,
    ) -> usize;
    fn bench_trimmed(t: *const u8, tlen: usize, copies: usize, question: u8, rounds: usize) -> usize;
    fn bench_from_utf8(t: *const u8, tlen: usize, copies: usize, question: u8, rounds: usize) -> usize;
}

pub fn between(lo: i64, hi: i64, items: &[i64], question: Question, rounds: usize) -> usize {
    unsafe { bench_between(lo, hi, items.as_ptr(), items.len(), question.number(), rounds) }
}

/// The numbers of the comparisons by "at least" and "at most".
pub const GE_LE: (u8, u8) = (2, 1);

pub fn chosen(lo: i64, hi: i64, items: &[i64], question: Question, rounds: usize) -> usize {
    let (first, second) = GE_LE;
    unsafe { bench_chosen(first, lo, second, hi, items.as_ptr(), items.len(), question.number(), rounds) }
}

pub fn function(ages: &[i64], question: Question, rounds: usize) -> usize {
    unsafe { bench_function(ages.as_ptr(), ages.len(), question.number(), rounds) }
}

pub fn part(ages: &[i64], question: Question, rounds: usize) -> usize {
    unsafe { bench_part(ages.as_ptr(), ages.len(), question.number(), rounds) }
}

pub fn each(least: i64, members: &[i64], question: Question, rounds: usize) -> usize {
    unsafe { bench_each(least, members.as_ptr(), members.len(), question.number(), rounds) }
}

pub fn at_least(least: i64, needed: usize, members: &[i64], question: Question, rounds: usize) -> usize {
    unsafe { bench_at_least(least, needed, members.as_ptr(), members.len(), question.number(), rounds) }
}

/// How the members of a membership are held.
#[derive(Clone, Copy, Debug, PartialEq, Eq)]
pub enum Held {
    Listed,
    Sorted,
    Hashed,
}

impl Held {
    pub const ALL: [Held; 3] = [Held::Listed, Held::Sorted, Held::Hashed];

    pub fn name(self) -> &'static str {
        match self {
            Held::Listed => "in_iter",
            Held::Sorted => "sort",
            Held::Hashed => "in_hash",
        }
    }
}

pub fn member(held: Held, members: &[i64], items: &[i64], question: Question, rounds: usize) -> usize {
    let (m, mlen, i, len) = (members.as_ptr(), members.len(), items.as_ptr(), items.len());
    let question = question.number();
    unsafe {
        match held {
            Held::Listed => bench_listed(m, mlen, i, len, question, rounds),
            Held::Sorted => bench_sorted(m, mlen, i, len, question, rounds),
            Held::Hashed => bench_hashed(m, mlen, i, len, question, rounds),
        }
    }
}

pub fn make_member(held: Held, members: &[i64], item: i64, rounds: usize) -> usize {
    let (m, mlen) = (members.as_ptr(), members.len());
    unsafe {
        match held {
            Held::Listed => bench_make_listed(m, mlen, item, rounds),
            Held::Sorted => bench_make_sorted(m, mlen, item, rounds),
            Held::Hashed => bench_make_hashed(m, mlen, item, rounds),
        }
    }
}

/// A text, and how many copies of it there are.
#[derive(Clone, Copy)]
pub struct Copied<'a> {
    pub bytes: &'a [u8],
    pub copies: usize,
}

pub fn contains(pattern: &str, text: Copied<'_>, question: Question, rounds: usize) -> usize {
    let (p, plen, Copied { bytes, copies }) = (pattern.as_ptr(), pattern.len(), text);
    unsafe { bench_contains(p, plen, bytes.as_ptr(), bytes.len(), copies, question.number(), rounds) }
}

pub fn count(pattern: &str, count: usize, text: Copied<'_>, question: Question, rounds: usize) -> usize {
    let (p, plen, Copied { bytes, copies }) = (pattern.as_ptr(), pattern.len(), text);
    unsafe { bench_count(p, plen, count, bytes.as_ptr(), bytes.len(), copies, question.number(), rounds) }
}

pub fn matches(pattern: &str, count: usize, text: Copied<'_>, question: Question, rounds: usize) -> usize {
    let (p, plen, Copied { bytes, copies }) = (pattern.as_ptr(), pattern.len(), text);
    unsafe { bench_matches(p, plen, count, bytes.as_ptr(), bytes.len(), copies, question.number(), rounds) }
}

pub fn starts_with(pattern: &str, text: Copied<'_>, question: Question, rounds: usize) -> usize {
    let (p, plen, Copied { bytes, copies }) = (pattern.as_ptr(), pattern.len(), text);
    unsafe { bench_starts_with(p, plen, bytes.as_ptr(), bytes.len(), copies, question.number(), rounds) }
}

pub fn trimmed(text: Copied<'_>, question: Question, rounds: usize) -> usize {
    let Copied { bytes, copies } = text;
    unsafe { bench_trimmed(bytes.as_ptr(), bytes.len(), copies, question.number(), rounds) }
}

pub fn from_utf8(text: Copied<'_>, question: Question, rounds: usize) -> usize {
    let Copied { bytes, copies } = text;
    unsafe { bench_from_utf8(bytes.as_ptr(), bytes.len(), copies, question.number(), rounds) }
}

pub fn nots(depth: usize, text: Copied<'_>, question: Question, rounds: usize) -> usize {
    let Copied { bytes, copies } = text;
    unsafe { bench_nots(depth, bytes.as_ptr(), bytes.len(), copies, question.number(), rounds) }
}

pub fn row(leaves: usize, text: Copied<'_>, question: Question, rounds: usize) -> usize {
    let Copied { bytes, copies } = text;
    unsafe { bench_row(leaves, bytes.as_ptr(), bytes.len(), copies, question.number(), rounds) }
}

pub fn xors(xors: usize, on_the_right: bool, text: Copied<'_>, question: Question, rounds: usize) -> usize {
    let Copied { bytes, copies } = text;
    let right = u8::from(on_the_right);
    unsafe { bench_xors(xors, right, bytes.as_ptr(), bytes.len(), copies, question.number(), rounds) }
}

pub fn full(levels: u8, text: Copied<'_>, question: Question, rounds: usize) -> usize {
    let Copied { bytes, copies } = text;
    unsafe { bench_full(levels, bytes.as_ptr(), bytes.len(), copies, question.number(), rounds) }
}
