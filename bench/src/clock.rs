//! Times of two sides that are asked in turn.

use crate::question::Question;
use std::env;
use std::hint::black_box;

#[repr(C)]
struct Timespec {
    seconds: i64,
    nanoseconds: i64,
}

const THREAD_TIME: i32 = 3;

unsafe extern "C" {
    fn clock_gettime(clock: i32, time: *mut Timespec) -> i32;
}

/// The nanoseconds that the processor spent on this thread, so that other programs count little.
pub fn spent() -> f64 {
    let mut time = Timespec { seconds: 0, nanoseconds: 0 };
    let answer = unsafe { clock_gettime(THREAD_TIME, &mut time) };
    assert_eq!(answer, 0, "no clock");
    time.seconds as f64 * 1e9 + time.nanoseconds as f64
}

/// One side of a comparison: the sum of its answers over a number of rounds.
pub type Asked<'a> = dyn Fn(usize) -> usize + 'a;

/// The median of the port's nanoseconds, and that of the ratios of neighbours.
#[derive(Clone, Copy)]
pub struct Pair {
    pub port: f64,
    pub ratio: f64,
}

fn took(asked: &Asked<'_>, rounds: usize) -> f64 {
    let start = spent();
    black_box(asked(black_box(rounds)));
    spent() - start
}

pub fn median(mut times: Vec<f64>) -> f64 {
    times.sort_by(f64::total_cmp);
    times[times.len() / 2]
}

/// A side with what a call takes before its first round, and enough rounds that this is little.
struct Side<'a> {
    asked: &'a Asked<'a>,
    making: f64,
    rounds: usize,
}

impl<'a> Side<'a> {
    fn new(asked: &'a Asked<'a>) -> Side<'a> {
        let making = (0..3).map(|_| took(asked, 0)).fold(f64::INFINITY, f64::min);
        Side { asked, making, rounds: 1 }
    }

    // A call should take so long: twenty times what comes before its first round, and some milliseconds.
    fn wanted(&self) -> f64 {
        (self.making * 20.0).clamp(4e6, 4e8)
    }

    fn settle(&mut self, wanted: f64) {
        loop {
            let time = took(self.asked, self.rounds);
            if time >= wanted {
                return;
            }
            let rounds = self.rounds as f64 * (wanted * 1.1 / time.max(1.0));
            self.rounds = (rounds.min(self.rounds as f64 * 64.0).ceil() as usize).max(self.rounds + 1);
        }
    }

    fn one_round(&self) -> f64 {
        (took(self.asked, self.rounds) - self.making).max(0.0) / self.rounds as f64
    }
}

/// The rounds that are asked of each side in place of timing it, where `bench/instructions` counts: `PORT=9 ORIGINAL=0`.
fn counted() -> Option<(usize, usize)> {
    let rounds = |name: &str| env::var(name).ok()?.parse().ok();
    Some((rounds("PORT")?, rounds("ORIGINAL")?))
}

/// The time of one answer on both sides, of which each round gives the number `answers`.
pub fn beside(port: &Asked<'_>, original: &Asked<'_>, answers: usize) -> Pair {
    if let Some((of_port, of_original)) = counted() {
        eprintln!("answers: {answers}");
        black_box((port(of_port), original(of_original)));
        return Pair { port: 0.0, ratio: 0.0 };
    }
    let (mut port, mut original) = (Side::new(port), Side::new(original));
    let wanted = port.wanted().max(original.wanted());
    port.settle(wanted);
    original.settle(wanted);
    let pairs = ((1e9 / (2.0 * wanted)) as usize).clamp(9, 25);
    let times: Vec<(f64, f64)> = (0..pairs).map(|_| (port.one_round(), original.one_round())).collect();
    Pair {
        port: median(times.iter().map(|t| t.0).collect()) / answers as f64,
        ratio: median(times.iter().map(|t| t.0 / t.1).collect()),
    }
}

/// The time of one answer of a side that has nothing beside it.
pub fn alone(port: &Asked<'_>) -> f64 {
    let mut port = Side::new(port);
    port.settle(port.wanted());
    median((0..9).map(|_| port.one_round()).collect())
}

/// Both sides give the same answers, so they do the same work.
pub fn assert_same(name: &str, question: Question, port: usize, original: usize) {
    assert_eq!(port, original, "{name}, {question:?}");
}
