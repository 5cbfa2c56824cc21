//! Times both sides in turn, so that what else the machine does touches both alike.

use crate::agreement::{ORDER_ROOM, TEXT_ROOM};
use crate::families::{Call, Family};
use crate::library;
use crate::questions::Question;
use std::hint::black_box;

/// How many rounds each family has.
const ROUNDS: usize = 41;

/// How often each side is timed on an input in a round; the least time counts.
const TRIES: usize = 3;

/// How long plain Rust works in a try, at least, in nanoseconds.
const TRY_TIME: f64 = 3e5;

/// What was measured of a family: a row for each round, with the times of a call at each total.
pub struct Measured<'a> {
    pub family: &'a Family,
    pub rounds: Vec<Round>,
}

/// Times of a call by the library and by plain Rust, for each total.
pub struct Round {
    pub ours: Vec<f64>,
    pub plain: Vec<f64>,
}

/// The calls on an input by both sides.
type Calls<'a> = (Box<dyn FnMut() + 'a>, Box<dyn FnMut() + 'a>);

pub fn measure(family: &Family) -> Measured<'_> {
    let mut inputs: Vec<(Calls<'_>, usize)> = family
        .questions
        .iter()
        .map(|(_, question)| {
            let mut calls = calls(family.call, question);
            let times = enough(&mut calls.1);
            (calls, times)
        })
        .collect();
    let rounds = (0..ROUNDS)
        .map(|round| one_round(round, &mut inputs))
        .collect();
    Measured { family, rounds }
}

fn calls(call: Call, question: &Question) -> Calls<'_> {
    match call {
        Call::Judge => judge_calls(question.sheet()),
        Call::Resume => resume_calls(question),
    }
}

fn judge_calls<'a>(sheet: Vec<u8>) -> Calls<'a> {
    let mut text = vec![0; TEXT_ROOM];
    let mut other_text = text.clone();
    let other_sheet = sheet.clone();
    let ours = move || {
        let _ = black_box(library::judge(black_box(&sheet), black_box(&mut text)));
    };
    let plain = move || {
        let (sheet, text) = (black_box(&other_sheet), black_box(&mut other_text));
        let _ = black_box(plain::judge(sheet, text));
    };
    (Box::new(ours), Box::new(plain))
}

fn resume_calls(question: &Question) -> Calls<'_> {
    let mut order = vec![0; ORDER_ROOM];
    let mut other_order = order.clone();
    let file = question.net.file();
    let other_file = file.clone();
    let board = question.board();
    let ours = move || {
        let (file, order) = (black_box(&file), black_box(&mut order));
        let _ = black_box(library::resume(file, question.asked(&board), order));
    };
    let plain = move || {
        let (file, order) = (black_box(&other_file), black_box(&mut other_order));
        let _ = black_box(plain::resume(file, question.asked(&board), order));
    };
    (Box::new(ours), Box::new(plain))
}

/// A time as the C library gives it.
#[repr(C)]
struct Time {
    seconds: i64,
    nanoseconds: i64,
}

// The C library is linked in any case, and std has no clock that counts this thread's own work alone.
unsafe extern "C" {
    fn clock_gettime(clock: i32, time: *mut Time) -> i32;
}

/// The clock of the thread's own work, by Linux's number for it.
const THREAD_CLOCK: i32 = 3;

/// How long this thread has worked, in nanoseconds.
fn worked() -> f64 {
    let mut time = Time {
        seconds: 0,
        nanoseconds: 0,
    };
    // SAFETY: the time is written before the call returns.
    let failed = unsafe { clock_gettime(THREAD_CLOCK, &mut time) };
    assert_eq!(failed, 0, "the system has no clock of a thread's work");
    time.seconds as f64 * 1e9 + time.nanoseconds as f64
}

/// The time of one call, over so many.
fn time_of(call: &mut dyn FnMut(), times: usize) -> f64 {
    let begin = worked();
    for _ in 0..times {
        call();
    }
    (worked() - begin) / times as f64
}

/// How many calls fill a try.
fn enough(call: &mut dyn FnMut()) -> usize {
    let mut times = 1;
    while time_of(call, times) * (times as f64) < TRY_TIME {
        times *= 2;
    }
    times
}

/// Times each input by both sides; which is first changes from round to round.
fn one_round(round: usize, inputs: &mut [(Calls<'_>, usize)]) -> Round {
    let times = inputs.iter_mut().map(|((ours, plain), times)| {
        if round % 2 == 0 {
            least_times(ours, plain, *times)
        } else {
            let (plain, ours) = least_times(plain, ours, *times);
            (ours, plain)
        }
    });
    let (ours, plain) = times.unzip();
    Round { ours, plain }
}

/// The least time of each of two calls, tried in turn.
fn least_times(first: &mut dyn FnMut(), second: &mut dyn FnMut(), times: usize) -> (f64, f64) {
    let mut least = (f64::INFINITY, f64::INFINITY);
    for _ in 0..TRIES {
        least.0 = least.0.min(time_of(first, times));
        least.1 = least.1.min(time_of(second, times));
    }
    least
}
