// Every day of 2199, through the proved library and through a loop over the weeks; the best of some rounds.
mod weeks;

use std::hint::black_box;
use std::time::Instant;

extern "C" {
    fn boomdate_next_weekly(first: u64, step: u64, weekday: u64, last: u64, from: u64) -> u64;
}

// Day 0 is 1 January 2000; the event is every second Friday from 14 January on.
const FIRST: u64 = 13;
const FRIDAY: u64 = 4;
const STEP: u64 = 2;
const LAST: u64 = 73_500;
const NEW_YEAR_2199: u64 = 72_684;
const ROUNDS: usize = 20;

type Next = fn(u64, u64, u64, u64, u64) -> u64;

fn proved(first: u64, step: u64, weekday: u64, last: u64, from: u64) -> u64 {
    unsafe { boomdate_next_weekly(first, step, weekday, last, from) }
}

fn by_weeks(first: u64, step: u64, weekday: u64, last: u64, from: u64) -> u64 {
    weeks::next(first, step, weekday, last, from)
}

// Nanoseconds for one call, and the sum of what the calls answer.
fn time(next: Next, turns: u64) -> (f64, u64) {
    let start = Instant::now();
    let mut sum = 0u64;
    for _ in 0..turns {
        for from in NEW_YEAR_2199..NEW_YEAR_2199 + 365 {
            sum = sum.wrapping_add(next(black_box(FIRST), STEP, FRIDAY, LAST, black_box(from)));
        }
    }
    (start.elapsed().as_nanos() as f64 / (turns * 365) as f64, sum / turns)
}

fn main() {
    let mut best = (f64::MAX, f64::MAX);
    for _ in 0..ROUNDS {
        let (a, told) = time(proved, 1000);
        let (b, expected) = time(by_weeks, 20);
        assert_eq!(told, expected, "the two answer differently");
        best = (best.0.min(a), best.1.min(b));
    }
    println!("every second Friday since 2000, asked in 2199, ns a call");
    println!("{:<18} {:>12.1}", "proved", best.0);
    println!("{:<18} {:>12.1}", "loop over weeks", best.1);
}
