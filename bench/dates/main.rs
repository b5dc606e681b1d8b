// Every day that has a date, through the proved library and through the era algorithm; the best of some rounds.
mod era;

use std::hint::black_box;
use std::time::Instant;

extern "C" {
    fn boomdate_date(day: u64) -> u64;
    fn boomdate_day(year: u64, month: u64, day: u64) -> u64;
}

const DAYS: u64 = 73_000;
const ROUNDS: usize = 40;
const TURNS: u64 = 20;

fn proved_date(day: u64) -> u64 {
    unsafe { boomdate_date(day) }
}

fn proved_day((year, month, day): (u64, u64, u64)) -> u64 {
    unsafe { boomdate_day(year, month, day) }
}

fn era_date(day: u64) -> u64 {
    era::date(day)
}

fn era_day((year, month, day): (u64, u64, u64)) -> u64 {
    era::day(year, month, day)
}

// Nanoseconds for one call, and the sum of what the calls answer.
fn time<A: Copy>(input: &[A], call: impl Fn(A) -> u64) -> (f64, u64) {
    let start = Instant::now();
    let mut sum = 0u64;
    for _ in 0..TURNS {
        for &x in black_box(input) {
            sum = sum.wrapping_add(call(x));
        }
    }
    let calls = TURNS as f64 * input.len() as f64;
    (start.elapsed().as_nanos() as f64 / calls, sum)
}

// The two take turns, so that whatever else the machine does falls on both.
fn compare<A: Copy>(name: &str, input: &[A], proved: impl Fn(A) -> u64, plain: impl Fn(A) -> u64) {
    let mut best = (f64::MAX, f64::MAX);
    for _ in 0..ROUNDS {
        let (a, told) = time(input, &proved);
        let (b, expected) = time(input, &plain);
        assert_eq!(told, expected, "{name}: the two answer differently");
        best = (best.0.min(a), best.1.min(b));
    }
    println!("{name:<16} {:>8.2} {:>8.2} {:>8.2}", best.0, best.1, best.0 / best.1);
}

fn main() {
    let days: Vec<u64> = (0..DAYS).collect();
    let dates: Vec<(u64, u64, u64)> = days
        .iter()
        .map(|&day| era::date(day))
        .map(|n| (n / 10_000, n / 100 % 100, n % 100))
        .collect();
    println!("{:<16} {:>8} {:>8} {:>8}", "ns a call", "proved", "era", "ratio");
    compare("date of a day", &days, proved_date, era_date);
    compare("day of a date", &dates, proved_day, era_day);
}
