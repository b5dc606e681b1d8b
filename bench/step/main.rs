// Nanoseconds for one step on a command, and for the same bytes through a plain Rust parser. The median of eleven rounds each.
mod plain;

use std::hint::black_box;
use std::time::Instant;

extern "C" {
    fn boomdate_step(memory: *mut u64, memory_length: usize, kind: u64, bytes: *const u8, bytes_length: usize, out: *mut u8, out_length: usize) -> u64;
}

struct House {
    memory: Vec<u64>,
    row: Vec<u8>,
}

impl House {
    fn step(&mut self, kind: u64, bytes: &[u8]) -> u64 {
        unsafe {
            boomdate_step(self.memory.as_mut_ptr(), self.memory.len(), kind, bytes.as_ptr(), bytes.len(), self.row.as_mut_ptr(), self.row.len())
        }
    }
}

fn eight(bytes: &mut Vec<u8>, n: u64) {
    bytes.extend_from_slice(&n.to_be_bytes());
}

fn join(name: &[u8]) -> Vec<u8> {
    let mut b = vec![1];
    eight(&mut b, name.len() as u64);
    b.extend_from_slice(name);
    b
}

// A put with a title of so many bytes and so many days left out.
fn put(title: usize, days: u64) -> Vec<u8> {
    let mut b = vec![3];
    eight(&mut b, 0);
    eight(&mut b, title as u64);
    b.extend(std::iter::repeat(b't').take(title));
    b.push(0);
    for n in [9578, 540, 120] {
        eight(&mut b, n);
    }
    b.push(1);
    b.push(2);
    for n in [1, 2, 0, 2, 4, 9800, days] {
        eight(&mut b, n);
    }
    for d in 0..days {
        eight(&mut b, 10000 + d);
    }
    b
}

fn median(mut round: impl FnMut() -> u64, turns: u32) -> f64 {
    let mut times: Vec<f64> = (0..11)
        .map(|_| {
            let start = Instant::now();
            for _ in 0..turns {
                black_box(round());
            }
            start.elapsed().as_nanos() as f64 / turns as f64
        })
        .collect();
    times.sort_by(f64::total_cmp);
    times[5]
}

fn main() {
    let mut house = House { memory: vec![0; 262144], row: vec![0; 131072] };
    assert_eq!(house.step(0, &4096u64.to_be_bytes()), 0);
    let mut wrong = put(255, 1000);
    *wrong.last_mut().unwrap() = 0;
    let cases = [("no command (1 byte)", vec![0]), ("join", join(b"Ann")), ("put, no day left out", put(5, 0)), ("put, 1,000 days left out", put(255, 1000)), ("the same, its last byte wrong", wrong)];
    println!("{:32} {:>7} {:>6} {:>10} {:>10} {:>8} {:>8} {:>6}", "command", "bytes", "ends", "step ns", "plain ns", "step/B", "plain/B", "ratio");
    for (name, bytes) in cases {
        let ends = house.step(1, &bytes) / 8;
        assert_eq!(ends, if plain::read(&bytes).is_some() { 2 } else { 1 });
        let turns = if bytes.len() > 1000 { 5_000 } else { 200_000 };
        let step = median(|| house.step(1, black_box(&bytes)), turns);
        let plain = median(|| plain::read(black_box(&bytes)).is_some() as u64, turns);
        let per = bytes.len() as f64;
        println!("{:32} {:>7} {:>6} {:>10.1} {:>10.1} {:>8.3} {:>8.3} {:>6.2}", name, bytes.len(), ends, step, plain, step / per, plain / per, step / plain);
    }
}
