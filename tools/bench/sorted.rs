//! Answers what crates/timed does, by collecting all dates and sorting them.
use std::io::{BufRead, stdin};

fn main() {
    for line in stdin().lock().lines() {
        let line = line.unwrap();
        let mut words = line.split_ascii_whitespace();
        let end: u32 = words.next().unwrap().parse().unwrap();
        let length: usize = words.next().unwrap().parse().unwrap();
        let mut dates: Vec<(u32, u32)> = Vec::with_capacity(length);
        for (model, word) in (1..).zip(words) {
            let (first, period) = word.split_once(',').unwrap();
            let (first, period): (u32, usize) = (first.parse().unwrap(), period.parse().unwrap());
            dates.extend((first..end).step_by(period).map(|tick| (tick, model)));
        }
        dates.sort_unstable();
        let checksum = dates.iter().fold(0u64, |sum, &(tick, model)| {
            sum.wrapping_mul(0x9e37_79b9_7f4a_7c15)
                .wrapping_add((tick as u64) << 32 | model as u64)
        });
        println!("{} {checksum}", dates.len());
    }
}
