//! The workload of `swd_workloads` over the plain-Rust host.
mod host;
mod workload;

use host::{Answer, Bench, MOST, run};
use workload::{BASE, Random, WORDS, accesses, plan};

const ROUNDS: usize = 20;
const TRIES: u32 = 100;

fn number(answer: Answer) -> u64 {
    match answer {
        Answer::Value(word) => u64::from(word),
        Answer::Written => 1 << 32,
        Answer::BusFault => 2 << 32,
    }
}

fn main() {
    let mut random = Random::new();
    let accesses = accesses(random);
    let mut sum = 0_u64;
    for _ in 0..ROUNDS {
        let mut bench = Bench::new(BASE, WORDS as usize, MOST, plan(&mut random));
        let report = run(&mut bench, &accesses, TRIES, false).expect("a list that may be run");
        sum = sum.wrapping_mul(31).wrapping_add(report.requests);
        for answer in &report.answers {
            sum = sum.wrapping_mul(31).wrapping_add(number(*answer));
        }
    }
    println!("{sum}");
}
