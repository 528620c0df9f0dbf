//! The reads of `swd_workloads` over the plain-Rust host, one by one and as a block.
#[allow(dead_code)]
#[path = "../run/host.rs"]
mod host;
#[allow(dead_code)]
#[path = "../run/workload.rs"]
mod workload;

use host::{Access, Answer, Bench, MOST, Mark, Report, run};
use workload::{BASE, Random, plan};

const ROUNDS: usize = 20;
const TRIES: u32 = 100;

fn number(answer: Answer) -> u64 {
    match answer {
        Answer::Value(word) => u64::from(word),
        Answer::Written => 1 << 32,
        Answer::BusFault => 2 << 32,
    }
}

fn report(plan: Vec<Mark>, block: bool) -> Report {
    let reads: Vec<Access> = (0..MOST as u32).map(|index| Access::Read(BASE + 4 * index)).collect();
    let mut bench = Bench::new(BASE, MOST - 8, MOST, plan);
    run(&mut bench, &reads, TRIES, block).expect("a list that may be run")
}

fn checksum(block: bool) -> u64 {
    let mut random = Random::new();
    let mut sum = 0_u64;
    for _ in 0..ROUNDS {
        let report = report(plan(&mut random), block);
        sum = sum.wrapping_mul(31).wrapping_add(report.requests);
        for answer in &report.answers {
            sum = sum.wrapping_mul(31).wrapping_add(number(*answer));
        }
    }
    sum
}

fn main() {
    println!("{}", checksum(std::env::args().nth(1).as_deref() == Some("blocks")));
}
