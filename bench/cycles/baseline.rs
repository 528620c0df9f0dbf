//! The workloads of `swd_workloads cycles` and `swd_workloads accesses` over the plain-Rust clocked target.
mod clocked;
#[path = "../run/host.rs"]
mod host;
#[path = "../run/workload.rs"]
mod workload;

use clocked::{Clocked, ClockedBench};
use host::{Answer, Bench, MOST, run};
use workload::{BASE, Random, WORDS, accesses, plan};

const ROUNDS: u32 = 400_000;
const CLOCKED_ROUNDS: usize = 5;
const TRIES: u32 = 100;

/// A host that drives a target cycle by cycle and sums up what stands on the line.
struct Host {
    target: Clocked,
    sum: u64,
}

impl Host {
    fn cycle(&mut self, drive: Option<bool>) {
        let bit = self.target.cycle(drive);
        self.sum = self.sum.rotate_left(1) ^ u64::from(bit);
    }

    fn send(&mut self, bits: u64, count: u32) {
        for place in 0..count {
            self.cycle(Some(bits >> place & 1 == 1));
        }
    }

    fn see(&mut self, count: u32) {
        for _ in 0..count {
            self.cycle(None);
        }
    }

    fn read(&mut self, request: u64) {
        self.send(request, 8);
        self.see(38);
    }

    fn write(&mut self, request: u64, word: u32) {
        self.send(request, 8);
        self.see(5);
        self.send(u64::from(word) | u64::from(word.count_ones() & 1) << 32, 33);
    }

    fn open(&mut self) {
        self.send(0xff_ffff_ffff_ffff, 56);
        self.send(0xe79e, 16);
        self.send(0xff_ffff_ffff_ffff, 56);
        self.send(0, 2);
        self.read(0xa5);
        self.write(0xa9, 0x5000_0000);
    }

    fn round(&mut self, word: u32) {
        self.write(0x8b, word);
        self.read(0xaf);
        self.read(0xbd);
        self.read(0x8d);
        self.send(0, 8);
    }
}

fn cycles() -> u64 {
    let mut host = Host { target: Clocked::new(Bench::new(BASE, 16, 16, Vec::new())), sum: 0 };
    let mut random = Random::new();
    host.open();
    for _ in 0..ROUNDS {
        host.round(random.word());
    }
    host.sum
}

fn number(answer: Answer) -> u64 {
    match answer {
        Answer::Value(word) => u64::from(word),
        Answer::Written => 1 << 32,
        Answer::BusFault => 2 << 32,
    }
}

fn clocked_accesses() -> u64 {
    let mut random = Random::new();
    let accesses = accesses(random);
    let mut sum = 0_u64;
    for _ in 0..CLOCKED_ROUNDS {
        let mut bench = ClockedBench::new(Bench::new(BASE, WORDS as usize, MOST, plan(&mut random)));
        let report = run(&mut bench, &accesses, TRIES, false).expect("a list that may be run");
        sum = sum.wrapping_mul(31).wrapping_add(report.requests);
        for answer in &report.answers {
            sum = sum.wrapping_mul(31).wrapping_add(number(*answer));
        }
    }
    sum
}

fn main() {
    let cycles_alone = std::env::args().nth(1).as_deref() == Some("cycles");
    println!("{}", if cycles_alone { cycles() } else { clocked_accesses() });
}
