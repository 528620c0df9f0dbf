//! The cycles of `bench/cycles`, at the target that libswd_c.a exports. They make no transfer.
#[path = "../run/host.rs"]
#[allow(dead_code)]
mod host;
#[path = "../run/workload.rs"]
#[allow(dead_code)]
mod workload;

use workload::Random;

const ROUNDS: u32 = 400_000;

// What `swd.h` declares, as far as it is used here.
#[repr(C, align(8))]
struct Target {
    cycles: u64,
    fields: [u8; 80],
}

const RELEASED: u8 = 2;

unsafe extern "C" {
    fn swd_target_new(target: &mut Target, wraps: u8, filler: u32);
    fn swd_target_cycle(target: &mut Target, drive: u8) -> u8;
}

/// A host that drives a target cycle by cycle and sums up what stands on the line.
struct Host {
    target: Target,
    sum: u64,
}

impl Host {
    fn cycle(&mut self, drive: u8) {
        // SAFETY: the struct is that of the header, and whole.
        let bit = unsafe { swd_target_cycle(&mut self.target, drive) };
        assert!(bit < 2);
        self.sum = self.sum.rotate_left(1) ^ u64::from(bit);
    }

    fn send(&mut self, bits: u64, count: u32) {
        for place in 0..count {
            self.cycle((bits >> place & 1) as u8);
        }
    }

    fn see(&mut self, count: u32) {
        for _ in 0..count {
            self.cycle(RELEASED);
        }
    }

    fn read(&mut self, request: u64) {
        self.send(request, 8);
        self.see(38);
    }

    fn write(&mut self, request: u64, word: u32) {
        self.send(request, 8);
        self.see(5);
        self.send(u64::from(word) | u64::from(word.count_ones() & 1) << 32, 33);
    }

    fn open(&mut self) {
        self.send(0xff_ffff_ffff_ffff, 56);
        self.send(0xe79e, 16);
        self.send(0xff_ffff_ffff_ffff, 56);
        self.send(0, 2);
        self.read(0xa5);
        self.write(0xa9, 0x5000_0000);
    }

    fn round(&mut self, word: u32) {
        self.write(0x8b, word);
        self.read(0xaf);
        self.read(0xbd);
        self.read(0x8d);
        self.send(0, 8);
    }
}

fn main() {
    let mut host = Host { target: Target { cycles: 0, fields: [0; 80] }, sum: 0 };
    // SAFETY: the same.
    unsafe { swd_target_new(&mut host.target, 1, 0) };
    let mut random = Random::new();
    host.open();
    for _ in 0..ROUNDS {
        host.round(random.word());
    }
    println!("{}", host.sum);
}
