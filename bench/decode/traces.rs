//! Writes a trace of a kind: `traces KIND BYTES > FILE`.
use std::env;
use std::io::{self, BufWriter, Write};

/// A small generator of numbers (xorshift64*), so that each run has the same traces.
struct Random(u64);

impl Random {
    fn next(&mut self) -> u64 {
        self.0 ^= self.0 >> 12;
        self.0 ^= self.0 << 25;
        self.0 ^= self.0 >> 27;
        self.0.wrapping_mul(0x2545_f491_4f6c_dd1d)
    }
}

fn push(text: &mut Vec<u8>, bits: u64, len: u32) {
    text.extend((0..len).map(|i| b'0' + (bits >> i & 1) as u8));
}

/// Adds a transaction; with `port` 1 one of the access port, with 0 one of either. Those of the access port leave
/// overrun detection as it is, so that a trace of them is read alike as a capture: without a data phase after WAIT and
/// FAULT.
fn transaction(random: &mut Random, text: &mut Vec<u8>, port: u64) {
    let asked = random.next() & 15 | port;
    let read = asked >> 1 & 1 == 1;
    let parity = u64::from(asked.count_ones() % 2);
    push(text, 0x81 | asked << 1 | parity << 5 | 1 << 8, 9);
    match random.next() % 20 {
        0 => push(text, 2 | 8, 4),
        1 => push(text, 4 | 8, 4),
        _ => {
            let word = random.next() & 0xffff_ffff;
            let phase = word | u64::from(word.count_ones() % 2) << 32;
            push(text, 1, 3);
            push(text, if read { phase | 1 << 33 } else { 1 | phase << 1 }, 34);
        }
    }
}

/// Adds some of a trace of that kind.
fn some(kind: &str, random: &mut Random, text: &mut Vec<u8>) -> io::Result<()> {
    match kind {
        "transactions" => transaction(random, text, 0),
        "ap-transactions" => transaction(random, text, 1),
        "one-a-line" => {
            transaction(random, text, 0);
            text.push(b'\n');
        }
        "with-8-idle" | "ap-with-8-idle" => {
            transaction(random, text, u64::from(kind != "with-8-idle"));
            text.extend_from_slice(b"00000000");
        }
        "random-bits" => push(text, random.next(), 64),
        "long-runs" => {
            let len = 50 + (random.next() % 100_000) as usize;
            text.extend(std::iter::repeat_n(b'1', len));
            text.extend(std::iter::repeat_n(b'0', len));
        }
        "comments" => {
            transaction(random, text, 0);
            text.extend_from_slice(b" # a comment with 01 in it\n\t");
        }
        _ => return Err(io::Error::other("no such kind")),
    }
    Ok(())
}

fn main() -> io::Result<()> {
    let words: Vec<String> = env::args().collect();
    let [_, kind, bytes] = words.as_slice() else {
        return Err(io::Error::other("traces KIND BYTES"));
    };
    let bytes: usize = bytes.parse().map_err(io::Error::other)?;
    let mut random = Random(0x1234_5678_9abc_def1);
    let mut out = BufWriter::new(io::stdout().lock());
    let mut text = Vec::new();
    let mut written = 0;
    while written < bytes {
        text.clear();
        some(kind, &mut random, &mut text)?;
        out.write_all(&text)?;
        written += text.len();
    }
    out.flush()
}
