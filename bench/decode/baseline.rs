//! A plain-Rust decoder and encoder of traces, from standard input to standard output: what `swd decode` and
//! `swd encode` are measured against. Written for this bench, and proved in nothing. `encode` refuses a list that isn't
//! normal, as `swd encode` does; `encode-unchecked` leaves that out.
mod decoder;

use decoder::{SWITCH, decode};
use std::io::{self, BufReader, BufWriter, Read, Write};

fn spell(line: &str, out: &mut String) -> Option<()> {
    let mut words = line.split(' ');
    let mut push = |bits: u64, len: u32| {
        (0..len).for_each(|i| out.push(if bits >> i & 1 == 1 { '1' } else { '0' }))
    };
    let first = words.next()?;
    match first {
        "switch" => push(SWITCH, 16),
        "junk" => push(words.next()?.parse().ok()?, 1),
        "cut" => out.push_str(words.next()?),
        "reset" => out.extend(std::iter::repeat_n('1', words.next()?.parse().ok()?)),
        "idle" => out.extend(std::iter::repeat_n('0', words.next()?.parse().ok()?)),
        "dp" | "ap" => {
            let address = ["0", "4", "8", "c"].iter().position(|a| Some(*a) == words.clone().next())? as u64;
            words.next()?;
            let read = words.next()? == "read";
            let asked = u64::from(first == "ap") | u64::from(read) << 1 | address << 2;
            let parity = u64::from(asked.count_ones() % 2);
            push(0x81 | asked << 1 | parity << 5 | 1 << 8, 9);
            let result = words.next()?;
            match result {
                "wait" => push(2 | 8, 4),
                "fault" => push(4 | 8, 4),
                "none" => push(words.next()?.parse().ok()?, 3),
                _ => {
                    let word = u64::from_str_radix(words.next()?, 16).ok()?;
                    let odd = u64::from(word.count_ones() % 2) ^ u64::from(result == "bad");
                    let phase = word | odd << 32;
                    push(1, 3);
                    if read { push(phase | 1 << 33, 34) } else { push(1 | phase << 1, 34) }
                }
            }
        }
        _ => return None,
    }
    out.push('\n');
    Some(())
}

/// The trace text of a listing, line by line.
fn encode() -> io::Result<()> {
    let mut text = String::new();
    BufReader::new(io::stdin().lock()).read_to_string(&mut text)?;
    let mut out = BufWriter::new(io::stdout().lock());
    let mut line_text = String::new();
    for line in text.lines() {
        line_text.clear();
        spell(line, &mut line_text).ok_or_else(|| io::Error::other("bad line"))?;
        out.write_all(line_text.as_bytes())?;
    }
    out.flush()
}

/// The same, where the list is normal: its bits are decoded again and compared, as is simplest. Nothing
/// is written before.
fn encode_normal() -> io::Result<()> {
    let mut text = String::new();
    BufReader::new(io::stdin().lock()).read_to_string(&mut text)?;
    let mut trace = String::new();
    for line in text.lines() {
        spell(line, &mut trace).ok_or_else(|| io::Error::other("bad line"))?;
    }
    let mut listing = Vec::new();
    decode(trace.as_bytes(), &mut listing)?;
    if listing != text.as_bytes() {
        return Err(io::Error::other("not normal"));
    }
    io::stdout().lock().write_all(trace.as_bytes())
}

fn main() -> io::Result<()> {
    match std::env::args().nth(1).as_deref() {
        Some("decode") => decode(BufReader::with_capacity(1 << 16, io::stdin().lock()), io::stdout().lock()),
        Some("encode") => encode_normal(),
        Some("encode-unchecked") => encode(),
        _ => Err(io::Error::other("decode, encode or encode-unchecked")),
    }
}
