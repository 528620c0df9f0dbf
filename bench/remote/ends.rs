//! Both ends of a line of remote_bitbang characters in plain Rust, with the words of `swd`: `ends target SCRIPT` and
//! `ends run SCRIPT --remote --bursts --report FILE`, on the standard streams. Beside them `ends make FOLDER` writes
//! the scripts, `ends flushes SCRIPT HOST..` counts how often a host sends, and `ends rate WORDS COMMAND..` how many
//! words a second a command does.
#[allow(dead_code)]
#[path = "../cycles/clocked.rs"]
mod clocked;
#[allow(dead_code)]
#[path = "../run/host.rs"]
mod host;

use clocked::Clocked;
use host::{Access, Answer, Bench, End, MOST, Report, Wire, run};
use std::error::Error;
use std::fs::{self, File, read_to_string};
use std::io::{self, BufWriter, Read, Write};
use std::os::fd::AsFd;
use std::process::{Command, Stdio};
use std::time::{Duration, Instant};

const TRIES: u32 = 8;
const BASE: u32 = 0x2000_0000;
const WORDS: u32 = 16_384;
const SWITCH: u64 = 0xe79e;
/// So many ones of a line reset stay undriven where a data phase may be open.
const OPEN: u32 = 34;

type Outcome<T> = Result<T, Box<dyn Error>>;

#[derive(Default)]
struct Script {
    base: u32,
    words: usize,
    accesses: Vec<Access>,
    block: bool,
}

fn hex(word: &str) -> Outcome<u32> {
    Ok(u32::from_str_radix(word, 16)?)
}

fn script_of(text: &str) -> Outcome<Script> {
    let mut script = Script::default();
    for line in text.lines() {
        let words: Vec<&str> = line.split_ascii_whitespace().collect();
        match words.as_slice() {
            ["memory", base, count] => (script.base, script.words) = (hex(base)?, count.parse()?),
            ["w", addr, word] => script.accesses.push(Access::Write(hex(addr)?, hex(word)?)),
            [name @ ("rn" | "block"), addr, count] => {
                let addr = hex(addr)?;
                script.block = *name == "block";
                script.accesses.extend((0..count.parse()?).map(|place: u32| Access::Read(addr + 4 * place)));
            }
            _ => return Err(format!("bad line: {line}").into()),
        }
    }
    Ok(script)
}

/// The host's side: characters wait until an answer is needed.
struct Remote<R, W> {
    reader: R,
    writer: W,
    held: Vec<u8>,
    drives: bool,
    asked: usize,
    /// A data phase may be open.
    owes: bool,
}

impl<R: Read, W: Write> Remote<R, W> {
    fn new(reader: R, writer: W) -> Self {
        Remote { reader, writer, held: Vec::with_capacity(4096), drives: true, asked: 0, owes: false }
    }

    fn turn(&mut self, drives: bool) {
        if self.drives != drives {
            self.held.push(if drives { b'O' } else { b'o' });
            self.drives = drives;
        }
    }

    fn drive(&mut self, bits: u64, count: u32) {
        self.turn(true);
        for place in 0..count {
            self.held.extend_from_slice(if bits >> place & 1 == 1 { b"eg" } else { b"df" });
        }
    }

    fn hold(&mut self, level: bool, count: u32) {
        self.turn(true);
        for _ in 0..count {
            self.held.extend_from_slice(if level { b"eg" } else { b"df" });
        }
    }

    fn release(&mut self, count: u32) {
        self.turn(false);
        for _ in 0..count {
            self.held.extend_from_slice(b"df");
        }
    }

    fn sample(&mut self, count: usize) {
        self.turn(false);
        for _ in 0..count {
            self.held.extend_from_slice(b"dcf");
        }
        self.asked += count;
    }

    fn flush(&mut self) -> io::Result<()> {
        self.writer.write_all(&self.held)?;
        self.held.clear();
        Ok(())
    }

    fn exchange(&mut self) -> io::Result<u64> {
        self.flush()?;
        let mut levels = [0; 64];
        let levels = &mut levels[..self.asked];
        self.reader.read_exact(levels)?;
        self.asked = 0;
        let mut number = 0;
        for level in levels.iter().rev() {
            number = number << 1
                | match level {
                    b'0' => 0,
                    b'1' => 1,
                    _ => return Err(io::ErrorKind::InvalidData.into()),
                };
        }
        Ok(number)
    }

    fn quit(&mut self) -> io::Result<()> {
        self.held.push(b'Q');
        self.flush()
    }
}

impl<R: Read, W: Write> Wire for Remote<R, W> {
    fn lead(&mut self, ones: u32, switch: bool, zeros: u32) {
        let undriven = if self.owes { ones.min(OPEN) } else { 0 };
        self.owes = false;
        if undriven > 0 {
            self.release(undriven);
        }
        if ones > undriven {
            self.hold(true, ones - undriven);
        }
        if switch {
            self.drive(SWITCH, 16);
            self.hold(true, ones);
        }
        if zeros > 0 {
            self.hold(false, zeros);
        }
    }

    fn ask(&mut self, request: u8) -> u8 {
        self.owes = true;
        self.drive(u64::from(request), 8);
        self.release(1);
        self.sample(3);
        self.exchange().map_or(7, |seen| seen as u8)
    }

    fn take(&mut self) -> u64 {
        self.owes = false;
        self.sample(33);
        let bits = self.exchange().unwrap_or(u64::MAX >> 31);
        self.release(1);
        bits
    }

    fn give(&mut self, bits: u64) {
        self.owes = false;
        self.release(1);
        self.drive(bits, 33);
    }

    fn pass(&mut self) {
        self.owes = false;
        self.release(1);
    }
}

/// The target's side.
struct Pins {
    target: Clocked,
    high: bool,
    data: bool,
    drives: bool,
    seen: Option<bool>,
}

impl Pins {
    fn new(script: &Script) -> Self {
        let bench = Bench::new(script.base, script.words, MOST, Vec::new());
        Pins { target: Clocked::new(bench), high: false, data: false, drives: true, seen: None }
    }

    fn level(&mut self) -> bool {
        if self.drives {
            return self.data;
        }
        match self.seen {
            Some(level) => level,
            None => *self.seen.insert(self.target.cycle(None)),
        }
    }

    fn set(&mut self, high: bool, data: bool) {
        if self.high && !high {
            self.seen = None;
        } else if high && !self.high && (self.drives || self.seen.is_none()) {
            let drive = self.drives.then_some(data);
            self.target.cycle(drive);
        }
        (self.high, self.data) = (high, data);
    }

    /// Takes the characters of a piece, and says whether the host is done.
    fn take(&mut self, piece: &[u8], answers: &mut Vec<u8>) -> Outcome<bool> {
        for byte in piece {
            match byte {
                b'd' => self.set(false, false),
                b'e' => self.set(false, true),
                b'f' => self.set(true, false),
                b'g' => self.set(true, true),
                b'c' => answers.push(if self.level() { b'1' } else { b'0' }),
                b'O' => self.drives = true,
                b'o' => self.drives = false,
                b'B' | b'b' | b'r'..=b'u' | b'Z' | b'z' => {}
                b'Q' => return Ok(true),
                _ => return Err(format!("byte {byte:02x}").into()),
            }
        }
        Ok(false)
    }
}

/// Serves a host, and tells how many pieces came: as many as it sends, where each that it waits for is read whole.
fn serve(pins: &mut Pins, reader: &mut impl Read, writer: &mut impl Write) -> Outcome<usize> {
    let mut piece = vec![0; 65_536];
    let mut answers = Vec::with_capacity(4096);
    for count in 0.. {
        let len = reader.read(&mut piece)?;
        if len == 0 {
            return Ok(count);
        }
        let done = pins.take(&piece[..len], &mut answers)?;
        writer.write_all(&answers)?;
        answers.clear();
        if done {
            return Ok(count + 1);
        }
    }
    unreachable!()
}

fn write_report(accesses: &[Access], report: &Report, out: &mut impl Write) -> io::Result<()> {
    for (access, answer) in accesses.iter().zip(&report.answers) {
        let letter = if matches!(access, Access::Read(_)) { 'r' } else { 'w' };
        let addr = access.addr();
        match answer {
            Answer::Value(word) => writeln!(out, "{letter} {addr:08x} {word:08x}")?,
            Answer::Written => writeln!(out, "{letter} {addr:08x} written")?,
            Answer::BusFault => writeln!(out, "{letter} {addr:08x} busfault")?,
        }
    }
    let answered = report.answers.len();
    match report.ended {
        End::All => writeln!(out, "end all {answered}"),
        ended => writeln!(out, "end {ended:?} {answered}"),
    }
}

/// The standard streams with no buffer between.
fn streams() -> io::Result<(File, File)> {
    let reader = io::stdin().as_fd().try_clone_to_owned()?;
    let writer = io::stdout().as_fd().try_clone_to_owned()?;
    Ok((reader.into(), writer.into()))
}

fn serve_streams(script: &str) -> Outcome<()> {
    let mut pins = Pins::new(&script_of(&read_to_string(script)?)?);
    let (mut reader, mut writer) = streams()?;
    serve(&mut pins, &mut reader, &mut writer)?;
    Ok(())
}

/// The report goes to a file, since the standard output is the line.
fn run_remote(script: &str, report: &str) -> Outcome<()> {
    let script = script_of(&read_to_string(script)?)?;
    let (reader, writer) = streams()?;
    let mut remote = Remote::new(reader, writer);
    let told = run(&mut remote, &script.accesses, TRIES, script.block).ok_or("a list that may not be run")?;
    remote.quit()?;
    let mut out = BufWriter::new(File::create(report)?);
    write_report(&script.accesses, &told, &mut out)?;
    out.flush()?;
    Ok(())
}

/// How often a host sends that runs the script at our target over pipes.
fn flushes(script: &str, host: &[&str]) -> Outcome<usize> {
    let [program, words @ ..] = host else { return Err("no host".into()) };
    let mut pins = Pins::new(&script_of(&read_to_string(script)?)?);
    let mut host = Command::new(program).args(words).stdin(Stdio::piped()).stdout(Stdio::piped()).spawn()?;
    let (Some(mut writer), Some(mut reader)) = (host.stdin.take(), host.stdout.take()) else {
        return Err("no pipes".into());
    };
    let count = serve(&mut pins, &mut reader, &mut writer)?;
    if !host.wait()?.success() {
        return Err("the host failed".into());
    }
    Ok(count)
}

/// How many words a second a command does, the best of five runs.
fn rate(words: f64, command: &[&str]) -> Outcome<f64> {
    let [program, args @ ..] = command else { return Err("no command".into()) };
    let mut best = Duration::MAX;
    for _ in 0..5 {
        let began = Instant::now();
        if !Command::new(program).args(args).stdout(Stdio::null()).status()?.success() {
            return Err("the command failed".into());
        }
        best = best.min(began.elapsed());
    }
    Ok(words / best.as_secs_f64())
}

/// The scripts of so many words: written, read by themselves, and as a block.
fn make(folder: &str) -> io::Result<()> {
    let memory = format!("memory {BASE:08x} {WORDS}\n");
    fs::write(format!("{folder}/memory"), &memory)?;
    for count in [100, 200, WORDS] {
        let mut out = BufWriter::new(File::create(format!("{folder}/written-{count}"))?);
        out.write_all(memory.as_bytes())?;
        for place in 0..count {
            writeln!(out, "w {:08x} {:08x}", BASE + 4 * place, place.wrapping_mul(0x9e37_79b9))?;
        }
        out.flush()?;
        for (name, command) in [("read", "rn"), ("block", "block")] {
            fs::write(format!("{folder}/{name}-{count}"), format!("{memory}{command} {BASE:08x} {count}\n"))?;
        }
    }
    Ok(())
}

fn main() -> Outcome<()> {
    let words: Vec<String> = std::env::args().skip(1).collect();
    match words.iter().map(String::as_str).collect::<Vec<_>>().as_slice() {
        ["make", folder] => Ok(make(folder)?),
        ["run", script, "--remote", "--bursts", "--report", report] => run_remote(script, report),
        ["target", script] => serve_streams(script),
        ["flushes", script, host @ ..] => Ok(println!("{}", flushes(script, host)?)),
        ["rate", words, command @ ..] => Ok(println!("{:.0}", rate(words.parse()?, command)?)),
        _ => Err("ends make|run|target|flushes|rate ..".into()),
    }
}
