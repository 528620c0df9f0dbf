//! What `swd run` does, in plain Rust: a script under a plan to its report. `script make SCRIPT PLAN` writes
//! the texts of the workload, `script run SCRIPT PLAN` runs them.
mod host;
mod workload;

use host::{Access, Answer, Bench, End, MOST, Mark, run};
use std::fs::{File, read_to_string};
use std::io::{self, BufWriter, Write, stdout};
use std::num::ParseIntError;
use workload::{BASE, Random, WORDS, accesses, plan};

const TRIES: u32 = 100;

struct Script {
    base: u32,
    words: usize,
    room: usize,
    accesses: Vec<Access>,
}

fn code(line: &str) -> &str {
    line.split_once('#').map_or(line, |(code, _)| code)
}

fn hex(word: &str) -> Result<u32, ParseIntError> {
    u32::from_str_radix(word, 16)
}

fn script_of(text: &str) -> Result<Script, Box<dyn std::error::Error>> {
    let mut script = Script { base: 0, words: 0, room: MOST, accesses: Vec::new() };
    for line in text.lines() {
        let mut words = code(line).split_ascii_whitespace();
        let command = (words.next(), words.next(), words.next(), words.next());
        match command {
            (None, ..) => {}
            (Some("memory"), Some(base), Some(count), None) => {
                (script.base, script.words) = (hex(base)?, count.parse()?)
            }
            (Some("room"), Some(room), None, None) => script.room = room.parse()?,
            (Some("r"), Some(addr), None, None) => script.accesses.push(Access::Read(hex(addr)?)),
            (Some("w"), Some(addr), Some(word), None) => script.accesses.push(Access::Write(hex(addr)?, hex(word)?)),
            (Some("rn"), Some(addr), Some(count), None) => {
                let addr = hex(addr)?;
                script.accesses.extend((0..count.parse()?).map(|i: u32| Access::Read(addr + 4 * i)));
            }
            _ => return Err(format!("bad line: {line}").into()),
        }
    }
    Ok(script)
}

fn plan_of(text: &str) -> Result<Vec<Mark>, Box<dyn std::error::Error>> {
    let mut marks = Vec::new();
    for line in text.lines() {
        let mut words = code(line).split_ascii_whitespace();
        match (words.next(), words.next(), words.next()) {
            (None, ..) => {}
            (Some("."), None, None) => marks.push(Mark::Clean),
            (Some("wait"), None, None) => marks.push(Mark::Wait),
            (Some("flip"), Some(place), None) => marks.push(Mark::Flip(place.parse()?)),
            _ => return Err(format!("bad line: {line}").into()),
        }
    }
    Ok(marks)
}

fn make(script: &str, plan_file: &str) -> io::Result<()> {
    let mut random = Random::new();
    let mut out = BufWriter::new(File::create(script)?);
    writeln!(out, "memory {BASE:08x} {WORDS}")?;
    for access in accesses(random) {
        match access {
            Access::Read(addr) => writeln!(out, "r {addr:08x}")?,
            Access::Write(addr, word) => writeln!(out, "w {addr:08x} {word:08x}")?,
        }
    }
    out.flush()?;
    let mut out = BufWriter::new(File::create(plan_file)?);
    for mark in plan(&mut random) {
        match mark {
            Mark::Clean => writeln!(out, ".")?,
            Mark::Wait => writeln!(out, "wait")?,
            Mark::Flip(place) => writeln!(out, "flip {place}")?,
        }
    }
    out.flush()
}

fn run_files(script: &str, plan: &str) -> Result<(), Box<dyn std::error::Error>> {
    let script = script_of(&read_to_string(script)?)?;
    let mut bench = Bench::new(script.base, script.words, script.room, plan_of(&read_to_string(plan)?)?);
    let report = run(&mut bench, &script.accesses, TRIES, false).ok_or("a list that may not be run")?;
    let mut out = BufWriter::new(stdout().lock());
    for (access, answer) in script.accesses.iter().zip(&report.answers) {
        let letter = if matches!(access, Access::Read(_)) { 'r' } else { 'w' };
        let addr = access.addr();
        match answer {
            Answer::Value(word) => writeln!(out, "{letter} {addr:08x} {word:08x}")?,
            Answer::Written => writeln!(out, "{letter} {addr:08x} written")?,
            Answer::BusFault => writeln!(out, "{letter} {addr:08x} busfault")?,
        }
    }
    let (answered, begun) = (report.answers.len(), report.begun);
    match report.ended {
        End::All => writeln!(out, "end all {answered}")?,
        End::Lost => writeln!(out, "end lost {answered} begun {begun}")?,
        End::TriesOut => writeln!(out, "end tries {answered} begun {begun}")?,
        End::WrongId => writeln!(out, "end id")?,
        End::Confused => writeln!(out, "end confused {answered} begun {begun}")?,
    }
    out.flush()?;
    Ok(())
}

fn main() -> Result<(), Box<dyn std::error::Error>> {
    let words: Vec<String> = std::env::args().collect();
    match words.iter().map(String::as_str).collect::<Vec<_>>().as_slice() {
        [_, "make", script, plan] => Ok(make(script, plan)?),
        [_, "run", script, plan] => run_files(script, plan),
        _ => Err("script make|run SCRIPT PLAN".into()),
    }
}
