//! What the library is compared with, written from docs/PROTOCOL.md alone: a plain memory, and a plan of damage for any
//! target. Neither calls the library.
#![allow(dead_code)]

use std::collections::BTreeMap;
use swd::{Access, Answer, Bus, BusError, Error, Line, Report, Slot};

pub const BASE: u32 = 0x2000_0000;
pub const WORD: u32 = 0xdead_beef;

/// A transfer that took effect.
#[derive(Clone, Copy, Debug, PartialEq, Eq)]
pub enum Transfer {
    Read(u32, u32),
    Write(u32, u32),
}

/// Words from a base on, all zero, and a log with room for so many transfers.
#[derive(Clone, Debug)]
pub struct PlainMemory {
    pub words: BTreeMap<u32, u32>,
    pub log: Vec<Transfer>,
    room: usize,
}

impl PlainMemory {
    pub fn new(base: u32, words: u32, room: usize) -> Self {
        PlainMemory { words: (0..words).map(|place| (base + 4 * place, 0)).collect(), log: Vec::new(), room }
    }

    fn transfer(&mut self, addr: u32, written: Option<u32>) -> Option<u32> {
        let word = self.words.get_mut(&addr).filter(|_| self.log.len() < self.room)?;
        if let Some(written) = written {
            *word = written;
            self.log.push(Transfer::Write(addr, written));
        } else {
            self.log.push(Transfer::Read(addr, *word));
        }
        Some(*word)
    }

    /// What an access is answered.
    pub fn answer(&mut self, access: Access) -> Answer {
        match (access.word(), self.transfer(access.addr(), access.word())) {
            (_, None) => Answer::BusFault,
            (None, Some(word)) => Answer::Value(word),
            (Some(_), Some(_)) => Answer::Written,
        }
    }

    pub fn answers(&mut self, accesses: &[Access]) -> Vec<Answer> {
        accesses.iter().map(|access| self.answer(*access)).collect()
    }
}

impl Bus for PlainMemory {
    fn read(&mut self, addr: u32) -> Result<u32, BusError> {
        self.transfer(addr, None).ok_or(BusError)
    }

    fn write(&mut self, addr: u32, word: u32) -> Result<(), BusError> {
        self.transfer(addr, Some(word)).map(|_| ()).ok_or(BusError)
    }
}

/// What happens to a request.
#[derive(Clone, Copy, Debug, PartialEq, Eq)]
pub enum Mark {
    Clean,
    Wait,
    Flip(u32),
    Deaf,
    Mute(u32),
}

impl std::fmt::Display for Mark {
    fn fmt(&self, f: &mut std::fmt::Formatter<'_>) -> std::fmt::Result {
        match self {
            Mark::Clean => f.write_str("."),
            Mark::Wait => f.write_str("wait"),
            Mark::Flip(place) => write!(f, "flip {place}"),
            Mark::Deaf => f.write_str("deaf"),
            Mark::Mute(place) => write!(f, "mute {place}"),
        }
    }
}

/// A plan from marks by the number of their request, from 1.
pub fn plan_of(marks: &[(usize, Mark)]) -> Vec<Mark> {
    let last = marks.iter().map(|(number, _)| *number).max().unwrap_or(0);
    let mark = |number| marks.iter().find(|(at, _)| *at == number).map_or(Mark::Clean, |(_, mark)| *mark);
    (1..=last).map(mark).collect()
}

/// What the next clocks are, as far as the host's bits and the acknowledgement tell.
#[derive(Clone, Debug)]
enum Phase {
    Idle,
    /// The bits of a request so far; the target hasn't seen them yet.
    Asks(Vec<Option<bool>>),
    /// So many clocks more don't reach the target.
    Deaf(u32),
    /// The turnaround and the acknowledgement of a request; the clock, and the acknowledgement so far.
    Replies(u8, u32, u32),
    /// The clocks of a data phase so far.
    Drives(u32),
    Awaits(u32),
    Passes,
    /// Fifty ones are awaited, and a zero; so many ones came.
    Outside(u32),
}

/// The one call of a clock.
#[derive(Clone, Copy, Debug, PartialEq, Eq)]
pub enum Call {
    Drive(bool),
    Release,
    Sample,
}

/// A line to a target, any `Line` that can be held, whose requests meet a plan. Keeps the calls and the levels.
pub struct Damaged {
    pub target: swd::Target<PlainMemory>,
    plan: Vec<Mark>,
    used: usize,
    mark: Mark,
    phase: Phase,
    pub calls: Vec<Call>,
    pub levels: Vec<bool>,
    /// The line fails at the clock with this number, from 0, and each after it.
    pub fails_at: Option<usize>,
}

#[derive(Debug, PartialEq, Eq)]
pub struct Unplugged;

impl std::error::Error for Unplugged {}

impl std::fmt::Display for Unplugged {
    fn fmt(&self, f: &mut std::fmt::Formatter<'_>) -> std::fmt::Result {
        f.write_str("unplugged")
    }
}

fn is_request(byte: u8) -> bool {
    byte & 0xc1 == 0x81 && (byte >> 1 & 0x1f).count_ones() % 2 == 0
}

impl Damaged {
    pub fn new(memory: PlainMemory, plan: Vec<Mark>) -> Self {
        Damaged {
            target: swd::Target::new(memory),
            plan,
            used: 0,
            mark: Mark::Clean,
            phase: Phase::Idle,
            calls: Vec::new(),
            levels: Vec::new(),
            fails_at: None,
        }
    }

    pub fn memory(&self) -> &PlainMemory {
        self.target.bus()
    }

    fn call(&mut self, call: Call) -> Result<bool, Unplugged> {
        self.calls.push(call);
        if self.fails_at.is_some_and(|at| self.calls.len() > at) {
            return Err(Unplugged);
        }
        let drive = if let Call::Drive(bit) = call { Some(bit) } else { None };
        let level = self.cycle(drive);
        self.levels.push(level);
        Ok(level)
    }

    fn cycle(&mut self, drive: Option<bool>) -> bool {
        let own = drive.unwrap_or(true);
        match std::mem::replace(&mut self.phase, Phase::Idle) {
            Phase::Idle if !own => self.target.cycle(drive),
            Phase::Idle => {
                self.phase = Phase::Asks(vec![drive]);
                own
            }
            Phase::Asks(mut sent) => {
                sent.push(drive);
                if sent.len() < 8 {
                    self.phase = Phase::Asks(sent);
                } else {
                    self.phase = self.asked(&sent);
                }
                own
            }
            Phase::Deaf(left) => {
                self.phase = if left > 1 { Phase::Deaf(left - 1) } else { Phase::Idle };
                own
            }
            Phase::Replies(byte, place, ack) => self.reply(drive, byte, place, ack),
            Phase::Drives(place) => {
                self.phase = if place < 33 { Phase::Drives(place + 1) } else { Phase::Idle };
                self.target.cycle(drive) ^ (self.mark == Mark::Flip(place))
            }
            Phase::Awaits(place) => {
                self.phase = if place < 33 { Phase::Awaits(place + 1) } else { Phase::Idle };
                let flip = place > 0 && self.mark == Mark::Flip(place - 1);
                self.target.cycle(drive.map(|bit| bit ^ flip));
                own
            }
            Phase::Passes => self.target.cycle(drive),
            Phase::Outside(ones) => {
                let level = self.target.cycle(drive);
                self.phase = match (level, ones >= 50) {
                    (true, _) => Phase::Outside(ones + 1),
                    (false, true) => Phase::Idle,
                    (false, false) => Phase::Outside(0),
                };
                level
            }
        }
    }

    /// Eight bits came, the first of which is a one.
    fn asked(&mut self, sent: &[Option<bool>]) -> Phase {
        let byte = sent.iter().enumerate().fold(0, |byte, (place, bit)| byte | u8::from(bit.unwrap_or(true)) << place);
        let is_request = is_request(byte);
        if is_request {
            self.mark = self.plan.get(self.used).copied().unwrap_or(Mark::Clean);
            self.used += 1;
            if self.mark == Mark::Deaf {
                return Phase::Deaf(4);
            }
            self.target.hold(self.mark == Mark::Wait);
        }
        for bit in sent {
            self.target.cycle(*bit);
        }
        if is_request {
            Phase::Replies(byte, 0, 0)
        } else {
            Phase::Outside(byte.leading_ones())
        }
    }

    fn reply(&mut self, drive: Option<bool>, byte: u8, place: u32, ack: u32) -> bool {
        let level = self.target.cycle(drive);
        if place == 0 {
            self.phase = Phase::Replies(byte, 1, 0);
            return level;
        }
        let ack = ack | u32::from(level) << (place - 1);
        self.phase = match (place, ack, byte & 4) {
            (1 | 2, _, _) => Phase::Replies(byte, place + 1, ack),
            (_, 1, 0) => Phase::Awaits(0),
            (_, 1, _) => Phase::Drives(0),
            (_, _, _) => Phase::Passes,
        };
        level ^ (self.mark == Mark::Mute(place - 1))
    }
}

impl Line for Damaged {
    type Error = Unplugged;

    fn drive(&mut self, bit: bool) -> Result<(), Unplugged> {
        self.call(Call::Drive(bit)).map(|_| ())
    }

    fn release(&mut self) -> Result<(), Unplugged> {
        self.call(Call::Release).map(|_| ())
    }

    fn sample(&mut self) -> Result<bool, Unplugged> {
        self.call(Call::Sample)
    }
}

/// Random numbers, the same in every run.
pub struct Random(u64);

impl Random {
    pub fn new(seed: u64) -> Self {
        let mut random = Random(seed.wrapping_mul(0x9e37_79b9_7f4a_7c15) | 1);
        for _ in 0..8 {
            random.next();
        }
        random
    }

    pub fn next(&mut self) -> u64 {
        self.0 ^= self.0 << 13;
        self.0 ^= self.0 >> 7;
        self.0 ^= self.0 << 17;
        self.0
    }

    pub fn below(&mut self, end: u32) -> u32 {
        ((self.next() >> 32) % u64::from(end)) as u32
    }

    /// Whether so many in a hundred cases.
    pub fn percent(&mut self, count: u32) -> bool {
        self.below(100) < count
    }
}

/// The answers of these slots, each of which has one.
pub fn answers(slots: &[Slot]) -> Vec<Answer> {
    slots.iter().map(|slot| slot.answer().expect("the access was answered")).collect()
}

/// The report of a run, also where it ended early or met a bus error.
pub fn report_of<E: std::fmt::Debug>(result: Result<Report, Error<E>>) -> Report {
    match result {
        Ok(report) => report,
        Err(error) => *error.report().unwrap_or_else(|| panic!("{error:?}")),
    }
}

/// The answers are those of a plain memory. The transfers are those of the answered accesses, and of no more accesses
/// behind them than were begun.
pub fn is_sure(accesses: &[Access], slots: &[Slot], report: &Report, memory: &PlainMemory, made: PlainMemory) {
    let (done, left) = accesses.split_at(report.answered);
    let mut model = made;
    assert_eq!(model.answers(done), answers(&slots[..report.answered]));
    assert!(slots[report.answered..].iter().all(|slot| slot.answer().is_none()));
    let mut possible = vec![model.log.clone()];
    for access in &left[..usize::from(report.begun)] {
        model.answer(*access);
        possible.push(model.log.clone());
    }
    assert!(possible.contains(&memory.log), "{:?} is none of {possible:?}", memory.log);
    assert!(accesses.is_empty() || (report.ended == swd::End::All) == left.is_empty());
}
