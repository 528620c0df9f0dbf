//! A plain-Rust host over a plain-Rust simulated target, by the same rules as this repository's. Written for
//! measurements, and proved in nothing.

/// The most accesses of a list.
pub const MOST: usize = 65_536;

#[derive(Clone, Copy)]
pub enum Access {
    Read(u32),
    Write(u32, u32),
}

impl Access {
    pub fn addr(self) -> u32 {
        match self {
            Access::Read(addr) | Access::Write(addr, _) => addr,
        }
    }
}

#[derive(Clone, Copy)]
pub enum Answer {
    Value(u32),
    Written,
    BusFault,
}

#[derive(Clone, Copy)]
pub enum Mark {
    Clean,
    Wait,
    Flip(u8),
}

#[allow(dead_code)]
pub struct Transfer {
    read: bool,
    addr: u32,
    word: u32,
}

// Requests, as bytes.
const DPIDR: u8 = 0xa5;
const ABORT: u8 = 0x81;
const CTRL_STAT: u8 = 0x8d;
const CTRL_STAT_WRITE: u8 = 0xa9;
const RESEND: u8 = 0x95;
const SELECT: u8 = 0xb1;
const RDBUFF: u8 = 0xbd;
const CSW: u8 = 0x87;
const CSW_WRITE: u8 = 0xa3;
const TAR: u8 = 0x8b;
const TAR_READ: u8 = 0xaf;
const DRW: u8 = 0x9f;
const DRW_WRITE: u8 = 0xbb;

fn is_read(request: u8) -> bool {
    request & 4 != 0
}

fn phase(word: u32) -> u64 {
    u64::from(word) | u64::from(word.count_ones() & 1) << 32
}

fn word_of(bits: u64) -> Option<u32> {
    (bits.count_ones() % 2 == 0).then_some(bits as u32)
}

#[derive(Clone, Copy, PartialEq)]
enum Ack {
    Ok,
    Wait,
    Fault,
    Lost,
}

#[derive(Clone, Copy, PartialEq)]
enum Reset {
    Unreset,
    Fresh,
    Live,
}

#[derive(Clone, Copy)]
enum Line {
    Idle,
    Drives(u64),
    Awaits(u8, Option<u8>),
}

/// A debug port with a memory access port, at the end of a wire.
pub struct Bench {
    base: u32,
    words: Vec<u32>,
    log: Vec<Transfer>,
    room: usize,
    plan: Vec<Mark>,
    next: usize,
    filler: u32,
    reset: Reset,
    line: Line,
    sticky_error: bool,
    write_error: bool,
    read_ok: bool,
    debug_power: bool,
    system_power: bool,
    select: u32,
    increments: bool,
    csw_upper: u32,
    tar: u32,
    buffer: u32,
    last_returned: u32,
}

impl Bench {
    pub fn new(base: u32, words: usize, room: usize, plan: Vec<Mark>) -> Self {
        Bench {
            base,
            words: vec![0; words],
            log: Vec::with_capacity(room),
            room,
            plan,
            next: 0,
            filler: 0,
            reset: Reset::Unreset,
            line: Line::Idle,
            sticky_error: false,
            write_error: false,
            read_ok: false,
            debug_power: false,
            system_power: false,
            select: 0,
            increments: false,
            csw_upper: 0,
            tar: 0,
            buffer: 0,
            last_returned: 0,
        }
    }

    fn status(&self) -> u32 {
        u32::from(self.sticky_error) << 5
            | u32::from(self.read_ok) << 6
            | u32::from(self.write_error) << 7
            | u32::from(self.debug_power) * 0x3000_0000
            | u32::from(self.system_power) * 0xc000_0000
    }

    fn transfer(&mut self, write: Option<u32>) {
        let addr = self.tar;
        let place = (addr.wrapping_sub(self.base) / 4) as usize;
        if addr % 4 != 0 || addr < self.base || place >= self.words.len() || self.log.len() >= self.room {
            self.sticky_error = true;
            self.buffer = self.filler;
            return;
        }
        let word = match write {
            Some(word) => {
                self.words[place] = word;
                word
            }
            None => {
                self.buffer = self.words[place];
                self.buffer
            }
        };
        self.log.push(Transfer { read: write.is_none(), addr, word });
        if self.increments {
            self.tar = addr & !1023 | (addr + 4) & 1023;
        }
    }

    fn answer(&self, request: u8, waits: bool) -> Ack {
        match self.reset {
            Reset::Unreset => return Ack::Lost,
            Reset::Fresh if request != DPIDR => return Ack::Lost,
            _ => {}
        }
        if matches!(request, DPIDR | CTRL_STAT | ABORT) {
            return Ack::Ok;
        }
        let access_port = request & 2 != 0;
        if self.sticky_error || self.write_error || access_port && !self.debug_power {
            return Ack::Fault;
        }
        if waits { Ack::Wait } else { Ack::Ok }
    }

    fn value(&self, request: u8) -> u32 {
        match request {
            DPIDR => 0x2ba0_1477,
            CTRL_STAT => self.status(),
            RESEND => self.last_returned,
            _ => self.buffer,
        }
    }

    /// What a read that was answered OK does.
    fn read(&mut self, request: u8) {
        if matches!(request, RDBUFF | CSW | TAR_READ | DRW) {
            self.read_ok = true;
            self.last_returned = self.buffer;
        }
        match request {
            DPIDR => self.reset = Reset::Live,
            RDBUFF => self.buffer = self.filler,
            CSW => self.buffer = 2 | u32::from(self.increments) << 4 | 1 << 6 | self.csw_upper << 24,
            TAR_READ => self.buffer = self.tar,
            DRW => self.transfer(None),
            _ => {}
        }
    }

    fn write(&mut self, request: u8, word: u32) {
        if request & 2 != 0 {
            self.buffer = self.filler;
            self.last_returned = self.filler;
        }
        match request {
            ABORT => {
                self.sticky_error &= word & 4 == 0;
                self.write_error &= word & 8 == 0;
            }
            CTRL_STAT_WRITE => {
                self.debug_power = word >> 28 & 1 == 1;
                self.system_power = word >> 30 & 1 == 1;
            }
            SELECT => self.select = word,
            CSW_WRITE => {
                self.increments = word >> 4 & 3 == 1;
                self.csw_upper = word >> 24 & 0x7f;
            }
            TAR => self.tar = word,
            DRW_WRITE => self.transfer(Some(word)),
            _ => {}
        }
    }
}

/// One end of a serial wire.
pub trait Wire {
    fn lead(&mut self, ones: u32, switch: bool, zeros: u32);
    fn ask(&mut self, request: u8) -> u8;
    fn take(&mut self) -> u64;
    fn give(&mut self, bits: u64);
    fn pass(&mut self);
}

impl Bench {
    /// The mark of the next request.
    pub fn mark(&mut self) -> Mark {
        let mark = self.plan.get(self.next).copied().unwrap_or(Mark::Clean);
        self.next += 1;
        mark
    }

    /// A request: the three bits of the acknowledgement, and the data of a read that is answered OK.
    #[inline]
    pub fn request(&mut self, request: u8, waits: bool) -> (u8, Option<u64>) {
        let ack = self.answer(request, waits);
        match ack {
            Ack::Ok => {
                let data = is_read(request).then(|| {
                    let bits = phase(self.value(request));
                    self.read(request);
                    bits
                });
                (1, data)
            }
            Ack::Wait | Ack::Fault => {
                if matches!(request, RDBUFF | CSW | TAR_READ | DRW) {
                    self.read_ok = false;
                }
                if ack == Ack::Fault && request & 2 != 0 && !self.debug_power {
                    self.sticky_error = true;
                }
                (if ack == Ack::Wait { 2 } else { 4 }, None)
            }
            Ack::Lost => (7, None),
        }
    }

    /// The data of a write.
    #[inline]
    pub fn arrive(&mut self, request: u8, bits: u64) {
        match word_of(bits) {
            Some(word) => self.write(request, word),
            None => self.write_error = true,
        }
    }

    pub fn line_reset(&mut self) {
        self.reset = Reset::Fresh;
    }
}

/// A data phase as the other side gets it.
pub fn flipped(flip: Option<u8>, bits: u64) -> u64 {
    bits ^ flip.map_or(0, |place| 1 << place)
}

/// The place of a data phase that arrives changed.
pub fn flip_of(mark: Mark) -> Option<u8> {
    if let Mark::Flip(place) = mark { Some(place) } else { None }
}

impl Wire for Bench {
    fn lead(&mut self, ones: u32, _switch: bool, _zeros: u32) {
        if ones == 0 {
            return;
        }
        if let Line::Awaits(..) = self.line {
            self.write_error = true;
        }
        self.line_reset();
        self.line = Line::Idle;
    }

    fn ask(&mut self, request: u8) -> u8 {
        let mark = self.mark();
        let (ack, data) = self.request(request, matches!(mark, Mark::Wait));
        let flip = flip_of(mark);
        if let Some(bits) = data {
            self.line = Line::Drives(flipped(flip, bits));
        } else if ack == 1 {
            self.line = Line::Awaits(request, flip);
        }
        ack
    }

    fn take(&mut self) -> u64 {
        let Line::Drives(bits) = self.line else { unreachable!() };
        self.line = Line::Idle;
        bits
    }

    fn give(&mut self, bits: u64) {
        let Line::Awaits(request, flip) = self.line else { unreachable!() };
        self.arrive(request, flipped(flip, bits));
        self.line = Line::Idle;
    }

    fn pass(&mut self) {}
}

#[derive(Clone, Copy, PartialEq, Debug)]
pub enum End {
    All,
    Lost,
    TriesOut,
    WrongId,
    Confused,
}

/// The sticky flags that were read.
#[derive(Clone, Copy, PartialEq)]
struct Flags {
    error: bool,
    damaged: bool,
}

impl Flags {
    fn of(word: u32) -> Self {
        Flags { error: word >> 5 & 1 == 1, damaged: word >> 7 & 1 == 1 }
    }
}

/// The requests of the opening and of an access.
#[derive(Clone, Copy, PartialEq)]
enum Place {
    Identify,
    Wipe,
    Inspect,
    Select,
    Power,
    Powered,
    Configure,
    Recall,
    Configured,
    Aim,
    Transfer,
    Confirm,
    /// RESEND, once the bus error of the next read of a block is cleared.
    Behind,
}

/// The read after the one that is answered, in a block.
#[derive(Clone, Copy, PartialEq)]
enum Ahead {
    Unsent,
    Sent,
    Failed,
}

#[derive(Clone, Copy)]
enum Job {
    At(Place),
    Resend(Place),
    Status(Place),
    LastStatus,
    Clear(Place, Flags),
    Check(Place, Flags),
}

#[derive(Clone, Copy)]
enum Phase {
    Ask,
    Data,
    Waited,
    Faulted,
}

#[derive(Clone, Copy)]
enum Outcome {
    Opened,
    Answered(Answer),
    Stopped(End),
}

#[derive(Clone, Copy)]
enum State {
    Leading,
    Doing(Job, Phase),
    Resting(Outcome),
}

enum Cue {
    Lead,
    Ask(u8),
    Take,
    Give(u64),
    Pass,
}

struct Engine {
    state: State,
    access: Access,
    /// Bursts are of reads, not of writes.
    blocks: bool,
    /// The next access confirms this one.
    burst: bool,
    ahead: Ahead,
    aims: bool,
    tar: Option<u32>,
    tries: u32,
    events: u32,
    begun: u8,
    requests: u64,
}

fn next_in_kilobyte(addr: u32) -> Option<u32> {
    (addr % 1024 < 1020).then(|| addr + 4)
}

impl Engine {
    fn new(tries: u32, blocks: bool) -> Self {
        Engine {
            state: State::Leading,
            access: Access::Read(0),
            blocks,
            burst: false,
            ahead: Ahead::Unsent,
            aims: true,
            tar: None,
            tries,
            events: 0,
            begun: 0,
            requests: 0,
        }
    }

    fn is_ahead(&self) -> bool {
        self.burst && !self.blocks && matches!(self.state, State::Doing(Job::At(Place::Confirm), Phase::Data))
    }

    fn start(&mut self, access: Access, following: Option<Access>) {
        let ahead = self.is_ahead();
        let sent = std::mem::replace(&mut self.ahead, Ahead::Unsent);
        self.aims = !ahead && sent == Ahead::Unsent && self.tar != Some(access.addr());
        self.begun = u8::from(self.burst);
        self.access = access;
        self.burst = sent != Ahead::Failed
            && match (access, following) {
                (Access::Write(addr, _), Some(Access::Write(next, _))) if !self.blocks => {
                    next_in_kilobyte(addr) == Some(next)
                }
                (Access::Read(addr), Some(Access::Read(next))) if self.blocks => next_in_kilobyte(addr) == Some(next),
                _ => false,
            };
        self.events = 0;
        if sent == Ahead::Failed {
            return self.answer(Answer::BusFault);
        }
        self.state = if ahead {
            State::Doing(Job::At(Place::Transfer), Phase::Data)
        } else if sent == Ahead::Sent {
            State::Doing(Job::At(Place::Confirm), Phase::Ask)
        } else {
            State::Doing(Job::At(if self.aims { Place::Aim } else { Place::Transfer }), Phase::Ask)
        };
    }

    fn request(&self, job: Job) -> u8 {
        match job {
            Job::At(place) => match place {
                Place::Identify => DPIDR,
                Place::Wipe => ABORT,
                Place::Inspect | Place::Powered => CTRL_STAT,
                Place::Select => SELECT,
                Place::Power => CTRL_STAT_WRITE,
                Place::Configure => CSW_WRITE,
                Place::Recall => CSW,
                Place::Configured => RDBUFF,
                Place::Aim => TAR,
                Place::Transfer => match self.access {
                    Access::Read(_) => DRW,
                    Access::Write(..) => DRW_WRITE,
                },
                Place::Confirm if self.burst && self.blocks => DRW,
                Place::Confirm if self.burst => DRW_WRITE,
                Place::Confirm => RDBUFF,
                Place::Behind => RESEND,
            },
            Job::Resend(_) => RESEND,
            Job::Clear(..) => ABORT,
            Job::Status(_) | Job::LastStatus | Job::Check(..) => CTRL_STAT,
        }
    }

    fn word(&self, job: Job) -> u32 {
        match job {
            Job::At(Place::Wipe) => 0x1e,
            Job::At(Place::Power) => 0x5000_0000,
            Job::At(Place::Configure) => 0x2300_0012,
            Job::At(Place::Aim) => self.access.addr(),
            Job::At(Place::Transfer) => match self.access {
                Access::Write(_, word) => word,
                Access::Read(_) => 0,
            },
            Job::Clear(_, owed) => u32::from(owed.error) << 2 | u32::from(owed.damaged) << 3,
            _ => 0,
        }
    }

    fn cue(&self) -> Option<Cue> {
        match self.state {
            State::Leading => Some(Cue::Lead),
            State::Doing(job, Phase::Ask) => Some(Cue::Ask(self.request(job))),
            State::Doing(_, Phase::Data) if self.is_ahead() => None,
            State::Doing(job, Phase::Data) => {
                Some(if is_read(self.request(job)) { Cue::Take } else { Cue::Give(phase(self.word(job))) })
            }
            State::Doing(..) => Some(Cue::Pass),
            State::Resting(_) => None,
        }
    }

    fn finished(&self) -> Option<Outcome> {
        match self.state {
            State::Resting(outcome) => Some(outcome),
            _ if self.is_ahead() => Some(Outcome::Answered(Answer::Written)),
            _ => None,
        }
    }

    fn seen(&mut self, seen: u8) {
        let State::Doing(job, _) = self.state else { unreachable!() };
        self.requests = self.requests.saturating_add(1);
        self.begun = match job {
            Job::At(Place::Transfer) => 1,
            Job::At(Place::Confirm) if self.burst && self.blocks => 2,
            _ => self.begun,
        };
        self.state = match seen {
            1 => State::Doing(job, Phase::Data),
            2 => State::Doing(job, Phase::Waited),
            4 => State::Doing(job, Phase::Faulted),
            _ => State::Resting(Outcome::Stopped(End::Lost)),
        };
    }

    fn done(&mut self) {
        let State::Doing(job, phase) = self.state else {
            self.state = State::Doing(Job::At(Place::Identify), Phase::Ask);
            return;
        };
        match phase {
            Phase::Data => self.sent(job),
            Phase::Waited => self.event(job),
            _ => {
                let status = match job {
                    Job::At(Place::Behind) => Job::LastStatus,
                    Job::At(place) => Job::Status(place),
                    Job::Resend(Place::Confirm) if self.burst && self.blocks => Job::Status(Place::Behind),
                    _ => Job::LastStatus,
                };
                self.state = State::Doing(status, Phase::Ask);
            }
        }
    }

    fn sent(&mut self, job: Job) {
        let next = match job {
            Job::At(place) => Job::At(next_place(place)),
            Job::Clear(place, owed) => Job::Check(place, owed),
            _ => unreachable!(),
        };
        self.state = State::Doing(next, Phase::Ask);
    }

    fn taken(&mut self, bits: u64) {
        let State::Doing(job, _) = self.state else { unreachable!() };
        match job {
            Job::At(place @ (Place::Recall | Place::Transfer)) => {
                self.state = State::Doing(Job::At(next_place(place)), Phase::Ask);
            }
            Job::At(Place::Confirm) if matches!(self.access, Access::Write(..)) => {
                self.answer(Answer::Written);
            }
            _ => match word_of(bits) {
                Some(word) => self.told(job, word),
                None => self.garbled(job),
            },
        }
    }

    fn garbled(&mut self, job: Job) {
        self.event(match job {
            Job::At(place @ (Place::Configured | Place::Confirm)) => Job::Resend(place),
            Job::At(Place::Behind) => Job::At(Place::Behind),
            other => other,
        });
    }

    fn told(&mut self, job: Job, word: u32) {
        match job {
            Job::At(place) | Job::Resend(place) => self.value(place, word),
            Job::Status(place) => self.status(place, Flags::of(word)),
            Job::Check(place, owed) => self.check(place, owed, Flags::of(word)),
            _ => self.stop(End::Confused),
        }
    }

    fn value(&mut self, place: Place, word: u32) {
        let flags = Flags::of(word);
        let next = match place {
            Place::Identify if word % 2 == 1 => Place::Wipe,
            Place::Identify => return self.stop(End::WrongId),
            Place::Inspect if flags.error || flags.damaged => return self.event(Job::At(Place::Wipe)),
            Place::Inspect => Place::Select,
            Place::Powered if flags.error => return self.stop(End::Confused),
            Place::Powered if flags.damaged => return self.event(Job::Clear(Place::Powered, flags)),
            Place::Powered if word & 0xa000_0000 == 0xa000_0000 => Place::Configure,
            Place::Powered => return self.event(Job::At(Place::Powered)),
            Place::Configured if word & 0x77 == 0x52 => {
                self.tar = None;
                self.state = State::Resting(Outcome::Opened);
                return;
            }
            Place::Confirm => {
                self.ahead = if self.burst && self.blocks { Ahead::Sent } else { Ahead::Unsent };
                return self.answer(Answer::Value(word));
            }
            Place::Behind => {
                self.ahead = Ahead::Failed;
                return self.answer(Answer::Value(word));
            }
            _ => return self.stop(End::Confused),
        };
        self.state = State::Doing(Job::At(next), Phase::Ask);
    }

    fn stop(&mut self, end: End) {
        self.state = State::Resting(Outcome::Stopped(end));
    }

    fn event(&mut self, job: Job) {
        if self.events >= self.tries {
            self.stop(End::TriesOut);
        } else {
            self.events += 1;
            self.state = State::Doing(job, Phase::Ask);
        }
    }

    fn answer(&mut self, answer: Answer) {
        self.tar = match answer {
            Answer::BusFault => None,
            _ => next_in_kilobyte(self.access.addr()),
        };
        self.begun = u8::from(self.burst && self.blocks);
        self.state = State::Resting(Outcome::Answered(answer));
    }

    fn confirms(&self, place: Place) -> Option<Place> {
        match place {
            Place::Inspect => Some(Place::Wipe),
            Place::Power => Some(Place::Select),
            Place::Powered => Some(Place::Power),
            Place::Recall => Some(Place::Configure),
            Place::Transfer if self.aims => Some(Place::Aim),
            Place::Confirm if matches!(self.access, Access::Write(..)) => Some(Place::Transfer),
            _ => None,
        }
    }

    fn status(&mut self, place: Place, flags: Flags) {
        match (flags.error, flags.damaged) {
            (false, true) if self.confirms(place).is_some() => self.event(Job::Clear(place, flags)),
            (true, false) if matches!(place, Place::Confirm | Place::Behind) => {
                self.state = State::Doing(Job::Clear(place, flags), Phase::Ask);
            }
            _ => self.stop(End::Confused),
        }
    }

    fn check(&mut self, place: Place, owed: Flags, now: Flags) {
        if !now.error && !now.damaged {
            if owed.error && place == Place::Confirm {
                self.answer(Answer::BusFault);
            } else {
                let again = self.confirms(place).unwrap_or(place);
                self.state = State::Doing(Job::At(again), Phase::Ask);
            }
        } else if now.damaged && now.error == owed.error {
            self.event(Job::Clear(place, now));
        } else {
            self.stop(End::Confused);
        }
    }
}

fn next_place(place: Place) -> Place {
    match place {
        Place::Identify => Place::Wipe,
        Place::Wipe => Place::Inspect,
        Place::Inspect => Place::Select,
        Place::Select => Place::Power,
        Place::Power => Place::Powered,
        Place::Powered => Place::Configure,
        Place::Configure => Place::Recall,
        Place::Recall | Place::Configured => Place::Configured,
        Place::Aim => Place::Transfer,
        Place::Transfer | Place::Confirm | Place::Behind => Place::Confirm,
    }
}

// Each program reads some of these.
#[allow(dead_code)]
pub struct Report {
    pub answers: Vec<Answer>,
    pub begun: u8,
    pub requests: u64,
    pub ended: End,
}

fn drive<W: Wire>(wire: &mut W, engine: &mut Engine) -> Outcome {
    loop {
        if let Some(outcome) = engine.finished() {
            return outcome;
        }
        match engine.cue() {
            Some(Cue::Lead) => {
                wire.lead(56, true, 2);
                engine.done();
            }
            Some(Cue::Ask(request)) => engine.seen(wire.ask(request)),
            Some(Cue::Take) => engine.taken(wire.take()),
            Some(Cue::Give(bits)) => {
                wire.give(bits);
                engine.done();
            }
            Some(Cue::Pass) => {
                wire.pass();
                engine.done();
            }
            None => unreachable!(),
        }
    }
}

/// Does the accesses over a wire, with bursts of writes or, for a block, of reads; `None` for a list that may not be
/// run.
pub fn run<W: Wire>(wire: &mut W, accesses: &[Access], tries: u32, block: bool) -> Option<Report> {
    if accesses.len() > MOST || accesses.iter().any(|access| access.addr() % 4 != 0) {
        return None;
    }
    let mut answers = Vec::with_capacity(accesses.len());
    let mut engine = Engine::new(tries, block);
    let mut outcome = drive(wire, &mut engine);
    let mut index = 0;
    while index < accesses.len() && !matches!(outcome, Outcome::Stopped(_)) {
        engine.start(accesses[index], accesses.get(index + 1).copied());
        outcome = drive(wire, &mut engine);
        if let Outcome::Answered(answer) = outcome {
            answers.push(answer);
        }
        index += 1;
    }
    let ended = match outcome {
        Outcome::Stopped(end) => end,
        _ => {
            wire.lead(0, false, 8);
            End::All
        }
    };
    let begun = if engine.is_ahead() { 0 } else { engine.begun };
    Some(Report { answers, begun, requests: engine.requests, ended })
}
