//! A plain-Rust target clock by clock, over the plain-Rust debug port, by the same rules as this repository's.
//! Written for measurements, and proved in nothing.
use crate::host::{Bench, Mark, Wire, flip_of, flipped};

const SWITCH: u16 = 0xe79e;

fn is_request(byte: u8) -> bool {
    byte & 0xc1 == 0x81 && (byte >> 1 & 0x1f).count_ones() % 2 == 0
}

/// What the next cycles are.
#[derive(Clone, Copy)]
enum Frame {
    Idle,
    /// Bits of a request so far, and how many.
    Request(u8, u8),
    /// Fifty ones are awaited.
    Lost,
    /// After a line reset.
    High,
    /// So many bits of the switch came.
    Switch(u8),
    /// A turnaround, then the acknowledgement's three bits, then what follows.
    Ack { ack: u8, place: u8, request: u8, data: u64 },
    Drive { bits: u64, left: u8 },
    Await { request: u8, bits: u64, place: u8 },
    Turn,
}

pub struct Clocked {
    pub port: Bench,
    frame: Frame,
    /// Ones since the last zero and since the end of the last phase.
    ones: u8,
    pub waits: bool,
    pub cycles: u64,
}

impl Clocked {
    pub fn new(port: Bench) -> Self {
        Clocked { port, frame: Frame::Idle, ones: 0, waits: false, cycles: 0 }
    }

    /// One clock: the bit that the host drives, or none, and the bit on the line.
    #[inline]
    pub fn cycle(&mut self, drive: Option<bool>) -> bool {
        self.cycles = self.cycles.saturating_add(1);
        let bit = drive.unwrap_or(true);
        match self.frame {
            Frame::Drive { bits, left } => {
                if left == 0 {
                    self.rest();
                    return bit;
                }
                self.frame = Frame::Drive { bits: bits >> 1, left: left - 1 };
                bits & 1 == 1
            }
            Frame::Await { request, bits, place } => {
                self.await_bit(request, bits, place, bit);
                bit
            }
            Frame::Ack { ack, place, request, data } => self.ack_bit(ack, place, request, data, bit),
            Frame::Turn => {
                self.rest();
                bit
            }
            _ => {
                self.hear(bit);
                bit
            }
        }
    }

    fn rest(&mut self) {
        self.frame = Frame::Idle;
        self.ones = 0;
    }

    fn await_bit(&mut self, request: u8, bits: u64, place: u8, bit: bool) {
        if place == 0 {
            self.frame = Frame::Await { request, bits, place: 1 };
            return;
        }
        let bits = bits | u64::from(bit) << (place - 1);
        if place < 33 {
            self.frame = Frame::Await { request, bits, place: place + 1 };
        } else {
            self.port.arrive(request, bits);
            self.rest();
        }
    }

    fn ack_bit(&mut self, ack: u8, place: u8, request: u8, data: u64, bit: bool) -> bool {
        self.frame = if place < 3 {
            Frame::Ack { ack, place: place + 1, request, data }
        } else if ack != 1 {
            Frame::Turn
        } else if request & 4 != 0 {
            Frame::Drive { bits: data, left: 33 }
        } else {
            Frame::Await { request, bits: 0, place: 0 }
        };
        if place == 0 { bit } else { ack >> (place - 1) & 1 == 1 }
    }

    /// A bit where the target drives nothing and no data are awaited.
    fn hear(&mut self, bit: bool) {
        self.ones = if bit { self.ones + 1 } else { 0 };
        if self.ones >= 50 {
            if !matches!(self.frame, Frame::High) {
                self.port.line_reset();
            }
            self.ones = 50;
            self.frame = Frame::High;
            return;
        }
        match self.frame {
            Frame::High => self.frame = Frame::Switch(1),
            Frame::Switch(place) => self.switch_bit(place, bit),
            Frame::Idle => self.request_bit(0, 0, bit),
            Frame::Request(bits, count) => self.request_bit(bits, count, bit),
            _ => {}
        }
    }

    fn request_bit(&mut self, bits: u8, count: u8, bit: bool) {
        if count == 0 && !bit {
            self.frame = Frame::Idle;
            return;
        }
        let bits = bits | u8::from(bit) << count;
        if count < 7 {
            self.frame = Frame::Request(bits, count + 1);
            return;
        }
        self.frame = Frame::Lost;
        if is_request(bits) {
            let (ack, data) = self.port.request(bits, self.waits);
            if ack != 7 {
                self.frame = Frame::Ack { ack, place: 0, request: bits, data: data.unwrap_or(0) };
            }
        }
    }

    fn switch_bit(&mut self, place: u8, bit: bool) {
        if bit == (SWITCH >> place & 1 == 1) {
            self.frame = if place < 15 { Frame::Switch(place + 1) } else { Frame::Lost };
            if place == 15 {
                self.ones = 0;
            }
            return;
        }
        // The bits before were no switch.
        let (mut bits, mut count) = (0, 0);
        for before in (1..=place).map(|n| if n < place { SWITCH >> n & 1 == 1 } else { bit }) {
            if count < 8 {
                bits |= u8::from(before) << count;
                count += 1;
            }
        }
        self.frame = match count {
            8 => Frame::Lost,
            1 if !bit => Frame::Idle,
            _ => Frame::Request(bits, count),
        };
    }
}

/// The clocked target at the end of a wire.
pub struct ClockedBench {
    clocked: Box<Clocked>,
    flip: Option<u8>,
}

impl ClockedBench {
    pub fn new(port: Bench) -> Self {
        ClockedBench { clocked: Box::new(Clocked::new(port)), flip: None }
    }

    fn send(&mut self, bits: u64, count: u32) {
        for place in 0..count {
            self.clocked.cycle(Some(bits >> place & 1 == 1));
        }
    }

    fn see(&mut self, count: u32) -> u64 {
        (0..count).fold(0, |bits, place| bits | u64::from(self.clocked.cycle(None)) << place)
    }
}

impl Wire for ClockedBench {
    fn lead(&mut self, ones: u32, switch: bool, zeros: u32) {
        for _ in 0..ones {
            self.clocked.cycle(Some(true));
        }
        if switch {
            self.send(u64::from(SWITCH), 16);
            for _ in 0..ones {
                self.clocked.cycle(Some(true));
            }
        }
        self.send(0, zeros);
    }

    fn ask(&mut self, request: u8) -> u8 {
        let mark = self.clocked.port.mark();
        self.flip = flip_of(mark);
        self.clocked.waits = matches!(mark, Mark::Wait);
        self.send(u64::from(request), 8);
        (self.see(4) >> 1) as u8
    }

    fn take(&mut self) -> u64 {
        let bits = self.see(33);
        self.see(1);
        flipped(self.flip, bits)
    }

    fn give(&mut self, bits: u64) {
        self.see(1);
        self.send(flipped(self.flip, bits), 33);
    }

    fn pass(&mut self) {
        self.see(1);
    }
}
