//! A plain-Rust streaming decoder of traces: what `swd decode` is measured against, as fast as we could write it in
//! safe Rust without a library. Written for this bench, and proved in nothing.
//!
//! Characters are taken eight at once where all of them are digits. Bits that are undecided stand in one number, and a
//! run of equal ones beside it is counted. Where a transaction of 46 characters stands in the text, it is taken whole.
//! A line has a known length and is made from tables, right in the block that goes out.
use std::io::{self, BufRead, Write};

pub const SWITCH: u64 = 0xe79e;
const SWITCH_BITS: u32 = 16;
const RESET_ONES: u64 = 50;
/// How many characters a transaction has that moved a word, and one that was answered WAIT or FAULT.
const WHOLE: usize = 46;
const REFUSED: usize = 13;
/// The block that goes out at once, and the longest line.
const BLOCK: usize = 1 << 16;
const LONGEST: usize = 64;

#[derive(Clone, Copy, PartialEq)]
enum Mode {
    Synced,
    AfterReset,
    AfterSwitch,
    Lost,
}

/// A block of lines on its way out.
struct Lines<W: Write> {
    block: Box<[u8; BLOCK]>,
    len: usize,
    out: W,
}

const fn hex_pairs() -> [[u8; 2]; 256] {
    let digits = b"0123456789abcdef";
    let mut pairs = [[0; 2]; 256];
    let mut byte = 0;
    while byte < 256 {
        pairs[byte] = [digits[byte / 16], digits[byte % 16]];
        byte += 1;
    }
    pairs
}

static HEX: [[u8; 2]; 256] = hex_pairs();

/// What a request is listed as, by its port, direction and address bits: eleven characters, ten for a read.
static ASKED: [[u8; 12]; 16] = [
    *b"dp 0 write  ", *b"ap 0 write  ", *b"dp 0 read   ", *b"ap 0 read   ",
    *b"dp 4 write  ", *b"ap 4 write  ", *b"dp 4 read   ", *b"ap 4 read   ",
    *b"dp 8 write  ", *b"ap 8 write  ", *b"dp 8 read   ", *b"ap 8 read   ",
    *b"dp c write  ", *b"ap c write  ", *b"dp c read   ", *b"ap c read   ",
];

impl<W: Write> Lines<W> {
    fn new(out: W) -> Self {
        Lines { block: Box::new([0; BLOCK]), len: 0, out }
    }

    fn flush(&mut self) -> io::Result<()> {
        self.out.write_all(&self.block[..self.len])?;
        self.len = 0;
        Ok(())
    }

    /// Room for a line.
    #[inline]
    fn room(&mut self) -> io::Result<&mut [u8; LONGEST]> {
        if self.len > BLOCK - LONGEST {
            self.flush()?;
        }
        Ok(self.block[self.len..].first_chunk_mut().unwrap())
    }

    #[inline]
    fn put(&mut self, text: &[u8]) -> io::Result<()> {
        self.room()?[..text.len()].copy_from_slice(text);
        self.len += text.len();
        Ok(())
    }

    /// The line of a request and its result.
    #[inline]
    fn asked(&mut self, bits: u64, result: &[u8]) -> io::Result<()> {
        let len = if bits >> 2 & 1 == 1 { 10 } else { 11 };
        let line = self.room()?;
        line[..12].copy_from_slice(&ASKED[(bits >> 1 & 15) as usize]);
        line[len..len + result.len()].copy_from_slice(result);
        self.len += len + result.len();
        Ok(())
    }

    /// The line of a transaction that moved a word.
    #[inline]
    fn moved(&mut self, bits: u64) -> io::Result<()> {
        let read = bits >> 2 & 1 == 1;
        let phase = bits >> (if read { 12 } else { 13 }) & ((1 << 33) - 1);
        let good = phase.count_ones() % 2 == 0;
        let len = if read { 10 } else { 11 };
        let line = self.room()?;
        line[..12].copy_from_slice(&ASKED[(bits >> 1 & 15) as usize]);
        line[len..len + 4].copy_from_slice(if good { b"ok  " } else { b"bad " });
        let len = len + if good { 3 } else { 4 };
        for (pair, byte) in line[len..len + 8].chunks_exact_mut(2).zip((phase as u32).to_be_bytes()) {
            pair.copy_from_slice(&HEX[usize::from(byte)]);
        }
        line[len + 8] = b'\n';
        self.len += len + 9;
        Ok(())
    }

    fn counted(&mut self, name: &str, count: u64) -> io::Result<()> {
        let line = format!("{name} {count}\n");
        self.put(line.as_bytes())
    }

    #[inline]
    fn idle(&mut self, count: u64) -> io::Result<()> {
        if count < 10 {
            return self.put(&[b'i', b'd', b'l', b'e', b' ', b'0' + count as u8, b'\n']);
        }
        self.counted("idle", count)
    }

    #[inline]
    fn junk(&mut self, bits: u64, count: u32) -> io::Result<()> {
        for place in 0..count {
            self.put(if bits >> place & 1 == 1 { b"junk 1\n" } else { b"junk 0\n" })?;
        }
        Ok(())
    }
}

fn is_request(byte: u64) -> bool {
    byte & 0xc1 == 0x81 && (byte >> 1 & 0x1f).count_ones() % 2 == 0
}

fn low(count: u32) -> u64 {
    (1 << count) - 1
}

struct Decoder<W: Write> {
    mode: Mode,
    /// A run of equal bits, and then other bits, the first least significant.
    one: bool,
    run: u64,
    len: u32,
    bits: u64,
    lines: Lines<W>,
}

impl<W: Write> Decoder<W> {
    fn new(out: W) -> Self {
        Decoder { mode: Mode::Synced, one: false, run: 0, len: 0, bits: 0, lines: Lines::new(out) }
    }

    /// Takes up to 14 bits.
    #[inline]
    fn take(&mut self, bits: u64, count: u32) -> io::Result<()> {
        if self.run > 0 {
            let others = if self.one { !bits } else { bits };
            let same = others.trailing_zeros().min(count);
            self.run += u64::from(same);
            if same == count {
                return Ok(());
            }
            self.end_run()?;
            self.bits |= (bits >> same) << self.len;
            self.len += count - same;
        } else {
            self.bits |= bits << self.len;
            self.len += count;
        }
        self.settle()
    }

    /// The run has ended.
    fn end_run(&mut self) -> io::Result<()> {
        if !self.one {
            self.lines.idle(self.run)?;
        } else if self.run >= RESET_ONES {
            self.lines.counted("reset", self.run)?;
            self.mode = Mode::AfterReset;
        } else {
            self.bits = low(self.run as u32);
            self.len = self.run as u32;
        }
        self.run = 0;
        Ok(())
    }

    fn skip(&mut self, count: u32) {
        self.bits >>= count;
        self.len -= count;
    }

    /// Takes what is decided from the front.
    fn settle(&mut self) -> io::Result<()> {
        while self.len > 0 {
            let ones = (!self.bits).trailing_zeros();
            if ones >= self.len || u64::from(ones) >= RESET_ONES {
                (self.one, self.run) = (true, u64::from(ones.min(self.len)));
                self.skip(ones.min(self.len));
                if self.len == 0 {
                    return Ok(());
                }
                self.end_run()?;
                continue;
            }
            let goes_on = match self.mode {
                Mode::Synced => self.synced()?,
                Mode::AfterReset => self.after_reset()?,
                Mode::AfterSwitch | Mode::Lost => self.lost()?,
            };
            if !goes_on {
                return Ok(());
            }
        }
        Ok(())
    }

    fn synced(&mut self) -> io::Result<bool> {
        if self.bits & 1 == 1 {
            return self.request();
        }
        let zeros = self.bits.trailing_zeros().min(self.len);
        self.skip(zeros);
        if self.len == 0 {
            (self.one, self.run) = (false, u64::from(zeros));
            return Ok(false);
        }
        self.lines.idle(u64::from(zeros))?;
        Ok(true)
    }

    fn request(&mut self) -> io::Result<bool> {
        let (bits, len) = (self.bits, self.len);
        if len >= 6 && (bits >> 1 & 0x1f).count_ones() % 2 == 1
            || len >= 7 && bits >> 6 & 1 == 1
            || len >= 8 && bits >> 7 & 1 == 0
        {
            return self.lost();
        }
        if len < 12 {
            return Ok(false);
        }
        let ack = bits >> 9 & 7;
        let whole = match ack {
            1 => WHOLE as u32,
            2 | 4 => 13,
            _ => 12,
        };
        if len < whole {
            return Ok(false);
        }
        match ack {
            1 => self.lines.moved(bits)?,
            2 => self.lines.asked(bits, b"wait\n")?,
            4 => self.lines.asked(bits, b"fault\n")?,
            _ => {
                self.lines.asked(bits, &[b'n', b'o', b'n', b'e', b' ', b'0' + ack as u8, b'\n'])?;
                self.mode = Mode::Lost;
            }
        }
        self.skip(whole);
        Ok(true)
    }

    fn after_reset(&mut self) -> io::Result<bool> {
        let mask = low(self.len.min(SWITCH_BITS));
        if self.bits & mask != SWITCH & mask {
            self.mode = Mode::Synced;
            return Ok(true);
        }
        if self.len < SWITCH_BITS {
            return Ok(false);
        }
        self.lines.put(b"switch\n")?;
        self.mode = Mode::AfterSwitch;
        self.skip(SWITCH_BITS);
        Ok(true)
    }

    /// Bits that belong to nothing, up to ones that may become a line reset.
    fn lost(&mut self) -> io::Result<bool> {
        self.mode = Mode::Lost;
        let ones = (!(self.bits << (64 - self.len))).leading_zeros();
        let count = self.len - ones.min(self.len - 1);
        self.lines.junk(self.bits, count)?;
        self.skip(count);
        Ok(true)
    }

    fn finish(&mut self) -> io::Result<()> {
        while self.run > 0 || self.len > 0 {
            if self.run > 0 && (!self.one || self.run >= RESET_ONES) {
                self.end_run()?;
                continue;
            }
            if self.run > 0 {
                (self.bits, self.len) = (low(self.run as u32), self.run as u32);
                self.run = 0;
            }
            if self.mode == Mode::Lost {
                self.lines.junk(self.bits, self.len)?;
                break;
            }
            if self.bits & 1 == 0 {
                // A beginning of the switch that was not finished.
                self.mode = Mode::Synced;
                self.lines.idle(1)?;
                self.skip(1);
                self.settle()?;
                continue;
            }
            let text: String = (0..self.len).map(|i| if self.bits >> i & 1 == 1 { '1' } else { '0' }).collect();
            self.lines.put(format!("cut {text}\n").as_bytes())?;
            break;
        }
        self.lines.flush()
    }

    /// Takes a whole transaction at the front of a text, where one stands there and nothing but idle cycles comes
    /// before it, and says how many characters it has.
    #[inline]
    fn take_whole(&mut self, text: &[u8]) -> io::Result<Option<usize>> {
        if self.len > 0 || self.mode != Mode::Synced || self.run > 0 && self.one {
            return Ok(None);
        }
        let Some((bits, len)) = text.first_chunk().and_then(whole) else {
            return Ok(None);
        };
        if self.run > 0 {
            self.lines.idle(self.run)?;
            self.run = 0;
        }
        match bits >> 9 & 7 {
            1 => self.lines.moved(bits)?,
            2 => self.lines.asked(bits, b"wait\n")?,
            _ => self.lines.asked(bits, b"fault\n")?,
        }
        Ok(Some(len))
    }
}

/// The bits of eight characters, the first least significant, where each of them is a digit.
#[inline]
fn eight(chars: &[u8; 8]) -> Option<u64> {
    let bits = u64::from_le_bytes(*chars) ^ 0x3030_3030_3030_3030;
    (bits & 0xfefe_fefe_fefe_fefe == 0).then(|| bits.wrapping_mul(0x0102_0408_1020_4080) >> 56)
}

/// The bits of a whole transaction that was acknowledged, where the characters begin with one, and how many they are.
#[inline]
fn whole(chars: &[u8; WHOLE]) -> Option<(u64, usize)> {
    let at = |place: usize| eight(chars[place..].first_chunk()?);
    let request = at(0)?;
    if !is_request(request) {
        return None;
    }
    let bits = request | at(8)? << 8;
    match bits >> 9 & 7 {
        1 => Some((bits | at(16)? << 16 | at(24)? << 24 | at(32)? << 32 | at(38)? << 38, WHOLE)),
        2 | 4 => Some((bits, REFUSED)),
        _ => None,
    }
}

/// Takes a text, up to a byte at which none goes on.
fn take_text<W: Write>(decoder: &mut Decoder<W>, comment: &mut bool, text: &[u8]) -> io::Result<()> {
    let mut rest = text;
    loop {
        if *comment {
            match rest.iter().position(|&byte| byte == b'\n') {
                Some(end) => rest = &rest[end..],
                None => return Ok(()),
            }
            *comment = false;
        }
        if let Some(len) = decoder.take_whole(rest)? {
            rest = &rest[len..];
            continue;
        }
        if let Some(bits) = rest.first_chunk().and_then(eight) {
            decoder.take(bits, 8)?;
            rest = &rest[8..];
            continue;
        }
        match rest.first() {
            None => return Ok(()),
            Some(b'0') => decoder.take(0, 1)?,
            Some(b'1') => decoder.take(1, 1)?,
            Some(b' ' | b'\t' | b'\r' | b'\n') => {}
            Some(b'#') => *comment = true,
            Some(_) => {
                decoder.lines.flush()?;
                return Err(io::Error::other("bad character"));
            }
        }
        rest = &rest[1..];
    }
}

/// Writes the listing of a trace text.
pub fn decode(mut reader: impl BufRead, out: impl Write) -> io::Result<()> {
    let mut decoder = Decoder::new(out);
    let mut comment = false;
    loop {
        let piece = reader.fill_buf()?;
        if piece.is_empty() {
            return decoder.finish();
        }
        let len = piece.len();
        take_text(&mut decoder, &mut comment, piece)?;
        reader.consume(len);
    }
}
