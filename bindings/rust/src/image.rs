//! Images: bytes at any address of a target, which are loaded, read and compared as words.

use crate::{Access, Answer, Error, Line, Refused, Session, Slot};
use core::fmt;

/// The words of a run.
const WORDS: usize = 64;

/// Why an image wasn't loaded, read or compared to its end.
#[derive(Clone, Copy, Debug, PartialEq, Eq)]
pub enum ImageError<E> {
    /// A run ended early, or an access was a bus error.
    Stopped {
        /// How many bytes are certainly done, from the first on.
        done: usize,
        /// The error of the run.
        error: Error<E>,
    },
    /// A byte differs: the first one.
    Differs {
        /// Its address.
        addr: u32,
        /// What the target has there.
        found: u8,
        /// What the image has.
        expected: u8,
    },
}

impl<E> ImageError<E> {
    /// The error of a piece of which so many words are done.
    fn of_piece(piece: Piece, words: usize, error: Error<E>) -> Self {
        ImageError::Stopped { done: piece.bytes_in(words), error }
    }

    /// The error of an image, of a piece behind so many bytes.
    fn behind(self, before: usize) -> Self {
        match self {
            ImageError::Stopped { done, error } => ImageError::Stopped { done: before + done, error },
            differs => differs,
        }
    }
}

impl<E> fmt::Display for ImageError<E> {
    fn fmt(&self, f: &mut fmt::Formatter<'_>) -> fmt::Result {
        match self {
            ImageError::Stopped { done, error } => write!(f, "stopped after {done} bytes: {error}"),
            ImageError::Differs { addr, found, expected } => {
                write!(f, "{addr:08x} has {found:02x}, and not {expected:02x}")
            }
        }
    }
}

/// Its source is the error of the run.
impl<E: core::error::Error + 'static> core::error::Error for ImageError<E> {
    fn source(&self) -> Option<&(dyn core::error::Error + 'static)> {
        match self {
            ImageError::Stopped { error, .. } => Some(error),
            ImageError::Differs { .. } => None,
        }
    }
}

/// Some bytes of an image, in as many words as a run has.
#[derive(Clone, Copy)]
struct Piece {
    /// The address of the first word, and the byte in it where the piece begins.
    first: u32,
    begin: usize,
    /// How many bytes it has.
    len: usize,
}

impl Piece {
    /// The next piece of `left` bytes at an address.
    fn at(addr: u32, left: usize) -> Piece {
        let begin = (addr & 3) as usize;
        Piece { first: addr & !3, begin, len: left.min(4 * WORDS - begin) }
    }

    fn words(self) -> usize {
        (self.begin + self.len).div_ceil(4)
    }

    /// How many of its bytes the first words have.
    fn bytes_in(self, words: usize) -> usize {
        (4 * words).saturating_sub(self.begin).min(self.len)
    }

    fn addr_of(self, word: usize) -> u32 {
        self.first.wrapping_add(4 * word as u32)
    }

    /// The words that have a byte outside the piece, the first one and the last one.
    fn partial(self) -> impl Iterator<Item = usize> {
        let (last, end) = (self.words() - 1, self.begin + self.len);
        let is_partial = move |word: &usize| 4 * word < self.begin || end < 4 * word + 4;
        [0, last].into_iter().take(if last == 0 { 1 } else { 2 }).filter(is_partial)
    }
}

/// The bytes of a piece, with those around them in the same words.
type Bytes = [u8; 4 * WORDS];

fn word_in(bytes: &Bytes, word: usize) -> u32 {
    let at = 4 * word;
    u32::from_le_bytes([bytes[at], bytes[at + 1], bytes[at + 2], bytes[at + 3]])
}

fn put_word(bytes: &mut Bytes, word: usize, value: u32) {
    bytes[4 * word..4 * word + 4].copy_from_slice(&value.to_le_bytes());
}

/// Whether so many bytes at an address pass the end of the address space.
fn check_end(addr: u32, len: usize) -> Result<(), Refused> {
    if (1_u64 << 32) - u64::from(addr) < len as u64 {
        return Err(Refused::PastEnd);
    }
    Ok(())
}

/// Images are made of runs over the open target, of 64 words each, in the order of their addresses. They take some 2 kB
/// of stack.
impl<L: Line> Session<'_, L> {
    /// Writes bytes to memory. Of a word that is written in part, at either end, the other bytes are read before.
    ///
    /// # Errors
    ///
    /// [`ImageError::Stopped`] with the error of the run, as of [`Session::run`], or with [`Refused::PastEnd`]. The
    /// first `done` bytes were written; of those after them some may be. A bus error ends it in any case. To go on,
    /// load the bytes from `done` on: a word that was in flight is then written again.
    pub fn load(&mut self, addr: u32, data: &[u8]) -> Result<(), ImageError<L::Error>> {
        self.each_piece(addr, data.len(), |session, piece, done| {
            let mut bytes = [0; 4 * WORDS];
            for word in piece.partial() {
                let read = session.read(piece.addr_of(word));
                put_word(&mut bytes, word, read.map_err(|error| ImageError::of_piece(piece, 0, error))?);
            }
            bytes[piece.begin..piece.begin + piece.len].copy_from_slice(&data[done..done + piece.len]);
            let mut accesses = [Access::read(0); WORDS];
            for (word, access) in accesses.iter_mut().enumerate() {
                *access = Access::write(piece.addr_of(word), word_in(&bytes, word));
            }
            session.perform(piece, &accesses, &mut [Slot::EMPTY; WORDS]).1
        })
    }

    /// Reads bytes of memory.
    ///
    /// # Errors
    ///
    /// As [`Session::load`]: the first `done` bytes were read.
    pub fn dump(&mut self, addr: u32, data: &mut [u8]) -> Result<(), ImageError<L::Error>> {
        self.each_piece(addr, data.len(), |session, piece, done| {
            let (bytes, words, ended) = session.read_piece(piece);
            let count = piece.bytes_in(words);
            data[done..done + count].copy_from_slice(&bytes[piece.begin..piece.begin + count]);
            ended
        })
    }

    /// Reads bytes of memory, and compares them.
    ///
    /// # Errors
    ///
    /// As [`Session::load`], where the first `done` bytes are those of the image; and [`ImageError::Differs`].
    pub fn verify(&mut self, addr: u32, data: &[u8]) -> Result<(), ImageError<L::Error>> {
        self.each_piece(addr, data.len(), |session, piece, done| {
            let (bytes, words, ended) = session.read_piece(piece);
            let (found, wanted) = (&bytes[piece.begin..], &data[done..done + piece.bytes_in(words)]);
            match found.iter().zip(wanted).position(|(found, wanted)| found != wanted) {
                Some(place) => Err(ImageError::Differs {
                    addr: addr.wrapping_add((done + place) as u32),
                    found: found[place],
                    expected: wanted[place],
                }),
                None => ended,
            }
        })
    }

    /// Does each piece of so many bytes at an address in turn, up to one that fails.
    fn each_piece(
        &mut self,
        addr: u32,
        len: usize,
        mut perform: impl FnMut(&mut Self, Piece, usize) -> Result<(), ImageError<L::Error>>,
    ) -> Result<(), ImageError<L::Error>> {
        check_end(addr, len).map_err(|refused| ImageError::Stopped { done: 0, error: refused.into() })?;
        let mut done = 0;
        while done < len {
            let piece = Piece::at(addr.wrapping_add(done as u32), len - done);
            perform(self, piece, done).map_err(|error| error.behind(done))?;
            done += piece.len;
        }
        Ok(())
    }

    /// Performs the accesses of a piece, none of which may be a bus error. Returns how many are done, and how it ended.
    fn perform(
        &mut self,
        piece: Piece,
        accesses: &[Access; WORDS],
        slots: &mut [Slot; WORDS],
    ) -> (usize, Result<(), ImageError<L::Error>>) {
        let accesses = &accesses[..piece.words()];
        let ended = self.run(accesses, slots);
        let answers = slots[..accesses.len()].iter().map(|slot| slot.answer());
        let done = answers.take_while(|answer| !matches!(answer, None | Some(Answer::BusFault))).count();
        let error = match ended {
            Err(error) => error,
            Ok(report) if done < accesses.len() => Error::BusFault { index: done, access: accesses[done], report },
            Ok(_) => return (done, Ok(())),
        };
        (done, Err(ImageError::of_piece(piece, done, error)))
    }

    /// Reads the words of a piece: their bytes, how many words were read, and how it ended.
    fn read_piece(&mut self, piece: Piece) -> (Bytes, usize, Result<(), ImageError<L::Error>>) {
        let (mut accesses, mut slots, mut bytes) = ([Access::read(0); WORDS], [Slot::EMPTY; WORDS], [0; 4 * WORDS]);
        for (word, access) in accesses.iter_mut().enumerate() {
            *access = Access::read(piece.addr_of(word));
        }
        let (words, ended) = self.perform(piece, &accesses, &mut slots);
        for (word, slot) in slots[..words].iter().enumerate() {
            put_word(&mut bytes, word, slot.word().unwrap_or_default());
        }
        (bytes, words, ended)
    }
}
