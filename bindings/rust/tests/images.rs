//! Images: bytes that are loaded, read and compared, against a plain memory.

mod common;

use common::{Damaged, PlainMemory, Unplugged, BASE};
use swd::{Answer, Bus, End, Error, ImageError, Refused, Session};

const WORDS: u32 = 300;

fn line() -> Damaged {
    Damaged::new(PlainMemory::new(BASE, WORDS, 65_536), Vec::new())
}

/// Bytes that differ from those beside them, and from 0.
fn pattern(len: usize, seed: usize) -> Vec<u8> {
    (0..len).map(|place| ((place * 7 + seed * 13) % 251) as u8 + 1).collect()
}

fn bytes_of(line: &Damaged) -> Vec<u8> {
    line.memory().words.values().flat_map(|word| word.to_le_bytes()).collect()
}

#[test]
fn bytes_at_any_address() {
    for (seed, (at, len)) in [(0, 0), (0, 1), (3, 1), (1, 2), (3, 2), (2, 4), (0, 256), (1, 255), (3, 514), (4, 1000)]
        .into_iter()
        .enumerate()
    {
        let (mut line, image) = (line(), pattern(len, seed));
        let mut wanted = bytes_of(&line);
        wanted[at..at + len].copy_from_slice(&image);
        let addr = BASE + at as u32;
        let mut session = Session::new(&mut line, 8);
        session.load(addr, &image).unwrap();
        session.verify(addr, &image).unwrap();
        let mut read = vec![0; len];
        session.dump(addr, &mut read).unwrap();
        assert_eq!(read, image, "{at} {len}");
        assert_eq!(bytes_of(&line), wanted, "{at} {len}");
    }
}

#[test]
fn the_first_byte_that_differs() {
    let (mut line, mut image) = (line(), pattern(700, 1));
    let mut session = Session::new(&mut line, 8);
    session.load(BASE + 1, &image).unwrap();
    for place in [0, 254, 255, 256, 699] {
        let found = image[place];
        image[place] = 0;
        let differs = ImageError::Differs { addr: BASE + 1 + place as u32, found, expected: 0 };
        assert_eq!(session.verify(BASE + 1, &image), Err(differs));
        image[place] = found;
    }
    let text = ImageError::<Unplugged>::Differs { addr: BASE, found: 0xa, expected: 0xff }.to_string();
    assert_eq!(text, "20000000 has 0a, and not ff");
}

// The memory ends behind 1,200 bytes: what lies before its end is done, in the first run and in a later one.
#[test]
fn a_bus_error_says_how_far_it_came() {
    for (at, allowed) in [(1003, false), (1003, true), (403, false)] {
        let (mut line, there) = (line(), 1200 - at);
        let image = pattern(there + 104, 2);
        let mut session = Session::new(&mut line, 8).bus_errors(allowed);
        let addr = BASE + at as u32;
        let is_stopped = |ended| match ended {
            Err(ImageError::Stopped { done, error: Error::BusFault { report, access, .. } }) => {
                (done, report.ended, access.addr()) == (there, End::All, BASE + 1200)
            }
            _ => false,
        };
        assert!(is_stopped(session.load(addr, &image)));
        let mut read = vec![0; image.len()];
        assert!(is_stopped(session.dump(addr, &mut read)));
        assert_eq!((&read[..there], &read[there..]), (&image[..there], &[0; 104][..]));
        assert!(is_stopped(session.verify(addr, &image)));
    }
}

#[test]
fn bytes_past_the_end_of_the_address_space() {
    let mut line = line();
    let mut session = Session::new(&mut line, 8);
    let refused = || Err(ImageError::Stopped { done: 0, error: Error::Refused(Refused::PastEnd) });
    assert_eq!(session.load(0xffff_fffe, &[0; 3]), refused());
    assert_eq!(session.dump(0xffff_ffff, &mut [0; 2]), refused());
    assert_eq!(line.calls.len(), 0);
    struct Top;
    impl Bus for Top {
        fn read(&mut self, addr: u32) -> Result<u32, swd::BusError> {
            Ok(addr)
        }
        fn write(&mut self, _: u32, _: u32) -> Result<(), swd::BusError> {
            Ok(())
        }
    }
    let (mut target, mut read) = (swd::Target::new(Top), [0; 5]);
    Session::new(&mut target, 8).dump(0xffff_fffb, &mut read).unwrap();
    assert_eq!(read, [0xff, 0xfc, 0xff, 0xff, 0xff]);
}

// Wherever the line fails: the first `done` bytes are those of the image, and loading the rest makes it whole.
#[test]
fn a_line_that_fails_at_each_clock() {
    let (image, addr) = (pattern(23, 3), BASE + 2);
    let clocks = {
        let mut line = line();
        Session::new(&mut line, 8).load(addr, &image).unwrap();
        line.calls.len()
    };
    let step = if std::env::var_os("CUTS").is_some() { 1 } else { 7 };
    for clock in (0..clocks).step_by(step) {
        let mut line = line();
        line.fails_at = Some(clock);
        let ended = Session::new(&mut line, 8).load(addr, &image);
        let Err(ImageError::Stopped { done, error }) = ended else { panic!("{clock}: {ended:?}") };
        assert!(matches!(error, Error::Line { error: Unplugged, .. }), "{clock}: {error}");
        assert_eq!(bytes_of(&line)[2..2 + done], image[..done], "{clock}");
        // One more word at most was in flight.
        let behind = (2 + done) / 4 * 4 + 4;
        assert!(bytes_of(&line)[behind..].iter().all(|byte| *byte == 0), "{clock}");
    }
}

// The answers of a run say which words are done; an image has only bytes.
#[test]
fn an_image_is_written_word_by_word_once() {
    let (mut line, image) = (line(), pattern(16, 4));
    Session::new(&mut line, 8).load(BASE, &image).unwrap();
    let mut plain = PlainMemory::new(BASE, WORDS, 65_536);
    for (place, word) in image.chunks(4).enumerate() {
        let word = u32::from_le_bytes([word[0], word[1], word[2], word[3]]);
        assert_eq!(plain.answer(swd::Access::write(BASE + 4 * place as u32, word)), Answer::Written);
    }
    assert_eq!(line.memory().log, plain.log);
}
