//! What cutting a stream into frames costs: streams of frames of one length, fed so many bytes at a time.
use crate::work::Work;
use std::hint::black_box;

/// The most bytes of a stream.
const BYTES: usize = 1_000_000;
/// The bytes of a splitter's buffer.
const BUFFER: usize = 8192;

pub struct Cut {
    pub name: &'static str,
    pub what: &'static str,
    counted: bool,
    frame: usize,
    piece: usize,
}

const fn cut(name: &'static str, what: &'static str, counted: bool, frame: usize, piece: usize) -> Cut {
    Cut { name, what, counted, frame, piece }
}

pub const CUTS: [Cut; 8] = [
    cut("lines-100", "lines of 100 bytes, fed 65,536 at a time", false, 100, 65_536),
    cut("lines-8000", "lines of 8,000 bytes, fed 65,536 at a time", false, 8_000, 65_536),
    cut("lines-9000", "lines of 9,000 bytes, which are passed over, fed 65,536 at a time", false, 9_000, 65_536),
    cut("lines-100-by-10", "lines of 100 bytes, fed 10 at a time", false, 100, 10),
    cut("counted-100", "counted frames of 100 bytes, fed 65,536 at a time", true, 100, 65_536),
    cut("counted-8000", "counted frames of 8,000 bytes, fed 65,536 at a time", true, 8_000, 65_536),
    cut("counted-100000", "counted frames of 100,000 bytes, which are passed over, fed 65,536 at a time", true, 100_000, 65_536),
    cut("counted-100-by-10", "counted frames of 100 bytes, fed 10 at a time", true, 100, 10),
];

pub fn named(name: &str) -> Option<&'static Cut> {
    CUTS.iter().find(|cut| cut.name == name)
}

impl Cut {
    fn one(&self) -> Vec<u8> {
        let content = vec![b'x'; self.frame];
        if self.counted { [format!("{} ", self.frame).as_bytes(), &content].concat() } else { [&content[..], b"\n"].concat() }
    }

    /// As many frames as `BYTES` have room for.
    pub fn stream(&self) -> Vec<u8> {
        let one = self.one();
        one.repeat(BYTES / one.len())
    }

    pub fn frames(&self) -> usize {
        BYTES / self.one().len()
    }
}

/// Answers of the archive (include/khamdoriem.h).
#[repr(C)]
#[derive(Clone, Copy)]
struct State([u32; 3]);

#[repr(C)]
struct Started {
    number: u32,
    state: State,
}

#[repr(C)]
struct Fed {
    number: u32,
    frame: u32,
    taken: usize,
    len: usize,
    state: State,
}

#[cfg(not(no_streams))]
extern "C" {
    fn khamdoriem_stream_start(kind: u32) -> Started;
    fn khamdoriem_stream_feed(state: State, bytes: *const u8, bytes_len: usize, buffer: *mut u8, buffer_len: usize) -> Fed;
}

/// An archive of before there were streams (bench/run, --before) has none to cut.
#[cfg(no_streams)]
unsafe fn khamdoriem_stream_start(_: u32) -> Started {
    Started { number: 2, state: State([0; 3]) }
}

#[cfg(no_streams)]
unsafe fn khamdoriem_stream_feed(state: State, _: *const u8, _: usize, _: *mut u8, _: usize) -> Fed {
    Fed { number: 2, frame: 0, taken: 0, len: 0, state }
}

/// Cuts the stream once, and answers how many calls that took and how many frames it had, those passed over too. This is the measured part.
pub fn pass(cut: &Cut, stream: &[u8], buffer: &mut [u8]) -> Result<(usize, usize), String> {
    // SAFETY: it is given a number.
    let started = unsafe { khamdoriem_stream_start(u32::from(!cut.counted)) };
    let (mut state, mut calls, mut frames) = (started.state, 0, 0);
    for piece in stream.chunks(cut.piece) {
        let mut bytes = piece;
        while !bytes.is_empty() {
            // SAFETY: each pointer comes with its own slice's length, and the slices do not overlap.
            let fed = unsafe { khamdoriem_stream_feed(state, bytes.as_ptr(), bytes.len(), buffer.as_mut_ptr(), buffer.len()) };
            if fed.number != 0 && fed.number != 12 {
                return Err(format!("{}: the splitter answers {}", cut.name, fed.number));
            }
            bytes = &bytes[fed.taken..];
            state = fed.state;
            calls += 1;
            frames += usize::from(black_box(fed.len) > 0 || fed.number == 12 || fed.frame == 1);
        }
    }
    if started.number == 0 { Ok((calls, frames)) } else { Err(format!("no start of a stream: {}", started.number)) }
}

pub fn work(cut: &'static Cut) -> Work {
    let (stream, mut buffer) = (cut.stream(), vec![0; BUFFER]);
    Work::new(cut.frames(), move || {
        black_box(pass(cut, black_box(&stream), &mut buffer)?);
        Ok(())
    })
}

/// Cuts each stream once, and says what it has, as rows of the results.
pub fn check() -> Result<(), String> {
    if cfg!(no_streams) {
        return Ok(());
    }
    let mut buffer = vec![0; BUFFER];
    for cut in &CUTS {
        let stream = cut.stream();
        let (calls, frames) = pass(cut, &stream, &mut buffer)?;
        if frames != cut.frames() {
            return Err(format!("{}: {frames} frames, and {} were made", cut.name, cut.frames()));
        }
        println!("stream {} {} {calls} {frames}", cut.name, stream.len());
    }
    Ok(())
}
