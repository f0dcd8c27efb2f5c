//! A stream gives the same however it is cut, fed by hand or read. Runs without the feature `std` too, but for what reads.

use khamdoriem::{Event, Framing, Refusal, Splitter, MAX_LINE};

use Framing::{Counted, Lines};

/// What a stream gives: a frame, the front of one that was too long, or a byte of a bad count.
#[derive(Clone, Debug, PartialEq)]
enum Seen {
    Frame(Vec<u8>),
    TooLong(Vec<u8>),
    BadCount,
}

fn frame(text: &str) -> Seen {
    Seen::Frame(text.into())
}

/// A stream, what it gives, and what of an unfinished frame it ends with.
struct Stream {
    framing: Framing,
    bytes: Vec<u8>,
    gives: Vec<Seen>,
    unfinished: u32,
    held: Vec<u8>,
}

impl Stream {
    fn of(framing: Framing, bytes: &[u8], gives: Vec<Seen>, held: &str) -> Stream {
        Stream { framing, bytes: bytes.into(), gives, unfinished: held.len() as u32, held: held.into() }
    }
}

/// Short streams, each to be cut everywhere.
fn short() -> Vec<Stream> {
    let bad = |frames: &[&str], bytes| {
        let mut gives: Vec<Seen> = frames.iter().map(|text| frame(text)).collect();
        gives.extend(vec![Seen::BadCount; bytes]);
        gives
    };
    vec![
        Stream::of(Counted, b"", vec![], ""),
        Stream::of(Counted, b"3 abc", vec![frame("abc")], ""),
        Stream::of(Counted, b"3 abc10 01234567891 \n", vec![frame("abc"), frame("0123456789"), frame("\n")], ""),
        Stream::of(Counted, b"2 \r\n4 1 a ", vec![frame("\r\n"), frame("1 a ")], ""),
        Stream::of(Counted, b"3 abc4 def", vec![frame("abc")], "def"),
        Stream::of(Counted, b"1 a12", vec![frame("a")], ""),
        Stream::of(Counted, b"1 a12 ", vec![frame("a")], ""),
        Stream::of(Counted, b"999999 a\nbc", vec![], "a\nbc"),
        // What is no count: the byte that makes it so gives 11, and so does every one after it.
        Stream::of(Counted, b"0 a", bad(&[], 3), ""),
        Stream::of(Counted, b"01 a", bad(&[], 4), ""),
        Stream::of(Counted, b" 1 a", bad(&[], 4), ""),
        Stream::of(Counted, b"<13>", bad(&[], 4), ""),
        Stream::of(Counted, b"1a 1 b", bad(&[], 5), ""),
        Stream::of(Counted, b"10\n1 b", bad(&[], 4), ""),
        Stream::of(Counted, b"1 a/1 b", bad(&["a"], 4), ""),
        Stream::of(Counted, b"1 a:1 b", bad(&["a"], 4), ""),
        Stream::of(Counted, b"1234567 a", bad(&[], 3), ""),
        Stream::of(Lines, b"", vec![], ""),
        Stream::of(Lines, b"\n", vec![frame("")], ""),
        Stream::of(Lines, b"a\nbc\n\n\r\nd\r", vec![frame("a"), frame("bc"), frame(""), frame("\r")], "d\r"),
        Stream::of(Lines, b"5 hello\n0\n", vec![frame("5 hello"), frame("0")], ""),
        Stream::of(Lines, b"\0\xff\n\n", vec![Seen::Frame(vec![0, 255]), frame("")], ""),
        Stream::of(Lines, b"no end", vec![], "no end"),
    ]
}

/// Bytes that differ from their neighbours, none of them LF.
fn content(len: usize) -> Vec<u8> {
    (0..len).map(|i| b'a' + (i % 23) as u8).collect()
}

/// A frame of so many bytes and one behind it, both framings.
fn long(len: usize) -> [Stream; 2] {
    let content = content(len);
    let gives = if len > MAX_LINE { Seen::TooLong(content[..MAX_LINE].into()) } else { Seen::Frame(content.clone()) };
    let gives = vec![gives, frame("ok")];
    let counted = [len.to_string().as_bytes(), b" ", &content, b"2 ok"].concat();
    [
        Stream::of(Counted, &counted, gives.clone(), ""),
        Stream::of(Lines, &[&content, &b"\nok\n"[..]].concat(), gives, ""),
    ]
}

/// Feeds the pieces, and compares. The buffer has what an earlier stream may have left.
fn fed(stream: &Stream, pieces: &[&[u8]]) {
    let mut buffer = [b'.'; MAX_LINE];
    let mut splitter = Splitter::over(stream.framing, &mut buffer);
    let mut seen = Vec::new();
    for piece in pieces {
        let mut bytes = *piece;
        loop {
            let fed = splitter.feed(bytes);
            bytes = &bytes[fed.taken..];
            match fed.event {
                Event::More => break,
                Event::Frame(frame) => seen.push(Seen::Frame(frame.into())),
                Event::Refused(Refusal::BadCount) => seen.push(Seen::BadCount),
                Event::Refused(Refusal::FrameTooLong) => seen.push(Seen::TooLong(splitter.buffer().into())),
                Event::Refused(other) => panic!("{other}"),
            }
        }
        assert!(bytes.is_empty());
    }
    assert!(seen == stream.gives, "{:?} in {:?}", stream.framing, pieces.iter().map(|p| p.len()).collect::<Vec<_>>());
    assert_eq!((splitter.finish(), splitter.held()), (stream.unfinished, &stream.held[..]));
}

/// Cuts a stream at every one and every two of these places.
fn cut_at(stream: &Stream, places: &[usize]) {
    for (i, &first) in places.iter().enumerate() {
        let (front, back) = stream.bytes.split_at(first);
        fed(stream, &[front, back]);
        for &second in &places[i..] {
            let (middle, back) = back.split_at(second - first);
            fed(stream, &[front, middle, back]);
        }
    }
}

#[test]
fn short_streams_cut_at_every_place_and_in_every_two() {
    for stream in short() {
        fed(&stream, &[&stream.bytes]);
        fed(&stream, &stream.bytes.chunks(1).collect::<Vec<_>>());
        cut_at(&stream, &(0..=stream.bytes.len()).collect::<Vec<_>>());
    }
}

#[test]
fn frames_about_the_limit_cut_near_every_border() {
    for len in [MAX_LINE - 1, MAX_LINE, MAX_LINE + 1, MAX_LINE + 2, 99_999, 100_000] {
        for stream in long(len) {
            fed(&stream, &[&stream.bytes]);
            let borders = [0, 7, MAX_LINE, MAX_LINE + 5, len, len + 7, stream.bytes.len()];
            let near = |place: usize| borders.iter().any(|&border| place + 2 >= border && place <= border + 2);
            cut_at(&stream, &(0..=stream.bytes.len()).filter(|&place| near(place)).collect::<Vec<_>>());
        }
    }
}

#[test]
fn frames_about_the_limit_cut_at_every_place() {
    for len in [MAX_LINE, MAX_LINE + 1] {
        for stream in long(len) {
            for place in 0..=stream.bytes.len() {
                let (front, back) = stream.bytes.split_at(place);
                fed(&stream, &[front, back]);
            }
        }
    }
}

#[test]
fn no_bytes_no_report() {
    for framing in [Counted, Lines] {
        let mut buffer = [0; MAX_LINE];
        let mut splitter = Splitter::over(framing, &mut buffer);
        assert_eq!(splitter.framing(), framing);
        for _ in 0..3 {
            let fed = splitter.feed(b"");
            assert_eq!((fed.taken, fed.event), (0, Event::More));
        }
    }
    // After a bad count too.
    let mut buffer = [0; MAX_LINE];
    let mut splitter = Splitter::over(Counted, &mut buffer);
    assert_eq!(splitter.feed(b"x").event.frame(), Err(Refusal::BadCount));
    assert_eq!(splitter.feed(b"").event.frame(), Ok(None));
    assert_eq!(splitter.feed(b"1 a").taken, 1);
}

#[test]
fn a_restart_forgets_what_came() {
    for (framing, front, whole) in
        [(Counted, &b"9 abc"[..], &b"2 ok"[..]), (Counted, b"x", b"2 ok"), (Lines, b"ab", b"ok\n")]
    {
        let mut buffer = [0; MAX_LINE];
        let mut splitter = Splitter::over(framing, &mut buffer);
        splitter.feed(front);
        splitter.restart();
        assert_eq!((splitter.finish(), splitter.held()), (0, &b""[..]));
        assert_eq!(splitter.feed(whole).event, Event::Frame(b"ok"));
    }
}

#[test]
fn a_long_unfinished_frame_is_counted_whole_and_held_in_part() {
    let bytes = content(20_000);
    let mut buffer = [0; MAX_LINE];
    let mut splitter = Splitter::over(Lines, &mut buffer);
    assert_eq!(splitter.feed(&bytes).event, Event::More);
    assert_eq!(splitter.finish(), 20_000);
    assert_eq!(splitter.held(), &bytes[..MAX_LINE]);
}

#[cfg(feature = "std")]
mod read {
    use super::*;
    use khamdoriem::{FrameError, Frames};
    use std::io::{self, Read};

    /// A reader that gives pieces of random lengths, up to `most`, and in between is interrupted or has nothing yet.
    struct Pieces<'a> {
        bytes: &'a [u8],
        most: usize,
        random: u64,
    }

    impl Pieces<'_> {
        fn below(&mut self, n: usize) -> usize {
            self.random = self.random.wrapping_mul(6_364_136_223_846_793_005).wrapping_add(1_442_695_040_888_963_407);
            (self.random >> 33) as usize % n
        }
    }

    impl Read for Pieces<'_> {
        fn read(&mut self, buffer: &mut [u8]) -> io::Result<usize> {
            match self.below(8) {
                0 => Err(io::ErrorKind::Interrupted.into()),
                1 => Err(io::ErrorKind::WouldBlock.into()),
                _ => {
                    let len = (1 + self.below(self.most)).min(self.bytes.len()).min(buffer.len());
                    buffer[..len].copy_from_slice(&self.bytes[..len]);
                    self.bytes = &self.bytes[len..];
                    Ok(len)
                }
            }
        }
    }

    fn read(stream: &Stream, most: usize, seed: u64) {
        let mut frames = Frames::new(Pieces { bytes: &stream.bytes, most, random: seed }, stream.framing);
        let mut seen = Vec::new();
        let mut waited = 0;
        loop {
            let long = match frames.next_frame() {
                None => break,
                Some(Ok(frame)) => {
                    seen.push(Seen::Frame(frame.into()));
                    continue;
                }
                Some(Err(FrameError::Read(error))) => {
                    assert_eq!(error.kind(), io::ErrorKind::WouldBlock);
                    waited += 1;
                    continue;
                }
                Some(Err(FrameError::Refused(refusal))) => refusal == Refusal::FrameTooLong,
                Some(Err(other)) => panic!("{other}"),
            };
            seen.push(if long { Seen::TooLong(frames.splitter().buffer().into()) } else { Seen::BadCount });
        }
        // A bad count is told once.
        let mut gives = stream.gives.clone();
        gives.dedup_by(|a, b| *a == Seen::BadCount && *b == Seen::BadCount);
        assert!(seen == gives, "{:?}, pieces of up to {most}, seed {seed}, waited {waited} times", stream.framing);
        assert_eq!((frames.finish(), frames.splitter().held()), (stream.unfinished, &stream.held[..]));
        let left = frames.get_ref().bytes.len();
        assert!(left == 0 || gives.contains(&Seen::BadCount), "{left} bytes were not read");
    }

    #[test]
    fn streams_read_in_random_pieces() {
        for stream in short() {
            for seed in 0..50 {
                read(&stream, 1 + seed as usize % 7, seed);
            }
        }
        for len in [MAX_LINE - 1, MAX_LINE, MAX_LINE + 1, 100_000] {
            for stream in long(len) {
                for (seed, most) in [(1, 1_000), (2, 9_000), (3, 70_000)] {
                    read(&stream, most, seed);
                }
            }
        }
    }

    #[test]
    fn errors_are_passed_on_as_they_are() {
        struct Broken;
        impl Read for Broken {
            fn read(&mut self, _: &mut [u8]) -> io::Result<usize> {
                Err(io::Error::new(io::ErrorKind::ConnectionReset, "cut off"))
            }
        }
        let mut frames = Frames::new((&b"2 ok3 a"[..]).chain(Broken), Counted);
        assert_eq!(frames.next_frame().unwrap().unwrap(), b"ok");
        let error: io::Error = frames.next_frame().unwrap().unwrap_err().into();
        assert_eq!((error.kind(), error.to_string().as_str()), (io::ErrorKind::ConnectionReset, "cut off"));
        assert_eq!(frames.finish(), 1);

        let mut frames = Frames::new(&b"no count"[..], Counted);
        let error: io::Error = frames.next_frame().unwrap().unwrap_err().into();
        assert_eq!(error.kind(), io::ErrorKind::InvalidData);
        assert_eq!(error.to_string(), Refusal::BadCount.to_string());
        assert!(frames.next_frame().is_none());
    }
}
