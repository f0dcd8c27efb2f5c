//! Streams, cut at random, against a machine written by hand that takes a byte at a time: number, frame, bytes taken, length and state of every call, the
//! buffer, and the end. Where a call may have written, the buffer is compared after it, and all of it with its guards after the stream.

use crate::abi::{self, Fed, State, LONGEST};
use crate::random::Random;
use crate::shrink::escaped;

/// What lies before and behind the buffer, and the most that it is longer than a frame.
const GUARD: usize = 64;
const LONGER: usize = 64;
const MOST: u32 = u32::MAX;

// ---- the machine

/// Where the machine stands. Of a count it keeps how many digits came, and their value.
#[derive(Clone, Copy, Debug, PartialEq)]
enum At {
    Count { digits: u32, value: u32 },
    Content { left: u32, came: u32 },
    Line { came: u32 },
    Ended,
}

/// What it says of a byte.
enum Says {
    Nothing,
    Frame(usize),
    TooLong,
    BadCount,
}

impl At {
    /// The state that three numbers are, if they are one.
    fn of(state: State) -> Option<At> {
        match state.stage {
            1 => Some(At::Count { digits: state.left.checked_ilog10().map_or(0, |log| log + 1), value: state.left }),
            2 => Some(At::Content { left: state.left.max(1), came: state.came }),
            3 => Some(At::Line { came: state.came }),
            4 => Some(At::Ended),
            _ => None,
        }
    }

    fn numbers(self) -> State {
        match self {
            At::Count { value, .. } => State { stage: 1, left: value, came: 0 },
            At::Content { left, came } => State { stage: 2, left, came },
            At::Line { came } => State { stage: 3, left: 0, came },
            At::Ended => State { stage: 4, left: 0, came: 0 },
        }
    }

    fn unfinished(self) -> u32 {
        match self {
            At::Content { came, .. } | At::Line { came } => came,
            At::Count { .. } | At::Ended => 0,
        }
    }

    fn step(&mut self, byte: u8, buffer: &mut [u8]) -> Says {
        match *self {
            At::Count { digits, value } => match byte {
                b'0'..=b'9' if digits < 6 && (digits > 0 || byte != b'0') => {
                    *self = At::Count { digits: digits + 1, value: 10 * value + u32::from(byte - b'0') };
                    Says::Nothing
                }
                b' ' if digits > 0 => {
                    *self = At::Content { left: value, came: 0 };
                    Says::Nothing
                }
                _ => {
                    *self = At::Ended;
                    Says::BadCount
                }
            },
            At::Content { left, came } => {
                let came = hold(byte, came, buffer);
                if left > 1 {
                    *self = At::Content { left: left - 1, came };
                    return Says::Nothing;
                }
                *self = At::Count { digits: 0, value: 0 };
                ended(came)
            }
            At::Line { came } if byte == b'\n' => {
                *self = At::Line { came: 0 };
                ended(came)
            }
            At::Line { came } => {
                *self = At::Line { came: hold(byte, came, buffer) };
                Says::Nothing
            }
            At::Ended => Says::BadCount,
        }
    }
}

/// A content byte more: kept where there is room, and counted.
fn hold(byte: u8, came: u32, buffer: &mut [u8]) -> u32 {
    if (came as usize) < LONGEST {
        buffer[came as usize] = byte;
    }
    came.saturating_add(1)
}

fn ended(came: u32) -> Says {
    if came as usize <= LONGEST { Says::Frame(came as usize) } else { Says::TooLong }
}

/// What a call is to answer, and the buffer that it is to leave.
fn wanted(state: State, bytes: &[u8], buffer: &mut [u8]) -> Fed {
    let refused = |number, taken, state| Fed { number, frame: 0, taken, len: 0, state };
    let Some(mut at) = At::of(state) else {
        return refused(2, 0, state);
    };
    if buffer.len() < LONGEST {
        return refused(8, 0, state);
    }
    // A state that came in with a `left` of 0 is as one of 1; where no byte comes it stays as it was.
    if bytes.is_empty() {
        let left = if state.stage == 2 { state.left } else { at.numbers().left };
        return refused(0, 0, State { left, ..at.numbers() });
    }
    for (i, &byte) in bytes.iter().enumerate() {
        match at.step(byte, buffer) {
            Says::Nothing => {}
            Says::Frame(len) => return Fed { number: 0, frame: 1, taken: i + 1, len, state: at.numbers() },
            Says::TooLong => return refused(12, i + 1, at.numbers()),
            Says::BadCount => return refused(11, i + 1, at.numbers()),
        }
    }
    refused(0, bytes.len(), at.numbers())
}

// ---- random streams

const LETTERS: &[u8] = b"0123456789 \n\r\0\xff<>abc";

/// How long the next content is: short, at times at the limit.
fn length(random: &mut Random, long: &mut bool) -> usize {
    if *long {
        *long = false;
        return random.of(&[8190, 8191, 8192, 8192, 8193, 8193, 8194, 9000]);
    }
    if random.one_in(32) { random.below(200) } else { random.below(12) }
}

/// Content of so many bytes, without LF where it is a line's.
fn content(random: &mut Random, len: usize, lines: bool, stream: &mut Vec<u8>) {
    let salt = random.next() as usize;
    for i in 0..len {
        let byte = if len > 200 { b'a' + ((i + salt) % 25) as u8 } else { random.of(LETTERS) };
        stream.push(if lines && byte == b'\n' { b'-' } else { byte });
    }
}

/// A count of so many bytes, at times with a wound that makes it none.
fn count(random: &mut Random, len: usize, stream: &mut Vec<u8>) {
    match random.below(96) {
        0 => stream.extend_from_slice(random.pick::<[u8]>(&[b"0", b"00 ", b" ", b"/", b":", b"-1 ", b"1234567 ", b"999999 ", b"1000000", b"100000 ", b"9999999 ", b"1\n"])),
        1 => stream.extend_from_slice(format!("{len}{}", char::from(random.of(LETTERS) & 0x7f)).as_bytes()),
        2 => stream.extend_from_slice(format!("0{len} ").as_bytes()),
        3 => stream.extend_from_slice(format!("{} ", len + 1).as_bytes()),
        _ => stream.extend_from_slice(format!("{len} ").as_bytes()),
    }
}

/// A stream of a kind; `long` where one of its frames is at the limit.
fn make(random: &mut Random, kind: u32, mut long: bool, stream: &mut Vec<u8>) {
    stream.clear();
    for _ in 0..random.below(5) + usize::from(long) {
        let len = length(random, &mut long);
        if kind == 1 {
            content(random, len, true, stream);
            stream.push(b'\n');
        } else {
            let len = len.max(1);
            count(random, len, stream);
            content(random, len, false, stream);
        }
    }
    match random.below(4) {
        0 => content(random, 7, kind == 1, stream),
        1 => stream.truncate(stream.len() - random.below(4).min(stream.len())),
        _ => {}
    }
}

/// A counted frame of six digits with all its bytes, and one behind it.
fn make_huge(random: &mut Random, stream: &mut Vec<u8>) {
    stream.clear();
    let any = 100_001 + random.below(200_000);
    let len = random.of(&[99_999, 100_000, any, 999_999]);
    stream.extend_from_slice(format!("{len} ").as_bytes());
    content(random, len, false, stream);
    stream.extend_from_slice(b"2 ok");
}

/// Numbers that a host may send as a state, whether it is one or not.
fn forged(random: &mut Random) -> State {
    let mut number = || random.of(&[0, 0, 1, 2, 9, 10, 8191, 8192, 8193, 99_999, 100_000, 999_999, 1_000_000, MOST - 1, MOST]);
    let (left, came) = (number(), number());
    State { stage: random.of(&[0, 1, 2, 3, 4, 5, MOST]), left, came }
}

// ---- a run

#[derive(Clone, Copy, Default)]
pub struct Counts {
    pub streams: u64,
    pub calls: u64,
    pub bytes: u64,
    pub frames: u64,
    pub long: u64,
    pub bad: u64,
    pub unfinished: u64,
}

/// What differs: the stream from a state on, where it was cut, and both answers.
pub struct Difference {
    pub what: &'static str,
    pub from: State,
    pub stream: String,
    pub cuts: Vec<usize>,
    pub ours: String,
    pub wanted: String,
}

pub struct Streams {
    random: Random,
    stream: Vec<u8>,
    cuts: Vec<usize>,
    /// The archive's memory and the machine's, each with guards. They go from stream to stream uncleared.
    ours: Vec<u8>,
    model: Vec<u8>,
    pub counts: Counts,
}

type Checked = Result<(), (&'static str, String, String)>;

fn same<T: PartialEq + std::fmt::Debug>(what: &'static str, ours: T, wanted: T) -> Checked {
    if ours == wanted { Ok(()) } else { Err((what, format!("{ours:?}"), format!("{wanted:?}"))) }
}

impl Streams {
    pub fn new(seed: u64, part: u64) -> Self {
        let memory: Vec<u8> = (0..2 * GUARD + LONGEST + LONGER).map(|i| (i * 37 + 11) as u8).collect();
        let random = Random::new(seed.wrapping_mul(1_000_003).wrapping_add(part));
        Streams { random, stream: Vec::new(), cuts: Vec::new(), ours: memory.clone(), model: memory, counts: Counts::default() }
    }

    /// The next stream.
    pub fn next(&mut self) -> Result<(), Difference> {
        let huge = self.random.one_in(1 << 17);
        let long = !huge && self.random.one_in(512);
        let kind = if huge { 0 } else { self.random.below(2) as u32 };
        if huge { make_huge(&mut self.random, &mut self.stream) } else { make(&mut self.random, kind, long, &mut self.stream) }
        self.cut(long || huge);
        let forge = !huge && self.random.one_in(16);
        let from = if forge { forged(&mut self.random) } else { abi::stream_start(kind).state };
        self.counts.streams += 1;
        self.counts.bytes += self.stream.len() as u64;
        let checked = self.started(kind).and_then(|()| self.fed(from)).and_then(|()| same("memory", self.ours == self.model, true));
        checked.map_err(|(what, ours, wanted)| {
            let shown = &self.stream[..self.stream.len().min(200)];
            Difference { what, from, stream: escaped(shown), cuts: self.cuts.clone(), ours, wanted }
        })
    }

    /// Where the stream is cut: at the end alone, or into pieces, empty ones too.
    fn cut(&mut self, long: bool) {
        self.cuts.clear();
        let most = match self.random.below(4) {
            0 => 2,
            1 => 8,
            2 => 40,
            _ => self.stream.len() + 1,
        };
        let most = if long { most * 500 } else { most };
        let mut at = 0;
        while at < self.stream.len() {
            at = (at + self.random.below(most + 1)).min(self.stream.len());
            self.cuts.push(at);
        }
        if self.random.one_in(4) {
            self.cuts.push(at);
        }
    }

    fn started(&mut self, kind: u32) -> Checked {
        let first = State { stage: 1 + 2 * kind, left: 0, came: 0 };
        same("the start of a stream", abi::stream_start(kind), abi::Started { number: 0, state: first })?;
        let other = self.random.of(&[2, 3, 256, 65_536, MOST]);
        same("the start of another kind", abi::stream_start(other), abi::Started { number: 2, state: State::NONE })
    }

    /// Feeds the pieces, each until it is used up or the state is none.
    fn fed(&mut self, mut state: State) -> Checked {
        let mut at = 0;
        for cut in 0..self.cuts.len() {
            loop {
                let fed = self.call(state, at, self.cuts[cut])?;
                at += fed.taken;
                state = fed.state;
                if at == self.cuts[cut] || fed.number == 2 {
                    break;
                }
            }
            at = self.cuts[cut];
        }
        let end = At::of(state).map(At::unfinished);
        self.counts.unfinished += u64::from(end.unwrap_or(0) > 0);
        let finished = abi::Finished { number: if end.is_none() { 2 } else { 0 }, unfinished: end.unwrap_or(0) };
        same("the end of a stream", abi::stream_finish(state), finished)
    }

    /// A call on the bytes from a place to another. At times the buffer is short or longer than it need be, and a short one is tried before.
    fn call(&mut self, state: State, from: usize, to: usize) -> Result<Fed, (&'static str, String, String)> {
        if self.random.one_in(64) {
            let short = self.random.of(&[0, 1, LONGEST - 1]);
            self.compared(state, from, to, short)?;
        }
        let room = if self.random.one_in(8) { LONGEST + self.random.below(LONGER) } else { LONGEST };
        let fed = self.compared(state, from, to, room)?;
        match fed.number {
            0 => self.counts.frames += u64::from(fed.frame),
            11 => self.counts.bad += 1,
            12 => self.counts.long += 1,
            _ => {}
        }
        Ok(fed)
    }

    fn compared(&mut self, state: State, from: usize, to: usize, room: usize) -> Result<Fed, (&'static str, String, String)> {
        let bytes = &self.stream[from..to];
        self.counts.calls += 1;
        let wanted = wanted(state, bytes, &mut self.model[GUARD..GUARD + room]);
        let ours = abi::stream_feed(state, bytes, &mut self.ours[GUARD..GUARD + room]);
        same("a call", ours, wanted)?;
        // Where the call may have written, with some bytes around it; of a frame all.
        let before = At::of(state).map_or(0, At::unfinished) as usize;
        let low = if ours.frame == 1 { 0 } else { before.min(LONGEST) };
        let high = (before.min(LONGEST) + ours.taken).min(LONGEST);
        let around = GUARD + low - 8..GUARD + high + 8;
        same("the buffer", &self.ours[around.clone()], &self.model[around])?;
        Ok(ours)
    }
}
