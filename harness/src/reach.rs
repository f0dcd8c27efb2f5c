//! How far a refused line goes on as a strict line does, told twice by hand: by a machine that takes a byte at a time, and by a search over short
//! continuations, each asked of the grammar by hand (strict.rs). Neither shares anything with the port.

use crate::abi::{self, Element, Param, Read, Reader, Settings, LONGEST, STRICT_RECORD};
use crate::lines::Lines;
use crate::oracle::Answer;
use crate::random::Random;
use crate::shrink::escaped;
use crate::strict;
use std::collections::HashSet;

// ---- the machine

/// What the next byte is part of.
#[derive(Clone, Copy, PartialEq)]
enum Part {
    Open,
    Priority,
    Version,
    Stamp,
    Fraction,
    Zone,
    StampEnd,
    Field(usize),
    Data,
    Id,
    Name,
    Quote,
    Value,
    ValueEnd,
    ElementEnd,
    NoElements,
    Mark,
    Marked,
    Message,
}

/// The bytes that a header field may have: host, app name, process id, message id.
const MOST: [usize; 4] = [255, 48, 128, 32];
const NAME: usize = 32;

/// A beginning that some strict line has: the part it ends in, and that part's bytes so far.
struct Machine {
    part: Part,
    text: Vec<u8>,
    /// An unpaired backslash is the last byte of a value.
    escaped: bool,
    used: HashSet<Vec<u8>>,
}

fn name_bytes() -> impl Iterator<Item = u8> {
    (33..=126).filter(|b| !matches!(b, b'=' | b']' | b'"'))
}

fn is_name_byte(b: u8) -> bool {
    (33..=126).contains(&b) && !matches!(b, b'=' | b']' | b'"')
}

fn two(text: &[u8], at: usize) -> u32 {
    u32::from(text[at] - b'0') * 10 + u32::from(text[at + 1] - b'0')
}

fn days(text: &[u8]) -> u32 {
    let year = two(text, 0) * 100 + two(text, 2);
    match two(text, 5) {
        2 if year % 400 == 0 || year % 4 == 0 && year % 100 != 0 => 29,
        2 => 28,
        4 | 6 | 9 | 11 => 30,
        _ => 31,
    }
}

/// Is the last byte right in its place of `YYYY-MM-DDThh:mm:ss`, so that the text can be gone on with?
fn is_stamp(text: &[u8]) -> bool {
    let at = text.len() - 1;
    let b = text[at];
    let tens = |most: u8| (b'0'..=most).contains(&b);
    match at {
        4 | 7 => b == b'-',
        10 => b == b'T',
        13 | 16 => b == b':',
        _ if !b.is_ascii_digit() => false,
        5 => tens(b'1'),
        6 => (1..=12).contains(&two(text, 5)),
        8 => tens(if days(text) < 30 { b'2' } else { b'3' }),
        9 => (1..=days(text)).contains(&two(text, 8)),
        11 => tens(b'2'),
        12 => two(text, 11) < 24,
        14 | 17 => tens(b'5'),
        _ => true,
    }
}

/// The same of `hh:mm`.
fn is_zone(text: &[u8]) -> bool {
    let at = text.len() - 1;
    let b = text[at];
    match at {
        2 => b == b':',
        _ if !b.is_ascii_digit() => false,
        0 => b <= b'2',
        1 => two(text, 0) < 24,
        3 => b <= b'5',
        _ => true,
    }
}

impl Machine {
    fn new() -> Self {
        Machine { part: Part::Open, text: Vec::new(), escaped: false, used: HashSet::new() }
    }

    fn go(&mut self, part: Part) -> bool {
        self.part = part;
        self.text.clear();
        true
    }

    fn add(&mut self, b: u8) -> bool {
        self.text.push(b);
        true
    }

    /// Is there an id that is not used yet and begins so?
    fn is_open(&self, id: &mut Vec<u8>) -> bool {
        if !id.is_empty() && !self.used.contains(id) {
            return true;
        }
        id.len() < NAME
            && name_bytes().any(|b| {
                id.push(b);
                let open = self.is_open(id);
                id.pop();
                open
            })
    }

    /// Takes the byte; or answers that no strict line goes on so.
    fn take(&mut self, b: u8) -> bool {
        let empty = self.text.is_empty();
        match self.part {
            Part::Open => b == b'<' && self.go(Part::Priority),
            Part::Priority => match b {
                b'>' => !empty && self.go(Part::Version),
                b'0'..=b'9' => self.text != b"0" && self.is_priority(b) && self.add(b),
                _ => false,
            },
            Part::Version => match b {
                b' ' => !empty && self.go(Part::Stamp),
                b'0' if empty => false,
                b'0'..=b'9' => self.text.len() < 3 && self.add(b),
                _ => false,
            },
            Part::Stamp => self.stamp(b),
            Part::Fraction => match b {
                b'0'..=b'9' => self.text.len() < 6 && self.add(b),
                _ => !empty && self.zone(b),
            },
            Part::Zone => self.add(b) && is_zone(&self.text) && (self.text.len() < 5 || self.go(Part::StampEnd)),
            Part::StampEnd => b == b' ' && self.go(Part::Field(0)),
            Part::Field(k) => match b {
                b' ' => !empty && self.go(if k == 3 { Part::Data } else { Part::Field(k + 1) }),
                33..=126 => self.text.len() < MOST[k] && self.add(b),
                _ => false,
            },
            Part::Data => b == b'-' && self.go(Part::NoElements) || self.bracket(b),
            Part::Id => self.id(b),
            Part::Name => match b {
                b'=' => !empty && self.go(Part::Quote),
                _ => is_name_byte(b) && self.text.len() < NAME && self.add(b),
            },
            Part::Quote => b == b'"' && self.go(Part::Value),
            Part::Value => self.value(b),
            Part::ValueEnd => b == b' ' && self.go(Part::Name) || b == b']' && self.go(Part::ElementEnd),
            Part::ElementEnd => b == b' ' && self.go(Part::Mark) || self.bracket(b),
            Part::NoElements => b == b' ' && self.go(Part::Mark),
            Part::Mark => self.mark(b),
            Part::Marked => self.character(b),
            Part::Message => true,
        }
    }

    fn is_priority(&self, b: u8) -> bool {
        let digits = self.text.iter().chain([&b]);
        digits.fold(0, |sum, b| sum * 10 + u32::from(b - b'0')) <= 191
    }

    fn stamp(&mut self, b: u8) -> bool {
        match (self.text.len(), b) {
            (0, b'-') => self.go(Part::StampEnd),
            (19, b'.') => self.go(Part::Fraction),
            (19, _) => self.zone(b),
            _ => self.add(b) && is_stamp(&self.text),
        }
    }

    fn zone(&mut self, b: u8) -> bool {
        match b {
            b'Z' => self.go(Part::StampEnd),
            b'+' | b'-' => self.go(Part::Zone),
            _ => false,
        }
    }

    /// An element begins, if any id is left for it.
    fn bracket(&mut self, b: u8) -> bool {
        b == b'[' && self.is_open(&mut Vec::new()) && self.go(Part::Id)
    }

    fn id(&mut self, b: u8) -> bool {
        if b == b' ' || b == b']' {
            let free = !self.text.is_empty() && self.used.insert(self.text.clone());
            return free && self.go(if b == b' ' { Part::Name } else { Part::ElementEnd });
        }
        if !is_name_byte(b) || self.text.len() == NAME {
            return false;
        }
        let mut id = self.text.clone();
        id.push(b);
        self.is_open(&mut id) && self.add(b)
    }

    /// A byte of a value; `text` has those of a character that is not whole yet.
    fn value(&mut self, b: u8) -> bool {
        if self.text.is_empty() {
            match (self.escaped, b) {
                (true, b'"' | b'\\' | b']') => {
                    self.escaped = false;
                    return true;
                }
                (false, b'"') => return self.go(Part::ValueEnd),
                (false, b']') => return false,
                _ => self.escaped = b == b'\\',
            }
        }
        self.character(b)
    }

    /// A byte of a text that is UTF-8: the Rust's own library says whether more bytes can make it whole.
    fn character(&mut self, b: u8) -> bool {
        self.text.push(b);
        match std::str::from_utf8(&self.text) {
            Ok(_) => self.text.clear(),
            Err(error) => return error.error_len().is_none(),
        }
        true
    }

    /// The first three bytes of a message: with the mark the others are UTF-8.
    fn mark(&mut self, b: u8) -> bool {
        self.text.push(b);
        let mark = b"\xEF\xBB\xBF";
        if self.text == mark {
            return self.go(Part::Marked);
        }
        mark.starts_with(&self.text) || self.go(Part::Message)
    }
}

/// How many bytes of the line some strict line begins with too.
pub fn reach(line: &[u8]) -> usize {
    let mut machine = Machine::new();
    line.iter().take_while(|&&b| machine.take(b)).count()
}

// ---- the search

/// Every end of these lines is a continuation: together they have one for each place of a header and of an element.
const LINES: [&[u8]; 3] = [
    b"<0>1 0001-01-01T00:00:00.0+00:00 - - - - -",
    b"<0>1 0001-01-10T00:00:00Z - - - - -",
    b"<0>1 - - - - - [a a=\"a\"]",
];
/// What makes a character whole, or a pair of a backslash.
const FILLS: [&[u8]; 6] = [b"\\", b"\x80", b"\x80\x80", b"\x80\x80\x80", b"\xA0\x80", b"\x90\x80\x80"];

/// Does the grammar derive the beginning with a short continuation?
pub fn goes_on(beginning: &[u8]) -> bool {
    let mut line = beginning.to_vec();
    let mut is_line = |parts: [&[u8]; 2]| {
        line.truncate(beginning.len());
        line.extend_from_slice(parts[0]);
        line.extend_from_slice(parts[1]);
        strict::derives(&line)
    };
    if LINES.iter().any(|end| (0..=end.len()).any(|at| is_line([&end[at..], b""]))) {
        return true;
    }
    if FILLS.iter().any(|fill| is_line([fill, b"\"]"]) || is_line([fill, b""])) {
        return true;
    }
    // In an id: one byte more, and where so many ids are there that each may be used, two.
    let elements = beginning.iter().filter(|&&b| b == b'[').count();
    let one = |is_line: &mut dyn FnMut([&[u8]; 2]) -> bool| name_bytes().any(|b| is_line([&[b], b"]"]));
    if elements > 0 && one(&mut is_line) {
        return true;
    }
    elements > 91 && name_bytes().any(|a| name_bytes().any(|b| is_line([&[a, b], b"]"])))
}

// ---- the comparison

#[derive(Clone, Copy, Default)]
pub struct Counts {
    pub lines: u64,
    pub refused: u64,
    pub whole: u64,
    pub searched: u64,
    pub calls: u64,
}

/// What differs on a line.
pub struct Difference {
    pub what: &'static str,
    pub line: String,
    pub ours: String,
    pub wanted: String,
}

pub struct Reaches {
    lines: Lines,
    random: Random,
    answer: Answer,
    elements: Vec<Element>,
    params: Vec<Param>,
    record: Vec<u8>,
    pub counts: Counts,
}

/// Up to so many bytes each line is searched, and of the longer ones some: a search asks the grammar hundreds of times.
const SHORT: usize = 400;

impl Reaches {
    pub fn new(seed: u64, part: u64, parts: u64) -> Self {
        Reaches {
            lines: Lines::new(seed, part, parts),
            random: Random::new(seed.wrapping_mul(1_000_003).wrapping_add(part)),
            answer: Answer::default(),
            elements: vec![[0; 2]; LONGEST / 3],
            params: vec![[0; 5]; LONGEST / 5],
            record: vec![0; STRICT_RECORD],
            counts: Counts::default(),
        }
    }

    /// The next line: a strict one with one wound, or with none.
    pub fn next(&mut self) -> Result<(), Difference> {
        let mut line = Vec::new();
        self.lines.next_strict(&mut line);
        self.wound(&mut line);
        self.compare(&line).map_err(|(what, ours, wanted)| Difference { what, line: escaped(&line), ours, wanted })
    }

    /// A byte changed, added or dropped, or the line cut.
    fn wound(&mut self, line: &mut Vec<u8>) {
        let r = &mut self.random;
        let at = if r.one_in(4) { line.len().saturating_sub(1 + r.below(4)) } else { r.below(line.len()) };
        let means = b"<>0123456789-:.TZ+ []=\"\\aA\xEF\xBB\xBF\x80\xC3\xE0\xF0\xF4\n";
        let b = match r.below(8) {
            0 => r.next() as u8,
            1 => line[r.below(line.len())],
            2 => line[at].wrapping_add(r.of(&[1, 255])),
            _ => r.of(means),
        };
        match r.below(16) {
            0..=6 => line[at] = b,
            7..=10 => line.insert(at, b),
            11..=12 => {
                line.remove(at);
            }
            13..=14 => line.truncate(at),
            _ => {}
        }
    }

    fn call(&mut self, line: &[u8], elements: usize, params: usize, record: usize) -> Read {
        self.counts.calls += 1;
        let none = Settings { variant: 0, year: 0, offset: 0 };
        abi::read(Reader::Strict, line, none, &mut self.elements[..elements], &mut self.params[..params], &mut self.record[..record])
    }

    fn compare(&mut self, line: &[u8]) -> Result<(), (&'static str, String, String)> {
        self.counts.lines += 1;
        strict::read(line, &mut self.answer);
        let rooms = [(LONGEST / 3, LONGEST / 5, STRICT_RECORD), (0, 0, STRICT_RECORD), (1, 0, 0), (LONGEST / 3, LONGEST / 5, STRICT_RECORD - 1)];
        for (elements, params, record) in rooms {
            let number = self.answer.number_for(elements, params, record, STRICT_RECORD);
            let wanted = Read { number, whole: 0, reach: self.answer.reach };
            let ours = self.call(line, elements, params, record);
            if ours != wanted {
                let what = if ours.number == number { "how far the line goes" } else { "the number" };
                return Err((what, format!("{ours:?}"), format!("{wanted:?}")));
            }
        }
        if self.answer.number != 4 {
            return Ok(());
        }
        self.counts.refused += 1;
        self.counts.whole += (self.answer.reach == line.len()) as u64;
        if line.len() <= SHORT || self.random.one_in(256) { self.search(line) } else { Ok(()) }
    }

    /// What was reported can be gone on with, and with one byte more it cannot.
    fn search(&mut self, line: &[u8]) -> Result<(), (&'static str, String, String)> {
        self.counts.searched += 1;
        let reach = self.answer.reach;
        if !goes_on(&line[..reach]) {
            return Err(("the beginning that the machine finds", format!("{reach}"), "a shorter one: none of the continuations is right".into()));
        }
        if reach < line.len() && goes_on(&line[..reach + 1]) {
            return Err(("the beginning that the machine finds", format!("{reach}"), "a longer one: a continuation is right".into()));
        }
        Ok(())
    }
}
