//! Field lists by seed, written by the archive and by hand: number, length and every byte of the output with its guards. Each line that is written is read
//! back, by the archive's strict reader with tables that just hold it, and by the Rust (variant 2) where it can.

use crate::abi::{self, word, Element, Fields, Given, Param, Part, Reader, Settings, Written, LONGEST, STRICT_RECORD};
use crate::classes::{FIRST_SECOND, LAST_SECOND};
use crate::lent::Lent;
use crate::oracle;
use crate::random::Random;
use crate::shrink::escaped;
use chrono::{DateTime, Datelike, FixedOffset, Timelike};
use std::io::Write;
use syslog_loose::Protocol;

/// How the Rust's reading of a line that is written differs from what was handed in.
#[derive(Clone, Copy, Debug, PartialEq)]
pub enum Class {
    /// The message makes the line no UTF-8: the Rust takes a `&str`.
    W1,
    /// The host ends in a colon, or a later text is a colon: the Rust has no reading.
    W2,
    /// Blanks before the message, or white space at its end: the Rust trims it.
    W3,
    /// An empty message: to the Rust an absent one is empty too.
    W4,
}

#[derive(Clone, Copy, Default)]
pub struct Counts {
    pub lists: u64,
    pub written: u64,
    pub unsuitable: u64,
    pub unwritable: u64,
    pub long: u64,
    pub short: u64,
    pub bytes: u64,
    pub classes: [u64; 4],
}

/// What differs, of which list, and both answers.
pub struct Difference {
    pub what: &'static str,
    pub list: String,
    pub ours: String,
    pub wanted: String,
}

type Checked = Result<(), (&'static str, String, String)>;

fn same<T: PartialEq + std::fmt::Debug>(what: &'static str, ours: T, wanted: T) -> Checked {
    if ours == wanted { Ok(()) } else { Err((what, format!("{ours:?}"), format!("{wanted:?}"))) }
}

fn same_bytes(what: &'static str, ours: &[u8], wanted: &[u8]) -> Checked {
    if ours == wanted { Ok(()) } else { Err((what, escaped(ours), escaped(wanted))) }
}

/// What is handed in.
#[derive(Clone, Debug, Default, PartialEq)]
pub struct List {
    text: Vec<u8>,
    fields: Fields,
    elements: Vec<Element>,
    params: Vec<Param>,
}

// ---- the writer by hand

impl List {
    fn at(&self, start: usize, len: usize) -> &[u8] {
        &self.text[start..start + len]
    }

    fn part(&self, part: Part) -> Option<&[u8]> {
        (part.present != 0).then(|| self.at(part.start, part.len))
    }

    fn elements(&self) -> &[Element] {
        &self.elements[..self.fields.element_count]
    }

    fn params(&self) -> &[Param] {
        &self.params[..self.fields.param_count]
    }

    fn parts(&self) -> [Part; 5] {
        let Fields { host, app, procid, msgid, message, .. } = self.fields;
        [host, app, procid, msgid, message]
    }

    /// Refusal 7.
    fn suits(&self) -> bool {
        let f = self.fields;
        let within = |start: usize, len: usize| start.checked_add(len).is_some_and(|end| end <= self.text.len());
        let mut low = 0;
        (f.stamped == 0 || stamp_suits(f))
            && self.parts().iter().all(|part| within(part.start, part.len))
            && f.element_count <= self.elements.len()
            && f.param_count <= self.params.len()
            && self.elements().iter().all(|&[start, len]| within(start, len))
            && self.params().iter().all(|&[number, name, name_len, value, value_len]| {
                let rising = low <= number && number < f.element_count;
                low = number;
                rising && within(name, name_len) && within(value, value_len)
            })
    }

    /// Refusal 17.
    fn fits(&self) -> bool {
        let f = self.fields;
        let front = [(f.host, 255), (f.app, 48), (f.procid, 128), (f.msgid, 32)];
        let mut ids: Vec<&[u8]> = self.elements().iter().map(|&[start, len]| self.at(start, len)).collect();
        let named = ids.iter().all(|id| is_name(id));
        ids.sort_unstable();
        f.priority < 192
            && (1..1000).contains(&f.version)
            && (f.stamped == 0 || f.digits < 7)
            && front.into_iter().all(|(part, most)| self.part(part).map_or(true, |text| of_front(text, most)))
            && self.part(f.message).map_or(true, |m| !m.starts_with(b"\xEF\xBB\xBF") || std::str::from_utf8(m).is_ok())
            && named
            && ids.windows(2).all(|two| two[0] != two[1])
            && self.params().iter().all(|&[_, name, name_len, value, value_len]| {
                is_name(self.at(name, name_len)) && std::str::from_utf8(self.at(value, value_len)).is_ok()
            })
    }

    /// The line of fields that are not refused.
    fn line(&self) -> Vec<u8> {
        let f = self.fields;
        let mut line = format!("<{}>{} ", f.priority, f.version).into_bytes();
        put_stamp(&mut line, f);
        for part in [f.host, f.app, f.procid, f.msgid] {
            line.push(b' ');
            line.extend(self.part(part).unwrap_or(b"-"));
        }
        line.push(b' ');
        if f.element_count == 0 {
            line.push(b'-');
        }
        for (number, &[start, len]) in self.elements().iter().enumerate() {
            line.push(b'[');
            line.extend(self.at(start, len));
            for &[_, name, name_len, value, value_len] in self.params().iter().filter(|param| param[0] == number) {
                line.push(b' ');
                line.extend(self.at(name, name_len));
                line.extend(b"=\"");
                for &byte in self.at(value, value_len) {
                    if matches!(byte, b'"' | b'\\' | b']') {
                        line.push(b'\\');
                    }
                    line.push(byte);
                }
                line.push(b'"');
            }
            line.push(b']');
        }
        if let Some(message) = self.part(f.message) {
            line.push(b' ');
            line.extend(message);
        }
        line
    }

    /// The line, or 7, 17 or 1.
    fn answer(&self) -> Result<Vec<u8>, u32> {
        if !self.suits() {
            return Err(7);
        }
        if !self.fits() {
            return Err(17);
        }
        let line = self.line();
        if line.len() > LONGEST { Err(1) } else { Ok(line) }
    }
}

fn stamp_suits(f: Fields) -> bool {
    let local = f.seconds as i128 + f.offset as i128 * 60;
    f.nanos < 1_000_000_000
        && f.digits <= 9
        && f.nanos % 10u32.pow(9 - f.digits) == 0
        && (-1439..=1439).contains(&f.offset)
        && (FIRST_SECOND as i128..=LAST_SECOND as i128).contains(&local)
}

fn of_front(text: &[u8], most: usize) -> bool {
    (1..=most).contains(&text.len()) && text.iter().all(u8::is_ascii_graphic) && text != b"-"
}

fn is_name(text: &[u8]) -> bool {
    (1..=32).contains(&text.len()) && text.iter().all(|b| b.is_ascii_graphic() && !b"=]\"".contains(b))
}

/// The timestamp by chrono's calendar.
fn put_stamp(line: &mut Vec<u8>, f: Fields) {
    if f.stamped == 0 {
        return line.push(b'-');
    }
    let zone = FixedOffset::east_opt(f.offset * 60).expect("an offset of under a day");
    let clock = DateTime::from_timestamp(f.seconds, 0).expect("a second of chrono's").with_timezone(&zone).naive_local();
    let (date, time) = (clock.date(), clock.time());
    let (year, month, day, hour, minute, second) = (date.year(), date.month(), date.day(), time.hour(), time.minute(), time.second());
    write!(line, "{year:04}-{month:02}-{day:02}T{hour:02}:{minute:02}:{second:02}").unwrap();
    if f.digits > 0 {
        let nine = format!("{:09}", f.nanos);
        write!(line, ".{}", &nine[..f.digits as usize]).unwrap();
    }
    let minutes = f.offset.abs();
    write!(line, "{}{:02}:{:02}", if f.offset < 0 { '-' } else { '+' }, minutes / 60, minutes % 60).unwrap();
}

// ---- random field lists

const NAMES: &[u8] = b"abcXYZ019@.:-_/[\\~!";
const FRONT: &[u8] = b"abcXYZ019.:-_@[]\"\\=~!";
const WRONG: &[u8] = b"\0\t\n \x7f\x80\xc3\xef\xff";
const CHARACTERS: [&str; 12] = ["\"", "\\", "]", "\0", "\n", "\\n", "é", "\u{a0}", "€", "\u{feff}", "😀", "\u{7f}"];

fn length(random: &mut Random, limit: usize) -> usize {
    match random.below(200) {
        0 => limit,
        1 => limit + 1,
        2 => limit - 1,
        3 => random.below(2 * limit),
        4 => 0,
        _ => 1 + random.below(8),
    }
}

/// A text of a class, at times at its limit or past it, with a byte that is none of the class, `-` or `:`.
fn text(random: &mut Random, limit: usize, from: &[u8]) -> Vec<u8> {
    let len = length(random, limit);
    let mut text: Vec<u8> = (0..len).map(|_| random.of(from)).collect();
    match random.below(150) {
        0 => {
            let at = random.below(len);
            if let Some(byte) = text.get_mut(at) {
                *byte = random.of(WRONG);
            }
        }
        1 => text = vec![random.of(b"-:=]\"")],
        _ => {}
    }
    text
}

/// A value: plain, with what is escaped, with characters of several bytes; rarely long, at times broken.
fn value(random: &mut Random) -> Vec<u8> {
    let len = match random.below(400) {
        0 => random.below(9000),
        1..=12 => random.of(&[15, 16, 17, 31, 32, 33, 47, 48, 64]),
        _ => random.below(12),
    };
    let special = random.of(&[0, 1, 4, 16]);
    let mut value = Vec::new();
    while value.len() < len {
        if special > 0 && random.one_in(special) {
            value.extend(random.pick(&CHARACTERS).as_bytes());
        } else {
            value.push(b'a' + random.below(26) as u8);
        }
    }
    if random.one_in(200) {
        value.insert(random.below(len), random.of(&[0x80, 0xbf, 0xc0, 0xc3, 0xe2, 0xed, 0xf4, 0xff]));
    }
    value
}

fn message(random: &mut Random) -> Vec<u8> {
    let mut message = match random.below(16) {
        0 => vec![],
        1 => (0..random.below(40)).map(|_| random.next() as u8).collect(),
        2 => [b"\xEF\xBB\xBF", &value(random)[..]].concat(),
        3 => [b"\xEF\xBB\xBF", &[random.next() as u8][..]].concat(),
        4 => [&b"\xEF\xBB"[..], &value(random)].concat(),
        5 => [&value(random)[..], random.pick(&[" ", "\t", "\n", "\u{a0}", "\u{2003} "]).as_bytes()].concat(),
        6 => [random.pick(&[" ", "\t", "  ", "-", "[a b=\"c\"] "]).as_bytes(), &value(random)].concat(),
        _ => value(random),
    };
    if random.one_in(300) {
        message.resize(random.below(9000), random.of(b"x\0\xff "));
    }
    message
}

/// How many elements.
fn elements(random: &mut Random) -> usize {
    match random.below(256) {
        0 => random.below(70),
        1 => random.of(&[8, 9, 63, 64, 65]),
        2 if random.one_in(40) => random.of(&[511, 512, 513, 1000, 1700]),
        _ => random.of(&[0, 0, 1, 1, 1, 2, 3]),
    }
}

struct Maker<'a> {
    random: &'a mut Random,
    list: List,
}

impl Maker<'_> {
    /// The place of a text: behind the others, at times with something between.
    fn place(&mut self, text: &[u8]) -> [usize; 2] {
        if self.random.one_in(16) {
            self.list.text.push(self.random.next() as u8);
        }
        let start = self.list.text.len();
        self.list.text.extend(text);
        [start, text.len()]
    }

    /// A text or none: of none the place is mostly zeros, and at times within the text all the same.
    fn part(&mut self, there: bool, text: &[u8]) -> Part {
        let [start, len] = self.place(text);
        match (there, self.random.below(8)) {
            (true, 0) => Part { present: self.random.of(&[2, 1 << 32, usize::MAX]), start, len },
            (true, _) => Part { present: 1, start, len },
            (false, 0) => Part { present: 0, start, len },
            (false, _) => Part::default(),
        }
    }

    fn front(&mut self, limit: usize) -> Part {
        let (there, text) = (!self.random.one_in(4), text(self.random, limit, FRONT));
        self.part(there, &text)
    }

    fn stamp(&mut self) {
        let random = &mut *self.random;
        let digits = if random.one_in(40) { random.below(11) as u32 } else { random.below(7) as u32 };
        let unit = 10u32.pow(9u32.saturating_sub(digits));
        let f = &mut self.list.fields;
        f.stamped = if random.one_in(32) { random.of(&[2, u32::MAX]) } else { u32::from(!random.one_in(5)) };
        f.digits = digits;
        f.nanos = random.below((1_000_000_000 / unit) as usize) as u32 * unit;
        f.offset = if random.one_in(2) { 0 } else { random.below(2879) as i32 - 1439 };
        f.seconds = match random.below(16) {
            0 => FIRST_SECOND - f.offset as i64 * 60 - random.of(&[1, 0, -1]),
            1 => LAST_SECOND - f.offset as i64 * 60 + random.of(&[1, 0, -1]),
            2 => random.next() as i64 >> random.below(64),
            3 => random.below(200_000) as i64 - 100_000,
            _ => FIRST_SECOND + (random.next() % (LAST_SECOND - FIRST_SECOND) as u64) as i64,
        };
        match random.below(80) {
            0 => f.nanos = random.of(&[1, 10, 999_999_999, 1_000_000_000, u32::MAX]),
            1 => f.offset = random.of(&[1440, -1440, i32::MIN, i32::MAX]),
            _ => {}
        }
    }

    fn data(&mut self) {
        let count = elements(self.random);
        let repeated = match self.random.below(32) {
            0 if count > 1 => self.random.below(count),
            1 if count > 1 => count - 1,
            _ => count,
        };
        for number in 0..count {
            let mut id = match count {
                0..=8 => text(self.random, 32, NAMES),
                _ => format!("{number:x}").into_bytes(),
            };
            if number == repeated {
                let [start, len] = self.list.elements[self.random.below(number)..].first().copied().unwrap_or_default();
                id = self.list.at(start, len).to_vec();
            }
            let row = self.place(&id);
            self.list.elements.push(row);
            let params = if count > 8 { self.random.below(2) * self.random.below(2) } else { self.random.below(4) };
            for _ in 0..params {
                let (name, value) = (text(self.random, 32, NAMES), value(self.random));
                let ([name, name_len], [value, value_len]) = (self.place(&name), self.place(&value));
                self.list.params.push([number, name, name_len, value, value_len]);
            }
        }
        (self.list.fields.element_count, self.list.fields.param_count) = (count, self.list.params.len());
    }

    /// Makes the line one of about 8,192 bytes, by its message.
    fn to_the_limit(&mut self) {
        self.list.fields.message = Part::default();
        if let Ok(line) = self.list.answer() {
            let len = (LONGEST + self.random.below(3)).saturating_sub(line.len() + 2);
            let message = vec![self.random.of(b"x\0\xff"); len];
            let [start, len] = self.place(&message);
            self.list.fields.message = Part { present: 1, start, len };
        }
    }

    /// Entries past the counts, of any numbers.
    fn longer_tables(&mut self) {
        let random = &mut *self.random;
        for _ in 0..random.below(3) {
            self.list.elements.push([random.next() as usize, random.next() as usize]);
            self.list.params.push([0; 5].map(|_| random.next() as usize));
        }
    }

    /// One number that is out of range.
    fn spoil(&mut self) {
        let random = &mut *self.random;
        let List { text, fields: f, elements, params } = &mut self.list;
        let end = text.len();
        let most = usize::MAX;
        let [start, len] =
            random.of(&[[end, 1], [end + 1, 0], [end, 0], [0, end + 1], [0, end], [1, most], [most, 1], [most, most], [end, most - end + 1]]);
        let element = random.below(f.element_count);
        let param = random.below(f.param_count);
        match random.below(14) {
            0 => (f.host.start, f.host.len) = (start, len),
            1 => (f.app.start, f.app.len) = (start, len),
            2 => (f.procid.start, f.procid.len) = (start, len),
            3 => (f.msgid.start, f.msgid.len) = (start, len),
            4 => (f.message.start, f.message.len) = (start, len),
            5 => f.element_count = random.of(&[elements.len() + 1, most, f.element_count.saturating_sub(1)]),
            6 => f.param_count = random.of(&[params.len() + 1, most, f.param_count.saturating_sub(1)]),
            7 => f.priority = random.of(&[191, 192, 255, 256, u32::MAX]),
            8 => f.version = random.of(&[0, 999, 1000, 65_537, u32::MAX]),
            9 => elements[element..].iter_mut().take(1).for_each(|row| *row = [start, len]),
            10 => params[param..].iter_mut().take(1).for_each(|row| (row[1], row[2]) = (start, len)),
            11 => params[param..].iter_mut().take(1).for_each(|row| (row[3], row[4]) = (start, len)),
            _ => params[param..].iter_mut().take(1).for_each(|row| row[0] = random.of(&[0, 1, row[0] + 1, most])),
        }
    }
}

fn list(random: &mut Random) -> List {
    let mut maker = Maker { random, list: List::default() };
    maker.list.fields.priority = maker.random.below(192) as u32;
    maker.list.fields.version = if maker.random.one_in(8) { 1 + maker.random.below(999) as u32 } else { 1 };
    maker.stamp();
    maker.list.fields.msgid = maker.front(32);
    maker.list.fields.host = maker.front(255);
    maker.list.fields.procid = maker.front(128);
    maker.list.fields.app = maker.front(48);
    maker.data();
    let (there, message) = (!maker.random.one_in(4), message(maker.random));
    maker.list.fields.message = maker.part(there, &message);
    if maker.random.one_in(100) {
        maker.to_the_limit();
    }
    if maker.random.one_in(200) {
        maker.place(&[b'x'; 9000]);
    }
    if maker.random.one_in(8) {
        maker.longer_tables();
    }
    if maker.random.one_in(12) {
        maker.spoil();
    }
    maker.list
}

// ---- comparing

pub struct Writes {
    random: Random,
    output: Lent<u8>,
    elements: Vec<Element>,
    params: Vec<Param>,
    record: Vec<u8>,
    value: Vec<u8>,
    pub counts: Counts,
}

impl Writes {
    pub fn new(seed: u64, part: u64) -> Self {
        let random = Random::new(seed.wrapping_mul(1_000_003).wrapping_add(part));
        let output = Lent::new(LONGEST + 64, |at| (at * 7 + 3) as u8);
        let (record, value) = (vec![0; STRICT_RECORD], vec![0; LONGEST]);
        Writes { random, output, elements: vec![], params: vec![], record, value, counts: Counts::default() }
    }

    /// The next field list.
    pub fn next(&mut self) -> Result<(), Difference> {
        let list = list(&mut self.random);
        let before = list.clone();
        self.counts.lists += 1;
        let checked = self.list(&list).and_then(|()| same("what was lent to be read", &list, &before));
        checked.map_err(|(what, ours, wanted)| {
            let List { text, fields, elements, params } = &before;
            Difference { what, list: format!("{fields:?} {elements:?} {params:?} \"{}\"", escaped(text)), ours, wanted }
        })
    }

    fn list(&mut self, list: &List) -> Checked {
        let answer = list.answer();
        match &answer {
            Ok(line) => (self.counts.written, self.counts.bytes) = (self.counts.written + 1, self.counts.bytes + line.len() as u64),
            Err(7) => self.counts.unsuitable += 1,
            Err(17) => self.counts.unwritable += 1,
            Err(_) => self.counts.long += 1,
        }
        let len = answer.as_ref().map_or(0, Vec::len);
        let room = match self.random.below(32) {
            0..=15 if answer.is_err() => self.random.of(&[64, LONGEST, LONGEST + 64]),
            0 => len + self.random.below(LONGEST + 64 - len),
            1..=15 => len + self.random.below(64),
            _ => len,
        };
        self.call(list, &answer, room)?;
        let Ok(line) = &answer else { return Ok(()) };
        if self.random.one_in(4) {
            let short = self.random.of(&[0, len / 2, len - 1, len - 1]);
            self.counts.short += 1;
            self.call(list, &Err(8), short)?;
        }
        self.read_back(list, line)?;
        self.in_rust(list, line)
    }

    fn call(&mut self, list: &List, wanted: &Result<Vec<u8>, u32>, room: usize) -> Checked {
        let ours = abi::write_strict(&list.text, list.fields, &list.elements, &list.params, self.output.lend(room));
        let line = wanted.as_deref().unwrap_or(&[]);
        let checked = same("the answer", ours, Written { number: wanted.as_ref().err().copied().unwrap_or(0), len: line.len() });
        let checked = checked.and_then(|()| same_bytes("the line", self.output.first(line.len()), line));
        let kept = self.output.kept(line.len(), room);
        checked.and_then(|()| same("what is past the line", kept, true))
    }

    /// The strict reader, with tables that just hold the line, tells what was handed in.
    fn read_back(&mut self, list: &List, line: &[u8]) -> Checked {
        let f = list.fields;
        self.elements.resize(f.element_count, [0; 2]);
        self.params.resize(f.param_count, [0; 5]);
        let none = Settings { variant: 0, year: 0, offset: 0 };
        let read = abi::read(Reader::Strict, line, none, &mut self.elements, &mut self.params, &mut self.record);
        same("the strict reader's answer", read.number, 0)?;
        let words: Vec<u64> = self.record.chunks(8).map(|word| u64::from_le_bytes(word.try_into().unwrap())).collect();
        let at = |start: u64, len: u64| &line[start as usize..][..len as usize];
        let text = |place: usize| (words[place] == 1).then(|| at(words[place + 1], words[place + 2]));
        let numbers = [1, f.version as u64, 1, f.priority as u64 / 8, 1, f.priority as u64 % 8];
        same("protocol and priority read back", &words[..word::STAMP], &numbers[..])?;
        let stamp = match f.stamped {
            0 => [0; 5],
            _ => [1, f.seconds as u64, f.nanos as u64, f.digits as u64, f.offset as i64 as u64],
        };
        same("the timestamp read back", &words[word::STAMP..word::HOST], &stamp[..])?;
        for (place, part) in [(word::HOST, f.host), (word::APP, f.app), (word::PID, f.procid), (word::MSGID, f.msgid)] {
            same("a text read back", text(place), list.part(part))?;
        }
        let message = (words[word::HAS_MESSAGE] == 1).then(|| at(words[word::MESSAGE], words[word::MESSAGE_LEN]));
        same("the message read back", message, list.part(f.message))?;
        same("the counts read back", [words[word::ELEMENTS], words[word::PARAMS]], [f.element_count as u64, f.param_count as u64])?;
        for (ours, wanted) in self.elements.iter().zip(list.elements()) {
            same_bytes("an id read back", at(ours[0] as u64, ours[1] as u64), list.at(wanted[0], wanted[1]))?;
        }
        let ours: Vec<_> = self.params.iter().map(|row| (row[0], at(row[1] as u64, row[2] as u64))).collect();
        let wanted: Vec<_> = list.params().iter().map(|row| (row[0], list.at(row[1], row[2]))).collect();
        same("numbers and names read back", ours, wanted)?;
        self.look_up(list, line)
    }

    /// Lookup of the strict kind gives the raw value of the first parameter of the name.
    fn look_up(&mut self, list: &List, line: &[u8]) -> Checked {
        for number in 0..list.fields.param_count.min(6) {
            // All of few parameters, some of many.
            let number = if list.fields.param_count > 6 { self.random.below(list.fields.param_count) } else { number };
            let [element, name, name_len, ..] = list.params()[number];
            let (id, name) = (list.at(list.elements[element][0], list.elements[element][1]), list.at(name, name_len));
            let first = list.params().iter().find(|row| row[0] == element && list.at(row[1], row[2]) == name);
            let value = first.map(|row| list.at(row[3], row[4])).expect("the parameter itself");
            let given = Given { line, record: &self.record, elements: &self.elements, params: &self.params };
            let looked = abi::lookup(given, id, name, 1, &mut self.value);
            same("the lookup of a value", looked, Written { number: 0, len: value.len() })?;
            same_bytes("a value read back", &self.value[..value.len()], value)?;
        }
        Ok(())
    }

    /// The Rust's reading of the line, but for the classes.
    fn in_rust(&mut self, list: &List, line: &[u8]) -> Checked {
        let f = list.fields;
        let Ok(text) = std::str::from_utf8(line) else {
            self.counts.classes[Class::W1 as usize] += 1;
            // All but the message is UTF-8 by the rules.
            let front = line.len() - list.part(f.message).map_or(0, <[u8]>::len);
            return same("the line's front as UTF-8", std::str::from_utf8(&line[..front]).is_ok(), true);
        };
        let part = |part| list.part(part).map(|bytes| std::str::from_utf8(bytes).expect("a part of the line"));
        let colon = part(f.host).is_some_and(|host| host.ends_with(':')) || [f.app, f.procid, f.msgid].iter().any(|&p| part(p) == Some(":"));
        let Some(message) = oracle::exact(text, Settings { variant: 2, year: 2023, offset: 0 }) else {
            self.counts.classes[Class::W2 as usize] += 1;
            return same("that the Rust has no reading", colon, true);
        };
        same("that the Rust has a reading", colon, false)?;
        same("the Rust's protocol", &message.protocol, &Protocol::RFC5424(f.version))?;
        let levels = (message.facility.map(|level| level as u32), message.severity.map(|level| level as u32));
        same("the Rust's priority", levels, (Some(f.priority / 8), Some(f.priority % 8)))?;
        let stamp = message.timestamp.map(|stamp| (stamp.timestamp(), stamp.timestamp_subsec_nanos(), stamp.offset().local_minus_utc()));
        same("the Rust's timestamp", stamp, (f.stamped != 0).then_some((f.seconds, f.nanos, f.offset * 60)))?;
        let texts = [message.hostname, message.appname, oracle::pid_text(text, &message), message.msgid];
        same("the Rust's texts", texts, [f.host, f.app, f.procid, f.msgid].map(part))?;
        same("the Rust's elements", message.structured_data.len(), f.element_count)?;
        let mut params = list.params().iter();
        for (element, &[start, len]) in message.structured_data.iter().zip(list.elements()) {
            same_bytes("the Rust's id", element.id.as_bytes(), list.at(start, len))?;
            for (name, value) in element.params() {
                let [_, n, n_len, v, v_len] = params.next().copied().unwrap_or_default();
                same_bytes("the Rust's name", name.as_bytes(), list.at(n, n_len))?;
                same_bytes("the Rust's value, unescaped", value.as_bytes(), list.at(v, v_len))?;
            }
        }
        same("the Rust's parameters", params.next(), None)?;
        let handed = part(f.message);
        let trimmed = handed.unwrap_or("").trim_end().trim_start_matches([' ', '\t']);
        self.counts.classes[Class::W3 as usize] += (trimmed != handed.unwrap_or("")) as u64;
        self.counts.classes[Class::W4 as usize] += (handed == Some("")) as u64;
        same("the Rust's message", message.msg, trimmed)
    }
}
