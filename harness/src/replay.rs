//! A list of cases with their answers, for a program that has no Rust beside it. Every answer is the Rust's or follows from docs/RULES.md; none
//! is the archive's. Lines of the classes D1 to D6 are left out; a line of D7 has the message with its hyphen, and one of D8 is printed in its own
//! digits.
//!
//! One case a line, fields separated by one space, numbers decimal (signed ones as two's complement in 64 bits), bytes as hex, `-` for none:
//!
//!     R variant year offset elements_len params_len LINE number [whole, 27 words, 2 numbers an element, 5 numbers a parameter]
//!     P LINE variant year offset left room number OUT          loose reading, then printing over the line's first `left` bytes into `room` bytes
//!     L LINE variant year offset ID NAME kind room number OUT  loose reading, then lookup
//!
//! `whole` is 1 where the whole line is the message, and 0 where there is a reading.

use crate::abi::{word, Settings, RECORD, WORDS};
use crate::classes;
use crate::lines::Lines;
use crate::oracle::{self, Answer};
use crate::random::Random;
use crate::records;
use std::collections::BTreeSet;
use std::fmt::Write as _;
use std::io::{self, Write};
use std::process::ExitCode;
use syslog_loose::{Message, Protocol};

const SEED: u64 = 5424;
/// Lines that are tried for single features, then for pairs, so that every rule is reached before the list is full; and lines in all.
const SINGLES: usize = 200_000;
const PAIRS: usize = 300_000;
const TRIED: usize = 3_000_000;
const USUAL: usize = 400;
const LONG: usize = 12;
const LONG_REFUSED: usize = 4;
const ELEMENTS: usize = 64;
const PARAMS: usize = 256;

/// The features that a case reaches: service, number, is the line long, protocol, and more.
type Key = [u8; FEATURES];
const FEATURES: usize = 14;

/// A case is kept if it reaches what no case before it reached: at first a feature together with service, number and protocol, then a pair of
/// features, then all features at once.
#[derive(Clone, Copy, PartialEq)]
enum By {
    Single,
    Pair,
    All,
}

struct List {
    reached: BTreeSet<Key>,
    by: By,
    wanted: usize,
    written: usize,
    long: [usize; 2],
    random: Random,
    text: String,
}

fn hex(bytes: &[u8]) -> String {
    if bytes.is_empty() {
        return "-".into();
    }
    bytes.iter().fold(String::new(), |mut text, b| {
        let _ = write!(text, "{b:02x}");
        text
    })
}

/// The settings as the list has them.
fn shown(s: Settings) -> String {
    format!("{} {} {}", s.variant, s.year, s.offset as i64 as u64)
}

/// The line with runs of digits and letters as one of each, as a number below 256: refusals have no other shape to go by.
fn skeleton(line: &[u8]) -> u8 {
    let mut sum = 0u64;
    let mut last = 0;
    for &b in line {
        let class = match b {
            b'0'..=b'9' => b'0',
            b'a'..=b'z' | b'A'..=b'Z' => b'a',
            0x80.. => 0x80,
            other => other,
        };
        if class != last {
            sum = sum.wrapping_mul(31).wrapping_add(class as u64);
        }
        last = class;
    }
    (sum ^ (sum >> 29)) as u8
}

/// The timestamp's form: none, `-`, (a), (b), or (c) with its digits, its zone and whether the Rust prints another count of digits.
fn form(text: &str, message: &Message<&str>) -> [u8; 2] {
    let from = classes::from_stamp(text, &message.protocol);
    if message.timestamp.is_none() {
        return [0, from.starts_with('-') as u8];
    }
    let Some(stamp) = classes::form_c(text, &message.protocol) else {
        return [1 + classes::year_of_b(from).is_some() as u8, 0];
    };
    let fraction = oracle::fraction(text, message).len();
    let zone = match stamp.as_bytes()[19 + fraction + (fraction > 0) as usize] {
        b'Z' => 0,
        b'z' => 1,
        b'+' => 2,
        _ => 3,
    };
    let differs = classes::in_digits(message.to_string().as_bytes(), fraction).is_some();
    [3 + fraction as u8, zone + 4 * differs as u8]
}

/// Which kinds of escape stand in the values.
fn escapes(message: &Message<&str>) -> u8 {
    let kinds = |value: &str| {
        let marks = ["\\\"", "\\\\", "\\]", "\\n"].iter().enumerate().map(|(bit, mark)| (value.contains(mark) as u8) << bit).sum::<u8>();
        marks | (value.is_empty() as u8) << 4 | (!value.is_ascii() as u8) << 5 | (value.replace("\\]", "").contains(']') as u8) << 6
    };
    message.structured_data.iter().flat_map(|e| &e.params).fold(0, |mask, (_, value)| mask | kinds(value))
}

/// Was an element skipped? Then the elements do not join, or the message does not follow the last.
fn skips(text: &str, message: &Message<&str>, answer: &Answer) -> u8 {
    if message.protocol == Protocol::RFC3164 {
        return 0;
    }
    let blanks = |at: usize| at + text[at..].bytes().take_while(|b| matches!(b, b' ' | b'\t')).count();
    let id = classes::field_5424(text, 4);
    let mut at = blanks(id.as_ptr() as usize - text.as_ptr() as usize + id.len());
    if text.as_bytes()[at] == b'-' {
        return 0;
    }
    for (number, element) in answer.elements.iter().enumerate() {
        if element[0] != at + 1 {
            return 1;
        }
        let last = answer.params.iter().rfind(|p| p[0] == number);
        at = last.map_or_else(|| blanks(element[0] + element[1]) + 1, |p| p[3] + p[4] + 2);
    }
    (blanks(at) as u64 != answer.words[word::MESSAGE]) as u8
}

impl List {
    /// Does the case reach something new? All that it reaches is known after it.
    fn is_new(&mut self, key: &Key) -> bool {
        if self.by == By::All {
            return self.reached.insert(*key);
        }
        let mut is_new = false;
        for i in 4..FEATURES {
            let mut single = [0xFF; FEATURES];
            single[..4].copy_from_slice(&key[..4]);
            single[i] = key[i];
            is_new |= self.reached.insert(single);
            for j in (4..i).filter(|_| self.by == By::Pair) {
                let mut pair = single;
                pair[j] = key[j];
                is_new |= self.reached.insert(pair);
            }
        }
        is_new
    }

    fn offer(&mut self, key: Key, line: &[u8], text: impl FnOnce() -> String) {
        let is_long = line.len() > USUAL;
        let refused = (key[1] == 1) as usize;
        if self.written >= self.wanted || is_long && self.long[refused] >= [LONG, LONG_REFUSED][refused] || !self.is_new(&key) {
            return;
        }
        self.written += 1;
        self.long[refused] += is_long as usize;
        self.text += &text();
        self.text.push('\n');
    }

    fn key(&self, service: u8, number: u32, line: &[u8], reached: Option<(&str, &Message<&str>, &Answer)>) -> Key {
        let mut key = [0; FEATURES];
        key[..3].copy_from_slice(&[service, number as u8, (line.len() > USUAL) as u8]);
        let Some((text, message, answer)) = reached else {
            key[4] = skeleton(line) % 16;
            return key;
        };
        if answer.whole {
            key[3..5].copy_from_slice(&[3, skeleton(line) % if service == b'R' { 255 } else { 16 }]);
            return key;
        }
        let w = &answer.words;
        let marks = [word::FACILITY, word::SEVERITY, word::STAMP, word::HOST, word::APP, word::PID, word::MSGID];
        let present = marks.iter().fold(0, |mask, &at| mask << 1 | w[at] as u8);
        let [form, zone] = form(text, message);
        key[3..9].copy_from_slice(&[1 + w[word::PROTOCOL] as u8, skeleton(line) % 16, form, zone, escapes(message), skips(text, message, answer)]);
        key[9..11].copy_from_slice(&[(w[word::MESSAGE_LEN] == 0) as u8, present]);
        key[11..13].copy_from_slice(&[w[word::ELEMENTS].min(3) as u8, w[word::PARAMS].min(4) as u8]);
        key
    }

    /// A reading with tables that fit, and with tables too short by one.
    fn reading(&mut self, line: &[u8], s: Settings, answer: &Answer, reached: Option<(&str, &Message<&str>)>) {
        let (e, p) = (answer.elements.len(), answer.params.len());
        let more = self.random.below(2);
        for (elements, params) in [(e + more, p + more), (e.saturating_sub(1), p), (e, p.saturating_sub(1)), (0, 0)] {
            let (elements, params) = (elements.min(ELEMENTS), params.min(PARAMS));
            let number = answer.number_for(elements, params, RECORD, RECORD);
            let key = self.key(b'R', number, line, reached.map(|(text, message)| (text, message, answer)));
            self.offer(key, line, || {
                let mut text = format!("R {} {elements} {params} {} {number}", shown(s), hex(line));
                if number == 0 {
                    let numbers = [answer.whole as u64].into_iter().chain(answer.words[..WORDS].iter().copied());
                    let tables = answer.elements.iter().flatten().chain(answer.params.iter().flatten()).map(|&n| n as u64);
                    numbers.chain(tables).for_each(|n| text += &format!(" {n}"));
                }
                text
            });
        }
    }

    /// Printing and lookup, into an output that fits or is too short by one.
    fn written(&mut self, text: &str, s: Settings, message: &Message<&str>, answer: &Answer) {
        let line = text.as_bytes();
        let printed = message.to_string().into_bytes();
        let printed = classes::in_digits(&printed, answer.words[word::DIGITS] as usize).unwrap_or(printed);
        for room in [printed.len() + self.random.below(2), printed.len() - 1] {
            let number = if room < printed.len() { 8 } else { 0 };
            let key = self.key(b'P', number, line, Some((text, message, answer)));
            let out = if number == 0 { hex(&printed) } else { "-".into() };
            self.offer(key, line, || format!("P {} {} {} {room} {number} {out}", hex(line), shown(s), line.len()));
        }
        // A line that ends before its message does: the record does not suit it.
        if answer.words[word::MESSAGE_LEN] > 0 {
            let key = self.key(b'P', 7, line, Some((text, message, answer)));
            let left = answer.words[word::MESSAGE] + answer.words[word::MESSAGE_LEN] - 1;
            self.offer(key, line, || format!("P {} {} {left} {} 7 -", hex(line), shown(s), printed.len()));
        }
        for element in &message.structured_data {
            for (name, _) in &element.params {
                self.lookup(text, s, (message, answer), element.id, name);
            }
        }
        self.lookup(text, s, (message, answer), "id", "nowhere");
    }

    fn lookup(&mut self, text: &str, s: Settings, (message, answer): (&Message<&str>, &Answer), id: &str, name: &str) {
        let line = text.as_bytes();
        let kind = self.random.of(&[0, 0, 0, 0, 1, 1, 1, 2]);
        let same = |found: &str, wanted: &[u8]| found.as_bytes() == wanted;
        let value = records::first(message, same, id.as_bytes(), name.as_bytes(), kind);
        let len = value.as_ref().map_or(0, String::len);
        for room in [len + self.random.below(2), len.saturating_sub(1)] {
            let number = match value {
                _ if kind > 1 => 2,
                None => 9,
                Some(_) if room < len => 8,
                Some(_) => 0,
            };
            let mut key = self.key(b'L', number, line, Some((text, message, answer)));
            key[13] = kind as u8;
            let out = if number == 0 { hex(value.as_deref().unwrap_or("").as_bytes()) } else { "-".into() };
            let asked = format!("{} {} {kind} {room} {number} {out}", hex(id.as_bytes()), hex(name.as_bytes()));
            self.offer(key, line, || format!("L {} {} {asked}", hex(line), shown(s)));
        }
    }

    fn line(&mut self, line: &[u8], s: Settings, answer: &mut Answer) {
        let text = match oracle::admit(line, s) {
            Ok(text) => text,
            Err(number) => {
                answer.clear(number);
                return self.reading(line, s, answer, None);
            }
        };
        let message = oracle::exact(text, s);
        let by_pid = message.as_ref().and_then(|m| classes::of_pid(oracle::pid_text(text, m), m.procid.as_ref()));
        if oracle::class_of(text, message.as_ref()).or(by_pid).is_some() {
            return;
        }
        let whole = message.is_none();
        let message = message.map_or_else(|| oracle::fallback(text, s), |message| oracle::with_hyphen(text, s, message).0);
        oracle::put_message(answer, text, &message);
        answer.whole = whole;
        self.reading(line, s, answer, Some((text, &message)));
        if answer.elements.len() <= ELEMENTS && answer.params.len() <= PARAMS {
            self.written(text, s, &message, answer);
        }
    }
}

/// Writes the list; a list that could not be filled is an error.
pub fn write(wanted: usize) -> ExitCode {
    let (random, text) = (Random::new(SEED), String::new());
    let mut list = List { reached: BTreeSet::new(), by: By::Single, wanted, written: 0, long: [0, 0], random, text };
    let mut lines = Lines::new(SEED, 0, 1);
    let mut answer = Answer::default();
    let mut line = Vec::new();
    for tried in 0..TRIED {
        if list.written >= wanted {
            break;
        }
        list.by = match (tried < SINGLES, tried < PAIRS) {
            (true, _) => By::Single,
            (false, true) => By::Pair,
            (false, false) => By::All,
        };
        let (settings, _) = lines.next(&mut line);
        list.line(&line, settings, &mut answer);
        if tried % 50_000 == 0 {
            eprintln!("harness: {} cases for the list, {tried} lines tried", list.written);
        }
    }
    if io::stdout().write_all(list.text.as_bytes()).is_err() || list.written < wanted {
        eprintln!("harness: the list has {} of {wanted} cases", list.written);
        return ExitCode::FAILURE;
    }
    eprintln!("harness: {wanted} cases written, {} of them on long lines", list.long[0] + list.long[1]);
    ExitCode::SUCCESS
}
