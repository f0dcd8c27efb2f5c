//! Records as printing and lookup are given them: which are refused with 7, and what the Rust prints and looks up for the others.

use crate::abi::{word, Element, Given, Param, LONGEST, RECORD, WORDS};
use crate::classes::{FIRST_SECOND, LAST_SECOND};
use chrono::{DateTime, FixedOffset};
use syslog_loose::{decompose_pri, Message, ProcId, Protocol, StructuredElement};

pub fn words_of(record: &[u8]) -> [u64; WORDS] {
    let mut words = [0; WORDS];
    for (word, bytes) in words.iter_mut().zip(record.chunks_exact(8)) {
        *word = u64::from_le_bytes(bytes.try_into().expect("eight bytes"));
    }
    words
}

pub fn bytes_of(words: &[u64], record: &mut Vec<u8>) {
    record.clear();
    words.iter().for_each(|word| record.extend_from_slice(&word.to_le_bytes()));
}

fn within(line: &[u8], start: u64, len: u64) -> bool {
    start as u128 + len as u128 <= line.len() as u128
}

/// The form of docs/INTERFACE.md, "A record that comes in".
fn is_record(w: &[u64]) -> bool {
    let marks = [word::FACILITY, word::SEVERITY, word::STAMP, word::HOST, word::APP, word::PID, word::MSGID];
    let small = |at: usize| w[at + 1] < if w[at] == 1 { 256 } else { 1 };
    let stamp = match w[word::STAMP] {
        1 => w[word::NANOS] < 1 << 32 && w[word::DIGITS] < 1 << 32 && i32::try_from(w[word::OFFSET] as i64).is_ok(),
        _ => w[word::SECONDS..word::HOST] == [0; 4],
    };
    (w[word::PROTOCOL] == 0 && w[word::VERSION] == 0 || w[word::PROTOCOL] == 1 && w[word::VERSION] < 1 << 32)
        && marks.iter().all(|&at| w[at] <= 1)
        && small(word::FACILITY)
        && small(word::SEVERITY)
        && stamp
}

/// Do so many digits show the nanoseconds? The nanoseconds are written out in nine, and those behind the count are zeros.
fn shows(digits: u64, nanos: u64) -> bool {
    digits <= 9 && format!("{nanos:09}").bytes().skip(digits as usize).all(|b| b == b'0')
}

/// Refusal 7's conditions on a record's own numbers and on the places in it (RULES Suits).
fn suits_line(line: &[u8], w: &[u64]) -> bool {
    let local = w[word::SECONDS] as i64 as i128 + w[word::OFFSET] as i64 as i128 * 60;
    let stamp = w[word::STAMP] == 0
        || w[word::NANOS] <= 999_999_999
            && shows(w[word::DIGITS], w[word::NANOS])
            && (-1439..=1439).contains(&(w[word::OFFSET] as i64))
            && (FIRST_SECOND as i128..=LAST_SECOND as i128).contains(&local);
    let starts = [word::HOST + 1, word::APP + 1, word::PID + 1, word::MSGID + 1, word::MESSAGE];
    w[word::FACILITY + 1] <= 23 && w[word::SEVERITY + 1] <= 7 && stamp && starts.iter().all(|&at| within(line, w[at], w[at + 1]))
}

/// Refusal 7's conditions on counts and tables.
fn tables_suit(g: Given, w: &[u64]) -> bool {
    if w[word::ELEMENTS] > g.elements.len() as u64 || w[word::PARAMS] > g.params.len() as u64 {
        return false;
    }
    let (elements, params) = (&g.elements[..w[word::ELEMENTS] as usize], &g.params[..w[word::PARAMS] as usize]);
    let mut last = 0;
    let mut rise = |number: usize| {
        let rises = number >= last;
        last = number;
        rises
    };
    elements.iter().all(|e| within(g.line, e[0] as u64, e[1] as u64))
        && params.iter().all(|p| {
            rise(p[0]) && p[0] < elements.len() && within(g.line, p[1] as u64, p[2] as u64) && within(g.line, p[3] as u64, p[4] as u64)
        })
}

/// The refusals that printing and lookup give before they look at what was asked, in their order: 1, 2 (lookup has a kind) and 7.
pub fn refusal(g: Given, kind: Option<u32>) -> Option<u32> {
    if g.line.len() > LONGEST {
        return Some(1);
    }
    if kind.is_some_and(|kind| kind > 1) {
        return Some(2);
    }
    let w = words_of(g.record);
    let suits = g.record.len() >= RECORD && is_record(&w) && suits_line(g.line, &w) && tables_suit(g, &w);
    (!suits).then_some(7)
}

/// The line as a text with one character for each byte, and where each character starts: places may cut characters, and the line need not be UTF-8.
/// The special characters of printing and unescaping are ASCII, so the Rust does the same on it.
struct Wide {
    text: String,
    starts: Vec<usize>,
}

impl Wide {
    fn new(line: &[u8]) -> Self {
        let text: String = line.iter().map(|&b| b as char).collect();
        let starts = text.char_indices().map(|(at, _)| at).chain([text.len()]).collect();
        Wide { text, starts }
    }

    fn part(&self, start: u64, len: u64) -> &str {
        &self.text[self.starts[start as usize]..self.starts[(start + len) as usize]]
    }

    /// Of the words from a mark on.
    fn optional(&self, words: &[u64]) -> Option<&str> {
        (words[0] == 1).then(|| self.part(words[1], words[2]))
    }
}

fn narrow(text: &str) -> Vec<u8> {
    text.chars().map(|c| c as u32 as u8).collect()
}

/// The Rust's message of a record that suits its line.
fn message<'a>(wide: &'a Wide, w: &[u64], elements: &[Element], params: &[Param]) -> Message<&'a str> {
    let (facility, severity) = decompose_pri((w[word::FACILITY + 1] * 8 + w[word::SEVERITY + 1]) as u8);
    let zone = FixedOffset::east_opt(w[word::OFFSET] as i64 as i32 * 60).expect("an offset in range");
    let stamp = DateTime::from_timestamp(w[word::SECONDS] as i64, w[word::NANOS] as u32).expect("an instant in range");
    let mut structured: Vec<_> = elements[..w[word::ELEMENTS] as usize]
        .iter()
        .map(|e| StructuredElement { id: wide.part(e[0] as u64, e[1] as u64), params: vec![] })
        .collect();
    for p in &params[..w[word::PARAMS] as usize] {
        structured[p[0]].params.push((wide.part(p[1] as u64, p[2] as u64), wide.part(p[3] as u64, p[4] as u64)));
    }
    Message {
        protocol: if w[word::PROTOCOL] == 0 { Protocol::RFC3164 } else { Protocol::RFC5424(w[word::VERSION] as u32) },
        facility: facility.filter(|_| w[word::FACILITY] == 1),
        severity: severity.filter(|_| w[word::SEVERITY] == 1),
        timestamp: (w[word::STAMP] == 1).then(|| stamp.with_timezone(&zone)),
        hostname: wide.optional(&w[word::HOST..]),
        appname: wide.optional(&w[word::APP..]),
        procid: wide.optional(&w[word::PID..]).map(ProcId::Name),
        msgid: wide.optional(&w[word::MSGID..]),
        structured_data: structured,
        msg: wide.part(w[word::MESSAGE], w[word::MESSAGE_LEN]),
    }
}

/// What the Rust prints of a record, or printing's refusal, 1 or 7.
pub fn printed(g: Given) -> Result<Vec<u8>, u32> {
    if let Some(number) = refusal(g, None) {
        return Err(number);
    }
    let wide = Wide::new(g.line);
    Ok(narrow(&message(&wide, &words_of(g.record), g.elements, g.params).to_string()))
}

/// What lookup answers: the first parameter in table order, unescaped by the Rust (kind 0) or by hand (kind 1), or 1, 2, 7 or 9.
pub fn looked_up(g: Given, id: &[u8], name: &[u8], kind: u32) -> Result<Vec<u8>, u32> {
    if let Some(number) = refusal(g, Some(kind)) {
        return Err(number);
    }
    let wide = Wide::new(g.line);
    let message = message(&wide, &words_of(g.record), g.elements, g.params);
    let value = first(&message, |found, wanted| narrow(found) == wanted, id, name, kind);
    value.map(|value| narrow(&value)).ok_or(9)
}

/// The unescaped value of the first parameter of a message with that id and name.
pub fn first(message: &Message<&str>, same: impl Fn(&str, &[u8]) -> bool, id: &[u8], name: &[u8], kind: u32) -> Option<String> {
    for element in message.structured_data.iter().filter(|e| same(e.id, id)) {
        if let Some(at) = element.params.iter().position(|(found, _)| same(found, name)) {
            return Some(match kind {
                0 => element.params().nth(at).expect("the parameter is there").1,
                _ => strict_unescaped(element.params[at].1),
            });
        }
    }
    None
}

/// RFC 5424's unescaping: a backslash before `"`, `\` or `]` goes, every other stays.
pub fn strict_unescaped(value: &str) -> String {
    let mut result = String::new();
    let mut rest = value.chars();
    while let Some(c) = rest.next() {
        match rest.clone().next() {
            Some(next @ ('"' | '\\' | ']')) if c == '\\' => {
                result.push(next);
                rest.next();
            }
            _ => result.push(c),
        }
    }
    result
}

/// The Rust's unescaping, written again: a backslash before `"`, `\` or `]` goes, `\n` is a newline, any other pair stays, a lone last one goes.
pub fn loose_unescaped(value: &str) -> String {
    let mut result = String::new();
    let mut rest = value.chars();
    while let Some(c) = rest.next() {
        match (c, if c == '\\' { rest.next() } else { Some(c) }) {
            ('\\', Some('n')) => result.push('\n'),
            ('\\', Some(c @ ('"' | '\\' | ']'))) => result.push(c),
            ('\\', Some(c)) => result.extend(['\\', c]),
            ('\\', None) => {}
            (c, _) => result.push(c),
        }
    }
    result
}
