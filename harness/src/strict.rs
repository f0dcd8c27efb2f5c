//! RFC 5424 section 6, read by hand: a second opinion on the strict reader. It shares nothing with the port.

use crate::abi::{word, LONGEST};
use crate::oracle::Answer;
use crate::reach::reach;

/// A place in the line that moves forward; every step answers None where the grammar derives nothing.
struct Walk<'a> {
    line: &'a [u8],
    at: usize,
}

impl Walk<'_> {
    fn peek(&self) -> Option<u8> {
        self.line.get(self.at).copied()
    }

    fn byte(&mut self, wanted: u8) -> Option<()> {
        if self.peek() != Some(wanted) {
            return None;
        }
        self.at += 1;
        Some(())
    }

    /// The run of bytes of a class: its place, of 1 to `most` bytes.
    fn run(&mut self, most: usize, class: impl Fn(u8) -> bool) -> Option<(usize, usize)> {
        let len = self.line[self.at..].iter().take_while(|&&b| class(b)).count();
        let place = (self.at, len);
        self.at += len;
        (1..=most).contains(&len).then_some(place)
    }

    /// A number without leading zeros, `least` to `most`.
    fn number(&mut self, least: u64, most: u64) -> Option<u64> {
        let (at, len) = self.run(3, |b| b.is_ascii_digit())?;
        let value = decimal(&self.line[at..at + len])?;
        let plain = len == 1 || self.line[at] != b'0';
        (plain && (least..=most).contains(&value)).then_some(value)
    }

    /// Exactly `count` digits with a value in the range.
    fn digits(&mut self, count: usize, least: u64, most: u64) -> Option<u64> {
        let value = decimal(self.line.get(self.at..self.at + count)?)?;
        self.at += count;
        (least..=most).contains(&value).then_some(value)
    }
}

fn decimal(digits: &[u8]) -> Option<u64> {
    digits.iter().try_fold(0u64, |sum, &b| b.is_ascii_digit().then(|| sum * 10 + (b - b'0') as u64))
}

fn printable(b: u8) -> bool {
    (33..=126).contains(&b)
}

fn in_name(b: u8) -> bool {
    printable(b) && !matches!(b, b'=' | b']' | b'"')
}

fn days_of_month(year: u64, month: u64) -> u64 {
    match month {
        2 if year % 4 == 0 && (year % 100 != 0 || year % 400 == 0) => 29,
        2 => 28,
        4 | 6 | 9 | 11 => 30,
        _ => 31,
    }
}

/// Days from 1970-01-01, counted year by year's rule and month by month.
fn days(year: u64, month: u64, day: u64) -> i64 {
    let before = |y: i64| 365 * y + (y + 3) / 4 - (y + 99) / 100 + (y + 399) / 400;
    let months: u64 = (1..month).map(|m| days_of_month(year, m)).sum();
    before(year as i64) - before(1970) + (months + day - 1) as i64
}

/// Seconds, nanoseconds, digits of the fraction and offset of a timestamp that is not `-`.
fn stamp(w: &mut Walk) -> Option<(i64, u64, usize, i64)> {
    let year = w.digits(4, 0, 9999)?;
    w.byte(b'-')?;
    let month = w.digits(2, 1, 12)?;
    w.byte(b'-')?;
    let day = w.digits(2, 1, days_of_month(year, month))?;
    w.byte(b'T')?;
    let hour = w.digits(2, 0, 23)?;
    w.byte(b':')?;
    let minute = w.digits(2, 0, 59)?;
    w.byte(b':')?;
    let second = w.digits(2, 0, 59)?;
    let (mut nanos, mut digits) = (0, 0);
    if w.byte(b'.').is_some() {
        let (at, len) = w.run(6, |b| b.is_ascii_digit())?;
        nanos = decimal(&w.line[at..at + len])? * 10u64.pow(9 - len as u32);
        digits = len;
    }
    let offset = zone(w)?;
    let clock = (hour * 3600 + minute * 60 + second) as i64;
    Some((days(year, month, day) * 86_400 + clock - offset * 60, nanos, digits, offset))
}

fn zone(w: &mut Walk) -> Option<i64> {
    let sign = match w.peek()? {
        b'Z' => 0,
        b'+' => 1,
        b'-' => -1,
        _ => return None,
    };
    w.at += 1;
    if sign == 0 {
        return Some(0);
    }
    let hour = w.digits(2, 0, 23)? as i64;
    w.byte(b':')?;
    let minute = w.digits(2, 0, 59)? as i64;
    Some(sign * (hour * 60 + minute))
}

/// A header field behind its space; `-` is absent.
fn field(w: &mut Walk, most: usize, words: &mut [u64]) -> Option<()> {
    w.byte(b' ')?;
    let (at, len) = w.run(most, printable)?;
    if &w.line[at..at + len] != b"-" {
        words.copy_from_slice(&[1, at as u64, len as u64]);
    }
    Some(())
}

fn header(w: &mut Walk, words: &mut [u64]) -> Option<()> {
    w.byte(b'<')?;
    let priority = w.number(0, 191)?;
    w.byte(b'>')?;
    words[..6].copy_from_slice(&[1, w.number(1, 999)?, 1, priority / 8, 1, priority % 8]);
    w.byte(b' ')?;
    let from = w.at;
    if w.byte(b'-').is_none() {
        let (seconds, nanos, digits, offset) = stamp(w)?;
        words[word::STAMP..word::HOST].copy_from_slice(&[1, seconds as u64, nanos, digits as u64, offset as u64]);
        words[word::STAMP_TEXT..][..3].copy_from_slice(&[1, from as u64, (w.at - from) as u64]);
    }
    field(w, 255, &mut words[word::HOST..][..3])?;
    field(w, 48, &mut words[word::APP..][..3])?;
    field(w, 128, &mut words[word::PID..][..3])?;
    field(w, 32, &mut words[word::MSGID..][..3])
}

/// A value up to its quote: pairs of a backslash are taken from the left.
fn value(w: &mut Walk) -> Option<(usize, usize)> {
    w.byte(b'"')?;
    let from = w.at;
    loop {
        match (w.peek()?, w.line.get(w.at + 1)) {
            (b'\\', Some(b'"' | b'\\' | b']')) => w.at += 2,
            (b'"', _) => break,
            (b']', _) => return None,
            _ => w.at += 1,
        }
    }
    let place = (from, w.at - from);
    std::str::from_utf8(&w.line[from..w.at]).ok()?;
    w.byte(b'"')?;
    Some(place)
}

fn element(w: &mut Walk, answer: &mut Answer) -> Option<()> {
    w.byte(b'[')?;
    let (id, id_len) = w.run(32, in_name)?;
    let number = answer.elements.len();
    answer.elements.push([id, id_len]);
    while w.byte(b' ').is_some() {
        let (name, name_len) = w.run(32, in_name)?;
        w.byte(b'=')?;
        let (value, value_len) = value(w)?;
        answer.params.push([number, name, name_len, value, value_len]);
    }
    w.byte(b']')
}

/// Each id beside each other one: no two are the same bytes (section 6.3.2).
fn ids_differ(line: &[u8], ids: &[[usize; 2]]) -> bool {
    let id = |row: &[usize; 2]| &line[row[0]..row[0] + row[1]];
    ids.iter().enumerate().all(|(k, row)| ids[..k].iter().all(|earlier| id(earlier) != id(row)))
}

fn parts(w: &mut Walk, answer: &mut Answer) -> Option<()> {
    header(w, &mut answer.words)?;
    w.byte(b' ')?;
    if w.byte(b'-').is_none() {
        element(w, answer)?;
        while w.peek() == Some(b'[') {
            element(w, answer)?;
        }
        if !ids_differ(w.line, &answer.elements) {
            return None;
        }
    }
    if w.at < w.line.len() {
        w.byte(b' ')?;
        let message = &w.line[w.at..];
        if message.starts_with(b"\xEF\xBB\xBF") {
            std::str::from_utf8(message).ok()?;
        }
        answer.words[word::MESSAGE..][..2].copy_from_slice(&[w.at as u64, message.len() as u64]);
        answer.words[word::HAS_MESSAGE] = 1;
    }
    Some(())
}

/// Does the grammar derive the line, of any length?
pub fn derives(line: &[u8]) -> bool {
    parts(&mut Walk { line, at: 0 }, &mut Answer::default()).is_some()
}

pub fn read(line: &[u8], answer: &mut Answer) {
    answer.clear(0);
    if line.len() > LONGEST {
        return answer.clear(1);
    }
    if parts(&mut Walk { line, at: 0 }, answer).is_none() {
        answer.clear(4);
        answer.reach = reach(line);
        return;
    }
    answer.words[word::ELEMENTS] = answer.elements.len() as u64;
    answer.words[word::PARAMS] = answer.params.len() as u64;
}
