//! Records and tables that no reader made: what printing and lookup are lent may be anything.

use crate::abi::{word, Element, Given, Param, RECORD, WORDS};
use crate::classes::{FIRST_SECOND, LAST_SECOND};
use crate::oracle::Answer;
use crate::random::Random;
use crate::records::bytes_of;

#[derive(Debug, Default, PartialEq)]
pub struct Forged {
    pub record: Vec<u8>,
    pub elements: Vec<Element>,
    pub params: Vec<Param>,
}

impl Clone for Forged {
    fn clone(&self) -> Self {
        Forged { record: self.record.clone(), elements: self.elements.clone(), params: self.params.clone() }
    }

    /// Into the memory that is there: this is done for every line.
    fn clone_from(&mut self, other: &Self) {
        self.record.clone_from(&other.record);
        self.elements.clone_from(&other.elements);
        self.params.clone_from(&other.params);
    }
}

impl Forged {
    pub fn given<'a>(&'a self, line: &'a [u8]) -> Given<'a> {
        Given { line, record: &self.record, elements: &self.elements, params: &self.params }
    }

    /// A record as a reader left it: tables with entries past the counts that say nothing.
    pub fn from_answer(&mut self, answer: &Answer, words: usize, random: &mut Random) {
        bytes_of(&answer.words[..words], &mut self.record);
        self.elements.clear();
        self.elements.extend_from_slice(&answer.elements);
        self.params.clear();
        self.params.extend_from_slice(&answer.params);
        self.elements.resize(answer.elements.len() + random.below(3), [usize::MAX; 2]);
        self.params.resize(answer.params.len() + random.below(3), [usize::MAX; 5]);
    }

    /// A record of an answer with some of its numbers changed, or one of small numbers alone.
    pub fn forge(&mut self, answer: &Answer, line_len: usize, random: &mut Random) {
        let mut words = [0; WORDS];
        words.copy_from_slice(&answer.words[..WORDS]);
        self.from_answer(answer, WORDS, random);
        if random.one_in(3) {
            self.fresh_tables(&mut words, line_len, random);
        }
        if random.one_in(3) {
            fresh_words(&mut words, line_len, random);
        }
        for _ in 0..random.below(3) {
            let at = random.below(WORDS);
            words[at] = odd_word(at, words[at.saturating_sub(1)], line_len, random);
        }
        if words[word::STAMP] == 1 && random.one_in(6) {
            words[word::NANOS..word::OFFSET].copy_from_slice(&odd_fraction(random));
        }
        if random.one_in(3) {
            self.spoil_tables(line_len, random);
        }
        bytes_of(&words, &mut self.record);
        if random.one_in(12) {
            self.record.resize(random.of(&[0, 1, 8, RECORD - 8, RECORD - 1, RECORD + 1, RECORD + 32]), 0);
        }
    }

    fn fresh_tables(&mut self, words: &mut [u64; WORDS], line_len: usize, random: &mut Random) {
        let (elements, params) = (random.below(4), random.below(5));
        self.elements = (0..elements).map(|_| place(line_len, random)).collect();
        let mut numbers: Vec<usize> = (0..params).map(|_| random.below(elements)).collect();
        numbers.sort_unstable();
        self.params.clear();
        for number in numbers {
            let (name, value) = (place(line_len, random), place(line_len, random));
            self.params.push([number, name[0], name[1], value[0], value[1]]);
        }
        words[word::ELEMENTS] = self.elements.len() as u64 - (random.one_in(6) && elements > 0) as u64;
        words[word::PARAMS] = self.params.len() as u64 - (random.one_in(6) && params > 0) as u64;
    }

    fn spoil_tables(&mut self, line_len: usize, random: &mut Random) {
        if let Some(at) = self.elements.len().checked_sub(1).map(|last| random.below(last + 1)) {
            self.elements[at][random.below(2)] = odd_place(line_len, random);
        }
        if let Some(at) = self.params.len().checked_sub(1).map(|last| random.below(last + 1)) {
            let column = random.below(5);
            self.params[at][column] = if column == 0 { random.below(4) } else { odd_place(line_len, random) };
        }
    }
}

/// A place that ends within the line.
fn place(line_len: usize, random: &mut Random) -> Element {
    let start = random.below(line_len + 1);
    [start, random.below((line_len - start).min(40) + 1)]
}

fn odd_place(line_len: usize, random: &mut Random) -> usize {
    random.of(&[0, 1, line_len, line_len + 1, line_len.saturating_sub(1), usize::MAX, usize::MAX - line_len, 1 << 63, 1 << 32])
}

fn local_second(offset: i64, random: &mut Random) -> i64 {
    let edge = random.of(&[FIRST_SECOND, LAST_SECOND, FIRST_SECOND + 366 * 86_400, 0, 951_782_400, 4_107_542_400]);
    match random.below(3) {
        0 => edge + random.of(&[-1, 0, 1]) - offset * 60,
        1 => edge + random.of(&[-86_400, 86_399, 86_400]) - offset * 60,
        _ => FIRST_SECOND + (random.next() % (LAST_SECOND - FIRST_SECOND) as u64) as i64 - offset * 60,
    }
}

/// Nanoseconds, and a count of digits that shows them.
fn fraction(random: &mut Random) -> [u64; 2] {
    let digits = random.below(10) as u32;
    let most = 10u64.pow(digits) - 1;
    let value = match random.below(3) {
        0 => random.of(&[0, 1.min(most), most, 5 * 10u64.pow(digits) / 10, most / 10 * 10]),
        _ => random.next() % (most + 1),
    };
    [value * 10u64.pow(9 - digits), digits as u64]
}

/// Nanoseconds and a count of digits, one of which is at the limit of what the other allows, or just past it.
fn odd_fraction(random: &mut Random) -> [u64; 2] {
    let digits = random.below(11) as u64;
    let unit = 10u64.pow(9 - digits.min(9) as u32);
    let nanos = random.of(&[0, unit, unit / 10, unit + 1, 999_999_999, 1_000_000_000 - unit, 1_000_000_000, 500_000_000, 123_456_789 / unit * unit]);
    [nanos, digits]
}

/// A record that suits the line, of any protocol, presence and instant.
fn fresh_words(words: &mut [u64; WORDS], line_len: usize, random: &mut Random) {
    let counts = [words[word::ELEMENTS], words[word::PARAMS]];
    *words = [0; WORDS];
    words[word::ELEMENTS..].copy_from_slice(&counts);
    if random.one_in(2) {
        words[word::PROTOCOL..][..2].copy_from_slice(&[1, random.of(&[0, 1, 9, 10, 99, 999, 1000, 65_536, 999_999_999, 4_294_967_295])]);
    }
    for (at, bound) in [(word::FACILITY, 24), (word::SEVERITY, 8)] {
        if random.one_in(2) {
            words[at..at + 2].copy_from_slice(&[1, random.below(bound) as u64]);
        }
    }
    if !random.one_in(4) {
        let offset = random.of(&[0, 1, -1, 60, -60, 330, -1439, 1439, 1438, -1438]);
        let [nanos, digits] = fraction(random);
        words[word::STAMP..word::HOST].copy_from_slice(&[1, local_second(offset, random) as u64, nanos, digits, offset as u64]);
    }
    for at in [word::HOST, word::APP, word::PID, word::MSGID] {
        let [start, len] = place(line_len, random);
        words[at..at + 3].copy_from_slice(&[random.below(2) as u64, start as u64, len as u64]);
    }
    let [start, len] = place(line_len, random);
    words[word::MESSAGE..word::ELEMENTS].copy_from_slice(&[start as u64, len as u64]);
}

const FACILITY_VALUE: usize = word::FACILITY + 1;
const SEVERITY_VALUE: usize = word::SEVERITY + 1;

/// A number at a limit of the word's rule.
fn odd_word(at: usize, before: u64, line_len: usize, random: &mut Random) -> u64 {
    let line = line_len as u64;
    let signed = |value: i64| value as u64;
    match at {
        word::PROTOCOL | word::FACILITY | word::SEVERITY | word::STAMP | word::HOST | word::APP | word::PID | word::MSGID => random.of(&[0, 1, 2, 255, 256, 1 << 32, u64::MAX]),
        word::VERSION => random.of(&[0, 1, (1 << 32) - 1, 1 << 32, u64::MAX]),
        FACILITY_VALUE => random.of(&[0, 1, 23, 24, 31, 255, 256, 1 << 32]),
        SEVERITY_VALUE => random.of(&[0, 1, 7, 8, 255, 256, 1 << 32]),
        word::SECONDS => random.of(&[0, signed(FIRST_SECOND), signed(FIRST_SECOND - 1), signed(LAST_SECOND), signed(LAST_SECOND + 1), 1 << 63, (1 << 63) - 1, u64::MAX]),
        word::NANOS => random.of(&[0, 999_999_999, 1_000_000_000, (1 << 32) - 1, 1 << 32, u64::MAX]),
        word::DIGITS => random.of(&[0, 1, 3, 6, 8, 9, 10, 255, (1 << 32) - 1, 1 << 32, (1 << 32) + 3, u64::MAX]),
        word::OFFSET => random.of(&[0, 1439, 1440, signed(-1439), signed(-1440), signed(i32::MIN as i64), signed(i32::MIN as i64 - 1), (1 << 31) - 1, 1 << 31, (1 << 32) - 1]),
        word::ELEMENTS | word::PARAMS => random.of(&[0, 1, 2, 3, u64::MAX, 1 << 63]),
        _ => random.of(&[0, 1, line, line + 1, line.saturating_sub(before), line.saturating_sub(before) + 1, u64::MAX, 0u64.wrapping_sub(before), 1 << 63]),
    }
}
