//! What the Rust answers, in the words of the archive's record, and what docs/RULES.md fixes around it.
//!
//! Places are computed from the pointers of the Rust's texts. Two texts have none: an empty value is a static text there, and a process id that
//! parses is a number. For those the place is found in the line, behind the text that stands before it. Nor does the Rust count the digits of a
//! fraction: they are counted in the text that it reads the timestamp from.

use crate::abi::{word, Element, Param, Settings, LONGEST, STRICT_WORDS};
use crate::classes::{self, Class};
use chrono::{DateTime, FixedOffset};
use syslog_loose::{parse_message_with_year_exact_tz, parse_message_with_year_tz, Message, ProcId, Protocol, Variant};

#[derive(Clone, Debug, Default, PartialEq)]
pub struct Answer {
    /// 0, or the refusal that does not depend on tables and outputs (1 to 4).
    pub number: u32,
    /// The whole line is the message, because there is no reading.
    pub whole: bool,
    /// With 4 of the strict reader, how many bytes of the line some strict line begins with; else 0.
    pub reach: usize,
    pub words: [u64; STRICT_WORDS],
    pub elements: Vec<Element>,
    pub params: Vec<Param>,
}

impl Answer {
    pub fn clear(&mut self, number: u32) {
        self.number = number;
        self.whole = false;
        self.reach = 0;
        self.words = [0; STRICT_WORDS];
        self.elements.clear();
        self.params.clear();
    }

    /// The number for tables of these lengths and a record's memory of this length, of which `layout` bytes are asked for.
    pub fn number_for(&self, elements: usize, params: usize, record: usize, layout: usize) -> u32 {
        match self.number {
            0 if elements < self.elements.len() => 5,
            0 if params < self.params.len() => 6,
            0 if record < layout => 8,
            number => number,
        }
    }
}

pub fn settings_are_good(s: Settings) -> bool {
    s.variant <= 2 && s.year <= 9999 && (-1439..=1439).contains(&s.offset)
}

/// Refusals 1 to 3, in their order: the Rust does not have them. Otherwise the line as the Rust takes it.
pub fn admit(line: &[u8], s: Settings) -> Result<&str, u32> {
    if line.len() > LONGEST {
        return Err(1);
    }
    if !settings_are_good(s) {
        return Err(2);
    }
    std::str::from_utf8(line).map_err(|_| 3)
}

fn variant(s: Settings) -> Variant {
    match s.variant {
        0 => Variant::Either,
        1 => Variant::RFC3164,
        _ => Variant::RFC5424,
    }
}

fn zone(s: Settings) -> Option<FixedOffset> {
    FixedOffset::east_opt(s.offset * 60)
}

/// The Rust's reading, by the function that has none of some lines.
pub fn exact(text: &str, s: Settings) -> Option<Message<&str>> {
    parse_message_with_year_exact_tz(text, |_| s.year as i32, zone(s), variant(s)).ok()
}

/// The Rust's reading, by the function that makes the message of a line with none.
pub fn fallback(text: &str, s: Settings) -> Message<&str> {
    parse_message_with_year_tz(text, |_| s.year as i32, zone(s), variant(s))
}

/// The class of differences that the line falls into by its predicate, where the Rust has a reading.
pub fn class_of(text: &str, message: Option<&Message<&str>>) -> Option<Class> {
    message.and_then(|m| classes::of_reading(text, m))
}

/// The message that the port must read in the place of the Rust's, where both read the line: in class D7 it keeps its hyphen.
pub fn with_hyphen<'a>(text: &'a str, s: Settings, mut message: Message<&'a str>) -> (Message<&'a str>, Option<Class>) {
    let answer_of = |text: &str, message: &Message<&str>| {
        let mut answer = Answer::default();
        put_message(&mut answer, text, message);
        answer
    };
    let read = |other: &str| exact(other, Settings { variant: 1, ..s }).map(|message| answer_of(other, &message));
    let Some(at) = classes::hyphen(text, &answer_of(text, &message), read) else { return (message, None) };
    message.msg = text[at..].trim_end();
    (message, Some(Class::D7))
}

fn start(text: &str, part: &str) -> usize {
    let at = (part.as_ptr() as usize).wrapping_sub(text.as_ptr() as usize);
    assert!(at <= text.len() && part.len() <= text.len() - at, "the Rust gave a text outside the line");
    at
}

fn put(words: &mut [u64], text: &str, part: Option<&str>) {
    if let Some(part) = part {
        words.copy_from_slice(&[1, start(text, part) as u64, part.len() as u64]);
    }
}

/// The text of the process id, also where the Rust keeps a number.
pub fn pid_text<'a>(text: &'a str, message: &Message<&'a str>) -> Option<&'a str> {
    match message.procid.as_ref()? {
        ProcId::Name(name) => Some(name),
        ProcId::PID(number) => {
            let found = match message.protocol {
                Protocol::RFC3164 => {
                    let app = message.appname.expect("a process id without an app");
                    let from = start(text, app) + app.len() + 1;
                    let len = text[from..].find(']').expect("a process id without its bracket");
                    &text[from..from + len]
                }
                Protocol::RFC5424(_) => classes::field_5424(text, 3),
            };
            assert_eq!(found.parse(), Ok(*number), "the process id is not where it was looked for");
            Some(found)
        }
    }
}

/// The digits of the timestamp's fraction as they stand in the line; none in forms (a) and (b). Two things say that they are those which the Rust
/// read: chrono makes the same timestamp of the text that they stand in, and they write its nanoseconds (ten and more of them as far as chrono goes).
pub fn fraction<'a>(text: &'a str, message: &Message<&str>) -> &'a str {
    let Some(stamp) = message.timestamp else { return "" };
    let Some(form_c) = classes::form_c(text, &message.protocol) else {
        assert_eq!(stamp.timestamp_subsec_nanos(), 0, "a fraction in form (a) or (b)");
        return "";
    };
    assert_eq!(DateTime::parse_from_rfc3339(form_c), Ok(stamp), "the timestamp is not where it was looked for");
    let digits = form_c.split_once('.').map_or("", |(_, behind)| classes::digits(behind).0);
    let nine: String = digits.chars().chain("000000000".chars()).take(9).collect();
    assert_eq!(nine.parse(), Ok(stamp.timestamp_subsec_nanos() % 1_000_000_000), "the fraction is not where it was looked for");
    digits
}

fn put_structured(answer: &mut Answer, text: &str, message: &Message<&str>) {
    for (number, element) in message.structured_data.iter().enumerate() {
        answer.elements.push([start(text, element.id), element.id.len()]);
        for (name, value) in &element.params {
            let name_start = start(text, name);
            let behind = name_start + name.len() + 1;
            let blanks = text[behind..].bytes().take_while(|b| matches!(b, b' ' | b'\t')).count();
            let value_start = behind + blanks + 1;
            assert!(value.is_empty() || start(text, value) == value_start, "a value is not behind its quote");
            answer.params.push([number, name_start, name.len(), value_start, value.len()]);
        }
    }
}

/// The answer that a message of the Rust amounts to.
pub fn put_message(answer: &mut Answer, text: &str, message: &Message<&str>) {
    answer.clear(0);
    let w = &mut answer.words;
    if let Protocol::RFC5424(version) = message.protocol {
        w[word::PROTOCOL] = 1;
        w[word::VERSION] = version as u64;
    }
    if let Some(facility) = message.facility {
        w[word::FACILITY..][..2].copy_from_slice(&[1, facility as u64]);
    }
    if let Some(severity) = message.severity {
        w[word::SEVERITY..][..2].copy_from_slice(&[1, severity as u64]);
    }
    if let Some(stamp) = message.timestamp {
        let (nanos, minutes) = (stamp.timestamp_subsec_nanos() as u64, stamp.offset().local_minus_utc() as i64 / 60);
        let digits = fraction(text, message).len() as u64;
        w[word::STAMP..word::HOST].copy_from_slice(&[1, stamp.timestamp() as u64, nanos, digits, minutes as u64]);
    }
    put(&mut w[word::HOST..][..3], text, message.hostname);
    put(&mut w[word::APP..][..3], text, message.appname);
    put(&mut w[word::PID..][..3], text, pid_text(text, message));
    put(&mut w[word::MSGID..][..3], text, message.msgid);
    w[word::MESSAGE] = start(text, message.msg) as u64;
    w[word::MESSAGE_LEN] = message.msg.len() as u64;
    put_structured(answer, text, message);
    answer.words[word::ELEMENTS] = answer.elements.len() as u64;
    answer.words[word::PARAMS] = answer.params.len() as u64;
}

/// The whole line as the message.
pub fn whole(text: &str) -> Message<&str> {
    Message {
        facility: None,
        severity: None,
        timestamp: None,
        hostname: None,
        appname: None,
        procid: None,
        msgid: None,
        protocol: Protocol::RFC3164,
        structured_data: vec![],
        msg: text,
    }
}
