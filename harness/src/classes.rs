//! The classes of docs/DIFFERENCES.md, a predicate each. D1 to D5 are of lines that the Rust reads and the port does not; D6 and D8 are of
//! printing; D7 is of lines that both read, with another message.

use crate::abi::word;
use crate::oracle::{fraction, Answer};
use syslog_loose::{Message, ProcId, Protocol};

#[derive(Clone, Copy, Debug, PartialEq)]
pub enum Class {
    /// Second 60 in form (c): the Rust has nanoseconds of 1,000,000,000 and more.
    D1,
    /// A fraction of ten or more digits in form (c).
    D2,
    /// The offset's sign as U+2212 in form (c).
    D3,
    /// Form (b) with a year above 9999.
    D4,
    /// Form (b) whose shown year is outside 0 to 9999.
    D5,
    /// A process id that parses as an i32 and is not written as that number is.
    D6,
    /// RFC 3164: a hyphen where the structured data would stand, which the Rust takes and the port leaves to the message.
    D7,
    /// A fraction with another count of digits than the Rust prints, which is 0, 3, 6 or 9.
    D8,
}

pub const CLASSES: usize = 8;

/// Seconds of 0000-01-01T00:00:00 and of 9999-12-31T23:59:59.
pub const FIRST_SECOND: i64 = -62_167_219_200;
pub const LAST_SECOND: i64 = 253_402_300_799;

fn blanks(text: &str) -> &str {
    text.trim_start_matches([' ', '\t'])
}

/// The digits at the front of a text, and what is behind them.
pub fn digits(text: &str) -> (&str, &str) {
    let end = text.bytes().take_while(u8::is_ascii_digit).count();
    text.split_at(end)
}

/// The text behind the priority, if there is one that counts.
fn behind_priority(text: &str) -> &str {
    let Some(inner) = text.strip_prefix('<') else { return text };
    let (number, rest) = digits(inner);
    match (number.parse::<u8>(), rest.strip_prefix('>')) {
        (Ok(_), Some(rest)) => rest,
        _ => text,
    }
}

/// The text from the timestamp on, in a line that the Rust read.
pub fn from_stamp<'a>(text: &'a str, protocol: &Protocol) -> &'a str {
    let rest = behind_priority(text.trim());
    match protocol {
        Protocol::RFC3164 => blanks(rest),
        Protocol::RFC5424(_) => blanks(digits(rest).1),
    }
}

/// The text of a timestamp of form (c), in a line that the Rust read; none where it is of form (a) or (b) or `-`.
pub fn form_c<'a>(text: &'a str, protocol: &Protocol) -> Option<&'a str> {
    let from = from_stamp(text, protocol);
    from.starts_with(|c: char| c.is_ascii_digit()).then(|| &from[..from.find(' ').unwrap_or(from.len())])
}

/// The field of that number (timestamp 0, host 1, app 2, process id 3, message id 4) of an RFC 5424 line that the Rust read.
pub fn field_5424(text: &str, number: usize) -> &str {
    let mut rest = from_stamp(text, &Protocol::RFC5424(0));
    let mut end = if rest.starts_with('-') { 1 } else { rest.find(' ').unwrap_or(rest.len()) };
    for _ in 0..number {
        rest = blanks(&rest[end..]);
        end = rest.find(char::is_whitespace).unwrap_or(rest.len());
    }
    &rest[..end]
}

/// The year of form (b); form (a) has none.
pub fn year_of_b(stamp: &str) -> Option<u64> {
    let behind_month = blanks(stamp.get(3..)?);
    let behind_day = blanks(digits(behind_month).1);
    let (year, rest) = digits(behind_day);
    if rest.starts_with([' ', '\t']) { year.parse().ok() } else { None }
}

/// D1 to D5, of a line and the Rust's reading of it.
pub fn of_reading(text: &str, message: &Message<&str>) -> Option<Class> {
    let stamp = message.timestamp.as_ref()?;
    let Some(form_c) = form_c(text, &message.protocol) else {
        let year = year_of_b(from_stamp(text, &message.protocol))?;
        let local = stamp.timestamp() + stamp.offset().local_minus_utc() as i64;
        return match year {
            10_000.. => Some(Class::D4),
            _ if !(FIRST_SECOND..=LAST_SECOND).contains(&local) => Some(Class::D5),
            _ => None,
        };
    };
    if stamp.timestamp_subsec_nanos() >= 1_000_000_000 && form_c.contains(":60") {
        Some(Class::D1)
    } else if fraction(text, message).len() >= 10 {
        Some(Class::D2)
    } else if form_c.contains('\u{2212}') {
        Some(Class::D3)
    } else {
        None
    }
}

/// D7, of a line and the Rust's reading of it: where the hyphen stands. `read` is the Rust's reading of another line by RFC 3164.
///
/// Such a hyphen stands before the blanks before the message. It may be a field's all the same: it is not exactly if with a second one put
/// before it the Rust reads every field as it did, and the message from the second on.
pub fn hyphen(text: &str, answer: &Answer, read: impl Fn(&str) -> Option<Answer>) -> Option<usize> {
    if answer.words[word::PROTOCOL] != 0 || !answer.elements.is_empty() {
        return None;
    }
    let at = text[..answer.words[word::MESSAGE] as usize].trim_end_matches([' ', '\t']).strip_suffix('-')?.len();
    let doubled = [&text[..at], "-", &text[at..]].concat();
    let other = read(&doubled)?;
    let from_second = other.words[word::MESSAGE] == at as u64 + 1 && other.words[word::MESSAGE_LEN] == text[at..].trim_end().len() as u64;
    (from_second && other.elements.is_empty() && other.words[..word::MESSAGE] == answer.words[..word::MESSAGE]).then_some(at)
}

/// D6, of the process id's text and what the Rust made of it.
pub fn of_pid(text: Option<&str>, pid: Option<&ProcId<&str>>) -> Option<Class> {
    match (text, pid) {
        (Some(text), Some(ProcId::PID(number))) if number.to_string() != text => Some(Class::D6),
        _ => None,
    }
}

/// D8, of a line that the Rust prints for a record whose fraction has so many digits: if the Rust's has another count, the line with the same number in
/// so many digits, and every other byte as it is.
pub fn in_digits(printed: &[u8], count: usize) -> Option<Vec<u8>> {
    let stamp = 1 + printed.iter().position(|&b| b == b' ').expect("no space before the timestamp");
    if printed[stamp] == b'-' {
        return None;
    }
    // `YYYY-MM-DDThh:mm:ss`, and then a point or the offset's sign.
    let point = stamp + 19;
    let end = match printed[point] {
        b'.' => point + 1 + printed[point + 1..].iter().take_while(|b| b.is_ascii_digit()).count(),
        _ => point,
    };
    let theirs = end.saturating_sub(point + 1);
    if theirs == count {
        return None;
    }
    let value = printed[point..end].iter().skip(1).fold(0, |value, &b| 10 * value + (b - b'0') as u64);
    let (nanos, unit) = (value * 10u64.pow(9 - theirs as u32), 10u64.pow(9 - count as u32));
    assert_eq!(nanos % unit, 0, "so many digits do not show the Rust's number");
    let ours = if count == 0 { String::new() } else { format!(".{:0count$}", nanos / unit) };
    Some([&printed[..point], ours.as_bytes(), &printed[end..]].concat())
}
