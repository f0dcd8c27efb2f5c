//! The stored output of the program `cases` against the Rust: each loose case in the same words, from the Rust's message. By the classes of
//! docs/DIFFERENCES.md: in D1 to D5 the whole line, in D7 the message with its hyphen, in D8 the fraction in the line's digits.
//!
//! A case is a line of the program's input: `R`, variant, year, offset, and the line that is read. A strict case (`S`) and a line that is refused
//! before it is read have no answer of the Rust.

use crate::abi::{word, Settings};
use crate::classes;
use crate::oracle::{self, Answer};
use std::io::Write;
use std::process::ExitCode;
use syslog_loose::Message;

struct Case<'a> {
    settings: Settings,
    line: &'a [u8],
}

fn case(text: &[u8]) -> Option<Case<'_>> {
    let mut parts = text.splitn(5, |&b| b == b' ');
    if parts.next()? != b"R" {
        return None;
    }
    let mut number = || std::str::from_utf8(parts.next()?).ok()?.parse::<u64>().ok();
    let settings = Settings { variant: number()? as u32, year: number()? as u32, offset: number()? as i32 };
    Some(Case { settings, line: parts.next()? })
}

fn tell(out: &mut Vec<u8>, label: &str, value: &[u8]) {
    out.extend_from_slice(label.as_bytes());
    out.extend_from_slice(value);
    out.push(b'\n');
}

fn tell_texts(out: &mut Vec<u8>, line: &[u8], answer: &Answer) {
    let part = |start: usize, len: usize| &line[start..start + len];
    let w = &answer.words;
    for (label, at) in [("  host ", word::HOST), ("  app ", word::APP), ("  process id ", word::PID), ("  message id ", word::MSGID)] {
        if w[at] == 1 {
            tell(out, label, part(w[at + 1] as usize, w[at + 2] as usize));
        }
    }
    tell(out, "  message ", part(w[word::MESSAGE] as usize, w[word::MESSAGE_LEN] as usize));
    for &[start, len] in &answer.elements {
        tell(out, "  element ", part(start, len));
    }
    for &[element, name, name_len, value, value_len] in &answer.params {
        tell(out, "  parameter of element ", element.to_string().as_bytes());
        tell(out, "    name ", part(name, name_len));
        tell(out, "    value ", part(value, value_len));
    }
}

/// A message in the program's words.
fn told(line: &str, message: &Message<&str>) -> Vec<u8> {
    let mut answer = Answer::default();
    oracle::put_message(&mut answer, line, message);
    let w = &answer.words;
    let mut out = Vec::new();
    if w[word::PROTOCOL] == 0 {
        tell(&mut out, "  RFC 3164", b"");
    } else {
        tell(&mut out, "  RFC 5424, version ", w[word::VERSION].to_string().as_bytes());
    }
    for (label, at) in [("  facility ", word::FACILITY), ("  severity ", word::SEVERITY)] {
        if w[at] == 1 {
            tell(&mut out, label, w[at + 1].to_string().as_bytes());
        }
    }
    if w[word::STAMP] == 1 {
        tell(&mut out, "  seconds ", (w[word::SECONDS] as i64).to_string().as_bytes());
        tell(&mut out, "  nanoseconds ", w[word::NANOS].to_string().as_bytes());
        tell(&mut out, "  digits ", w[word::DIGITS].to_string().as_bytes());
        tell(&mut out, "  offset ", (w[word::OFFSET] as i64).to_string().as_bytes());
    }
    tell_texts(&mut out, line.as_bytes(), &answer);
    let printed = message.to_string().into_bytes();
    tell(&mut out, "  prints ", &classes::in_digits(&printed, w[word::DIGITS] as usize).unwrap_or(printed));
    out
}

/// What the Rust says to a case, where it has an answer.
fn answer(case: &Case<'_>) -> Option<Vec<u8>> {
    let text = oracle::admit(case.line, case.settings).ok()?;
    let whole = |message| [b"  whole\n".to_vec(), told(text, &message)].concat();
    let message = oracle::exact(text, case.settings);
    let class = oracle::class_of(text, message.as_ref());
    Some(match message {
        Some(message) if class.is_none() => told(text, &oracle::with_hyphen(text, case.settings, message).0),
        Some(_) => whole(oracle::whole(text)),
        None => whole(oracle::fallback(text, case.settings)),
    })
}

/// Takes the case and what the program wrote behind it off the front of its output.
fn block<'a>(output: &mut &'a [u8], text: &[u8]) -> Option<&'a [u8]> {
    let body = output.strip_prefix(text)?.strip_prefix(b"\n")?;
    let mut end = 0;
    while body[end..].starts_with(b"  ") {
        end += body[end..].iter().position(|&b| b == b'\n')? + 1;
    }
    *output = &body[end..];
    Some(&body[..end])
}

/// Compares the output stored in a folder with the Rust's answers to the input stored there.
pub fn compare(folder: &str) -> ExitCode {
    let read = |name: &str| std::fs::read(format!("{folder}/{name}"));
    let (Ok(input), Ok(output)) = (read("stdin"), read("stdout")) else {
        eprintln!("harness: no stdin and stdout in {folder}");
        return ExitCode::from(2);
    };
    let (mut cases, mut answered, mut differ) = (0, 0, 0);
    let mut rest = &output[..];
    for text in input.strip_suffix(b"\n").unwrap_or(&input).split(|&b| b == b'\n') {
        cases += 1;
        let stored = block(&mut rest, text);
        let wanted = case(text).and_then(|case| answer(&case));
        answered += wanted.is_some() as u32;
        if stored.is_none() || wanted.is_some_and(|wanted| Some(&wanted[..]) != stored) {
            differ += 1;
            let _ = std::io::stdout().write_all(&[b"differs: ", text, b"\n"].concat());
        }
    }
    println!("harness: {cases} stored cases, {answered} with an answer of the Rust, {differ} differ");
    ExitCode::from((differ != 0 || !rest.is_empty()) as u8)
}
