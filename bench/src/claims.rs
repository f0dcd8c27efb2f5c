//! What the check of a claimed reading costs, beside the strict reading of the same line.
use crate::readers::Lent;
use crate::work::Work;
use std::hint::black_box;

/// The check may take so many times what the strict reading takes.
pub const LIMIT: f64 = 1.5;

/// A line, and how often it is read or its claim is checked in a pass.
pub struct Kind {
    pub name: &'static str,
    pub what: &'static str,
    calls: usize,
    line: fn() -> String,
}

const fn kind(name: &'static str, what: &'static str, calls: usize, line: fn() -> String) -> Kind {
    Kind { name, what, calls, line }
}

/// A line of so many elements with ids of their own, each with a parameter.
fn elements(count: usize) -> String {
    let elements: String = (0..count).map(|i| format!("[e{i}@32473 ms=\"{i}\"]")).collect();
    format!("<34>1 2023-12-31T10:01:02.123456+01:00 gate7 reader 42 TAP {elements} ok")
}

pub const KINDS: [Kind; 7] = [
    kind("absent", "nothing but priority and version", 10_000, || "<0>1 - - - - - -".into()),
    kind("stamp", "a timestamp", 10_000, || "<0>1 2023-02-05T10:01:02Z - - - - -".into()),
    kind("header", "a header with a fraction and an offset, and a message", 10_000, || "<34>1 2023-12-31T10:01:02.123456+01:00 gate7 reader 42 TAP - ok".into()),
    kind("element", "no timestamp, an element, a message", 10_000, || "<34>1 - gate7 reader 42 TAP [t@32473 ms=\"212\"] ok".into()),
    kind("elements2", "a timestamp and 2 elements", 10_000, || elements(2)),
    kind("elements20", "20 elements", 1_000, || elements(20)),
    kind("elements300", "300 elements", 100, || elements(300)),
];

/// What is measured of a line.
#[derive(Clone, Copy, PartialEq)]
pub enum Call {
    Strict,
    Check,
}

pub fn call(name: &str) -> Option<Call> {
    match name {
        "strict" => Some(Call::Strict),
        "check" => Some(Call::Check),
        _ => None,
    }
}

pub fn named(name: &str) -> Option<&'static Kind> {
    KINDS.iter().find(|kind| kind.name == name)
}

/// Reads a line strictly, and then does so again or checks what was left, so often; fails where a call is refused. This is the measured part.
pub fn work(kind: &'static Kind, call: Call) -> Work {
    let (line, mut lent) = ((kind.line)(), Lent::new());
    let read = lent.strict(line.as_bytes()).number();
    Work::new(kind.calls, move || {
        let mut number = read;
        for _ in 0..kind.calls {
            let line = black_box(line.as_bytes());
            number = number.max(if call == Call::Check { lent.check(line) } else { lent.strict(line).number() });
        }
        if number == 0 { Ok(()) } else { Err(format!("{}: the archive answers {number}", kind.name)) }
    })
}

/// Makes each kind's calls once, and says how many, as rows of the results.
pub fn check() -> Result<(), String> {
    if cfg!(no_claims) {
        return Ok(());
    }
    for kind in &KINDS {
        work(kind, Call::Strict).once()?;
        work(kind, Call::Check).once()?;
        println!("claim {} {}", kind.name, kind.calls);
    }
    Ok(())
}
