//! Lines as the readers of a gate send them, from a seed: RFC 3164 and RFC 5424, half and half, 90 to 250 bytes each.
//! Each is a line of the strict grammar or of RFC 3164, so that every reader that is measured has a reading of it.
use crate::random::Random;
use std::fmt::Write;

const SHORTEST: u64 = 90;
const OURS: &str = "@32473";
const STAGES: [&str; 7] = ["denylist", "antenna", "paddle", "tariff", "journal", "display", "uplink"];
const MONTHS: [&str; 12] = ["Jan", "Feb", "Mar", "Apr", "May", "Jun", "Jul", "Aug", "Sep", "Oct", "Nov", "Dec"];
const APPS: [&str; 4] = ["reader", "gatectl", "validator", "paddle-drive"];
const EVENTS: [&str; 5] = ["TAP", "DENY", "OPEN", "SYNC", "-"];
const FARES: [&str; 5] = ["adult", "child", "day ticket", "staff", "Schüler"];
const NOTES: [&str; 6] = ["tap ok", "tap refused: card on the deny list", "paddle opened", "clock set", "retry, antenna noisy", "Tür offen"];
const FIRMWARE: [&str; 3] = ["4.2.1", "4.3.0 \\\"beta\\\"", "5.0.0-rc1"];

/// How many elements a line of RFC 5424 has, for each of eight.
const COUNTS: [usize; 8] = [0, 1, 1, 1, 2, 2, 2, 3];

/// One element of structured data, with its parameters.
fn element(r: &mut Random, text: &mut String, id: &str) {
    match id {
        "card" => write!(text, "[{id}{OURS} kind=\"{}\" zone=\"{}-{}\"]", r.one(&FARES), r.below(3), 3 + r.below(5)),
        "fw" => write!(text, "[{id}{OURS} version=\"{}\"]", r.one(&FIRMWARE)),
        _ => write!(text, "[{id}{OURS} name=\"{}\" ms=\"{}\"]", r.one(&STAGES), r.below(400)),
    }
    .expect("a String takes all");
}

/// Up to three elements: an id stands once in a line.
fn elements(r: &mut Random, text: &mut String, count: usize) {
    let mut ids = vec!["stage", "stage", "card", "fw"];
    for _ in 0..count {
        let id = r.one(&ids);
        ids.retain(|other| *other != id);
        element(r, text, id);
    }
}

/// Stages and how long each took, until the line has `target` bytes.
fn message(r: &mut Random, text: &mut String, target: u64) {
    text.push_str(r.one(&NOTES));
    while (text.len() as u64) < target {
        write!(text, ", {} {} ms", r.one(&STAGES), r.below(400)).expect("a String takes all");
    }
}

fn clock(r: &mut Random) -> String {
    format!("{:02}:{:02}:{:02}", r.below(24), r.below(60), r.below(60))
}

fn rfc5424(r: &mut Random, target: u64) -> String {
    let pri = 8 * (16 + r.below(8)) + r.below(8);
    let fraction = if r.below(2) == 0 { format!("{:03}", r.below(1000)) } else { format!("{:06}", r.below(1_000_000)) };
    let zone = if r.below(2) == 0 { "Z" } else { "+01:00" };
    let (month, day) = (1 + r.below(12), 1 + r.below(28));
    let mut text = format!("<{pri}>1 2023-{month:02}-{day:02}T{}.{fraction}{zone}", clock(r));
    let app = r.one(&APPS);
    write!(text, " gate{} {app} {} {} ", 1 + r.below(40), 100 + r.below(9900), r.one(&EVENTS)).expect("a String takes all");
    match COUNTS[r.below(8) as usize] {
        0 => text.push('-'),
        count => elements(r, &mut text, count),
    }
    text.push(' ');
    message(r, &mut text, target);
    text
}

fn rfc3164(r: &mut Random, target: u64) -> String {
    let pri = 8 * (16 + r.below(8)) + r.below(8);
    let mut text = format!("<{pri}>{} {:2} {}", r.one(&MONTHS), 1 + r.below(28), clock(r));
    write!(text, " gate{} {}[{}]: ", 1 + r.below(40), r.one(&APPS), 100 + r.below(9900)).expect("a String takes all");
    if r.below(2) == 0 {
        elements(r, &mut text, 1);
        text.push(' ');
    }
    message(r, &mut text, target);
    text
}

/// The file: `lines` lines, each with its LF.
pub fn file(lines: usize, seed: u64) -> String {
    let mut r = Random::new(seed);
    let mut all = String::new();
    for _ in 0..lines {
        let target = SHORTEST + r.below(120);
        all += &if r.below(2) == 0 { rfc3164(&mut r, target) } else { rfc5424(&mut r, target) };
        all.push('\n');
    }
    all
}

/// Whether a line of the file is of RFC 5424: behind `>` comes the version.
fn is_5424(line: &str) -> bool {
    line.contains(">1 ")
}

/// `5424-N`: those of RFC 5424 with N elements.
pub const KINDS_OF_LINES: [&str; 7] = ["all", "3164", "5424", "5424-0", "5424-1", "5424-2", "5424-3"];

/// The lines of a kind and the variant that reads them: all with variant 0, those of one protocol with its own.
pub fn of_kind<'a>(kind: &str, text: &'a str) -> Option<(u32, Vec<&'a str>)> {
    let lines = text.lines();
    match kind {
        "all" => Some((0, lines.collect())),
        "3164" => Some((1, lines.filter(|l| !is_5424(l)).collect())),
        "5424" => Some((2, lines.filter(|l| is_5424(l)).collect())),
        _ => {
            let elements: usize = kind.strip_prefix("5424-")?.parse().ok()?;
            Some((2, lines.filter(|l| is_5424(l) && l.matches(OURS).count() == elements).collect()))
        }
    }
}
