//! The differential harness: the archive of the port beside the Rust crate, in one program, on the same inputs.
//!
//!     harness [--seed N] [--cases N] [--part I/N] [--lines KIND]     compares, and ends with one line
//!     harness --streams N [--seed N] [--part I/N]     compares N streams with a machine by hand, and ends with one line
//!     harness --tallies N [--seed N] [--part I/N]     compares N additions to tallies, and all reads, with a tally by hand, and ends with one line
//!     harness --settings N [--seed N] [--part I/N]    compares N settings files, writes and lines read with them, and ends with one line
//!     harness --reach N [--seed N] [--part I/N]       compares how far N damaged strict lines go with a machine and a search by hand, and ends with one line
//!     harness --claims N [--seed N] [--part I/N]      compares what is told of the claims of N strict lines, right and changed, with a check by hand, and ends with one line
//!     harness --writes N [--seed N] [--part I/N]      compares N field lists with a writer by hand, and ends with one line
//!     harness --compares N [--seed N] [--part I/N]    compares N pairs of lines with a comparison by hand, and ends with one line
//!     harness --replay N                              writes a list of N cases with the Rust's answers
//!     harness --stored FOLDER                         compares the stored output of the program `cases`

mod abi;
mod claims;
mod classes;
mod compare;
mod everywhere;
mod forge;
mod lent;
mod lines;
mod oracle;
mod pairs;
mod random;
mod reach;
mod records;
mod replay;
mod settings;
mod short;
mod shrink;
mod stored;
mod streams;
mod strict;
mod tallies;
mod writes;

use claims::Claims;
use compare::{Counts, Desk};
use lines::Lines;
use pairs::Pairs;
use reach::Reaches;
use shrink::{escaped, shrink, Shown};
use std::panic::{catch_unwind, AssertUnwindSafe};
use std::process::ExitCode;
use std::time::{Duration, Instant};
use settings::Files;
use streams::Streams;
use tallies::Tallies;
use writes::Writes;

struct Wanted {
    seed: u64,
    cases: u64,
    part: u64,
    parts: u64,
    ids: bool,
    streams: Option<u64>,
    tallies: Option<u64>,
    settings: Option<u64>,
    reach: Option<u64>,
    claims: Option<u64>,
    writes: Option<u64>,
    compares: Option<u64>,
    replay: Option<usize>,
    stored: Option<String>,
}

fn arguments() -> Result<Wanted, String> {
    let mut wanted = Wanted { seed: 1, cases: 100_000, part: 0, parts: 1, ids: false, streams: None, tallies: None, settings: None, reach: None, claims: None, writes: None, compares: None, replay: None, stored: None };
    let mut args = std::env::args().skip(1);
    while let Some(name) = args.next() {
        let value = args.next().ok_or(format!("{name} asks for a value"))?;
        let number = |text: &str| text.parse::<u64>().map_err(|_| format!("{name}: '{text}' is not a number"));
        match name.as_str() {
            "--seed" => wanted.seed = number(&value)?,
            "--cases" => wanted.cases = number(&value)?,
            "--streams" => wanted.streams = Some(number(&value)?),
            "--tallies" => wanted.tallies = Some(number(&value)?),
            "--settings" => wanted.settings = Some(number(&value)?),
            "--reach" => wanted.reach = Some(number(&value)?),
            "--claims" => wanted.claims = Some(number(&value)?),
            "--writes" => wanted.writes = Some(number(&value)?),
            "--compares" => wanted.compares = Some(number(&value)?),
            "--replay" => wanted.replay = Some(number(&value)? as usize),
            "--lines" => match value.as_str() {
                "all" => wanted.ids = false,
                "ids" => wanted.ids = true,
                _ => return Err(format!("--lines asks for all or ids, not '{value}'")),
            },
            "--stored" => wanted.stored = Some(value),
            "--part" => {
                let (part, parts) = value.split_once('/').ok_or("--part asks for I/N")?;
                (wanted.part, wanted.parts) = (number(part)?.wrapping_sub(1), number(parts)?);
            }
            _ => return Err(format!("unknown argument '{name}'")),
        }
    }
    if wanted.part >= wanted.parts {
        return Err("--part I/N asks for I from 1 to N".into());
    }
    Ok(wanted)
}

fn summary(wanted: &Wanted, counts: &Counts, unexplained: u64) -> String {
    let classes: Vec<String> = counts.classes.iter().enumerate().map(|(at, count)| format!("D{} {count}", at + 1)).collect();
    format!(
        "seed {} part {}/{}: {} cases ({} calls, {} lines, {} with a loose reading, {} taken strictly), {}, {} unexplained",
        wanted.seed, wanted.part + 1, wanted.parts, counts.cases, counts.calls, counts.lines, counts.read, counts.strict, classes.join(" "), unexplained
    )
}

/// Runs until enough cases are done; the first difference that no class explains ends it.
fn run(wanted: &Wanted, desk: &mut Desk) -> Option<(Shown, u64)> {
    let mut lines = Lines::new(wanted.seed, wanted.part, wanted.parts);
    let mut line = Vec::new();
    let (start, mut told) = (Instant::now(), Instant::now());
    while desk.counts.cases < wanted.cases {
        let (settings, salt) = if wanted.ids { lines.next_ids(&mut line) } else { lines.next(&mut line) };
        let seen = catch_unwind(AssertUnwindSafe(|| desk.line(&line, settings, salt)));
        match seen {
            Ok(Ok(())) => {}
            Ok(Err(fault)) => return Some((Shown { line, settings, fault }, salt)),
            Err(_) => {
                eprintln!("harness: stopped on the line \"{}\" with {settings:?}", escaped(&line));
                std::process::exit(3);
            }
        }
        if told.elapsed() >= Duration::from_secs(5) {
            told = Instant::now();
            let rate = desk.counts.cases as f64 / start.elapsed().as_secs_f64();
            eprintln!("harness: {} ({rate:.0} cases a second, short strings past {} letters)", summary(wanted, &desk.counts, 0), lines.letters());
        }
    }
    None
}

fn compared(wanted: &Wanted) -> ExitCode {
    let mut desk = Desk::new();
    if abi::interface() != abi::INTERFACE {
        println!("harness: the interface differs in its number");
        println!("  ours     {}", abi::interface());
        println!("  wanted   {}", abi::INTERFACE);
        println!("harness: {}", summary(wanted, &desk.counts, 1));
        return ExitCode::FAILURE;
    }
    let Some((shown, salt)) = run(wanted, &mut desk) else {
        println!("harness: {}", summary(wanted, &desk.counts, 0));
        return ExitCode::SUCCESS;
    };
    let counts = desk.counts;
    eprintln!("harness: a difference on \"{}\" with {:?}; making it smaller", escaped(&shown.line), shown.settings);
    let shown = shrink(&mut desk, shown, salt);
    println!("harness: {} differs in {}", shown.fault.service, shown.fault.what);
    println!("  line     \"{}\"", escaped(&shown.line));
    println!("  settings {:?}", shown.settings);
    println!("  ours     {}", shown.fault.ours);
    println!("  wanted   {}", shown.fault.theirs);
    println!("harness: {}", summary(wanted, &counts, 1));
    ExitCode::FAILURE
}

fn stream_summary(wanted: &Wanted, counts: &streams::Counts, unexplained: u64) -> String {
    let streams::Counts { streams, calls, bytes, frames, long, bad, unfinished } = counts;
    format!(
        "seed {} part {}/{}: {streams} streams ({calls} calls, {bytes} bytes, {frames} frames, {long} refusals 12, {bad} refusals 11, {unfinished} unfinished), {unexplained} unexplained",
        wanted.seed, wanted.part + 1, wanted.parts
    )
}

/// Streams against the machine by hand; the first difference ends it.
fn compared_streams(wanted: &Wanted, count: u64) -> ExitCode {
    let mut streams = Streams::new(wanted.seed, wanted.part);
    let (start, mut told) = (Instant::now(), Instant::now());
    while streams.counts.streams < count {
        if let Err(difference) = streams.next() {
            println!("harness: {} differs in a stream", difference.what);
            println!("  line     \"{}\"", difference.stream);
            println!("  from     {:?}", difference.from);
            println!("  cut at   {:?}", difference.cuts);
            println!("  ours     {}", difference.ours);
            println!("  wanted   {}", difference.wanted);
            println!("harness: {}", stream_summary(wanted, &streams.counts, 1));
            return ExitCode::FAILURE;
        }
        if streams.counts.streams % 1024 == 0 && told.elapsed() >= Duration::from_secs(5) {
            told = Instant::now();
            let rate = streams.counts.streams as f64 / start.elapsed().as_secs_f64();
            eprintln!("harness: {} ({rate:.0} streams a second)", stream_summary(wanted, &streams.counts, 0));
        }
    }
    println!("harness: {}", stream_summary(wanted, &streams.counts, 0));
    ExitCode::SUCCESS
}

fn tally_summary(wanted: &Wanted, counts: &tallies::Counts, unexplained: u64) -> String {
    let tallies::Counts { additions, accepted, unsuitable, short, full, reads } = counts;
    format!(
        "seed {} part {}/{}: {additions} additions ({accepted} accepted, {unsuitable} refusals 7, {short} refusals 8, {full} refusals 10, {reads} reads), {unexplained} unexplained",
        wanted.seed, wanted.part + 1, wanted.parts
    )
}

/// Additions to tallies and reads of them against one by hand; the first difference ends it.
fn compared_tallies(wanted: &Wanted, count: u64) -> ExitCode {
    let mut tallies = Tallies::new(wanted.seed, wanted.part);
    let (start, mut told) = (Instant::now(), Instant::now());
    while tallies.counts.additions < count {
        let ends = tallies.counts.additions + 1 == count;
        let seen = tallies.next();
        if let Err(difference) = if ends { seen.and_then(|()| tallies.read()) } else { seen } {
            println!("harness: {} differs in a tally", difference.what);
            println!("  call     {:?}", difference.last);
            println!("  ours     {}", difference.ours);
            println!("  wanted   {}", difference.wanted);
            println!("harness: {}", tally_summary(wanted, &tallies.counts, 1));
            return ExitCode::FAILURE;
        }
        if tallies.counts.additions % 1024 == 0 && told.elapsed() >= Duration::from_secs(5) {
            told = Instant::now();
            let rate = tallies.counts.additions as f64 / start.elapsed().as_secs_f64();
            eprintln!("harness: {} ({rate:.0} additions a second)", tally_summary(wanted, &tallies.counts, 0));
        }
    }
    println!("harness: {}", tally_summary(wanted, &tallies.counts, 0));
    ExitCode::SUCCESS
}

fn settings_summary(wanted: &Wanted, counts: &settings::Counts, unexplained: u64) -> String {
    let settings::Counts { cases, reads, taken, refused: [length, gate, version, field], writes, written, lines, read, defaults } = counts;
    format!(
        "seed {} part {}/{}: {cases} cases ({reads} reads of files, {taken} taken, {length} refusals 13, {gate} refusals 9, {version} refusals 14, {field} refusals 15, {writes} writes, {written} written, {lines} lines, {read} readings, {defaults} default hosts), {unexplained} unexplained",
        wanted.seed, wanted.part + 1, wanted.parts
    )
}

/// Settings files, writes and lines against those by hand; the first difference ends it.
fn compared_settings(wanted: &Wanted, count: u64) -> ExitCode {
    let mut files = Files::new(wanted.seed, wanted.part, wanted.parts);
    let (start, mut told) = (Instant::now(), Instant::now());
    while files.counts.cases < count {
        if let Err(difference) = files.next() {
            println!("harness: {} differs in settings", difference.what);
            println!("  call     {}", difference.call);
            println!("  ours     {}", difference.ours);
            println!("  wanted   {}", difference.wanted);
            println!("harness: {}", settings_summary(wanted, &files.counts, 1));
            return ExitCode::FAILURE;
        }
        if files.counts.cases % 1024 == 0 && told.elapsed() >= Duration::from_secs(5) {
            told = Instant::now();
            let rate = files.counts.cases as f64 / start.elapsed().as_secs_f64();
            eprintln!("harness: {} ({rate:.0} cases a second)", settings_summary(wanted, &files.counts, 0));
        }
    }
    println!("harness: {}", settings_summary(wanted, &files.counts, 0));
    ExitCode::SUCCESS
}

fn reach_summary(wanted: &Wanted, counts: &reach::Counts, unexplained: u64) -> String {
    let reach::Counts { lines, refused, whole, searched, calls } = counts;
    format!(
        "seed {} part {}/{}: {lines} lines ({refused} refused, {whole} right to the end, {searched} searched, {calls} calls), {unexplained} unexplained",
        wanted.seed, wanted.part + 1, wanted.parts
    )
}

/// Damaged strict lines against what is told by hand of how far they go; the first difference ends it.
fn compared_reach(wanted: &Wanted, count: u64) -> ExitCode {
    let mut reaches = Reaches::new(wanted.seed, wanted.part, wanted.parts);
    let (start, mut told) = (Instant::now(), Instant::now());
    while reaches.counts.lines < count {
        if let Err(difference) = reaches.next() {
            println!("harness: {} differs", difference.what);
            println!("  line     \"{}\"", difference.line);
            println!("  ours     {}", difference.ours);
            println!("  wanted   {}", difference.wanted);
            println!("harness: {}", reach_summary(wanted, &reaches.counts, 1));
            return ExitCode::FAILURE;
        }
        if told.elapsed() >= Duration::from_secs(5) {
            told = Instant::now();
            let rate = reaches.counts.lines as f64 / start.elapsed().as_secs_f64();
            eprintln!("harness: {} ({rate:.0} lines a second)", reach_summary(wanted, &reaches.counts, 0));
        }
    }
    println!("harness: {}", reach_summary(wanted, &reaches.counts, 0));
    ExitCode::SUCCESS
}

fn claim_summary(wanted: &Wanted, counts: &claims::Counts, unexplained: u64) -> String {
    let claims::Counts { lines, derived, claims, yes, unsuitable, wrong } = counts;
    format!(
        "seed {} part {}/{}: {lines} lines ({derived} derived, {claims} claims, {yes} told yes, {unsuitable} refusals 7, {wrong} refusals 16), {unexplained} unexplained",
        wanted.seed, wanted.part + 1, wanted.parts
    )
}

/// Claims of strict lines, right and changed, against a check by hand; the first difference ends it.
fn compared_claims(wanted: &Wanted, count: u64) -> ExitCode {
    let mut claims = Claims::new(wanted.seed, wanted.part, wanted.parts);
    let (start, mut told) = (Instant::now(), Instant::now());
    while claims.counts.lines < count {
        if let Err(difference) = claims.next() {
            println!("harness: a claim differs in {}", difference.what);
            println!("  line     \"{}\"", difference.line);
            println!("  ours     {}", difference.ours);
            println!("  wanted   {}", difference.wanted);
            println!("harness: {}", claim_summary(wanted, &claims.counts, 1));
            return ExitCode::FAILURE;
        }
        if told.elapsed() >= Duration::from_secs(5) {
            told = Instant::now();
            let rate = claims.counts.lines as f64 / start.elapsed().as_secs_f64();
            eprintln!("harness: {} ({rate:.0} lines a second)", claim_summary(wanted, &claims.counts, 0));
        }
    }
    println!("harness: {}", claim_summary(wanted, &claims.counts, 0));
    ExitCode::SUCCESS
}

fn write_summary(wanted: &Wanted, counts: &writes::Counts, unexplained: u64) -> String {
    let writes::Counts { lists, written, unsuitable, unwritable, long, short, bytes, classes: [w1, w2, w3, w4] } = counts;
    format!(
        "seed {} part {}/{}: {lists} field lists ({written} written, {unsuitable} refusals 7, {unwritable} refusals 17, {long} refusals 1, {short} refusals 8, {bytes} bytes), W1 {w1} W2 {w2} W3 {w3} W4 {w4}, {unexplained} unexplained",
        wanted.seed, wanted.part + 1, wanted.parts
    )
}

/// Field lists against the writer by hand, the strict reader and the Rust; the first difference ends it.
fn compared_writes(wanted: &Wanted, count: u64) -> ExitCode {
    let mut writes = Writes::new(wanted.seed, wanted.part);
    let (start, mut told) = (Instant::now(), Instant::now());
    while writes.counts.lists < count {
        if let Err(difference) = writes.next() {
            println!("harness: {} differs in a line that is written", difference.what);
            println!("  call     {}", difference.list);
            println!("  ours     {}", difference.ours);
            println!("  wanted   {}", difference.wanted);
            println!("harness: {}", write_summary(wanted, &writes.counts, 1));
            return ExitCode::FAILURE;
        }
        if writes.counts.lists % 1024 == 0 && told.elapsed() >= Duration::from_secs(5) {
            told = Instant::now();
            let rate = writes.counts.lists as f64 / start.elapsed().as_secs_f64();
            eprintln!("harness: {} ({rate:.0} field lists a second)", write_summary(wanted, &writes.counts, 0));
        }
    }
    println!("harness: {}", write_summary(wanted, &writes.counts, 0));
    ExitCode::SUCCESS
}

fn pairs_summary(wanted: &Wanted, counts: &pairs::Counts, unexplained: u64) -> String {
    let pairs::Counts { pairs, calls, same, refused, elements, named } = counts;
    format!(
        "seed {} part {}/{}: {pairs} pairs ({calls} calls, {same} the same, {refused} refused, {elements} with other elements, {named} with a pair), {unexplained} unexplained",
        wanted.seed, wanted.part + 1, wanted.parts
    )
}

/// Pairs of lines against a comparison by hand; the first difference ends it.
fn compared_pairs(wanted: &Wanted, count: u64) -> ExitCode {
    let mut pairs = Pairs::new(wanted.seed, wanted.part, wanted.parts);
    let (start, mut told) = (Instant::now(), Instant::now());
    while pairs.counts.pairs < count {
        if let Err(difference) = pairs.next() {
            println!("harness: {} differs in a pair of lines", difference.what);
            println!("  call     {}", difference.call);
            println!("  ours     {}", difference.ours);
            println!("  wanted   {}", difference.wanted);
            println!("harness: {}", pairs_summary(wanted, &pairs.counts, 1));
            return ExitCode::FAILURE;
        }
        if pairs.counts.pairs % 1024 == 0 && told.elapsed() >= Duration::from_secs(5) {
            told = Instant::now();
            let rate = pairs.counts.pairs as f64 / start.elapsed().as_secs_f64();
            eprintln!("harness: {} ({rate:.0} pairs a second)", pairs_summary(wanted, &pairs.counts, 0));
        }
    }
    println!("harness: {}", pairs_summary(wanted, &pairs.counts, 0));
    ExitCode::SUCCESS
}

fn main() -> ExitCode {
    match arguments() {
        Err(error) => {
            eprintln!("harness: {error}");
            ExitCode::from(2)
        }
        Ok(Wanted { replay: Some(count), .. }) => replay::write(count),
        Ok(Wanted { stored: Some(folder), .. }) => stored::compare(&folder),
        Ok(wanted @ Wanted { streams: Some(count), .. }) => compared_streams(&wanted, count),
        Ok(wanted @ Wanted { tallies: Some(count), .. }) => compared_tallies(&wanted, count),
        Ok(wanted @ Wanted { settings: Some(count), .. }) => compared_settings(&wanted, count),
        Ok(wanted @ Wanted { reach: Some(count), .. }) => compared_reach(&wanted, count),
        Ok(wanted @ Wanted { claims: Some(count), .. }) => compared_claims(&wanted, count),
        Ok(wanted @ Wanted { writes: Some(count), .. }) => compared_writes(&wanted, count),
        Ok(wanted @ Wanted { compares: Some(count), .. }) => compared_pairs(&wanted, count),
        Ok(wanted) => compared(&wanted),
    }
}
