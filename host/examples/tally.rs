//! Prints how many records of each facility and severity came in, as a table for a person.
//!
//!     tally [FILE]
//!
//! FILE, or standard input, has a line of syslog to a line, of either protocol; the last counts without LF too. A line that has no
//! reading is a record of neither facility nor severity. A line that is refused is told on standard error with its number, and not
//! counted. The last line there has the counts.

use std::env;
use std::ffi::OsString;
use std::fs::File;
use std::io::{self, Read, Write};
use std::process::ExitCode;

use khamdoriem::{
    FrameError, Frames, Framing, LooseAnswer, Offset, Refusal, Settings, Tables, Tally, Variant, Year, MAX_LINE,
};

/// No time is printed, so a leap year serves: it takes 29 February too.
const SETTINGS: Settings = match Year::new(2024) {
    Some(year) => Settings::new(Variant::Either, year, Offset::UTC),
    None => panic!("no such year"),
};

/// What was seen.
struct Seen {
    tally: Tally,
    tables: Tables<'static>,
    lines: usize,
    refused: usize,
}

fn main() -> ExitCode {
    let args: Vec<OsString> = env::args_os().skip(1).collect();
    if args.len() > 1 {
        eprintln!("usage: tally [FILE]");
        return ExitCode::from(2);
    }
    let told = open(args.first()).and_then(tally).and_then(|seen| {
        writeln!(io::stdout(), "{}", seen.tally)?;
        Ok(format!("{} lines, {} of them refused", seen.lines, seen.refused))
    });
    match told {
        Ok(counts) => {
            eprintln!("tally: {counts}");
            ExitCode::SUCCESS
        }
        Err(error) => {
            eprintln!("tally: {error}");
            ExitCode::FAILURE
        }
    }
}

fn open(path: Option<&OsString>) -> io::Result<Box<dyn Read>> {
    match path {
        None => Ok(Box::new(io::stdin().lock())),
        Some(path) => {
            let telling = |e: io::Error| io::Error::new(e.kind(), format!("{}: {e}", path.to_string_lossy()));
            Ok(Box::new(File::open(path).map_err(telling)?))
        }
    }
}

/// Adds every line of a reader.
fn tally(reader: Box<dyn Read>) -> io::Result<Seen> {
    let mut seen = Seen { tally: Tally::new(), tables: Tables::for_any_line(), lines: 0, refused: 0 };
    let mut frames = Frames::new(reader, Framing::Lines);
    while let Some(frame) = frames.next_frame() {
        match frame {
            Ok(line) => seen.add(Ok(line)),
            Err(FrameError::Refused(refusal)) => seen.add(Err(refusal)),
            Err(error) => return Err(error.into()),
        }
    }
    match frames.finish() as usize {
        0 => {}
        len if len > MAX_LINE => seen.add(Err(Refusal::FrameTooLong)),
        _ => seen.add(Ok(frames.splitter().held())),
    }
    Ok(seen)
}

impl Seen {
    /// Adds a line to the tally, or tells why not.
    fn add(&mut self, line: Result<&[u8], Refusal>) {
        self.lines += 1;
        let (tally, tables) = (&mut self.tally, &mut self.tables);
        let reading = line.and_then(|line| tables.read_loose(line, SETTINGS)).map(LooseAnswer::or_whole);
        if let Err(refusal) = reading.and_then(|reading| tally.add_reading(&reading)) {
            self.refused += 1;
            eprintln!("tally: line {}: refusal {}: {refusal}", self.lines, refusal.number());
        }
    }
}
