//! Prints where the milliseconds of each tap went: host, stage and milliseconds, a tab between, a line for each stage.
//!
//!     stages [--counted] [FILE]
//!
//! FILE has a line of syslog to a line, of either protocol, or with `--counted` to a counted frame (RFC 6587); without FILE they come
//! from standard input. A gate tells of a stage in
//! an element `stage@32473` with the parameters `name` and `ms`, a whole number. A line may have more than one. A host or a
//! name that is absent is printed as `-`.
//!
//! What has no stage to print is told on standard error with the number of its line, so that nothing is lost: a line that is
//! refused (with the refusal's number), a line without a stage, a stage without milliseconds. The last line there has the counts. The
//! last line of all counts without LF too; a counted frame that is not complete does not, and is told of. A bad count ends the stream
//! and fails.

use std::env;
use std::ffi::OsString;
use std::fmt;
use std::fs::File;
use std::io::{self, BufWriter, Read, Write};
use std::process::ExitCode;

use khamdoriem::{
    Element, FrameError, Frames, Framing, LooseAnswer, Offset, Refusal, Settings, Tables, Unescape, Variant, Year,
    MAX_LINE,
};

/// The id of the element that tells of a stage. 32473 is the enterprise number for examples.
const STAGE: &str = "stage@32473";

/// No time is printed, so a leap year serves: it takes 29 February too.
const SETTINGS: Settings = match Year::new(2024) {
    Some(year) => Settings::new(Variant::Either, year, Offset::UTC),
    None => panic!("no such year"),
};

/// What was seen.
#[derive(Default)]
struct Counts {
    lines: usize,
    stages: usize,
    without: usize,
    damaged: usize,
    refused: usize,
}

impl fmt::Display for Counts {
    fn fmt(&self, f: &mut fmt::Formatter<'_>) -> fmt::Result {
        let Counts { lines, stages, without, damaged, refused } = self;
        write!(f, "lines {lines}, stages {stages}, lines without a stage {without}, ")?;
        write!(f, "damaged stages {damaged}, refused lines {refused}")
    }
}

fn main() -> ExitCode {
    let mut args: Vec<OsString> = env::args_os().skip(1).collect();
    let framing = if args.first().map_or(false, |arg| arg == "--counted") { Framing::Counted } else { Framing::Lines };
    if framing == Framing::Counted {
        args.remove(0);
    }
    if args.len() > 1 {
        eprintln!("usage: stages [--counted] [FILE]");
        return ExitCode::from(2);
    }
    let listed = open(args.first()).and_then(|reader| {
        let mut output = BufWriter::new(io::stdout().lock());
        let listed = list(Frames::new(reader, framing), &mut output);
        output.flush().and(listed)
    });
    match listed {
        Ok(counts) => {
            eprintln!("stages: {counts}");
            ExitCode::SUCCESS
        }
        Err(error) => {
            eprintln!("stages: {error}");
            ExitCode::FAILURE
        }
    }
}

fn open(path: Option<&OsString>) -> io::Result<Box<dyn Read>> {
    match path {
        None => Ok(Box::new(io::stdin().lock())),
        Some(path) => Ok(Box::new(File::open(path).map_err(telling(&path.to_string_lossy()))?)),
    }
}

/// An error with the place where it came up in front.
fn telling(place: &str) -> impl Fn(io::Error) -> io::Error + '_ {
    move |error| io::Error::new(error.kind(), format!("{place}: {error}"))
}

/// Lists every frame, with one pair of tables. A frame is a line.
fn list(mut frames: Frames<impl Read>, output: &mut impl Write) -> io::Result<Counts> {
    let mut tables = Tables::for_any_line();
    let mut counts = Counts::default();
    while let Some(frame) = frames.next_frame() {
        counts.lines += 1;
        match frame {
            Ok(line) => list_line(line, &mut tables, &mut counts, output)?,
            Err(FrameError::Refused(Refusal::FrameTooLong)) => refuse(Refusal::FrameTooLong, &mut counts),
            Err(error) => return Err(telling(&format!("line {}", counts.lines))(error.into())),
        }
    }
    list_rest(&frames, &mut tables, &mut counts, output)?;
    Ok(counts)
}

/// What came behind the last frame.
fn list_rest(
    frames: &Frames<impl Read>,
    tables: &mut Tables<'_>,
    counts: &mut Counts,
    output: &mut impl Write,
) -> io::Result<()> {
    match (frames.finish() as usize, frames.splitter().framing()) {
        (0, _) => Ok(()),
        (len, Framing::Counted) => {
            eprintln!("stages: the stream ends in a frame of which {len} bytes came");
            Ok(())
        }
        (len, Framing::Lines) => {
            counts.lines += 1;
            if len > MAX_LINE {
                refuse(Refusal::FrameTooLong, counts);
                return Ok(());
            }
            list_line(frames.splitter().held(), tables, counts, output)
        }
    }
}

fn refuse(refusal: Refusal, counts: &mut Counts) {
    counts.refused += 1;
    eprintln!("stages: line {}: refusal {}: {refusal}", counts.lines, refusal.number());
}

fn list_line(line: &[u8], tables: &mut Tables<'_>, counts: &mut Counts, output: &mut impl Write) -> io::Result<()> {
    let reading = match tables.read_loose(line, SETTINGS).and_then(LooseAnswer::exact) {
        Ok(reading) => reading,
        Err(refusal) => {
            refuse(refusal, counts);
            return Ok(());
        }
    };
    let host = reading.host_str().unwrap_or("-");
    let mut stages = reading.elements_with(STAGE).peekable();
    if stages.peek().is_none() {
        counts.without += 1;
        eprintln!("stages: line {}: no stage", counts.lines);
    }
    for stage in stages {
        list_stage(host, &stage, counts, output)?;
    }
    Ok(())
}

fn list_stage(host: &str, stage: &Element<'_, '_>, counts: &mut Counts, output: &mut impl Write) -> io::Result<()> {
    let mut buffer = [0; MAX_LINE];
    if let Some(ms) = milliseconds(stage, &mut buffer) {
        counts.stages += 1;
        let name = value(stage, "name", &mut buffer).unwrap_or("-");
        writeln!(output, "{host}\t{name}\t{ms}")
    } else {
        counts.damaged += 1;
        eprintln!("stages: line {}: a stage without milliseconds: {stage:?}", counts.lines);
        Ok(())
    }
}

/// The value of the stage's first parameter of this name, unescaped. The buffer is as long as the longest line, so it is long enough.
fn value<'buffer>(stage: &Element<'_, '_>, name: &str, buffer: &'buffer mut [u8; MAX_LINE]) -> Option<&'buffer str> {
    stage.get(name)?.unescaped_str(Unescape::Loose, buffer).ok()
}

/// The stage's milliseconds, where it has them and they are a whole number.
fn milliseconds(stage: &Element<'_, '_>, buffer: &mut [u8; MAX_LINE]) -> Option<u64> {
    value(stage, "ms", buffer)?.parse().ok()
}
