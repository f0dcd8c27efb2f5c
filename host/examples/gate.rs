//! Writes the taps of a gate as lines of RFC 5424, such as every strict reader takes.
//!
//!     gate [FILE]
//!
//! FILE, or standard input, has a tap's stage to a line, with a tab between its columns: when it was, in seconds since 1970 with up to
//! nine digits behind a point, or `-` where the gate had no clock; the gate; the reader's process id; the stage's name; its
//! milliseconds; and the words of the message, which may be missing. What is written is the proved writer's: quotes and brackets in a
//! name get their backslash, and a reader reads the columns back. A tap that no line can tell is told on standard error with its
//! number, and not written. The last line there has the counts.

use std::env;
use std::ffi::OsString;
use std::fs::File;
use std::io::{self, BufRead, BufReader, BufWriter, Write};
use std::process::ExitCode;
use std::str;

use khamdoriem::{Draft, Facility, Line, Offset, Refusal, Severity, Timestamp, MAX_LINE};

/// The id of the element that tells of a stage. 32473 is the enterprise number for examples.
const STAGE: &str = "stage@32473";

/// Why a tap is not written.
enum Untold {
    /// Its row has not five or six columns, or another clock.
    Row,
    Refused(Refusal),
}

fn main() -> ExitCode {
    let args: Vec<OsString> = env::args_os().skip(1).collect();
    if args.len() > 1 {
        eprintln!("usage: gate [FILE]");
        return ExitCode::from(2);
    }
    match open(args.first()).and_then(write_all) {
        Ok((taps, untold)) => {
            eprintln!("gate: {taps} taps, {untold} of them not written");
            ExitCode::SUCCESS
        }
        Err(error) => {
            eprintln!("gate: {error}");
            ExitCode::FAILURE
        }
    }
}

fn open(path: Option<&OsString>) -> io::Result<Box<dyn BufRead>> {
    match path {
        None => Ok(Box::new(io::stdin().lock())),
        Some(path) => {
            let telling = |e: io::Error| io::Error::new(e.kind(), format!("{}: {e}", path.to_string_lossy()));
            Ok(Box::new(BufReader::new(File::open(path).map_err(telling)?)))
        }
    }
}

/// Writes every row's line: how many rows there were, and how many were not written.
fn write_all(mut rows: Box<dyn BufRead>) -> io::Result<(usize, usize)> {
    let mut lines = BufWriter::new(io::stdout().lock());
    // Made once, for all lines.
    let (mut draft, mut output) = (Draft::new(1, 2), [0; MAX_LINE]);
    let (mut row, mut taps, mut untold) = (Vec::new(), 0, 0);
    while rows.read_until(b'\n', &mut row)? > 0 {
        taps += 1;
        match tap(row.strip_suffix(b"\n").unwrap_or(&row), &mut draft, &mut output) {
            Ok(line) => {
                lines.write_all(line)?;
                lines.write_all(b"\n")?;
            }
            Err(why) => {
                untold += 1;
                match why {
                    Untold::Row => eprintln!("gate: tap {taps}: its row is none"),
                    Untold::Refused(refusal) => eprintln!("gate: tap {taps}: refusal {}: {refusal}", refusal.number()),
                }
            }
        }
        row.clear();
    }
    lines.flush()?;
    Ok((taps, untold))
}

/// The line of a row.
fn tap<'output>(row: &[u8], draft: &mut Draft<'_>, output: &'output mut [u8]) -> Result<&'output [u8], Untold> {
    let columns: Vec<&[u8]> = row.splitn(6, |&byte| byte == b'\t').collect();
    let (clock, host, process_id, name, ms, words) = match columns[..] {
        [clock, host, process_id, name, ms] => (clock, host, process_id, name, ms, None),
        [clock, host, process_id, name, ms, words] => (clock, host, process_id, name, ms, Some(words)),
        _ => return Err(Untold::Row),
    };
    let line =
        Line::new(draft, (Facility::User, Severity::Notice)).host(host).app_name("reader").process_id(process_id);
    let mut line = line.message_id("TAP").element(STAGE).param("name", name).param("ms", ms);
    if clock != b"-" {
        line = line.timestamp(instant(clock).ok_or(Untold::Row)?);
    }
    if let Some(words) = words {
        line = line.message(words);
    }
    line.write(output).map_err(Untold::Refused)
}

/// Seconds since 1970 with a fraction, as a timestamp of as many digits.
fn instant(clock: &[u8]) -> Option<Timestamp> {
    let text = str::from_utf8(clock).ok()?;
    let (whole, fraction) = text.split_once('.').unwrap_or((text, ""));
    if fraction.len() > 9 || !fraction.bytes().all(|byte| byte.is_ascii_digit()) {
        return None;
    }
    let seconds: i64 = whole.parse().ok()?;
    let nanoseconds: u32 = format!("{fraction:0<9}").parse().ok()?;
    // Before 1970 a fraction goes further back, and nanoseconds are past their second.
    let (seconds, nanoseconds) = match (whole.starts_with('-'), nanoseconds) {
        (true, 1..) => (seconds.checked_sub(1)?, 1_000_000_000 - nanoseconds),
        _ => (seconds, nanoseconds),
    };
    Timestamp::new(seconds, nanoseconds, fraction.len() as u8, Offset::UTC)
}
