//! What is done with a reading: it is printed, and a parameter is looked up in it, by the Rust and by ours.
use crate::readers::{rust, Lent, Written, ROWS};
use crate::work::Work;
use std::fmt::Write;
use std::hint::black_box;
use syslog_loose::Message;

/// The most readings that are kept, and how often each is used in a pass.
const KEPT: usize = 1000;
const ROUNDS: usize = 10;
/// Room for what a line of a gate is printed as.
const OUTPUT: usize = 1024;
/// What is looked up.
const ID: &str = "stage@32473";
const NAME: &str = "ms";

extern "C" {
    fn khamdoriem_print(
        line: *const u8, line_len: usize, record: *const u8, record_len: usize, elements: *const [usize; 2], elements_len: usize,
        params: *const [usize; 5], params_len: usize, output: *mut u8, output_len: usize,
    ) -> Written;
    fn khamdoriem_lookup(
        line: *const u8, line_len: usize, record: *const u8, record_len: usize, elements: *const [usize; 2], elements_len: usize,
        params: *const [usize; 5], params_len: usize, id: *const u8, id_len: usize, name: *const u8, name_len: usize, kind: u32,
        output: *mut u8, output_len: usize,
    ) -> Written;
}

/// A line, and what our loose reader left of it.
struct Reading {
    line: &'static [u8],
    lent: Lent,
}

impl Reading {
    #[inline]
    fn print(&self, output: &mut [u8]) -> Written {
        let (line, record, elements, params) = (self.line, &self.lent.record, &self.lent.elements, &self.lent.params);
        // SAFETY: each pointer comes with its own slice's length, and the output overlaps none.
        unsafe {
            khamdoriem_print(
                line.as_ptr(), line.len(), record.as_ptr(), record.len(), elements.as_ptr(), elements.len(), params.as_ptr(), params.len(),
                output.as_mut_ptr(), output.len(),
            )
        }
    }

    #[inline]
    fn lookup(&self, output: &mut [u8]) -> Written {
        let (line, record, elements, params) = (self.line, &self.lent.record, &self.lent.elements, &self.lent.params);
        // SAFETY: as above.
        unsafe {
            khamdoriem_lookup(
                line.as_ptr(), line.len(), record.as_ptr(), record.len(), elements.as_ptr(), elements.len(), params.as_ptr(), params.len(),
                ID.as_ptr(), ID.len(), NAME.as_ptr(), NAME.len(), 0, output.as_mut_ptr(), output.len(),
            )
        }
    }
}

fn kept(text: &'static str) -> impl Iterator<Item = &'static str> {
    text.lines().take(KEPT)
}

fn ours(text: &'static str) -> Vec<Reading> {
    let reading = |line: &'static str| {
        let mut lent = Lent::of(ROWS);
        lent.loose(line.as_bytes(), 0);
        Reading { line: line.as_bytes(), lent }
    };
    kept(text).map(reading).collect()
}

fn theirs(text: &'static str) -> Vec<Message<&'static str>> {
    kept(text).filter_map(|line| rust(line, 0).ok()).collect()
}

/// The Rust has no lookup, but an iterator that unescapes values.
#[inline]
fn value_in(message: &Message<&str>) -> Option<String> {
    let mut elements = message.structured_data.iter().filter(|element| element.id == ID);
    elements.find_map(|element| element.params().find(|(name, _)| **name == NAME).map(|(_, value)| value))
}

fn each<T: 'static>(readings: Vec<T>, mut call: impl FnMut(&T) + 'static) -> Work {
    Work::new(ROUNDS * readings.len(), move || {
        (0..ROUNDS).for_each(|_| readings.iter().for_each(|reading| call(black_box(reading))));
        Ok(())
    })
}

/// This is the measured part. The outputs are used again, and not cleared.
pub fn work(side: &str, what: &str, text: &'static str) -> Option<Work> {
    let (mut printed, mut output) = (String::with_capacity(OUTPUT), vec![0; OUTPUT]);
    match (side, what) {
        ("rust", "print") => Some(each(theirs(text), move |message| {
            printed.clear();
            write!(printed, "{message}").expect("a String takes all");
            black_box(&printed);
        })),
        ("rust", "lookup") => Some(each(theirs(text), |message| {
            black_box(&value_in(message));
        })),
        ("loose", "print") => Some(each(ours(text), move |reading| {
            black_box(reading.print(&mut output));
        })),
        ("loose", "lookup") => Some(each(ours(text), move |reading| {
            black_box(reading.lookup(&mut output));
        })),
        _ => None,
    }
}

/// A printed line without its timestamp's fraction, of which the Rust may print other digits (docs/DIFFERENCES.md, D8).
fn without_fraction(printed: &str) -> String {
    let stamp = printed.find(' ').map_or(0, |space| space + 1);
    let point = stamp + "2023-02-05T10:01:02".len();
    match printed.get(point..).and_then(|rest| rest.strip_prefix('.')) {
        Some(rest) => printed[..point].to_string() + rest.trim_start_matches(|c: char| c.is_ascii_digit()),
        None => printed.to_string(),
    }
}

/// Prints and looks up each reading once, by both sides, and says how many calls a pass has and how many of them find a value, as rows of the results.
pub fn check(text: &'static str) -> Result<(), String> {
    // The record of interface 1 (bench/run, --before) is another.
    if cfg!(interface_1) {
        return Ok(());
    }
    let (ours, theirs, mut output, mut found) = (ours(text), theirs(text), vec![0; OUTPUT], 0);
    if ours.len() != theirs.len() {
        return Err("the Rust has no reading of a line".to_string());
    }
    for (reading, message) in ours.iter().zip(&theirs) {
        let (written, wanted) = (reading.print(&mut output), message.to_string());
        let printed = String::from_utf8_lossy(&output[..written.len]);
        if written.number != 0 || without_fraction(&printed) != without_fraction(&wanted) {
            return Err(format!("the Rust prints '{wanted}', ours (number {}) '{printed}'", written.number));
        }
        let (looked_up, value) = (reading.lookup(&mut output), value_in(message));
        let same = if looked_up.number == 0 { value.as_deref().map(str::as_bytes) == Some(&output[..looked_up.len]) } else { looked_up.number == 9 && value.is_none() };
        if !same {
            return Err(format!("the Rust looks up {value:?}, ours answers {}: {wanted}", looked_up.number));
        }
        found += usize::from(value.is_some());
    }
    println!("use print {0}\nuse lookup {0} {1}", ROUNDS * ours.len(), ROUNDS * found);
    Ok(())
}
