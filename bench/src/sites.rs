//! What a settings file costs: the settings of a gate among so many records, a record that is written, and a line that is read with them.
use crate::readers::{Lent, Written};
use crate::work::Work;
use std::hint::black_box;

const RECORD: usize = 32;
/// The gate that is asked for; every other record is of another.
const GATE: u32 = 7;
const LINE: &[u8] = br#"<13>1 2023-02-05T10:01:02.215Z - reader 42 TAP [stage@32473 name="denylist" ms="212"][card@32473 kind="day"] ok"#;

/// What is called, how often in a pass, and on which file: so many records, of which the gate's stands at a place.
pub struct Kind {
    pub name: &'static str,
    pub what: &'static str,
    calls: usize,
    records: usize,
    at: usize,
    call: fn(&[u8], &mut Lent) -> u32,
}

const fn kind(name: &'static str, what: &'static str, calls: usize, records: usize, at: usize, call: fn(&[u8], &mut Lent) -> u32) -> Kind {
    Kind { name, what, calls, records, at, call }
}

pub const KINDS: [Kind; 9] = [
    kind("read-1", "the settings of a gate, from a file of 1 record", 10_000, 1, 0, |file, _| read(file)),
    kind("read-100-last", "the same of 100, where its record is the last", 10_000, 100, 99, |file, _| read(file)),
    kind("read-100", "where it is the first, so that all are gone through", 10_000, 100, 0, |file, _| read(file)),
    kind("read-10000-last", "of 10,000, the last", 10_000, 10_000, 9_999, |file, _| read(file)),
    kind("read-10000", "the first", 100, 10_000, 0, |file, _| read(file)),
    kind("write", "a record that is written", 10_000, 1, 0, |_, _| write()),
    kind("loose", "a line of 111 bytes without a host, by the loose reader", 10_000, 1, 0, |_, lent| lent.loose(black_box(LINE), 0).number()),
    kind("with-1", "the same line with settings, from a file of 1 record", 10_000, 1, 0, |file, lent| lent.with_settings(file, GATE, black_box(LINE))),
    kind("with-100", "from one of 100, where its record is the first", 10_000, 100, 0, |file, lent| lent.with_settings(file, GATE, black_box(LINE))),
];

pub fn named(name: &str) -> Option<&'static Kind> {
    KINDS.iter().find(|kind| kind.name == name)
}

/// Answers of the archive (include/khamdoriem.h).
#[repr(C)]
#[derive(Default)]
struct Settings {
    number: u32,
    version: u32,
    gate: u32,
    year: u32,
    offset: i32,
    variant: u32,
    host_start: usize,
    host_len: usize,
}

#[cfg(not(no_settings))]
extern "C" {
    fn khamdoriem_settings_read(file: *const u8, file_len: usize, gate: u32) -> Settings;
    fn khamdoriem_settings_write(
        version: u32,
        gate: u32,
        year: u32,
        offset: i32,
        variant: u32,
        host: *const u8,
        host_len: usize,
        output: *mut u8,
        output_len: usize,
    ) -> Written;
}

/// An archive of before there were settings files (bench/run, --before) has none.
#[cfg(no_settings)]
unsafe fn khamdoriem_settings_read(_: *const u8, _: usize, _: u32) -> Settings {
    Settings::default()
}

#[cfg(no_settings)]
unsafe fn khamdoriem_settings_write(_: u32, _: u32, _: u32, _: i32, _: u32, _: *const u8, _: usize, _: *mut u8, _: usize) -> Written {
    Written { number: 0, len: 0 }
}

// The values are used too, so that no call is left out.

fn read(file: &[u8]) -> u32 {
    // SAFETY: pointer and count are those of one slice.
    let answer = unsafe { khamdoriem_settings_read(file.as_ptr(), file.len(), black_box(GATE)) };
    black_box((answer.version, answer.gate, answer.year, answer.offset, answer.variant, answer.host_start, answer.host_len));
    answer.number
}

fn write() -> u32 {
    let (host, mut record) = (b"gate7.north", [0; RECORD]);
    // SAFETY: each pointer and count are those of one slice, and the slices do not overlap.
    let answer = unsafe { khamdoriem_settings_write(2, black_box(GATE), 2023, 60, 0, host.as_ptr(), host.len(), record.as_mut_ptr(), record.len()) };
    black_box((answer.len, &record));
    answer.number
}

/// A file of so many records, with that of the gate at a place.
fn file(records: usize, at: usize) -> Vec<u8> {
    let mut file = vec![0; records * RECORD];
    for (i, record) in file.chunks_exact_mut(RECORD).enumerate() {
        // Version 2, a host of 11 bytes, the year 2023, the offset 60.
        record[..6].copy_from_slice(&[2, 11, 0xE7, 7, 60, 0]);
        let gate = if i == at { GATE } else { 1000 + i as u32 };
        record[6..8].copy_from_slice(&(gate as u16).to_le_bytes());
        record[8..19].copy_from_slice(b"gate7.north");
    }
    file
}

/// A kind's calls on its file; fails where one is refused. This is the measured part.
pub fn work(kind: &'static Kind) -> Work {
    let (file, mut lent) = (file(kind.records, kind.at), Lent::new());
    Work::new(kind.calls, move || {
        for _ in 0..kind.calls {
            let number = (kind.call)(black_box(&file), &mut lent);
            if number != 0 {
                return Err(format!("{}: the archive answers {number}", kind.name));
            }
        }
        Ok(())
    })
}

/// Makes each kind's calls once, and says how many, as rows of the results.
pub fn check() -> Result<(), String> {
    if cfg!(no_settings) {
        return Ok(());
    }
    for kind in &KINDS {
        work(kind).once()?;
        println!("site {} {}", kind.name, kind.calls);
    }
    Ok(())
}
