//! What a tally costs: an addition, and each of its reads, in calls of one kind.
use crate::work::Work;
use std::hint::black_box;

/// Calls of a pass.
const CALLS: usize = 100_000;
/// What a full cell holds.
const MOST: u32 = u32::MAX;

type Row = [u32; 9];

/// What is called, and what it answers each time.
pub struct Kind {
    pub name: &'static str,
    pub what: &'static str,
    number: u32,
    call: fn(&mut [Row], u32) -> u32,
}

const fn kind(name: &'static str, what: &'static str, number: u32, call: fn(&mut [Row], u32) -> u32) -> Kind {
    Kind { name, what, number, call }
}

pub const KINDS: [Kind; 6] = [
    kind("add", "an addition", 0, |rows, i| add(rows, i % 24, i % 8)),
    kind("add-full", "an addition to a cell that is full, which is refused", 10, |rows, _| add(rows, 23, 7)),
    kind("add-none", "an addition of facility 24, which is refused", 7, |rows, i| add(rows, 24, i % 8)),
    kind("cell", "the read of a cell", 0, |rows, i| cell(rows, i % 25, i % 9)),
    kind("row", "a row's sum", 0, |rows, i| row(rows, i % 25)),
    kind("column", "a column's sum", 0, |rows, i| column(rows, i % 9)),
];

pub fn named(name: &str) -> Option<&'static Kind> {
    KINDS.iter().find(|kind| kind.name == name)
}

/// Answers of the archive (include/khamdoriem.h).
#[repr(C)]
struct Cell {
    number: u32,
    count: u32,
}

#[repr(C)]
struct Sum {
    number: u32,
    sum: u64,
}

#[cfg(not(no_tallies))]
extern "C" {
    fn khamdoriem_tally_add(rows: *mut Row, rows_len: usize, facility_mark: u32, facility: u32, severity_mark: u32, severity: u32) -> u32;
    fn khamdoriem_tally_cell(rows: *const Row, rows_len: usize, row: u32, column: u32) -> Cell;
    fn khamdoriem_tally_row(rows: *const Row, rows_len: usize, row: u32) -> Sum;
    fn khamdoriem_tally_column(rows: *const Row, rows_len: usize, column: u32) -> Sum;
}

/// An archive of before there were tallies (bench/run, --before) has none to add to.
#[cfg(no_tallies)]
unsafe fn khamdoriem_tally_add(_: *mut Row, _: usize, _: u32, _: u32, _: u32, _: u32) -> u32 {
    7
}

#[cfg(no_tallies)]
unsafe fn khamdoriem_tally_cell(_: *const Row, _: usize, _: u32, _: u32) -> Cell {
    Cell { number: 7, count: 0 }
}

#[cfg(no_tallies)]
unsafe fn khamdoriem_tally_row(_: *const Row, _: usize, _: u32) -> Sum {
    Sum { number: 7, sum: 0 }
}

#[cfg(no_tallies)]
unsafe fn khamdoriem_tally_column(_: *const Row, _: usize, _: u32) -> Sum {
    Sum { number: 7, sum: 0 }
}

fn add(rows: &mut [Row], facility: u32, severity: u32) -> u32 {
    // SAFETY: pointer and count are those of one slice, which is borrowed mutably.
    unsafe { khamdoriem_tally_add(rows.as_mut_ptr(), rows.len(), 1, facility, 1, severity) }
}

// Of a read the value is used too, so that no call is left out.

fn cell(rows: &[Row], row: u32, column: u32) -> u32 {
    // SAFETY: pointer and count are those of one slice.
    let answer = unsafe { khamdoriem_tally_cell(rows.as_ptr(), rows.len(), row, column) };
    black_box(answer.count);
    answer.number
}

fn row(rows: &[Row], row: u32) -> u32 {
    // SAFETY: as above.
    let answer = unsafe { khamdoriem_tally_row(rows.as_ptr(), rows.len(), row) };
    black_box(answer.sum);
    answer.number
}

fn column(rows: &[Row], column: u32) -> u32 {
    // SAFETY: as above.
    let answer = unsafe { khamdoriem_tally_column(rows.as_ptr(), rows.len(), column) };
    black_box(answer.sum);
    answer.number
}

/// Calls a kind so often, on a tally that is empty but for one full cell, and fails where an answer is another. This is the measured part.
fn pass(kind: &Kind) -> Result<(), String> {
    let mut rows = [[0; 9]; 25];
    rows[23][7] = MOST;
    for i in 0..CALLS as u32 {
        // The full cell is one of those of `add`; it is left out there.
        let i = if kind.name == "add" && i % 24 == 23 { 0 } else { i };
        let number = (kind.call)(black_box(&mut rows), black_box(i));
        if number != kind.number {
            return Err(format!("{}: the tally answers {number}", kind.name));
        }
    }
    Ok(())
}

pub fn work(kind: &'static Kind) -> Work {
    Work::new(CALLS, move || pass(kind))
}

/// Makes each kind's calls once, and says how many, as rows of the results.
pub fn check() -> Result<(), String> {
    if cfg!(no_tallies) {
        return Ok(());
    }
    for kind in &KINDS {
        pass(kind)?;
        println!("tally {} {CALLS}", kind.name);
    }
    Ok(())
}
