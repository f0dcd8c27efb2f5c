//! How many records of each facility and severity came in.

use core::{fmt, iter};

use crate::priority::{Facility, Severity};
use crate::reading::Reading;
use crate::refusal::Refusal;
use crate::sys::{self, Marked, Row};

/// Rows: the facilities, and none.
const ROWS: usize = 25;
/// Columns: the severities, and none.
const COLUMNS: usize = 9;

/// How many records of each facility and severity were added, those of none too. It is 900 bytes of its own, without an allocation.
///
/// An accepted addition raises one cell by one and leaves all others, and whatever was added since the tally was empty,
/// [`total`](Tally::total) is how many additions were accepted, by rows as by columns: that is proved.
///
/// ```
/// use khamdoriem::{Facility, Severity, Tables, Tally};
///
/// let mut tables = Tables::new(0, 0);
/// let mut tally = Tally::new();
/// for line in ["<34>1 - gate7 reader 42 TAP - ok", "<35>1 - gate7 reader 42 TAP - no", "<34>1 - gate8 reader 43 TAP - ok"] {
///     tally.add_reading(&tables.read_strict(line.as_bytes())?)?;
/// }
/// assert_eq!(tally.cell(Some(Facility::Auth), Some(Severity::Crit)), 2);
/// assert_eq!((tally.row(Some(Facility::Auth)), tally.column(None), tally.total()), (3, 0, 3));
/// for cell in tally.cells() {
///     println!("{cell}"); // auth.crit 2, then auth.err 1
/// }
/// # Ok::<(), khamdoriem::Refusal>(())
/// ```
///
/// `Display` writes a table for a person: a row for each facility that came, a column for each severity, none last, and their sums.
///
/// ```text
/// facility  emerg  alert  crit  err  warning  notice  info  debug  none  sum
/// auth          .      .     2    1        .       .     .      .     .    3
/// sum           0      0     2    1        0       0     0      0     0    3
/// ```
#[derive(Clone, PartialEq, Eq)]
pub struct Tally {
    counts: [Row; ROWS],
}

impl Tally {
    /// The empty tally.
    ///
    /// # Panics
    ///
    /// If the archive that is linked has another interface than this crate.
    pub fn new() -> Tally {
        Tally::from_counts([[0; COLUMNS]; ROWS])
    }

    /// A tally that goes on from these counts: a row for each facility by its number and the last for none, and in each row the
    /// severities likewise.
    ///
    /// # Panics
    ///
    /// If the archive that is linked has another interface than this crate.
    pub fn from_counts(counts: [[u32; 9]; 25]) -> Tally {
        sys::check_interface();
        Tally { counts }
    }

    /// The counts, as [`from_counts`](Tally::from_counts) takes them.
    pub fn counts(&self) -> &[[u32; 9]; 25] {
        &self.counts
    }

    /// One record more of this facility and severity.
    ///
    /// # Errors
    ///
    /// [`CellFull`](Refusal::CellFull) where `u32::MAX` were added already; the tally is then as it was.
    pub fn add(&mut self, facility: Option<Facility>, severity: Option<Severity>) -> Result<(), Refusal> {
        let (facility, severity) = (marked(facility.map(Facility::number)), marked(severity.map(Severity::number)));
        Refusal::check(sys::tally_add(&mut self.counts, facility, severity))
    }

    /// One record more: a reading, loose or strict, by the facility and the severity that it has or has not. A whole line has neither.
    ///
    /// # Errors
    ///
    /// As [`add`](Tally::add).
    pub fn add_reading<Kind>(&mut self, reading: &Reading<'_, '_, Kind>) -> Result<(), Refusal> {
        self.add(reading.facility(), reading.severity())
    }

    /// How many were added of this facility and severity.
    pub fn cell(&self, facility: Option<Facility>, severity: Option<Severity>) -> u32 {
        sys::tally_cell(&self.counts, row_of(facility), column_of(severity)).count
    }

    /// How many were added of this facility, whatever the severity, none too.
    pub fn row(&self, facility: Option<Facility>) -> u64 {
        sys::tally_row(&self.counts, row_of(facility)).sum
    }

    /// How many were added of this severity, whatever the facility, none too.
    pub fn column(&self, severity: Option<Severity>) -> u64 {
        sys::tally_column(&self.counts, column_of(severity)).sum
    }

    /// How many were added in all: the sum of all rows, which is that of all columns.
    pub fn total(&self) -> u64 {
        facilities().map(|facility| self.row(facility)).sum()
    }

    /// The cells that are not zero, row by row, none last.
    pub fn cells(&self) -> TallyCells<'_> {
        TallyCells { tally: self, next: 0 }
    }

    /// Makes it empty again.
    pub fn clear(&mut self) {
        self.counts = [[0; COLUMNS]; ROWS];
    }
}

impl Default for Tally {
    /// The empty tally.
    fn default() -> Tally {
        Tally::new()
    }
}

fn marked(number: Option<u8>) -> Marked {
    Marked { mark: number.is_some().into(), number: number.unwrap_or(0).into() }
}

fn row_of(facility: Option<Facility>) -> u32 {
    facility.map_or(ROWS as u32 - 1, |facility| facility.number().into())
}

fn column_of(severity: Option<Severity>) -> u32 {
    severity.map_or(COLUMNS as u32 - 1, |severity| severity.number().into())
}

/// In the order of the rows.
fn facilities() -> impl Iterator<Item = Option<Facility>> {
    Facility::ALL.iter().copied().map(Some).chain([None])
}

/// In the order of the columns.
fn severities() -> impl Iterator<Item = Option<Severity>> {
    Severity::ALL.iter().copied().map(Some).chain([None])
}

fn facility_name(facility: Option<Facility>) -> &'static str {
    facility.map_or("none", Facility::as_str)
}

fn severity_name(severity: Option<Severity>) -> &'static str {
    severity.map_or("none", Severity::as_str)
}

/// A cell of a [`Tally`] that is not zero. `Display` writes `auth.crit 2`, and `none` for what is none.
#[derive(Clone, Copy, Debug, PartialEq, Eq)]
pub struct TallyCell {
    /// The facility, or none.
    pub facility: Option<Facility>,
    /// The severity, or none.
    pub severity: Option<Severity>,
    /// How many were added of both.
    pub count: u32,
}

impl TallyCell {
    /// The facility's name, or `none`.
    pub fn facility_name(&self) -> &'static str {
        facility_name(self.facility)
    }

    /// The severity's name, or `none`.
    pub fn severity_name(&self) -> &'static str {
        severity_name(self.severity)
    }
}

impl fmt::Display for TallyCell {
    fn fmt(&self, f: &mut fmt::Formatter<'_>) -> fmt::Result {
        write!(f, "{}.{} {}", self.facility_name(), self.severity_name(), self.count)
    }
}

/// The cells of a [`Tally`] that are not zero, of [`Tally::cells`].
#[derive(Clone, Debug)]
pub struct TallyCells<'tally> {
    tally: &'tally Tally,
    next: usize,
}

impl Iterator for TallyCells<'_> {
    type Item = TallyCell;

    fn next(&mut self) -> Option<TallyCell> {
        while self.next < ROWS * COLUMNS {
            let (row, column) = (self.next / COLUMNS, self.next % COLUMNS);
            self.next += 1;
            let (facility, severity) = (Facility::ALL.get(row).copied(), Severity::ALL.get(column).copied());
            let count = self.tally.cell(facility, severity);
            if count > 0 {
                return Some(TallyCell { facility, severity, count });
            }
        }
        None
    }
}

impl iter::FusedIterator for TallyCells<'_> {}

impl fmt::Debug for Tally {
    /// Says which cells are not zero.
    fn fmt(&self, f: &mut fmt::Formatter<'_>) -> fmt::Result {
        let cells = self.cells().map(|cell| (Kind(cell), cell.count));
        f.debug_map().entries(cells).finish()
    }
}

/// A cell without its count.
struct Kind(TallyCell);

impl fmt::Debug for Kind {
    fn fmt(&self, f: &mut fmt::Formatter<'_>) -> fmt::Result {
        write!(f, "{}.{}", self.0.facility_name(), self.0.severity_name())
    }
}

/// How wide a column of the table is: as its name and its sum, which is no less than any of its cells.
fn width(name: &str, sum: u64) -> usize {
    let digits = iter::successors(Some(sum), |&left| (left > 9).then(|| left / 10)).count();
    digits.max(name.len())
}

impl Tally {
    /// A line of the table: its name, what is written in each column, so wide, and what stands in the last.
    fn line(
        &self,
        f: &mut fmt::Formatter<'_>,
        name: &str,
        last: impl fmt::Display,
        write_cell: impl Fn(&mut fmt::Formatter<'_>, Option<Severity>, usize) -> fmt::Result,
    ) -> fmt::Result {
        write!(f, "{name:<8}")?;
        for severity in severities() {
            f.write_str("  ")?;
            write_cell(f, severity, width(severity_name(severity), self.column(severity)))?;
        }
        write!(f, "  {:>1$}", last, width("sum", self.total()))
    }
}

impl fmt::Display for Tally {
    /// Writes the table, without a newline behind its last line. A cell of zero is a point.
    fn fmt(&self, f: &mut fmt::Formatter<'_>) -> fmt::Result {
        self.line(f, "facility", "sum", |f, severity, wide| write!(f, "{:>1$}", severity_name(severity), wide))?;
        for facility in facilities().filter(|&facility| self.row(facility) > 0) {
            f.write_str("\n")?;
            let write_cell = |f: &mut fmt::Formatter<'_>, severity, wide| match self.cell(facility, severity) {
                0 => write!(f, "{:>1$}", ".", wide),
                count => write!(f, "{:>1$}", count, wide),
            };
            self.line(f, facility_name(facility), self.row(facility), write_cell)?;
        }
        f.write_str("\n")?;
        self.line(f, "sum", self.total(), |f, severity, wide| write!(f, "{:>1$}", self.column(severity), wide))
    }
}
