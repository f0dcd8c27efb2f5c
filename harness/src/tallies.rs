//! Tallies, added to at random, against one by hand: the number of every addition and the whole memory after it, with the rows behind the 25th and guards;
//! then every read, also past the last row and column and with fewer rows.

use crate::abi::{self, Cell, Row, Sum};
use crate::random::Random;

const ROWS: usize = 25;
const COLUMNS: usize = 9;
/// The most rows that are lent, and what lies before and behind them.
const LENT: usize = 27;
const GUARD: usize = 1;
const MOST: u32 = u32::MAX;

/// How many additions are made to one tally.
const ADDITIONS: u64 = 400;

/// A facility or a severity as it is passed: a mark and a number.
#[derive(Clone, Copy, Debug, PartialEq)]
pub struct Level {
    pub mark: u32,
    pub number: u32,
}

/// An addition: to so many rows, of a facility and a severity.
#[derive(Clone, Copy, Debug, PartialEq)]
pub struct Addition {
    pub rows: usize,
    pub facility: Level,
    pub severity: Level,
}

/// A call, as it is told: its fields are shown and not read, which the compiler does not count.
#[derive(Clone, Copy, Debug)]
#[allow(dead_code)]
pub enum Call {
    Start,
    Add(Addition),
    Cell { rows: usize, row: u32, column: u32 },
    Row { rows: usize, row: u32 },
    Column { rows: usize, column: u32 },
}

#[derive(Clone, Copy, Default)]
pub struct Counts {
    pub additions: u64,
    pub accepted: u64,
    pub unsuitable: u64,
    pub short: u64,
    pub full: u64,
    pub reads: u64,
}

/// What differs: the last call, and both answers.
pub struct Difference {
    pub what: &'static str,
    pub last: Call,
    pub ours: String,
    pub wanted: String,
}

type Checked = Result<(), (&'static str, String, String)>;

fn same<T: PartialEq + std::fmt::Debug>(what: &'static str, ours: T, wanted: T) -> Checked {
    if ours == wanted { Ok(()) } else { Err((what, format!("{ours:?}"), format!("{wanted:?}"))) }
}

// ---- the tally by hand

/// The place of a level among `none` numbers and none, if it has one.
fn place(level: Level, none: usize) -> Option<usize> {
    match (level.mark, level.number as usize) {
        (0, 0) => Some(none),
        (1, number) if number < none => Some(number),
        _ => None,
    }
}

/// The cell that an addition is to raise, or the refusal's number.
fn cell_of(memory: &[Row], addition: Addition) -> Result<(usize, usize), u32> {
    let (Some(row), Some(column)) = (place(addition.facility, ROWS - 1), place(addition.severity, COLUMNS - 1)) else {
        return Err(7);
    };
    if addition.rows < ROWS {
        return Err(8);
    }
    if memory[GUARD + row][column] == MOST { Err(10) } else { Ok((row, column)) }
}

/// The number of a read from so many rows, of what there is in a tally or not.
fn number_of(is: bool, rows: usize) -> u32 {
    if !is {
        return 7;
    }
    if rows < ROWS { 8 } else { 0 }
}

// ---- random additions

/// A level of `of` numbers: as a record has it, at times at its limit, past it, past 8 bits, or with a mark that is none.
fn level(random: &mut Random, of: usize) -> Level {
    let number = match random.below(16) {
        0 => of as u32,
        1 => of as u32 + 1 + random.below(2) as u32,
        2 => random.of(&[255, 256, 256 + of as u32 - 1, 65_536, 1 << 24, MOST - 1, MOST]),
        3 => of as u32 - 1,
        _ => random.below(of) as u32,
    };
    match random.below(16) {
        0 => Level { mark: 2, number },
        1 => Level { mark: random.of(&[0, 256, 1 << 16, MOST]), number },
        2..=4 => Level { mark: 0, number: 0 },
        _ => Level { mark: 1, number },
    }
}

fn addition(random: &mut Random) -> Addition {
    let rows = if random.one_in(8) { random.below(LENT + 1) } else { ROWS };
    Addition { rows, facility: level(random, 24), severity: level(random, 8) }
}

pub struct Tallies {
    random: Random,
    /// The archive's memory, and that by hand: guards, a tally and two rows more.
    ours: Vec<Row>,
    model: Vec<Row>,
    /// Additions that are still to be made to this tally.
    left: u64,
    /// What was accepted since its start, and what it held then.
    accepted: u64,
    start: u64,
    last: Call,
    pub counts: Counts,
}

impl Tallies {
    pub fn new(seed: u64, part: u64) -> Self {
        let random = Random::new(seed.wrapping_mul(1_000_003).wrapping_add(part));
        let memory = vec![[0; COLUMNS]; LENT + 2 * GUARD];
        Tallies { random, ours: memory.clone(), model: memory, left: 0, accepted: 0, start: 0, last: Call::Start, counts: Counts::default() }
    }

    /// The next addition; before the first of a tally its start, and after the last every read.
    pub fn next(&mut self) -> Result<(), Difference> {
        if self.left == 0 {
            self.begin();
        }
        self.left -= 1;
        let checked = self.add();
        self.told(checked)?;
        if self.left == 0 { self.read() } else { Ok(()) }
    }

    /// Every read of the tally as it is.
    pub fn read(&mut self) -> Result<(), Difference> {
        let checked = self.reads();
        self.told(checked)
    }

    fn told(&self, checked: Checked) -> Result<(), Difference> {
        checked.map_err(|(what, ours, wanted)| Difference { what, last: self.last, ours, wanted })
    }

    /// A tally that is empty, or has cells at their limit or near it; guards and further rows are of any numbers.
    fn begin(&mut self) {
        for row in &mut self.model {
            row.fill_with(|| self.random.next() as u32);
        }
        let tally = &mut self.model[GUARD..GUARD + ROWS];
        let full = self.random.below(4);
        for row in tally.iter_mut() {
            row.fill_with(|| match full {
                0 => 0,
                1 => self.random.of(&[0, 0, 0, 1, MOST - 1, MOST]),
                2 => MOST - self.random.below(3) as u32,
                _ => self.random.next() as u32,
            });
        }
        self.ours.clone_from(&self.model);
        (self.left, self.accepted, self.start, self.last) = (ADDITIONS, 0, total(&self.model), Call::Start);
    }

    fn add(&mut self) -> Checked {
        let addition = addition(&mut self.random);
        self.last = Call::Add(addition);
        let cell = cell_of(&self.model, addition);
        if let Ok((row, column)) = cell {
            self.model[GUARD + row][column] += 1;
            self.accepted += 1;
        }
        self.counts.additions += 1;
        *match cell {
            Ok(_) => &mut self.counts.accepted,
            Err(7) => &mut self.counts.unsuitable,
            Err(8) => &mut self.counts.short,
            Err(_) => &mut self.counts.full,
        } += 1;
        let Addition { rows, facility, severity } = addition;
        let lent = &mut self.ours[GUARD..GUARD + rows];
        let ours = abi::tally_add(lent, facility.mark, facility.number, severity.mark, severity.number);
        same("the number of an addition", ours, cell.err().unwrap_or(0))?;
        self.memory()
    }

    /// The whole memory: the first cell that differs is told.
    fn memory(&self) -> Checked {
        if self.ours == self.model {
            return Ok(());
        }
        let (ours, model) = (self.ours.concat(), self.model.concat());
        let at = ours.iter().zip(&model).position(|(ours, wanted)| ours != wanted).unwrap_or(0);
        let told = |count: u32| format!("row {} column {}: {count}", (at / COLUMNS) as isize - GUARD as isize, at % COLUMNS);
        Err(("the memory", told(ours[at]), told(model[at])))
    }

    /// Every row and column, two past the last and some far away, from 25 rows, more and fewer.
    fn reads(&mut self) -> Checked {
        let few = self.random.below(ROWS);
        for rows in [ROWS, LENT, ROWS - 1, few] {
            let far = self.random.of(&[255, 256, 257, 65_536, 1 << 31, MOST]);
            for row in (0..27).chain([far]) {
                self.row(rows, row)?;
                for column in (0..11).chain([far]) {
                    self.cell(rows, row, column)?;
                }
            }
            for column in (0..11).chain([far]) {
                self.column(rows, column)?;
            }
        }
        let sums: u64 = (0..ROWS as u32).map(|row| abi::tally_row(self.lent(ROWS), row).sum).sum();
        same("the sum of the rows", sums - self.start, self.accepted)?;
        let sums: u64 = (0..COLUMNS as u32).map(|column| abi::tally_column(self.lent(ROWS), column).sum).sum();
        same("the sum of the columns", sums - self.start, self.accepted)?;
        self.memory()
    }

    fn begin_read(&mut self, call: Call) {
        self.counts.reads += 1;
        self.last = call;
    }

    fn lent(&self, rows: usize) -> &[Row] {
        &self.ours[GUARD..GUARD + rows]
    }

    fn cell(&mut self, rows: usize, row: u32, column: u32) -> Checked {
        self.begin_read(Call::Cell { rows, row, column });
        let number = number_of((row as usize) < ROWS && (column as usize) < COLUMNS, rows);
        let count = if number == 0 { self.model[GUARD + row as usize][column as usize] } else { 0 };
        same("a cell", abi::tally_cell(self.lent(rows), row, column), Cell { number, count })
    }

    fn row(&mut self, rows: usize, row: u32) -> Checked {
        self.begin_read(Call::Row { rows, row });
        let number = number_of((row as usize) < ROWS, rows);
        let sum = if number == 0 { self.model[GUARD + row as usize].iter().map(|&count| u64::from(count)).sum() } else { 0 };
        same("a row's sum", abi::tally_row(self.lent(rows), row), Sum { number, sum })
    }

    fn column(&mut self, rows: usize, column: u32) -> Checked {
        self.begin_read(Call::Column { rows, column });
        let number = number_of((column as usize) < COLUMNS, rows);
        let tally = &self.model[GUARD..GUARD + ROWS];
        let sum = if number == 0 { tally.iter().map(|row| u64::from(row[column as usize])).sum() } else { 0 };
        same("a column's sum", abi::tally_column(self.lent(rows), column), Sum { number, sum })
    }
}

/// What all cells of a tally hold.
fn total(memory: &[Row]) -> u64 {
    memory[GUARD..GUARD + ROWS].iter().flatten().map(|&count| u64::from(count)).sum()
}
