//! What it costs to compare two lines, beside reading both by the loose reader: gate lines, and lines made to be slow to compare.
use crate::gate;
use crate::readers::Lent;
use crate::work::Work;
use std::hint::black_box;

const HEAD: &str = "<134>1 2023-02-05T10:01:02.003Z gate7 reader 4211 TAP ";
/// How many gate lines are compared in a pass.
const GATES: usize = 500;
/// How many parameters the slow lines have: those of six bytes in one of 8,192.
const MANY: usize = 1300;
/// Those of seven bytes with values of two, and those of eleven with six digits, each another.
const SHORT: usize = 1100;
const OTHERS: usize = 700;

/// Pairs of lines, how often they are compared in a pass, the fields that must differ in all of them (none is said where they vary), and the aim.
pub struct Kind {
    pub name: &'static str,
    pub what: &'static str,
    pub aim: f64,
    times: usize,
    fields: Option<u32>,
    lines: fn() -> Vec<[String; 2]>,
}

const fn kind(name: &'static str, what: &'static str, aim: f64, times: usize, fields: Option<u32>, lines: fn() -> Vec<[String; 2]>) -> Kind {
    Kind { name, what, aim, times, fields, lines }
}

const SAME: Option<u32> = Some(0);
const ELEMENTS: Option<u32> = Some(256);

pub const KINDS: [Kind; 11] = [
    kind("gate-same", "gate lines, each with itself", 1.5, 1, SAME, || gates(|lines, i| lines[i].clone())),
    kind("gate-turned", "gate lines of RFC 5424 with two parameters in an element, and the same exchanged", 1.5, 1, SAME, turned),
    kind("gate-changed", "gate lines with a `ms`, and the same with another", 1.5, 1, ELEMENTS, changed),
    kind("gate-next", "gate lines, each with the next", 1.5, 1, None, || gates(|lines, i| lines[(i + 1) % lines.len()].clone())),
    kind("equal", "1,300 equal pairs, with themselves", 4.0, 20, SAME, || vec![[equal(MANY), equal(MANY)]]),
    kind("one-less", "1,300 equal pairs, and 1,299", 4.0, 20, ELEMENTS, || vec![[equal(MANY), equal(MANY - 1)]]),
    kind("short-different", "1,100 pairs with values of two bytes, and others", 4.0, 20, ELEMENTS, || vec![[short("a", 0..SHORT), short("b", 0..SHORT)]]),
    kind("short-reversed", "1,100 pairs with values of two bytes, and the same in reverse", 4.0, 20, SAME, || vec![[short("a", 0..SHORT), short("a", (0..SHORT).rev())]]),
    kind("different", "700 pairs with values of six digits, and others", 4.0, 20, ELEMENTS, || vec![[numbered(0..OTHERS), numbered(1000..1000 + OTHERS)]]),
    kind("reversed", "700 pairs with values of six digits, and the same in reverse", 4.0, 20, SAME, || vec![[numbered(0..OTHERS), numbered((0..OTHERS).rev())]]),
    kind("backslashes", "400 values of backslashes, and the same in reverse", 4.0, 20, SAME, || vec![[backslashes(0..400), backslashes((0..400).rev())]]),
];

pub fn named(name: &str) -> Option<&'static Kind> {
    KINDS.iter().find(|kind| kind.name == name)
}

fn gates(other: fn(&[String], usize) -> String) -> Vec<[String; 2]> {
    let lines: Vec<String> = gate::file(GATES, 1).lines().map(String::from).collect();
    (0..lines.len()).map(|i| [lines[i].clone(), other(&lines, i)]).collect()
}

/// The gate lines that a change leaves as they are not.
fn altered(change: fn(&str) -> Option<String>) -> Vec<[String; 2]> {
    let file = gate::file(GATES, 1);
    file.lines().filter_map(|line| Some([line.to_string(), change(line)?])).collect()
}

fn turned() -> Vec<[String; 2]> {
    altered(|line| {
        let (before, rest) = line.split_once("@32473 name=\"")?;
        let (name, rest) = rest.split_once("\" ms=\"")?;
        let (ms, after) = rest.split_once('"')?;
        Some(format!("{before}@32473 ms=\"{ms}\" name=\"{name}\"{after}"))
    })
}

fn changed() -> Vec<[String; 2]> {
    altered(|line| line.contains(" ms=\"").then(|| line.replacen(" ms=\"", " ms=\"9", 1)))
}

fn line(params: impl Iterator<Item = String>) -> String {
    format!("{HEAD}[x{}]", params.collect::<String>())
}

fn equal(count: usize) -> String {
    line((0..count).map(|_| " a=\"1\"".to_string()))
}

/// Values of two bytes, each between `#` and `T`, which neither a quote nor a backslash is.
fn short(name: &str, numbers: impl Iterator<Item = usize>) -> String {
    let byte = |n: usize| char::from(b'#' + n as u8);
    line(numbers.map(|n| format!(" {name}=\"{}{}\"", byte(n / 50), byte(n % 50))))
}

fn numbered(numbers: impl Iterator<Item = usize>) -> String {
    line(numbers.map(|n| format!(" a=\"{n:06}\"")))
}

/// The number in eight digits of two, each written as a pair: a backslash alone, or with a second one.
fn backslashes(numbers: impl Iterator<Item = usize>) -> String {
    let digits = |n: usize| (0..9).map(|k| if n >> k & 1 == 1 { "\\\\" } else { "x" }).collect::<String>();
    line(numbers.map(|n| format!(" a=\"{}\"", digits(n))))
}

/// The answer of the archive (include/khamdoriem.h).
#[repr(C)]
#[derive(Default)]
struct Compared {
    number: u32,
    line: u32,
    fields: u32,
    pair_line: u32,
    position: usize,
    pair_entry: usize,
}

#[cfg(not(no_compare))]
extern "C" {
    fn khamdoriem_compare(
        line1: *const u8,
        line1_len: usize,
        line2: *const u8,
        line2_len: usize,
        variant: u32,
        year: u32,
        offset: i32,
        elements1: *mut [usize; 2],
        elements1_len: usize,
        params1: *mut [usize; 5],
        params1_len: usize,
        elements2: *mut [usize; 2],
        elements2_len: usize,
        params2: *mut [usize; 5],
        params2_len: usize,
    ) -> Compared;
}

type Tables = (Vec<[usize; 2]>, Vec<[usize; 5]>);

/// An archive of before there was a comparison (bench/run, --before) has none.
#[cfg(no_compare)]
fn compare(_: &[String; 2], _: &mut [Tables; 2]) -> Compared {
    Compared::default()
}

#[cfg(not(no_compare))]
fn compare([a, b]: &[String; 2], [(e1, p1), (e2, p2)]: &mut [Tables; 2]) -> Compared {
    // SAFETY: each pointer and count are those of one slice, and what is written does not overlap.
    unsafe {
        khamdoriem_compare(
            a.as_ptr(),
            a.len(),
            b.as_ptr(),
            b.len(),
            0,
            2023,
            60,
            e1.as_mut_ptr(),
            e1.len(),
            p1.as_mut_ptr(),
            p1.len(),
            e2.as_mut_ptr(),
            e2.len(),
            p2.as_mut_ptr(),
            p2.len(),
        )
    }
}

fn tables() -> Tables {
    (vec![[0; 2]; 2730], vec![[0; 5]; 1638])
}

/// A kind's pairs compared, or both lines of each read. This is the measured part.
pub fn work(kind: &'static Kind, compares: bool) -> Work {
    let (pairs, mut lent, mut tables) = ((kind.lines)(), Lent::new(), [tables(), tables()]);
    Work::new(kind.times * pairs.len(), move || {
        for pair in (0..kind.times).flat_map(|_| &pairs) {
            if !compares {
                pair.iter().for_each(|line| drop(black_box(lent.loose(black_box(line.as_bytes()), 0))));
                continue;
            }
            let answer = black_box(compare(black_box(pair), &mut tables));
            black_box((answer.line, answer.pair_line, answer.position, answer.pair_entry));
            if answer.number != 0 || kind.fields.is_some_and(|fields| fields != answer.fields) {
                return Err(format!("{}: the archive answers {} and {}", kind.name, answer.number, answer.fields));
            }
        }
        Ok(())
    })
}

/// Makes each kind's comparisons once, and says of how many pairs and bytes they are, as rows of the results.
pub fn check() -> Result<(), String> {
    if cfg!(no_compare) {
        return Ok(());
    }
    for kind in &KINDS {
        work(kind, true).once()?;
        let pairs = (kind.lines)();
        let bytes: usize = pairs.iter().flatten().map(String::len).sum();
        println!("pairs {} {} {}", kind.name, pairs.len() * kind.times, bytes * kind.times);
    }
    Ok(())
}
