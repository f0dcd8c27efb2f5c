//! Before anything is measured: the readers answer alike on every line that is read, so that the same work is compared.
use crate::gate;
use crate::readers::{interface, rust, Lent, ROWS};
use crate::shapes::{Shape, BROKEN, GROWING, IDS, LENGTHS, SLOW, TEXTS};
use crate::{claims, pairs, sites, streams, tallies, uses, writes};

// Words of the record (docs/INTERFACE.md). In interface 1 it has no word of digits.
const SECONDS: usize = 7;
const MESSAGE: usize = if cfg!(interface_1) { 22 } else { 23 };
const MESSAGE_LEN: usize = MESSAGE + 1;
const ELEMENTS: usize = MESSAGE + 2;
const PARAMS: usize = MESSAGE + 3;
/// The words of a loose record.
pub const WORDS: usize = PARAMS + 1;
const INTERFACE: u32 = if cfg!(interface_1) { 1 } else { 2 };

/// Whether the line has a reading, if the Rust and ours agree on it.
fn agreed(line: &str, variant: u32, lent: &mut Lent) -> Result<bool, String> {
    let answer = lent.loose(line.as_bytes(), variant);
    let number = answer.number();
    let Ok(theirs) = rust(line, variant) else {
        return if answer.is_whole() { Ok(false) } else { Err(format!("the Rust has no reading, ours has one or answers {number}: {line}")) };
    };
    let params = theirs.structured_data.iter().map(|e| e.params.len()).sum();
    let start = theirs.msg.as_ptr() as usize - line.as_ptr() as usize;
    let seconds = theirs.timestamp.map_or(0, |t| t.timestamp()) as usize;
    let same = number == 0
        && !answer.is_whole()
        && lent.word(ELEMENTS) == theirs.structured_data.len()
        && lent.word(PARAMS) == params
        && lent.word(MESSAGE_LEN) == theirs.msg.len()
        && lent.word(MESSAGE) == start
        && lent.word(SECONDS) == seconds;
    if same { Ok(true) } else { Err(format!("the Rust and ours (number {number}) read differently: {line}")) }
}

/// The lines of one kind: all have a reading, and the strict reader takes those of RFC 5424. What they fill is told too.
fn kind(name: &str, variant: u32, lines: &[&str], lent: &mut Lent) -> Result<(), String> {
    let mut filled = [0; 3];
    for line in lines {
        if !agreed(line, variant, lent)? {
            return Err(format!("no reading: {line}"));
        }
        if variant == 2 && lent.strict(line.as_bytes()).number() != 0 {
            return Err(format!("refused strictly: {line}"));
        }
        let has = [ELEMENTS, PARAMS, MESSAGE_LEN].map(|word| lent.word(word));
        filled.iter_mut().zip(has).for_each(|(sum, n)| *sum += n);
    }
    println!("kind {name} {} {}", lines.len(), lines.iter().map(|l| l.len()).sum::<usize>());
    println!("fills {name} {} {} {}", filled[0], filled[1], filled[2]);
    Ok(())
}

fn shape(shape: &Shape, lengths: &[usize], strict: bool, lent: &mut Lent) -> Result<(), String> {
    for &bytes in lengths {
        let line = shape.line(bytes).ok_or(format!("{bytes} bytes have no room for '{}'", shape.name))?;
        let read = agreed(&line, 0, lent)?;
        if strict && lent.strict(line.as_bytes()).number() != 0 {
            return Err(format!("refused strictly: {line}"));
        }
        println!("answer {} {bytes} {}", shape.name, if read { "read" } else { "whole" });
    }
    Ok(())
}

/// A line of ids: the Rust and our loose reader read it, as many elements as are told. So must the strict one where the ids differ; where they repeat, its answer is told.
fn ids(shape: &Shape, lent: &mut Lent) -> Result<(), String> {
    for &bytes in &LENGTHS[1..] {
        let line = shape.line(bytes).ok_or(format!("{bytes} bytes have no room for '{}'", shape.name))?;
        if !agreed(&line, 0, lent)? {
            return Err(format!("no reading: {line}"));
        }
        let elements = lent.word(ELEMENTS);
        let answer = match lent.strict(line.as_bytes()).number() {
            0 => "read",
            4 if !shape.is_varied() => "refused",
            number => return Err(format!("the strict reader answers {number}: {line}")),
        };
        println!("answer {} {bytes} {answer}\nelements {} {bytes} {elements}", shape.name, shape.name);
    }
    Ok(())
}

/// A line that breaks behind its last element: the strict reader refuses it with 4; how far it says that the line is right, and how far it is, are told.
fn broken(shape: &Shape, lent: &mut Lent) -> Result<(), String> {
    for &bytes in &LENGTHS[1..] {
        let none = format!("{bytes} bytes have no room for '{}'", shape.name);
        let line = shape.line(bytes).ok_or(none.clone())?;
        let answer = lent.strict(line.as_bytes());
        if answer.number() != 4 {
            return Err(format!("the strict reader answers {}: {line}", answer.number()));
        }
        println!("answer {} {bytes} refused\nreach {} {bytes} {} {}", shape.name, shape.name, answer.reach(), shape.right(bytes).ok_or(none)?);
    }
    Ok(())
}

/// Checks the file and all shapes, and says on standard output what was found, as rows of the results.
pub fn check(text: &'static str) -> Result<(), String> {
    if interface() != INTERFACE {
        return Err(format!("the archive has interface {}, and this program is written for {INTERFACE}", interface()));
    }
    let mut lent = Lent::of(ROWS);
    for name in gate::KINDS_OF_LINES {
        let (variant, lines) = gate::of_kind(name, text).expect("a kind");
        kind(name, variant, &lines, &mut lent)?;
    }
    lent = Lent::new();
    for growing in &GROWING {
        shape(growing, &LENGTHS, growing.is_5424(), &mut lent)?;
    }
    for text in &TEXTS {
        shape(text, &LENGTHS[1..], true, &mut lent)?;
    }
    for slow in &SLOW {
        shape(slow, &LENGTHS[1..], false, &mut lent)?;
    }
    for shape in &IDS {
        ids(shape, &mut lent)?;
    }
    for (shape, _) in &BROKEN {
        broken(shape, &mut lent)?;
    }
    uses::check(text)?;
    streams::check()?;
    tallies::check()?;
    sites::check()?;
    claims::check()?;
    writes::check()?;
    pairs::check()
}
