//! The driver of the bench: makes the file, checks it, reads it, and writes the documents. bench/run says what is called when.
mod check;
mod claims;
mod gate;
mod ids;
mod limit;
mod pairs;
mod peer;
mod plot;
mod price;
mod random;
mod readers;
mod report;
mod results;
mod shapes;
mod sites;
mod streams;
mod tallies;
mod times;
mod uses;
mod work;
mod writes;

use readers::{Lent, Reader, ROWS};
use std::process::ExitCode;
use work::Work;

const USAGE: &str = "usage: driver make FILE LINES SEED | lines KIND FILE | check FILE | WORK TIMES | time WORK | report RESULTS FOLDER, where WORK is \
                     pass READER KIND FILE | shape READER NAME BYTES | use rust|loose print|lookup FILE | stream splitter NAME | tally table NAME | site file NAME \
                     | claim strict|check NAME | write writer NAME | pairs read|compare NAME";
/// How often a shaped line is read at a time.
const READINGS: usize = 10;

fn number<T: std::str::FromStr>(text: &str) -> Result<T, String> {
    text.parse().map_err(|_| format!("'{text}' is no number, or too large"))
}

/// Text that is kept to the program's end.
fn kept(text: String) -> &'static str {
    Box::leak(text.into_boxed_str())
}

fn text_of(file: &str) -> Result<&'static str, String> {
    std::fs::read_to_string(file).map(kept).map_err(|e| format!("{file}: {e}"))
}

fn write(file: &str, text: &str) -> Result<(), String> {
    std::fs::write(file, text).map_err(|e| format!("{file}: {e}"))
}

fn reader(name: &str) -> Result<Reader, String> {
    Reader::named(name).ok_or(format!("'{name}' is no reader"))
}

fn of_kind(kind: &str, file: &str) -> Result<(u32, Vec<&'static str>), String> {
    gate::of_kind(kind, text_of(file)?).ok_or(format!("'{kind}' is no kind of lines"))
}

fn lines(kind: &str, file: &str) -> Result<(), String> {
    of_kind(kind, file)?.1.iter().for_each(|line| println!("{line}"));
    Ok(())
}

fn read(reader: Reader, variant: u32, lines: Vec<&'static str>, mut lent: Lent) -> Work {
    Work::new(lines.len(), move || {
        readers::pass(reader, variant, &lines, &mut lent);
        Ok(())
    })
}

fn shape(name: &str, shape: &str, bytes: &str) -> Result<Work, String> {
    let line = shapes::named(shape).ok_or(format!("'{shape}' is no shape"))?.line(number(bytes)?);
    let line = kept(line.ok_or(format!("{bytes} bytes have no room for '{shape}'"))?);
    Ok(read(reader(name)?, 0, vec![line; READINGS], Lent::new()))
}

fn work(args: &[&str]) -> Result<Work, String> {
    match args {
        ["pass", name, kind, file] => of_kind(kind, file).and_then(|(variant, lines)| Ok(read(reader(name)?, variant, lines, Lent::of(ROWS)))),
        ["shape", name, what, bytes] => shape(name, what, bytes),
        ["use", side, what, file] => uses::work(side, what, text_of(file)?).ok_or(format!("'{side} {what}' is no use of a reading")),
        ["stream", "splitter", name] => streams::named(name).map(streams::work).ok_or(format!("'{name}' is no stream")),
        ["tally", "table", name] => tallies::named(name).map(tallies::work).ok_or(format!("'{name}' is no call of a tally")),
        ["site", "file", name] => sites::named(name).map(sites::work).ok_or(format!("'{name}' is no call of a settings file")),
        ["claim", call, name] => {
            let kind = claims::named(name).ok_or(format!("'{name}' is no line of a claim"))?;
            claims::call(call).map(|call| claims::work(kind, call)).ok_or(format!("'{call}' is no call of a claim"))
        }
        ["write", "writer", name] => writes::named(name).map(writes::work).ok_or(format!("'{name}' is no line to be written")),
        ["pairs", what @ ("read" | "compare"), name] => pairs::named(name).map(|kind| pairs::work(kind, *what == "compare")).ok_or(format!("'{name}' is no kind of pairs")),
        _ => Err(USAGE.to_string()),
    }
}

fn again(args: &[&str], times: &str) -> Result<(), String> {
    let mut work = work(args)?;
    (0..number::<usize>(times)?).try_for_each(|_| work.once())
}

fn report(results: &str, folder: &str) -> Result<(), String> {
    let results = results::Results::of(text_of(results)?);
    write(&format!("{folder}/BENCH.md"), &report::page(&results)?)?;
    write(&format!("{folder}/bench.svg"), &plot::picture(&results)?)?;
    println!("{}", report::closing(&results)?);
    Ok(())
}

fn run(args: &[&str]) -> Result<(), String> {
    match args {
        ["make", file, lines, seed] => write(file, &gate::file(number(lines)?, number(seed)?)),
        ["lines", kind, file] => lines(kind, file),
        ["check", file] => check::check(text_of(file)?),
        ["time", measured @ ..] => work(measured)?.nanos().map(|nanos| println!("{nanos:.1}")),
        ["report", results, folder] => report(results, folder),
        [measured @ .., times] => again(measured, times),
        [] => Err(USAGE.to_string()),
    }
}

fn main() -> ExitCode {
    let args: Vec<String> = std::env::args().skip(1).collect();
    let args: Vec<&str> = args.iter().map(|a| &a[..]).collect();
    match run(&args) {
        Ok(()) => ExitCode::SUCCESS,
        Err(why) => {
            eprintln!("driver: {why}");
            ExitCode::from(2)
        }
    }
}
