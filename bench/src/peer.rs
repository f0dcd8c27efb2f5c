//! The part of docs/BENCH.md on a peer of the strict reader: go-syslog. It is left out where bench/run could not have it.
use crate::report::{add, commas};
use crate::results::Results;
use crate::times::nanos;

const KIND: &str = "5424";
const READERS: [(&str, &str); 4] = [
    ("strict", "ours, strict"),
    ("strict_cleared", "ours, tables cleared before each line"),
    ("peer", "go-syslog, its collector off"),
    ("peer_collected", "go-syslog"),
];

/// Both must have found the same in the lines.
fn compared(results: &Results) -> Result<(), String> {
    let (theirs, ours) = (results.words(&["peer"])?, results.words(&["fills", KIND])?);
    let wanted = format!("{} 0 {ours}", results.count(KIND)?);
    if theirs == wanted { Ok(()) } else { Err(format!("go-syslog finds '{theirs}' in the lines, ours '{wanted}'")) }
}

/// How many times the instructions of ours it takes.
pub fn times_ours(results: &Results) -> Option<f64> {
    Some(results.a_line(KIND, "peer").ok()? / results.a_line(KIND, "strict").ok()?)
}

pub fn peer(results: &Results) -> Result<String, String> {
    let mut page = String::from("## A peer of the strict reader\n\n");
    let Ok(version) = results.words(&["about", "peer"]) else {
        add(&mut page, "go-syslog was not measured: its sources or a Go compiler could not be had.");
        return Ok(page + "\n");
    };
    compared(results)?;
    page += &format!(
        "The strict parser of {version}, built for x86-64, on the same {} lines of RFC 5424; it reads all of them and finds as many elements, parameters and bytes of messages. \
         It allocates strings and maps, which its collector frees; ours fills lent tables. Version 2.0.1 does not read a message that is not UTF-8, nor a value with a backslash before \
         another character than `\"`, `\\` and `]`, and of equal names in an element it keeps one: the grammar has all three, and ours reads them. A line where an id stands twice is refused by both.\n\n",
        commas(results.count(KIND)?)
    );
    let timed = nanos(results, KIND, READERS.map(|(reader, _)| reader));
    let under = timed.map_or("", |(clock, _)| clock.words());
    if !under.is_empty() {
        add(&mut page, "Time under the emulator is no processor's: here the instructions compare better.\n");
    }
    add(&mut page, &format!("| reader | instructions a line | times ours | nanoseconds a line{under} | times ours |\n|---|---|---|---|---|"));
    let ours = results.a_line(KIND, READERS[0].0)?;
    for (i, (reader, name)) in READERS.iter().enumerate() {
        let insns = results.a_line(KIND, reader)?;
        let time = timed.map_or(" | ".to_string(), |(_, n)| format!("{} | {:.2}", commas(n[i]), n[i] / n[0]));
        add(&mut page, &format!("| {name} | {} | {:.2} | {time} |", commas(insns), insns / ours));
    }
    Ok(page + "\n")
}
