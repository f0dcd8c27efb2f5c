//! The part of docs/BENCH.md on what it costs that the strict reader asks for different ids. What it cost before stands there if bench/run was given --before.
use crate::report::{add, commas, cost};
use crate::results::Results;
use crate::shapes::{Shape, IDS, LENGTHS};

const GATE_LINES: [(&str, &str); 5] = [("5424", "any number"), ("5424-0", "none"), ("5424-1", "1"), ("5424-2", "2"), ("5424-3", "3")];
const READER: &str = "strict";
const BEFORE: &str = "strict-before";

fn row(page: &mut String, cells: &[String]) {
    add(page, &format!("| {} |", cells.join(" | ")));
}

/// The names of the columns, and the line under them.
fn columns(page: &mut String, names: &[&str]) {
    row(page, &names.iter().map(|n| n.to_string()).collect::<Vec<String>>());
    add(page, &format!("|{}", "---|".repeat(names.len())));
}

fn gate_lines(results: &Results, compared: bool) -> Result<String, String> {
    let mut page = String::from("Gate lines of RFC 5424 by how many elements they have, read strictly, in instructions a line.");
    page += if compared { " The aim is at most 3 % more.\n\n" } else { "\n\n" };
    columns(&mut page, if compared { &["elements", "count", "ours, strict", "before", "more"] } else { &["elements", "count", "ours, strict"] });
    for (kind, name) in GATE_LINES {
        let now = results.a_line(kind, READER)?;
        let mut cells = vec![name.to_string(), commas(results.number(&["kind", kind], 0)?), commas(now)];
        if compared {
            let before = results.a_line(kind, BEFORE)?;
            cells.extend([commas(before), format!("{:+.1} %", 100.0 * (now / before - 1.0))]);
        }
        row(&mut page, &cells);
    }
    Ok(page + "\n")
}

/// The answer at 8,192 bytes, and what it was before if that was another.
fn answer(results: &Results, shape: &Shape) -> Result<String, String> {
    let now = results.words(&["answer", shape.name, "8192"])?;
    Ok(match results.words(&["before", shape.name, "8192"]) {
        Ok(before) if before != now => format!("{now}, before {before}"),
        _ => now,
    })
}

fn slow_ids(results: &Results, compared: bool) -> Result<String, String> {
    let mut page = String::from(
        "Lines whose ids are slow to tell apart, read strictly, in instructions a byte at 1,024 and at 8,192 bytes. Up to 8 ids\n\
         are compared each with each; more go into a tree, in tables on the stack that are cleared first. A table of over 2,048\n\
         bytes is cleared by the C library (memset) with `rep stos`, which the emulator counts as an instruction for each byte,\n\
         where a processor clears many at once.\n",
    );
    page += if compared { "The aims are at most 3 times the cost before, and to grow by at most 1.6.\n\n" } else { "The aim is to grow by at most 1.6.\n\n" };
    let names = ["line", "elements, 1,024", "8,192", "answer", "1,024", "8,192", "grows by", "before, 1,024", "8,192", "times, 1,024", "8,192"];
    columns(&mut page, if compared { &names } else { &names[..7] });
    for shape in &IDS {
        let of = |reader| -> Result<(f64, f64), String> { Ok((results.a_byte(shape.name, LENGTHS[1], reader)?, results.a_byte(shape.name, LENGTHS[2], reader)?)) };
        let elements = |bytes: usize| results.number(&["elements", shape.name, &bytes.to_string()], 0).map(commas);
        let now = of(READER)?;
        let mut cells = vec![shape.what.to_string(), elements(LENGTHS[1])?, elements(LENGTHS[2])?, answer(results, shape)?];
        cells.extend([cost(now.0), cost(now.1), format!("{:.2}", now.1 / now.0)]);
        if compared {
            let before = of(BEFORE)?;
            cells.extend([cost(before.0), cost(before.1), format!("{:.2}", now.0 / before.0), format!("{:.2}", now.1 / before.1)]);
        }
        row(&mut page, &cells);
    }
    Ok(page + "\n")
}

pub fn price(results: &Results) -> Result<String, String> {
    let compared = results.a_line("5424", BEFORE).is_ok();
    let mut page = String::from("## What it costs that ids differ\n\nRFC 5424 allows an id once in a line, and the strict reader asks for it; the loose one does not.");
    if compared {
        page += " \"Before\" is an archive of the reader before it asked.";
    }
    Ok(page + "\n\n" + &gate_lines(results, compared)? + &slow_ids(results, compared)?)
}
