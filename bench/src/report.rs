//! BENCH.md, from the results.
use crate::limit::limit;
use crate::peer::{peer, times_ours};
use crate::price::price;
use crate::results::Results;
use crate::shapes::{Shape, BROKEN, GROWING, LENGTHS, SLOW, TEXTS};
use crate::{claims, pairs, sites, tallies, writes};
use crate::streams::CUTS;
use crate::times::{seen, times};
use std::fmt::Write;

pub const KINDS: [(&str, &str); 3] = [("all", "all, variant 0"), ("3164", "RFC 3164, variant 1"), ("5424", "RFC 5424, variant 2")];
pub const USES: [(&str, &str); 2] = [("print", "printing a reading"), ("lookup", "looking up a parameter")];

/// A count with commas.
pub fn commas(n: f64) -> String {
    let digits = format!("{n:.0}");
    let mut text = String::new();
    for (i, d) in digits.chars().enumerate() {
        if i > 0 && (digits.len() - i) % 3 == 0 {
            text.push(',');
        }
        text.push(d);
    }
    text
}

/// A cost a byte: enough digits to compare, and no more.
pub fn cost(n: f64) -> String {
    if n < 100.0 { format!("{n:.1}") } else { commas(n) }
}

pub fn add(page: &mut String, line: &str) {
    page.push_str(line);
    page.push('\n');
}

fn intro(results: &Results) -> Result<String, String> {
    let about = |name| results.words(&["about", name]);
    Ok(format!(
        "# What reading costs\n\n\
         `bench/run` makes {} lines as the readers of a gate send them (seed {}), reads them with syslog_loose (\"the Rust\") and with the archive (\"ours\"), and writes this page (with `--publish` to docs/). \
         Counted are the instructions that the x86-64 program runs, as the difference of two run lengths, so that start-up is not in them. Both are optimised (opt-level 3; for the Rust, with link-time optimisation too in a column of its own), nothing \
         is printed, and the lent tables are not cleared but where it says so. Before that every line is read by both and compared. Our loose reader checks that the line is UTF-8; the Rust is given text that is known to be. The Rust allocates its lists; ours fills lent tables \
         and writes the record's bytes.\n\n\
         Measured on a machine of the kind {}, against {}. The archive is {}.\n\n\
         Seen: {}.\n\n\
         ![Three of the tables as a plot](bench.svg)\n\n",
        commas(results.number(&["kind", "all"], 0)?),
        about("seed")?,
        about("machine")?,
        about("versions")?,
        about("archive")?,
        closing(results)?,
    ))
}

fn lines(results: &Results) -> Result<String, String> {
    let mut page = String::from("## Instructions a line\n\nA ratio is of ours to the Rust at opt-level 3. The aim is at most 1.0, the goal 0.5. \"Cleared\" is with tables and record cleared before each line.\n\n");
    add(&mut page, "| lines | count | bytes a line | the Rust | with LTO | ours, loose | ratio | to LTO | cleared | ours, strict | ratio | cleared |");
    add(&mut page, "|---|---|---|---|---|---|---|---|---|---|---|---|");
    for (kind, name) in KINDS {
        let (count, of) = (results.count(kind)?, |reader| results.a_line(kind, reader));
        let bytes = results.number(&["kind", kind], 1)? / count;
        let (rust, lto, loose) = (of("rust")?, of("rust-lto")?, of("loose")?);
        let strict = match of("strict") {
            Ok(strict) => format!("{} | {:.2} | {}", commas(strict), strict / rust, commas(of("strict_cleared")?)),
            Err(_) => " |  | ".to_string(),
        };
        let counted = [rust, lto, loose].map(commas).join(" | ");
        let compared = format!("{:.2} | {:.2} | {}", loose / rust, loose / lto, commas(of("loose_cleared")?));
        add(&mut page, &format!("| {name} | {} | {bytes:.1} | {counted} | {compared} | {strict} |", commas(count)));
    }
    Ok(page + "\n")
}

fn uses(results: &Results) -> Result<String, String> {
    let (calls, found) = (results.number(&["use", "lookup"], 0)?, results.number(&["use", "lookup"], 1)?);
    let mut page = format!(
        "## Printing and lookup\n\n\
         Instructions a call, {} of each on readings of the first lines, variant 0. The Rust prints to a String that is used again, ours to an output. Looked up is the parameter `ms` of the element \
         `stage@32473`, which {:.0} % of them have; the Rust has an iterator for it, which unescapes each value up to the one that is found. Ours asks first, in both, whether record and tables suit the line.\n\n",
        commas(calls),
        100.0 * found / calls
    );
    add(&mut page, "| what | the Rust | with LTO | ours | ratio |\n|---|---|---|---|---|");
    for (what, name) in USES {
        let (rust, lto, ours) = (results.a_line(what, "rust")?, results.a_line(what, "rust-lto")?, results.a_line(what, "loose")?);
        add(&mut page, &format!("| {name} | {} | {:.2} |", [rust, lto, ours].map(commas).join(" | "), ours / rust));
    }
    Ok(page + "\n")
}

/// A row for each length of each shape.
fn by_length(results: &Results, shapes: &[Shape], lengths: &[usize]) -> Result<String, String> {
    let mut page = String::from("| line | bytes | the Rust | and checks UTF-8 | ours, loose | ratio | to the one that checks | ours, strict |\n|---|---|---|---|---|---|---|---|\n");
    for (shape, bytes) in shapes.iter().flat_map(|shape| lengths.iter().map(move |bytes| (shape, *bytes))) {
        let of = |reader| results.a_byte(shape.name, bytes, reader);
        let (rust, checked, loose) = (of("rust")?, of("rust_checked")?, of("loose")?);
        let strict = of("strict").map_or(String::new(), cost);
        let costs = [rust, checked, loose].map(cost).join(" | ");
        add(&mut page, &format!("| {} | {} | {costs} | {:.2} | {:.2} | {strict} |", shape.what, commas(bytes as f64), loose / rust, loose / checked));
    }
    Ok(page + "\n")
}

fn growing(results: &Results) -> Result<String, String> {
    let page = "## Instructions a byte, by the line's length\n\nThe Rust is given text that is known to be UTF-8, and once more the bytes, so that it checks them first as ours does.\n\n";
    Ok(page.to_string() + &by_length(results, &GROWING, &LENGTHS)?)
}

fn texts(results: &Results) -> Result<String, String> {
    let page = "## Text that is not ASCII\n\nLines of RFC 5424 with such a message, in instructions a byte. Runs with the archives of before and after (`--archive`) compare them.\n\n";
    Ok(page.to_string() + &by_length(results, &TEXTS, &LENGTHS[1..])?)
}

fn slow(results: &Results) -> Result<String, String> {
    let mut page = String::from(
        "## Lines made to be slow\n\n\
         Instructions a byte at 1,024 and at 8,192 bytes, variant 0. A cost that is linear in the line stays as it is or falls; one that is quadratic grows eightfold. A line that is answered whole has no reading.\n\n",
    );
    add(&mut page, "| line | answer | the Rust, 1,024 | 8,192 | ours, loose, 1,024 | 8,192 | ours grows by |");
    add(&mut page, "|---|---|---|---|---|---|---|");
    for shape in &SLOW {
        let of = |reader| -> Result<(f64, f64), String> { Ok((results.a_byte(shape.name, LENGTHS[1], reader)?, results.a_byte(shape.name, LENGTHS[2], reader)?)) };
        let (rust, ours) = (of("rust")?, of("loose")?);
        let answer = results.words(&["answer", shape.name, "8192"])?;
        let cells = [rust.0, rust.1, ours.0, ours.1].map(cost).join(" | ");
        add(&mut page, &format!("| {} | {answer} | {cells} | {:.2} |", shape.what, ours.1 / ours.0));
    }
    Ok(page + "\n")
}

fn broken(results: &Results) -> Result<String, String> {
    let mut page = String::from(
        "## What it costs to say where a line breaks\n\n\
         Lines of structured data read strictly, in instructions a byte at 1,024 and at 8,192 bytes, and the same with a byte behind their last element that is wrong: they are refused with 4, and the answer says how far they are right. The aim is at most 3 times.\n\n",
    );
    add(&mut page, "| line | read, 1,024 | 8,192 | broken, 1,024 | 8,192 | times, 1,024 | 8,192 |\n|---|---|---|---|---|---|---|");
    for (shape, intact) in &BROKEN {
        let of = |name| -> Result<(f64, f64), String> { Ok((results.a_byte(name, LENGTHS[1], "strict")?, results.a_byte(name, LENGTHS[2], "strict")?)) };
        for bytes in &LENGTHS[1..] {
            let told = |i| results.number(&["reach", shape.name, &bytes.to_string()], i);
            if told(0)? != told(1)? {
                return Err(format!("{} at {bytes} bytes is right for {} bytes, and {} are told", shape.name, told(1)?, told(0)?));
            }
        }
        let (read, refused) = (of(intact.name)?, of(shape.name)?);
        let cells = [read.0, read.1, refused.0, refused.1].map(cost).join(" | ");
        add(&mut page, &format!("| {} | {cells} | {:.2} | {:.2} |", intact.what, refused.0 / read.0, refused.1 / read.1));
    }
    Ok(page + "\n")
}

/// The functions that the compiler left as such, with the instructions a line of each. Those below one are left out.
fn functions(results: &Results) -> Result<String, String> {
    let columns = [("3164", "loose"), ("5424", "loose"), ("5424", "strict")];
    let mut rows: Vec<(String, [f64; 3])> = Vec::new();
    for (i, (kind, reader)) in columns.iter().enumerate() {
        let count = results.number(&["kind", kind], 0)?;
        for row in results.behind(&["function", kind, reader]) {
            let a_line = row[1].parse::<f64>().map_err(|_| "a function without a number")? / count;
            match rows.iter_mut().find(|r| r.0 == row[0]) {
                Some(r) => r.1[i] = a_line,
                None => rows.push((row[0].clone(), std::array::from_fn(|k| if k == i { a_line } else { 0.0 }))),
            }
        }
    }
    rows.retain(|r| r.1.iter().any(|n| *n >= 1.0));
    rows.sort_by(|a, b| b.1.iter().sum::<f64>().total_cmp(&a.1.iter().sum()));
    let mut page = String::from("## Where ours goes\n\nInstructions a line in each function of the archive, those that were inlined counted with their caller. `?` is the C library's copying.\n\n");
    add(&mut page, "| function | loose, RFC 3164 | loose, RFC 5424 | strict, RFC 5424 |\n|---|---|---|---|");
    for (name, cells) in rows {
        let cells = cells.map(|n| if n < 1.0 { String::new() } else { commas(n) }).join(" | ");
        writeln!(page, "| `{name}` | {cells} |").expect("a String takes all");
    }
    Ok(page)
}

fn streams(results: &Results) -> Result<String, String> {
    let mut page = String::from(
        "## Streams\n\nCutting a stream into frames, in instructions a byte and a call, in the functions of the archive and the C library's copying. A call ends with a piece and with a frame. \
         The aims are 2.6 a byte for lines of 100 bytes, 1.4 for lines of 8,000, 0.3 for long counted frames, and 100 to 150 a call where pieces are short.\n\n",
    );
    add(&mut page, "| stream | bytes | frames | calls | a byte | a call |\n|---|---|---|---|---|---|");
    for cut in &CUTS {
        let has = |i| results.number(&["stream", cut.name], i);
        let (bytes, calls, spent) = (has(0)?, has(1)?, results.number(&["cutting", cut.name], 0)?);
        add(&mut page, &format!("| {} | {} | {} | {} | {:.2} | {} |", cut.what, commas(bytes), commas(has(2)?), commas(calls), spent / bytes, commas(spent / calls)));
    }
    Ok(page + "\n")
}

fn tallies(results: &Results) -> Result<String, String> {
    let mut page = String::from(
        "## Tallies\n\nAdding to a tally and reading it, in instructions a call in the functions of the archive. Nothing is allocated or cleared.\n\n",
    );
    add(&mut page, "| call | calls | a call |\n|---|---|---|");
    for kind in &tallies::KINDS {
        let (calls, spent) = (results.number(&["tally", kind.name], 0)?, results.number(&["tallying", kind.name], 0)?);
        add(&mut page, &format!("| {} | {} | {:.1} |", kind.what, commas(calls), spent / calls));
    }
    Ok(page + "\n")
}

fn sites(results: &Results) -> Result<String, String> {
    let mut page = String::from(
        "## Settings files\n\nThe settings of a gate, which are sought from the end of the file on, a record written, and a line read with them beside the loose \
         reading of that line, in instructions a call in the functions of the archive. Nothing is allocated or kept.\n\n",
    );
    add(&mut page, "| call | calls | a call |\n|---|---|---|");
    for kind in &sites::KINDS {
        let (calls, spent) = (results.number(&["site", kind.name], 0)?, results.number(&["sited", kind.name], 0)?);
        add(&mut page, &format!("| {} | {} | {:.1} |", kind.what, commas(calls), spent / calls));
    }
    Ok(page + "\n")
}

fn claims(results: &Results) -> Result<String, String> {
    let mut page = String::from(
        "## Claims\n\nThe check of what the strict reader left, beside the strict reading of the same line, in instructions a call in the functions of the archive. \
         The check may take 1.5 times the reading.\n\n",
    );
    add(&mut page, "| line | strict reading | check | times |\n|---|---|---|---|");
    for kind in &claims::KINDS {
        let calls = results.number(&["claim", kind.name], 0)?;
        let (read, check) = (results.number(&["claimed", kind.name, "strict"], 0)? / calls, results.number(&["claimed", kind.name, "check"], 0)? / calls);
        if check > claims::LIMIT * read {
            return Err(format!("{}: the check takes {:.2} times the strict reading", kind.name, check / read));
        }
        add(&mut page, &format!("| {} | {} | {} | {:.2} |", kind.what, commas(read), commas(check), check / read));
    }
    Ok(page + "\n")
}

fn writes(results: &Results) -> Result<String, String> {
    let mut page = String::from(
        "## Lines that are written\n\nWriting a line from its fields, in instructions in the functions of the archive. Nothing is allocated.\n\n",
    );
    add(&mut page, "| line | bytes | a line | a byte |\n|---|---|---|---|");
    for kind in &writes::KINDS {
        let (calls, bytes) = (results.number(&["write", kind.name], 0)?, results.number(&["write", kind.name], 1)?);
        let spent = results.number(&["writing", kind.name], 0)? / calls;
        add(&mut page, &format!("| {} | {} | {} | {:.2} |", kind.what, commas(bytes), commas(spent.round()), spent / bytes));
    }
    Ok(page + "\n")
}

fn pairs(results: &Results) -> Result<String, String> {
    let mut page = String::from(
        "## Comparing two lines\n\nInstructions a pair in the functions of the archive and the C library's copying and clearing, of comparing two lines and of reading both by the loose reader, with \
         tables that are not cleared. Pairs whose parameters are the same one by one are found by comparing their texts; else they go into a tree, in tables on the stack that are cleared first. The aims are at most 1.5 times for gate lines and 4 times for lines made to be slow.\n\n",
    );
    add(&mut page, "| lines | pairs | bytes a pair | reading both | comparing | times | aim |\n|---|---|---|---|---|---|---|");
    for kind in &pairs::KINDS {
        let of = |what| results.number(&["compared", kind.name, what], 0);
        let (pairs, bytes) = (results.number(&["pairs", kind.name], 0)?, results.number(&["pairs", kind.name], 1)?);
        let (read, compared) = (of("read")?, of("compare")?);
        let cells = [bytes, read, compared].map(|n| commas(n / pairs)).join(" | ");
        add(&mut page, &format!("| {} | {} | {cells} | {:.2} | {:.1} |", kind.what, commas(pairs), compared / read, kind.aim));
    }
    Ok(page + "\n")
}

/// A line of prose as lines of at most 120 columns; a row of a table as it is.
fn folded(line: &str) -> String {
    if line.starts_with('|') {
        return line.to_string();
    }
    let mut text = String::new();
    let mut columns = 0;
    for word in line.split(' ') {
        let wide = word.chars().count();
        if columns > 0 {
            text.push(if columns + 1 + wide <= 120 { ' ' } else { '\n' });
            columns = if columns + 1 + wide <= 120 { columns + 1 } else { 0 };
        }
        text.push_str(word);
        columns += wide;
    }
    text
}

pub fn page(results: &Results) -> Result<String, String> {
    let mut page = intro(results)?;
    for part in [lines, uses, times, peer, limit, growing, texts, slow, price, broken, streams, tallies, sites, claims, writes, pairs, functions] {
        page += &part(results)?;
    }
    Ok(page.lines().map(|line| folded(line) + "\n").collect())
}

/// The line that the bench ends with.
pub fn closing(results: &Results) -> Result<String, String> {
    let (rust, loose) = (results.a_line("all", "rust")?, results.a_line("all", "loose")?);
    let lines = commas(results.count("all")?);
    let mut line = format!("{lines} lines: {} instructions a line by the Rust, {} by ours, ratio {:.2}", commas(rust), commas(loose), loose / rust);
    if let Some(seen) = seen(results) {
        line += &format!("; {seen}");
    }
    if let Some(times) = times_ours(results) {
        line += &format!("; go-syslog takes {times:.1} times our strict reader's instructions");
    }
    Ok(line)
}
