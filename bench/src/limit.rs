//! The part of docs/BENCH.md on the limit: a look at each byte, and what is written.
use crate::check::WORDS;
use crate::report::{add, commas, KINDS};
use crate::results::Results;

/// The words that a line's record and rows have: 2 of an element, 5 of a parameter (docs/INTERFACE.md).
fn words(results: &Results, kind: &str) -> Result<f64, String> {
    let (lines, fills) = (results.count(kind)?, |i| results.number(&["fills", kind], i));
    Ok(WORDS as f64 + (2.0 * fills(0)? + 5.0 * fills(1)?) / lines)
}

pub fn limit(results: &Results) -> Result<String, String> {
    let mut page = String::from(
        "## The limit\n\n\
         No reader does with less than one look at each byte. The cheapest that looks at each by itself, a comparison and a branch, was counted on the same lines (is there a zero?), and so was the \
         cheapest that looks at sixteen at once, which tells no more than whether all are ASCII. A word of 8 bytes that is written is an instruction at least: those of a loose record and of its rows are told. \
         The limit is taken as the look at each byte by itself and the words; code that looks at sixteen at once could go below it. The last four columns say how many times the limit each reader takes.\n\n",
    );
    add(&mut page, "| lines | bytes a line | sixteen at once | each by itself | words written | the limit | ours, loose | ours, strict | the Rust | with LTO |");
    add(&mut page, "|---|---|---|---|---|---|---|---|---|---|");
    for (kind, name) in KINDS {
        let (by_byte, words) = (results.a_line(kind, "by_byte")?, words(results, kind)?);
        let limit = by_byte + words;
        let times = |reader| results.a_line(kind, reader).map_or(String::new(), |n| format!("{:.1}", n / limit));
        let bytes = results.number(&["kind", kind], 1)? / results.count(kind)?;
        let counted = [results.a_line(kind, "by_sixteen")?, by_byte, words, limit].map(commas).join(" | ");
        let ratios = ["loose", "strict", "rust", "rust-lto"].map(times).join(" | ");
        add(&mut page, &format!("| {name} | {bytes:.1} | {counted} | {ratios} |"));
    }
    Ok(page + "\n")
}
