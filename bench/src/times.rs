//! The part of docs/BENCH.md on time: medians of nine runs, by a machine that runs the programs itself, and under the emulator.
use crate::readers::ROWS;
use crate::report::{add, commas, KINDS, USES};
use crate::results::Results;

/// The streams that are timed, a frame of each.
const FRAMES: [(&str, &str); 2] = [("lines-100", "cutting a line of 100 bytes"), ("counted-100", "cutting a counted frame of 100 bytes")];
/// Ours may take so many times the Rust's time.
const MOST: f64 = 2.0;

#[derive(Clone, Copy)]
pub enum Clock {
    Native,
    Emulated,
}

impl Clock {
    fn of(self, results: &Results, what: &str, reader: &str) -> Option<f64> {
        let row = match self {
            Clock::Native => "nanos",
            Clock::Emulated => "emulated",
        };
        results.number(&[row, what, reader], 0).ok()
    }

    /// What is said beside its times.
    pub fn words(self) -> &'static str {
        match self {
            Clock::Native => "",
            Clock::Emulated => " under the emulator",
        }
    }
}

/// Nanoseconds of these readers by one clock: the machine's own if it timed them all, else that under the emulator.
pub fn nanos<const N: usize>(results: &Results, what: &str, readers: [&str; N]) -> Option<(Clock, [f64; N])> {
    [Clock::Native, Clock::Emulated].into_iter().find_map(|clock| {
        let times: Option<Vec<f64>> = readers.iter().map(|reader| clock.of(results, what, reader)).collect();
        Some((clock, times?.try_into().ok()?))
    })
}

/// The cells of one row: each time, and the ratios to the Rust's.
fn cells(results: &Results, clock: Clock, what: &str, ours: [&str; 2]) -> String {
    let of = |reader| clock.of(results, what, reader);
    let time = |reader| of(reader).map_or(String::new(), commas);
    let ratio = |reader| of(reader).zip(of("rust")).map_or(String::new(), |(ours, rust)| format!("{:.2}", ours / rust));
    [time("rust"), time("rust-lto"), time(ours[0]), ratio(ours[0]), time(ours[1]), ratio(ours[1])].join(" | ")
}

fn table(results: &Results, clock: Clock) -> String {
    let mut page = String::from("| what | the Rust | with LTO | ours | ratio | ours, cleared | ratio |\n|---|---|---|---|---|---|---|\n");
    for (kind, name) in KINDS {
        add(&mut page, &format!("| {name} | {} |", cells(results, clock, kind, ["loose", "loose_cleared"])));
    }
    add(&mut page, &format!("| RFC 5424, strict | {} |", cells(results, clock, "5424", ["strict", "strict_cleared"])));
    for (what, name) in USES {
        add(&mut page, &format!("| {name} | {} |", cells(results, clock, what, ["loose", ""])));
    }
    for (what, name) in FRAMES {
        add(&mut page, &format!("| {name} | {} |", cells(results, clock, what, ["splitter", ""])));
    }
    page + "\n"
}

/// The time of ours to the Rust's, variant 0, with tables as they are and cleared, and whether it is what is asked for.
pub fn seen(results: &Results) -> Option<String> {
    let (clock, [rust, loose, cleared]) = nanos(results, "all", ["rust", "loose", "loose_cleared"])?;
    let held = if loose.max(cleared) <= MOST * rust { "at most twice, as asked" } else { "more than twice, which is too much" };
    Some(format!("time{} {:.2} of the Rust's, {:.2} with tables cleared: {held}", clock.words(), loose / rust, cleared / rust))
}

pub fn times(results: &Results) -> Result<String, String> {
    let mut page = format!(
        "## Nanoseconds a line\n\n\
         The median of nine runs of each, in turn: each run is a program of its own, which reads all lines once, and then once more by the clock. Nothing is printed. \
         \"Cleared\" is with tables and record cleared before each line ({} rows of elements and {} of parameters, which is what lines of a gate need); else they are as the line before left them. \
         Our readers ask for no clearing. Other work of the machine shows here, and not in the instructions. A row of the splitter is a frame; the Rust has none, and no strict reader: that row's ratio is to its reading with variant 2.\n\n",
        ROWS.0, ROWS.1
    );
    if let Some(seen) = seen(results) {
        add(&mut page, &format!("Seen of all lines, variant 0: {seen}.\n"));
    }
    match results.words(&["about", "native"]) {
        Ok(native) => page += &format!("Measured on {native} ({}).\n\n{}", results.words(&["about", "timed"])?, table(results, Clock::Native)),
        Err(_) => add(&mut page, "None were measured by a machine that runs the programs itself, which are for x86-64: `bench/run --publish` there keeps them in docs/bench.native, for pages that are made elsewhere.\n"),
    }
    if Clock::Emulated.of(results, "all", "rust").is_some() {
        let about = |name| results.words(&["about", name]);
        add(&mut page, &format!("Under the emulator ({}), which both sides run under on a machine of the kind {}: it translates each side's x86-64 alike, and no processor takes these times.\n", about("emulator")?, about("machine")?));
        page += &table(results, Clock::Emulated);
    }
    Ok(page)
}
