//! Lines of a given length: those that grow in one place, those of text that is not ASCII, those made to be slow, and those whose ids are slow to tell apart.
use crate::ids;

const HEAD: &str = "<134>1 2023-02-05T10:01:02.003Z gate7 reader 4211 TAP ";
const OLD_HEAD: &str = "<134>Feb  5 10:01:02 gate7 ";

/// The lengths that the growing lines are read at; the slow ones are read at the last two.
pub const LENGTHS: [usize; 3] = [128, 1024, 8192];

/// What a line has again and again: one text, or the first of a list, all of one length.
enum Units {
    Same(&'static str),
    List(fn(usize) -> Vec<String>),
}

impl Units {
    /// As many as fit.
    fn fitting(&self, room: usize) -> String {
        match self {
            Units::Same(text) => text.repeat(room / text.len()),
            Units::List(first) => first(room / first(1)[0].len()).concat(),
        }
    }
}

/// A line: `head`, then `units`, then `tail`; where a unit does not fit, the line is filled with the byte `fill` in front of the tail.
pub struct Shape {
    pub name: &'static str,
    pub what: &'static str,
    head: (&'static str, &'static str),
    units: Units,
    fill: char,
    tail: &'static str,
}

const fn shape(name: &'static str, what: &'static str, head: (&'static str, &'static str), unit: &'static str, fill: char, tail: &'static str) -> Shape {
    Shape { name, what, head, units: Units::Same(unit), fill, tail }
}

/// A line of RFC 5424 whose structured data is of a list's elements.
const fn listed(name: &'static str, what: &'static str, elements: fn(usize) -> Vec<String>) -> Shape {
    Shape { name, what, head: (HEAD, ""), units: Units::List(elements), fill: ' ', tail: " x" }
}

/// The same with a byte that is wrong behind the last element: no message follows it without a space.
const fn broken(name: &'static str, elements: fn(usize) -> Vec<String>) -> Shape {
    Shape { name, what: "", head: (HEAD, ""), units: Units::List(elements), fill: 'x', tail: "xx" }
}

fn stages(n: usize) -> Vec<String> {
    (0..n).map(|i| format!("[st{i:03}@32473 name=\"paddle\" ms=\"31\"]")).collect()
}

/// Lines that grow in one place.
pub const GROWING: [Shape; 3] = [
    shape("message", "RFC 5424, the message grows", (HEAD, "[stage@32473 name=\"denylist\" ms=\"212\"] "), "antenna 12 ms, ", 'x', ""),
    listed("elements", "RFC 5424, the structured data grows", stages),
    shape("old", "RFC 3164, the message grows", (OLD_HEAD, "reader[42]: "), "antenna 12 ms, ", 'x', ""),
];

/// Lines of RFC 5424 whose message is not ASCII.
pub const TEXTS: [Shape; 4] = [
    shape("text-german", "German words", (HEAD, "- "), "Tür offen, Schüler grüßt, ", 'x', ""),
    shape("text-umlauts", "`ä` and a space, again and again", (HEAD, "- "), "ä ", 'x', ""),
    shape("text-cyrillic", "Cyrillic words", (HEAD, "- "), "карта принята, ", 'x', ""),
    shape("text-wide", "Japanese words with U+3000 between them", (HEAD, "- "), "改札口\u{3000}開く\u{3000}", 'x', ""),
];

/// Lines made to be slow. The measure is how the cost a byte grows with the length.
pub const SLOW: [Shape; 15] = [
    shape("open-values", "`[a b=\"` again and again", (HEAD, ""), "[a b=\"", 'x', ""),
    shape("open-elements", "`[a b=\"x\" ` again and again", (HEAD, ""), "[a b=\"x\" ", 'x', ""),
    shape("brackets", "`[` again and again", (HEAD, ""), "[", '[', ""),
    shape("late-brackets", "`[a \" b=\"]` again and again: each element fails at the line's end", (HEAD, ""), "[a \" b=\"]", 'x', ""),
    shape("blanks", "blanks in front of the structured data", (HEAD, ""), " ", ' ', "- x"),
    shape("field", "a long host", ("<134>1 2023-02-05T10:01:02.003Z ", ""), "h", 'h', " a p m - x"),
    shape("backslashes", "a value of backslashes", (HEAD, "[a b=\""), "\\\\", 'x', "\"] x"),
    shape("small-elements", "`[a]` again and again", (HEAD, ""), "[a]", 'x', ""),
    shape("white", "white space alone", ("", ""), " ", ' ', ""),
    shape("wide-white", "U+3000 alone", ("", ""), "\u{3000}", ' ', ""),
    shape("open-quote", "an unfinished value behind many elements", (HEAD, ""), "[a b=\"x\"]", 'x', "[a b=\"x"),
    shape("old-tag", "RFC 3164, a long tag", (OLD_HEAD, ""), "t", 't', ": x"),
    shape("old-zeros", "RFC 3164, a day of many digits", ("<134>Feb ", ""), "0", '0', "5 10:01:02 gate7 reader[42]: x"),
    shape("old-open-values", "RFC 3164, `[a b=\"` again and again", (OLD_HEAD, "reader[42]: "), "[a b=\"", 'x', ""),
    shape("old-late-brackets", "RFC 3164, `[a \" b=\"]` again and again", (OLD_HEAD, "reader[42]: "), "[a \" b=\"]", 'x', ""),
];

/// Lines made to be slow for the strict reader, which asks that ids differ.
pub const IDS: [Shape; 7] = [
    listed("ids-in-order", "different ids of two bytes, in order", ids::in_order),
    listed("ids-shuffled", "the same, shuffled", ids::shuffled),
    listed("ids-late", "ids of 32 bytes that differ in the last two", ids::late),
    listed("ids-middle", "ids of 32 bytes that differ in the two of the middle", ids::middle),
    listed("ids-elsewhere", "ids of 32 bytes, `b` at another place in each of the first 32, the rest differ in the last two", ids::each_elsewhere),
    listed("ids-binary", "the same first 32, the rest of `a` and `b` in the last eight", ids::binary),
    shape("ids-same", "`[a]` again and again", (HEAD, ""), "[a]", ' ', " x"),
];

/// Lines that break near their end, each beside the one that does not.
pub const BROKEN: [(Shape, &Shape); 7] = [
    (broken("broken-elements", stages), &GROWING[1]),
    (broken("broken-in-order", ids::in_order), &IDS[0]),
    (broken("broken-shuffled", ids::shuffled), &IDS[1]),
    (broken("broken-late", ids::late), &IDS[2]),
    (broken("broken-middle", ids::middle), &IDS[3]),
    (broken("broken-elsewhere", ids::each_elsewhere), &IDS[4]),
    (broken("broken-binary", ids::binary), &IDS[5]),
];

pub fn named(name: &str) -> Option<&'static Shape> {
    let broken = BROKEN.iter().map(|(broken, _)| broken);
    GROWING.iter().chain(&TEXTS).chain(&SLOW).chain(&IDS).chain(broken).find(|s| s.name == name)
}

impl Shape {
    pub fn is_5424(&self) -> bool {
        self.head.0 == HEAD
    }

    /// Whether no unit stands in the line twice.
    pub fn is_varied(&self) -> bool {
        matches!(self.units, Units::List(_))
    }

    /// How many bytes of the line of `len` bytes its head and its units are.
    pub fn right(&self, len: usize) -> Option<usize> {
        let head = self.head.0.len() + self.head.1.len();
        let room = len.checked_sub(head + self.tail.len())?;
        Some(head + self.units.fitting(room).len())
    }

    /// The line of `len` bytes, if `len` has room for the shape.
    pub fn line(&self, len: usize) -> Option<String> {
        let head = format!("{}{}", self.head.0, self.head.1);
        let room = len.checked_sub(head.len() + self.tail.len())?;
        let mut line = head + &self.units.fitting(room);
        while line.len() + self.tail.len() < len {
            line.push(self.fill);
        }
        Some(line + self.tail)
    }
}
