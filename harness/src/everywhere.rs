//! Every token (Unicode white space and its neighbours, the borders of UTF-8, the characters of the grammars) at every place of some lines: put in,
//! and in the place of one byte and of the rest of the line.

const BASES: [&[u8]; 8] = [
    b"<13>1 2023-02-05T10:01:02.5Z h a 42 m [i a=\"b\" c=\"d\\n\"][j] x",
    b"<13>Feb  5 10:01:02 gate7 reader[42]: tap ok",
    b"<13>Feb 5 2023 10:01:02: h t[7]: [i a=\"b\"] m",
    b"<13>2023-02-05T10:01:02+01:00 h t: - m",
    b"<13>- h [7] : m",
    b" 1 - - - - - - ",
    b"<13>1 - h a p m [a b=\"c\"d] [e f=\"g\"] y",
    b"m",
];

/// White space, near white space, good and bad borders of UTF-8, and the characters that the grammars name.
pub const TOKENS: [&[u8]; 104] = [
    // White_Space, and what stands beside it.
    b"\x09", b"\x0A", b"\x0B", b"\x0C", b"\x0D", b"\x20", b"\x08", b"\x0E", b"\x1C", b"\x1F", b"\x21", b"\x00",
    b"\xC2\x85", b"\xC2\xA0", b"\xC2\x84", b"\xC2\x86", b"\xC2\x9F", b"\xC2\xA1", b"\xE1\x9A\x80", b"\xE1\x99\xBF", b"\xE1\x9A\x81", b"\xE1\xA0\x8E",
    b"\xE2\x80\x80", b"\xE2\x80\x81", b"\xE2\x80\x82", b"\xE2\x80\x83", b"\xE2\x80\x84", b"\xE2\x80\x85", b"\xE2\x80\x86", b"\xE2\x80\x87", b"\xE2\x80\x88",
    b"\xE2\x80\x89", b"\xE2\x80\x8A", b"\xE2\x80\x8B", b"\xE1\xBF\xBF", b"\xE2\x80\xA7", b"\xE2\x80\xA8", b"\xE2\x80\xA9", b"\xE2\x80\xAA", b"\xE2\x80\xAE",
    b"\xE2\x80\xAF", b"\xE2\x80\xB0", b"\xE2\x81\x9E", b"\xE2\x81\x9F", b"\xE2\x81\xA0", b"\xE2\xBF\xBF", b"\xE3\x80\x80", b"\xE3\x80\x81", b"\xEF\xBB\xBF",
    // Good borders.
    b"\x7F", b"\xC2\x80", b"\xDF\xBF", b"\xE0\xA0\x80", b"\xE0\xBF\xBF", b"\xE1\x80\x80", b"\xEC\xBF\xBF", b"\xED\x80\x80", b"\xED\x9F\xBF", b"\xEE\x80\x80",
    b"\xEF\xBF\xBF", b"\xF0\x90\x80\x80", b"\xF0\xBF\xBF\xBF", b"\xF1\x80\x80\x80", b"\xF3\xBF\xBF\xBF", b"\xF4\x80\x80\x80", b"\xF4\x8F\xBF\xBF",
    // Bad ones.
    b"\x80", b"\xBF", b"\xC0\x80", b"\xC1\xBF", b"\xC2", b"\xC2\x7F", b"\xC2\xC0", b"\xE0\x9F\xBF", b"\xE1\x80", b"\xED\xA0\x80", b"\xED\xBF\xBF",
    b"\xF0\x8F\xBF\xBF", b"\xF1\x80\x80", b"\xF4\x90\x80\x80", b"\xF5\x80\x80\x80", b"\xFF",
    // What the grammars name, and the sign that chrono takes for a minus.
    b"<", b">", b"[", b"]", b"\"", b"\\", b"=", b":", b"-", b"+", b".", b"T", b"Z", b"n", b"0", b"9", b"\\\"", b"\\]", b"[7]",
    b"\xE2\x88\x92", b"\xE2\x84\xAA", b" [i a=\"b\"]",
];

/// More places than the longest of the lines has; the length of the whole list; and a stride that visits all of it, far apart, so that a short
/// run sees something of every kind.
const PLACES: usize = 66;
const ALL: u64 = (TOKENS.len() * BASES.len() * 3 * PLACES) as u64;
const STRIDE: u64 = 100_003;

pub struct Everywhere {
    next: u64,
    step: u64,
}

impl Everywhere {
    pub fn new(part: u64, parts: u64) -> Self {
        Everywhere { next: part, step: parts }
    }

    /// The next line of the list, which starts again at its end.
    pub fn next(&mut self, line: &mut Vec<u8>) {
        let mut index = self.next % ALL * STRIDE % ALL;
        self.next += self.step;
        let mut digit = |base: usize| {
            let digit = index % base as u64;
            index /= base as u64;
            digit as usize
        };
        let token = TOKENS[digit(TOKENS.len())];
        let base = BASES[digit(BASES.len())];
        let way = digit(3);
        let at = digit(PLACES) % (base.len() + 1);
        let behind = match way {
            0 => at,
            1 => (at + 1).min(base.len()),
            _ => base.len(),
        };
        line.extend_from_slice(&base[..at]);
        line.extend_from_slice(token);
        line.extend_from_slice(&base[behind..]);
    }
}
