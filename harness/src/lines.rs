//! Lines by seed: good ones of both protocols, damaged copies, timestamps at the limits, lines at the strict grammar's limits and around 8,192 bytes.

use crate::abi::{Settings, LONGEST};
use crate::everywhere::{Everywhere, TOKENS};
use crate::random::Random;
use crate::short::Short;

pub struct Lines {
    random: Random,
    short: Short,
    everywhere: Everywhere,
}

const YEARS: [u32; 14] = [0, 1, 3, 4, 100, 400, 1900, 1970, 2000, 2023, 2024, 2100, 9998, 9999];
const OFFSETS: [i32; 13] = [-1439, -1438, -720, -61, -60, -1, 0, 1, 60, 330, 720, 1438, 1439];
const MONTHS: [&str; 15] = ["Jan", "Feb", "Mar", "Apr", "May", "Jun", "Jul", "Aug", "Sep", "Oct", "Nov", "Dec", "fEB", "JAN", "dec"];
const YEARS_B: [&str; 19] = [
    "0", "00", "1", "4", "99", "100", "1900", "1969", "1970", "2000", "2023", "2024", "9999", "09999", "10000", "12345", "262142", "2147483647", "2147483648",
];
const FRACTIONS: [&str; 17] = [
    "", "", "", ".0", ".5", ".12", ".003", ".000", ".1000", ".00001", ".123456", ".500000", ".1234567", ".12345678", ".123456789", ".120000000",
    ".000000000",
];
const ODD_FRACTIONS: [&str; 6] = [".1234567890", ".000000000000", ".5000000000", ".", ".12a", ",5"];
const ZONES: [&str; 10] = ["Z", "Z", "z", "+00:00", "-00:00", "+01:00", "-01:30", "+05:45", "+23:59", "-23:59"];
const ODD_ZONES: [&str; 14] = [
    "+24:00", "-24:00", "+12:60", "-23:60", "\u{2212}01:00", "\u{2212}23:59", "+0100", "+01", "", "+1:00", "+01:0", "+01 :00", " Z", "+01:00Z",
];
const FIELDS: [&str; 28] = [
    "-", "gate7", "h", "10.0.0.7", "reader", "app[42]", "app[042]", "app[x y]", "[1]", "[]", "a[",
    "a]", "a[b]c", "a[b]]", "[[1]]", ":", "h:", "-:", "::", "a:b", "--", "\u{e9}t\u{e9}",
    "\u{3000}", "x\u{a0}y", "+42", "-0", "2147483648", "007",
];
const IDS: [&str; 9] = ["id", "t@32473", "a", "exampleSDID@32473", "\"", "\u{e9}", "-", "[", "x\"y"];
const NAMES: [&str; 10] = ["ms", "a", "b", "iut", "eventSource", "n m", "\"", "\u{e9}", "\\", "["];
const VALUES: [&str; 22] = [
    "", "212", "x", "x]y", "\\]", "\\\"", "\\\\", "\\n", "\\x", "a\\nb", "\\\\\\\"",
    "\\\u{e9}", "\u{e9}", " ", "=", "[", "a b", "\\", "\\\\n", "\u{10FFFF}", "\\]\\]", "\t",
];
const MESSAGES: [&str; 24] = [
    "", "tap ok", "x", "-5 ms", "-", ": m", "[x]", "[a b=\"c\"]", "[a b=\"c\"] m", "[a b=\"c\"",
    "\u{feff}bom", "a  b ", "\u{85}m", "m\u{2003}", "y\" b]", "\\", "\"", "[", "]", "- [a b=\"c\"] m",
    "- ok", "---", "-[a b=\"c\"] x", "-\t-",
];

impl Lines {
    /// `part` of `parts` shares the exhaustive lists with the others and has random numbers of its own.
    pub fn new(seed: u64, part: u64, parts: u64) -> Self {
        let mut random = Random::new(seed.wrapping_mul(0x1_0000_0001).wrapping_add(part));
        random.next();
        Lines { random, short: Short::new(part, parts), everywhere: Everywhere::new(part, parts) }
    }

    /// The next line, its settings, and a number that chooses what the calls are lent.
    pub fn next(&mut self, line: &mut Vec<u8>) -> (Settings, u64) {
        line.clear();
        match self.random.below(100) {
            0..=29 => self.short.next(line),
            30..=41 => self.everywhere.next(line),
            42..=55 => self.good(line),
            56..=61 => self.near_limit(line),
            62 => self.long(line),
            63 => self.ids(line),
            64..=74 => self.stamped(line),
            _ => {
                self.good(line);
                self.damage(line);
            }
        }
        (self.settings(), self.random.next())
    }

    /// How many letters all short strings have been gone through with.
    pub fn letters(&self) -> u32 {
        self.short.done()
    }

    fn settings(&mut self) -> Settings {
        let r = &mut self.random;
        let mut s = Settings { variant: r.of(&[0, 0, 0, 1, 2]), year: r.of(&YEARS), offset: r.of(&OFFSETS) };
        if r.one_in(8) {
            s.year = r.below(10_000) as u32;
            s.offset = r.below(2879) as i32 - 1439;
        }
        if r.one_in(40) {
            match r.below(3) {
                0 => s.variant = r.of(&[3, 4, u32::MAX, 1 << 31]),
                1 => s.year = r.of(&[10_000, 10_001, u32::MAX, 1 << 31]),
                _ => s.offset = r.of(&[-1440, 1440, i32::MIN, i32::MAX, -1441, 86_400]),
            }
        }
        s
    }

    fn good(&mut self, line: &mut Vec<u8>) {
        if self.random.one_in(2) {
            self.line_5424(line);
        } else {
            self.line_3164(line);
        }
        if self.random.one_in(12) {
            line.extend_from_slice(self.random.pick(&TOKENS));
        }
    }

    fn blank(&mut self, line: &mut Vec<u8>) {
        line.extend_from_slice(self.random.pick(&[b" ", b" ", b" ", b" ", b" ", b" ", b" ", b"  ", b"\t", b" \t "]));
    }

    /// One of the usual texts, or one time in ten an odd one.
    fn put_or(&mut self, line: &mut Vec<u8>, usual: &[&str], odd: &[&str]) {
        let from = if self.random.one_in(10) { odd } else { usual };
        self.put(line, from);
    }

    fn put(&mut self, line: &mut Vec<u8>, from: &[&str]) {
        line.extend_from_slice(self.random.pick(from).as_bytes());
    }

    fn number(&mut self, line: &mut Vec<u8>, below: usize) {
        line.extend_from_slice(self.random.below(below).to_string().as_bytes());
    }

    fn priority(&mut self, line: &mut Vec<u8>) {
        match self.random.below(8) {
            0 => self.put(line, &["", "<>", "<256>", "<0>", "<00013>", "<191>", "<192>", "<255>", "<013>", "<99999999999999999999>", "<1", "1>", "<-1>", "<+1>"]),
            1 => line.extend_from_slice(format!("<{}>", self.random.below(260)).as_bytes()),
            _ => line.extend_from_slice(format!("<{}>", self.random.below(192)).as_bytes()),
        }
    }

    fn field(&mut self, line: &mut Vec<u8>) {
        match self.random.below(6) {
            0 => self.put(line, &FIELDS),
            1..=3 => self.put(line, &["gate7", "-", "reader", "42", "TAP", "h", "app[42]"]),
            _ => self.word(line),
        }
    }

    fn word(&mut self, line: &mut Vec<u8>) {
        for _ in 0..1 + self.random.below(6) {
            line.push(self.random.of(b"abcxyzABC0189-_.:[]@/+"));
        }
    }

    fn elements(&mut self, line: &mut Vec<u8>) {
        for _ in 0..1 + self.random.below(4) {
            line.push(b'[');
            self.put(line, &IDS);
            for _ in 0..self.random.below(4) {
                self.put_or(line, &[" "], &["  ", "\t", ""]);
                self.put(line, &NAMES);
                self.put_or(line, &["=\""], &["= \"", "=\t\"", "\"", "=\u{a0}\""]);
                for _ in 0..1 + self.random.below(2) {
                    self.put(line, &VALUES);
                }
                line.push(b'"');
            }
            self.put_or(line, &["]"], &["] ", " ]", "", "]]"]);
        }
    }

    fn structured(&mut self, line: &mut Vec<u8>) {
        match self.random.below(3) {
            0 => self.put(line, &["-", "-", "", "[", "[]", "[id]", "[id a=\"b\"]"]),
            _ => self.elements(line),
        }
    }

    fn line_5424(&mut self, line: &mut Vec<u8>) {
        self.priority(line);
        self.put_or(line, &["1", "1", "1", "2", "999"], &["0", "007", "1000", "4294967295", "4294967296", ""]);
        self.blank(line);
        if self.random.one_in(3) {
            line.push(b'-');
        } else {
            self.form_c(line);
        }
        for _ in 0..4 {
            self.blank(line);
            self.field(line);
        }
        self.blank(line);
        self.structured(line);
        if !self.random.one_in(4) {
            self.blank(line);
            self.put(line, &MESSAGES);
        }
    }

    fn line_3164(&mut self, line: &mut Vec<u8>) {
        self.priority(line);
        self.put(line, &["", "", "", "", " ", "\t "]);
        match self.random.below(8) {
            0 => line.push(b'-'),
            1 => self.form_c(line),
            2..=3 => self.form_b(line),
            _ => self.form_a(line),
        }
        for _ in 0..self.random.of(&[0, 1, 2, 2, 2, 2, 2, 3]) {
            self.blank(line);
            self.field(line);
        }
        self.put(line, &["", "", ":", ": ", ": ", " : ", "::", "\t:\t"]);
        if self.random.one_in(3) {
            self.structured(line);
            self.put(line, &[" ", " ", "", "\t"]);
        }
        self.put(line, &MESSAGES);
    }

    fn clock(&mut self, line: &mut Vec<u8>) {
        if self.random.one_in(6) {
            let odd = ["0:0:0", "24:00:00", "23:60:00", "23:59:60", "23:59:61", "10:01", "10:01:02.5", "010:001:002", "4294967295:0:0", "10:4294967296:0", "10::2"];
            return self.put_or(line, &["23:59:59", "00:00:00", "23:59:60", "12:00:60"], &odd);
        }
        let r = &mut self.random;
        line.extend_from_slice(format!("{:02}:{:02}:{:02}", r.below(24), r.below(60), r.below(60)).as_bytes());
    }

    fn month_and_day(&mut self, line: &mut Vec<u8>) {
        self.put_or(line, &MONTHS, &["Fe", "\u{17F}ep", "Febr", "f\u{e9}v", ""]);
        self.blank(line);
        match self.random.below(8) {
            0 => self.put(line, &["0", "1", "01", "28", "29", "30", "31", "32", "4294967295", "4294967296", "-1", "", "005"]),
            1 => line.extend_from_slice(format!(" {}", 1 + self.random.below(9)).as_bytes()),
            _ => line.extend_from_slice((1 + self.random.below(30)).to_string().as_bytes()),
        }
        self.blank(line);
    }

    fn form_a(&mut self, line: &mut Vec<u8>) {
        self.month_and_day(line);
        self.clock(line);
        self.put_or(line, &["", "", "", ":"], &["::", "Z"]);
    }

    fn form_b(&mut self, line: &mut Vec<u8>) {
        self.month_and_day(line);
        match self.random.below(4) {
            0 => self.put(line, &YEARS_B),
            _ => self.number(line, 10_000),
        }
        self.blank(line);
        self.clock(line);
        self.put_or(line, &["", "", "", ":"], &["::", "Z"]);
    }

    fn form_c(&mut self, line: &mut Vec<u8>) {
        let r = &mut self.random;
        let year = if r.one_in(3) { r.of(&YEARS) as usize } else { r.below(10_000) };
        let (month, day) = match r.below(8) {
            0 => (r.below(14), r.below(33)),
            _ => (1 + r.below(12), 1 + r.below(28)),
        };
        line.extend_from_slice(format!("{year:04}-{month:02}-{day:02}").as_bytes());
        self.put_or(line, &["T", "T", "T", "t"], &[" ", "_", ""]);
        self.clock(line);
        self.put_or(line, &FRACTIONS, &ODD_FRACTIONS);
        self.put_or(line, &ZONES, &ODD_ZONES);
    }

    /// A good header around a timestamp of any form, often at its limits.
    fn stamped(&mut self, line: &mut Vec<u8>) {
        let new = self.random.one_in(3);
        line.extend_from_slice(if new { b"<13>1 " } else { b"<13>" });
        match self.random.below(if new { 2 } else { 6 }) {
            0 => self.limit_c(line),
            1 => self.form_c(line),
            2 => self.form_a(line),
            3 => self.form_b(line),
            _ => self.limit_b(line),
        }
        let after: &[&str] = if new { &[" h a 42 m - x", " - - - - -"] } else { &[" h t: m", " h t[7]: m", "", ": m"] };
        self.put_or(line, after, &["\th a p m - x", " ", "Z h", "\u{a0}h"]);
    }

    fn limit_b(&mut self, line: &mut Vec<u8>) {
        self.put(line, &["Jan 1 ", "Dec 31 ", "Feb 29 ", "Feb 28 ", "Jan 2 ", "Dec 30 "]);
        self.put_or(line, &["0", "9999", "2000"], &YEARS_B);
        self.put_or(line, &[" 00:00:00", " 23:59:59", " 00:30:00", " 23:30:00"], &[" 0:1:0", " 23:58:60"]);
    }

    fn limit_c(&mut self, line: &mut Vec<u8>) {
        self.put_or(line, &["0000", "0001", "1970", "1900", "2000", "2023", "2024", "2100", "9999"], &["10000", "-001", "+2023", "999"]);
        self.put_or(line, &["-01-01", "-12-31", "-02-28", "-02-29", "-06-30"], &["-02-30", "-04-31", "-00-10", "-13-10", "-10-00", "-1-1"]);
        self.put(line, &["T", "T", "T", "t"]);
        self.put_or(line, &["00:00:00", "23:59:59", "23:59:60"], &["24:00:00", "12:60:00", "12:00:61", "12:00:60", "1:0:0"]);
        self.put_or(line, &FRACTIONS, &ODD_FRACTIONS);
        self.put_or(line, &ZONES, &ODD_ZONES);
    }

    /// A line that RFC 5424 derives, or that is past one of its limits by one.
    fn near_limit(&mut self, line: &mut Vec<u8>) {
        self.put_or(line, &["<0>", "<13>", "<191>", "<9>"], &["<192>", "<00>", "<013>"]);
        self.put_or(line, &["1", "9", "999", "10"], &["1000", "01", "0"]);
        let odd = [" 2023-01-01T00:00:00.1234567Z ", " 2023-02-29T00:00:00Z ", " 2023-02-28T00:00:60Z ", " 2023-02-28t00:00:00Z "];
        let good = [" - ", " 2024-02-29T23:59:59.999999Z ", " 2023-02-28T00:00:00-23:59 ", " 0000-01-01T00:00:00.5+23:59 ", " 2023-02-05T10:01:02.500000Z "];
        self.put_or(line, &good, &odd);
        for most in [255, 48, 128, 32] {
            let len = match self.random.below(16) {
                0 => most + 1,
                1..=2 => most,
                3 => most - 1,
                _ => 1 + self.random.below(4),
            };
            (0..len).for_each(|_| line.push(b'!' + self.random.below(94) as u8));
            line.push(b' ');
        }
        if self.random.one_in(3) {
            line.push(b'-');
        } else {
            self.limit_elements(line);
        }
        self.put_or(line, &["", " ", " m", "  m ", " \u{feff}m", " \u{feff}"], &["m", "  "]);
        if self.random.one_in(6) {
            line.extend_from_slice(self.random.pick(&TOKENS));
        }
    }

    fn limit_name(&mut self, line: &mut Vec<u8>) {
        let len = if self.random.one_in(16) { self.random.of(&[33, 0]) } else { self.random.of(&[1, 1, 2, 3, 31, 32]) };
        (0..len).for_each(|_| line.push(self.random.of(b"abcXYZ019!~@[\\<>-")));
    }

    fn limit_elements(&mut self, line: &mut Vec<u8>) {
        for _ in 0..1 + self.random.below(3) {
            line.push(b'[');
            self.limit_name(line);
            for _ in 0..self.random.below(3) {
                line.push(b' ');
                self.limit_name(line);
                line.extend_from_slice(b"=\"");
                self.put_or(line, &["", "x", "\\\"", "\\\\", "\\]", "\\n", "\u{e9}", "a\\b\\\\", "[", "="], &["\\", "]"]);
                if self.random.one_in(16) {
                    line.extend_from_slice(self.random.pick(&TOKENS));
                }
                line.push(b'"');
            }
            line.push(b']');
        }
    }

    /// A line of 8,190 to 8,194 bytes, long in one of its parts.
    fn long(&mut self, line: &mut Vec<u8>) {
        let aim = LONGEST - 2 + self.random.below(5);
        let (before, piece, after): (&str, &str, &str) = self.random.of(&[
            ("<13>1 - h a p m - ", "x", ""),
            ("<13>1 - ", "h", " a p m - x"),
            ("<13>1 - h a p m ", "[i]", " x"),
            ("<13>1 - h a p m [i", " a=\"b\"", "] x"),
            ("<13>1 - h a p m [i a=\"", "\\\"", "\"] x"),
            ("<13>1 - h a p m ", "[i a=\"b\"]", ""),
            ("<13>1 - h a p m ", "[a b]", " x"),
            ("<13>1 - h a p m [i a=\"", "]", "\"] x"),
            ("<13>1 - h a p m ", "[", "]"),
            ("<13>Feb 5 10:01:02 h t: ", "[i a=\"b\"]", " m"),
            ("<13>Feb 5 10:01:02 h t: ", "m\u{e9}", ""),
            ("<13>Feb 5 10:01:02 ", "h", "[7]: m"),
            ("<", "0", "13>1 - h a p m - x"),
            ("", " ", "<13>1 - h a p m - x"),
            ("<13>Feb 5 10:01:02 h t: m", "\u{3000}", ""),
            ("<13>1 2023-02-05T10:01:02.", "0", "Z h a p m - x"),
        ]);
        line.extend_from_slice(before.as_bytes());
        while line.len() + piece.len() + after.len() <= aim {
            line.extend_from_slice(piece.as_bytes());
        }
        line.extend_from_slice(after.as_bytes());
        while line.len() < aim {
            line.push(b'x');
        }
        if self.random.one_in(4) {
            self.damage(line);
        }
    }

    /// The next line with a set of ids.
    pub fn next_ids(&mut self, line: &mut Vec<u8>) -> (Settings, u64) {
        line.clear();
        self.ids(line);
        (self.settings(), self.random.next())
    }

    /// A line of the strict grammar, or past one of its limits, for one wound: short, at the limits, with ids, or the one where an id of 31 bytes is
    /// used and so are most or all of the 91 that it begins.
    pub fn next_strict(&mut self, line: &mut Vec<u8>) {
        line.clear();
        match self.random.below(64) {
            0 => self.ids(line),
            1 => self.full_id(line),
            2..=15 => self.near_limit(line),
            _ => self.plain(line),
        }
    }

    /// A short strict line.
    fn plain(&mut self, line: &mut Vec<u8>) {
        self.put(line, &["<0>1 ", "<13>1 ", "<191>9 ", "<100>42 ", "<34>999 "]);
        self.put(line, &["-", "-", "2024-02-29T23:59:59Z", "2023-02-28T00:00:00.123456-23:59", "1999-12-31T10:01:02.5+01:00", "2000-04-30T09:19:39Z"]);
        for _ in 0..4 {
            line.push(b' ');
            self.put(line, &["-", "gate7", "reader", "42", "TAP", "h:"]);
        }
        line.push(b' ');
        let ids: &[&str] = self.random.pick(&[&["t@32473"][..], &["a", "b", "aa"], &["x", "xy", "xyz"], &["exampleSDID@32473", "exampleSDID@32474"]]);
        match self.random.below(3) {
            0 => line.push(b'-'),
            _ => {
                for id in ids {
                    line.extend_from_slice(format!("[{id}").as_bytes());
                    self.put(line, &["", " ms=\"212\"", " a=\"\" a=\"x\\\"y\\\\\"", " n=\"\u{e9}\u{20ac}\u{10348}\""]);
                    line.push(b']');
                }
            }
        }
        self.put(line, &["", " ", " ok", " \u{feff}\u{e9}t\u{e9} \u{20ac}", " [a]"]);
    }

    /// A line that uses an id of 31 bytes and the ids that it begins, all or all but one, and then has the 31 bytes again.
    fn full_id(&mut self, line: &mut Vec<u8>) {
        let front = "i".repeat(31);
        let skipped = self.random.of(&[0, 0, b'!', b'~', b'q', b'\\']);
        line.extend_from_slice(format!("<13>1 - h a p m [{front}]").as_bytes());
        for b in (33..=126u8).filter(|b| !matches!(b, b'=' | b']' | b'"') && *b != skipped) {
            line.extend_from_slice(format!("[{front}{}]", b as char).as_bytes());
        }
        line.push(b'[');
        line.extend_from_slice(&front.as_bytes()[..30 + self.random.below(2)]);
        self.put(line, &["", "]", "q]", " a=\"b\"]", "qq]"]);
    }

    /// A line of the strict grammar with a set of ids, few or many, that differ in some of their bytes; in half of the lines one of them comes again.
    fn ids(&mut self, line: &mut Vec<u8>) {
        const ALL: &[u8] = b"!#$%&'()*+,-./0123456789:;<>?@ABCXYZ[\\^_`abcxyz{|}~";
        let most = self.random.of(&[30, 60, 120, 300, 300, 1500, LONGEST]);
        let len = self.random.of(&[1, 2, 2, 3, 5, 31, 32]);
        let letters: &[u8] = self.random.pick(&[&b"ab"[..], b"aA", b"abcdefghij", ALL]);
        let free: Vec<bool> = (0..len).map(|_| self.random.one_in(2)).collect();
        let (mut ids, mut size, mut misses) = (Vec::new(), 20, 0);
        while size + len + 2 <= most && misses < 16 {
            let mut id: Vec<u8> = free.iter().map(|&free| if free { self.random.of(letters) } else { letters[0] }).collect();
            if self.random.one_in(8) {
                id.truncate(1 + self.random.below(len));
            }
            misses += 1;
            if !ids.contains(&id) {
                size += id.len() + 2;
                ids.push(id);
                misses = 0;
            }
        }
        if self.random.one_in(2) && !ids.is_empty() {
            let again = ids[self.random.below(ids.len())].clone();
            ids.insert(self.random.below(ids.len() + 1), again);
        }
        line.extend_from_slice(b"<13>1 - h a p m ");
        for id in &ids {
            line.push(b'[');
            line.extend_from_slice(id);
            self.put_or(line, &["]"], &[" a=\"1\"]", " a=\"1\" a=\"1\"]"]);
        }
        self.put(line, &["", " ", " x"]);
    }

    /// One to four wounds: flips, cuts, insertions, duplications, exchanges.
    fn damage(&mut self, line: &mut Vec<u8>) {
        for _ in 0..1 + self.random.below(4) {
            let at = self.random.below(line.len() + 1);
            let end = at + self.random.below((line.len() - at).min(12) + 1);
            let to = self.random.below(line.len() + 1);
            match self.random.below(7) {
                0 if at < line.len() => line[at] ^= 1 << self.random.below(8),
                1 if at < line.len() => line[at] = self.random.next() as u8,
                2 => drop(line.drain(at..end)),
                3 if self.random.one_in(4) => line.truncate(at),
                4 => {
                    let part = line[at..end].to_vec();
                    line.splice(to..to, part);
                }
                5 if at < line.len() => line[at] = self.random.of(b"<>[]\"\\=:- \t01n"),
                _ => {
                    let token = self.random.pick(&TOKENS);
                    line.splice(at..at, token.iter().copied());
                }
            }
        }
    }
}
