//! Pairs of lines, compared by the archive and by hand over the Rust's own readings: a line and the same with one field changed, its parameters shuffled,
//! one pair repeated, its values escaped otherwise, its elements exchanged or cut; and lines that have nothing to do with each other.
//!
//! Where the Rust reads a line that the port does not (D1 to D5), 4 is wanted; where its message lacks a hyphen (D7), it has it. Process ids are compared as
//! the line writes them (D6), and the digits of a fraction are no part of a comparison (D8).

use crate::abi::{self, Compared, Element, Param, Settings, LONGEST};
use crate::lent::{canary, Lent};
use crate::lines::Lines;
use crate::oracle::{self, Answer};
use crate::random::Random;
use crate::shrink::escaped;
use std::collections::HashMap;
use syslog_loose::Message;

#[derive(Clone, Copy, Default)]
pub struct Counts {
    pub pairs: u64,
    pub calls: u64,
    pub same: u64,
    pub refused: u64,
    /// Pairs whose elements differ, and those of them where a pair is named.
    pub elements: u64,
    pub named: u64,
}

/// What differs: the call, and both answers.
pub struct Difference {
    pub what: &'static str,
    pub call: String,
    pub ours: String,
    pub wanted: String,
}

type Checked = Result<(), Difference>;

fn same<T: PartialEq + std::fmt::Debug>(what: &'static str, call: impl Fn() -> String, ours: T, wanted: T) -> Checked {
    if ours == wanted {
        return Ok(());
    }
    Err(Difference { what, call: call(), ours: format!("{ours:?}"), wanted: format!("{wanted:?}") })
}

// ---- by hand

/// A line as the Rust reads it: its message, the text of its process id, and the rows of its tables. Or the refusal that does not depend on tables.
struct Reading<'a> {
    message: Message<&'a str>,
    pid: Option<&'a str>,
    answer: Answer,
}

fn reading(line: &[u8], s: Settings) -> Result<Reading<'_>, u32> {
    let text = oracle::admit(line, s)?;
    let message = oracle::exact(text, s);
    let class = oracle::class_of(text, message.as_ref());
    let message = message.filter(|_| class.is_none()).ok_or(4u32)?;
    let (message, _) = oracle::with_hyphen(text, s, message);
    let mut answer = Answer::default();
    oracle::put_message(&mut answer, text, &message);
    let pid = oracle::pid_text(text, &message);
    Ok(Reading { message, pid, answer })
}

/// How often each pair of an element occurs in the first line and in the second.
fn counted<'a>(first: &'a [(&str, String)], second: &'a [(&str, String)]) -> HashMap<&'a (&'a str, String), [usize; 2]> {
    let mut counts: HashMap<_, [usize; 2]> = HashMap::new();
    for (which, pairs) in [first, second].into_iter().enumerate() {
        pairs.iter().for_each(|pair| counts.entry(pair).or_default()[which] += 1);
    }
    counts
}

/// The first position at which the elements differ and, where both lines have one id there, the line and the entry of the first pair that one has more often.
fn elements(a: &Message<&str>, b: &Message<&str>) -> Option<(usize, u32, usize)> {
    let mut before = [0, 0];
    for at in 0..a.structured_data.len().max(b.structured_data.len()) {
        let (Some(x), Some(y)) = (a.structured_data.get(at), b.structured_data.get(at)) else { return Some((at, 0, 0)) };
        if x.id != y.id {
            return Some((at, 0, 0));
        }
        let pairs = [x, y].map(|element| element.params().map(|(name, value)| (*name, value)).collect::<Vec<_>>());
        let counts = counted(&pairs[0], &pairs[1]);
        for which in 0..2 {
            let odd = pairs[which].iter().position(|pair| counts[pair][0] != counts[pair][1]);
            if let Some(odd) = odd {
                return Some((at, which as u32 + 1, before[which] + odd));
            }
            before[which] += pairs[which].len();
        }
    }
    None
}

fn compared(a: &Reading, b: &Reading) -> Compared {
    let (x, y) = (&a.message, &b.message);
    let stamp = |m: &Message<&str>| m.timestamp.map(|t| (t.timestamp(), t.timestamp_subsec_nanos(), t.offset().local_minus_utc()));
    let elements = elements(x, y);
    let differ = [
        x.protocol != y.protocol,
        x.facility != y.facility,
        x.severity != y.severity,
        stamp(x) != stamp(y),
        x.hostname != y.hostname,
        x.appname != y.appname,
        a.pid != b.pid,
        x.msgid != y.msgid,
        elements.is_some(),
        x.msg != y.msg,
    ];
    let fields = differ.iter().rev().fold(0, |bits, &differs| 2 * bits + differs as u32);
    let (position, pair_line, pair_entry) = elements.unwrap_or_default();
    Compared { fields, position, pair_line, pair_entry, ..Compared::default() }
}

/// The answer with tables of these lengths, elements and parameters of the first line and of the second.
fn wanted(readings: [&Result<Reading, u32>; 2], rooms: [[usize; 2]; 2]) -> Compared {
    for (line, (reading, room)) in readings.iter().zip(rooms).enumerate() {
        let number = match reading {
            Err(number) => *number,
            Ok(reading) => reading.answer.number_for(room[0], room[1], 0, 0),
        };
        if number != 0 {
            return Compared { number, line: line as u32 + 1, ..Compared::default() };
        }
    }
    match readings {
        [Ok(a), Ok(b)] => compared(a, b),
        _ => unreachable!("a line that has no reading is refused"),
    }
}

// ---- lines made of their parts

const PRIORITIES: [&str; 5] = ["<34>", "<35>", "<42>", "<191>", ""];
const STAMPS: [&str; 9] = [
    "2023-02-05T10:01:02Z", "2023-02-05T10:01:02.5Z", "2023-02-05T10:01:02.500Z", "2023-02-05T11:01:02.5+01:00", "2023-02-05T10:01:02+00:00",
    "2023-02-05T10:01:03Z", "2023-02-05T10:01:02.000000001Z", "1969-12-31T23:59:59.5-00:01", "-",
];
const OLD_STAMPS: [&str; 6] = ["Feb  5 10:01:02", "Feb 5 10:01:02", "Feb  5 2023 10:01:02", "Feb  5 10:01:03", "2023-02-05T10:01:02Z", "-"];
/// The empty one is an app name or a process id of RFC 3164, where it differs from none.
const FIELDS: [&str; 7] = ["-", "gate7", "gate8", "42", "042", "x", ""];
const IDS: [&str; 6] = ["x", "y", "t@32473", "ab", "a", "x"];
const NAMES: [&str; 5] = ["a", "b", "ab", "ms", "a"];
/// Values as a line writes them, some of them the same when they are unescaped.
const VALUES: [&str; 16] = ["", "1", "2", "12", "]", "\\]", "\\\"", "\\\\", "\\n", "\\x", "\\\\x", "\\\\n", "b", "a=1", "\u{e9}", "\\\\\\\\"];
const MESSAGES: [&str; 6] = ["ok", "ok ", "okay", "", "- ok", "[x a=\"1\"] ok"];

type Pair = (&'static str, String);

/// The parts of a line, each as it is written.
#[derive(Clone)]
struct Parts {
    old: bool,
    priority: &'static str,
    version: &'static str,
    stamp: &'static str,
    /// Host, app name, process id and message id.
    fields: [&'static str; 4],
    elements: Vec<(&'static str, Vec<Pair>)>,
    message: &'static str,
}

fn stamp(random: &mut Random, old: bool) -> &'static str {
    if old { random.pick(&OLD_STAMPS) } else { random.pick(&STAMPS) }
}

fn pair(random: &mut Random) -> Pair {
    (random.pick(&NAMES), random.pick(&VALUES).to_string())
}

impl Parts {
    fn new(random: &mut Random) -> Parts {
        let old = random.one_in(3);
        let pairs = |random: &mut Random| (0..random.of(&[0, 1, 2, 3, 5, 9, 20])).map(|_| pair(random)).collect();
        Parts {
            old,
            priority: random.pick(&PRIORITIES[..4]),
            version: "1",
            stamp: stamp(random, old),
            fields: std::array::from_fn(|_| random.pick(&FIELDS)),
            elements: (0..random.below(4)).map(|_| (random.pick(&IDS), pairs(random))).collect(),
            message: random.pick(&MESSAGES),
        }
    }

    fn line(&self) -> Vec<u8> {
        let Parts { priority, version, stamp, fields: [host, app, pid, _], message, .. } = self;
        let data: String = self.elements.iter().map(element_text).collect();
        let data = match (self.old, data.is_empty()) {
            (_, false) => data + " ",
            (true, true) => data,
            (false, true) => "- ".to_string(),
        };
        let tag = match (*app, *pid) {
            ("-", _) => String::new(),
            (app, "-") => format!(" {app}"),
            (app, pid) => format!(" {app}[{pid}]"),
        };
        if self.old {
            return format!("{priority}{stamp} {host}{tag}: {data}{message}").into_bytes();
        }
        let [host, app, pid, msgid] = self.fields.map(|field| if field.is_empty() { "-" } else { field });
        format!("{priority}{version} {stamp} {host} {app} {pid} {msgid} {data}{message}").into_bytes()
    }

    /// One of the ten changed to another, or by chance to the same.
    fn change(&mut self, random: &mut Random) {
        match random.below(8) {
            0 => self.old = !self.old,
            1 => self.version = random.pick(&["1", "2", "10"]),
            2 => self.priority = random.pick(&PRIORITIES),
            3 => self.stamp = stamp(random, self.old),
            4..=5 => self.fields[random.below(4)] = random.pick(&FIELDS),
            6 => self.message = random.pick(&MESSAGES),
            _ => self.change_elements(random),
        }
    }

    fn change_elements(&mut self, random: &mut Random) {
        let count = self.elements.len();
        if count == 0 {
            self.elements.push((random.pick(&IDS), vec![pair(random)]));
            return;
        }
        let at = random.below(count);
        let pairs = &mut self.elements[at].1;
        match random.below(8) {
            0 => self.elements.swap(at, random.below(count)),
            1 => self.elements.truncate(at),
            2 => self.elements[at].0 = random.pick(&IDS),
            3 => self.elements.insert(at, (random.pick(&IDS), vec![pair(random)])),
            _ if pairs.is_empty() => pairs.push(pair(random)),
            4 => repeat(random, pairs),
            5 => drop(pairs.remove(random.below(pairs.len()))),
            _ => {
                let odd = random.below(pairs.len());
                pairs[odd] = pair(random);
            }
        }
    }
}

fn element_text((id, pairs): &(&'static str, Vec<Pair>)) -> String {
    let pairs: String = pairs.iter().map(|(name, value)| format!(" {name}=\"{value}\"")).collect();
    format!("[{id}{pairs}]")
}

/// One pair more, which is there already.
fn repeat(random: &mut Random, pairs: &mut Vec<Pair>) {
    let again = pairs[random.below(pairs.len())].clone();
    pairs.insert(random.below(pairs.len() + 1), again);
}

fn shuffle(random: &mut Random, pairs: &mut [Pair]) {
    (1..pairs.len()).rev().for_each(|at| pairs.swap(at, random.below(at + 1)));
}

/// The same value written otherwise: a bracket with its backslash or without, a backslash that stays with a second one.
fn rewrite(value: &str) -> String {
    let mut written = String::new();
    let mut rest = value.chars().peekable();
    while let Some(c) = rest.next() {
        match (c, rest.peek().copied()) {
            (']', _) => written += "\\]",
            ('\\', Some(']')) => written.extend(rest.next()),
            ('\\', Some('"' | '\\' | 'n')) => {
                written.push(c);
                written.extend(rest.next());
            }
            ('\\', _) => written += "\\\\",
            (c, _) => written.push(c),
        }
    }
    written
}

/// A line of one element that is as long as a line may be, in which equal pairs are many or none.
fn long(random: &mut Random) -> Parts {
    let (names, kinds) = random.of(&[(1, 1), (1, 7), (2, 400), (1, 1300)]);
    let mut parts = Parts { old: false, stamp: stamp(random, false), elements: vec![("x", Vec::new())], ..Parts::new(random) };
    let mut len = 120;
    while len < LONGEST - 20 {
        let name = NAMES[random.below(names)];
        let value = if kinds == 1 { "\\\\\\\\".repeat(1 + random.below(2)) } else { random.below(kinds).to_string() };
        len += name.len() + value.len() + 4;
        parts.elements[0].1.push((name, value));
    }
    parts
}

pub struct Pairs {
    random: Random,
    lines: Lines,
    tables: [(Lent<Element>, Lent<Param>); 2],
    pub counts: Counts,
}

impl Pairs {
    pub fn new(seed: u64, part: u64, parts: u64) -> Self {
        let random = Random::new(seed.wrapping_mul(1_000_033).wrapping_add(part));
        let tables = || (Lent::new(4096, canary), Lent::new(2048, canary));
        Pairs { random, lines: Lines::new(seed, part, parts), tables: [tables(), tables()], counts: Counts::default() }
    }

    /// The next pair: lines, settings, and what is wanted of the calls.
    pub fn next(&mut self) -> Checked {
        self.counts.pairs += 1;
        let (lines, settings) = self.pair();
        let readings = [reading(&lines[0], settings), reading(&lines[1], settings)];
        let enough = [0, 1].map(|which| match &readings[which] {
            Ok(reading) => [reading.answer.elements.len(), reading.answer.params.len()],
            Err(_) => [self.random.below(3), self.random.below(3)],
        });
        let fits = enough.map(|[e, p]| [e + self.random.below(2), p + self.random.below(2)]);
        self.call(&lines, settings, &readings, [0, 1], fits)?;
        self.call(&lines, settings, &readings, [1, 0], [fits[1], fits[0]])?;
        if self.random.one_in(4) {
            let short = enough.map(|[e, p]| [self.random.below(e + 1), self.random.below(p + 1)]);
            self.call(&lines, settings, &readings, [0, 1], short)?;
        }
        Ok(())
    }

    fn pair(&mut self) -> ([Vec<u8>; 2], Settings) {
        let random = &mut self.random;
        let mut settings = Settings { variant: random.of(&[0, 0, 0, 0, 0, 0, 1, 2]), year: random.of(&[0, 2023, 2024, 9999]), offset: random.of(&[-1439, 0, 60, 1439]) };
        match random.below(64) {
            0..=3 => return self.unrelated(),
            4 => settings.variant = 3,
            _ => {}
        }
        let first = if random.one_in(512) { long(random) } else { Parts::new(random) };
        let mut second = first.clone();
        match random.below(8) {
            0 => {}
            1..=2 => second.elements.iter_mut().for_each(|(_, pairs)| shuffle(random, pairs)),
            3 => {
                let pairs = second.elements.iter_mut().flat_map(|(_, pairs)| pairs);
                pairs.for_each(|(_, value)| *value = rewrite(value));
            }
            4 => second.change_elements(random),
            5 => {
                second.elements.iter_mut().for_each(|(_, pairs)| shuffle(random, pairs));
                second.change_elements(random);
            }
            _ => (0..1 + random.below(2)).for_each(|_| second.change(random)),
        }
        let mut lines = [first.line(), second.line()];
        if random.one_in(64) {
            damage(random, &mut lines);
        }
        (lines, settings)
    }

    /// Two lines of the kinds that the readers are tried with; at times the same.
    fn unrelated(&mut self) -> ([Vec<u8>; 2], Settings) {
        let mut lines = [Vec::new(), Vec::new()];
        let (settings, _) = self.lines.next(&mut lines[0]);
        match self.random.below(4) {
            0 => lines[1] = lines[0].clone(),
            _ => drop(self.lines.next(&mut lines[1])),
        }
        (lines, settings)
    }

    /// One call: the answer, what it left in the four tables, and that nothing else has changed.
    fn call(&mut self, lines: &[Vec<u8>; 2], s: Settings, readings: &[Result<Reading, u32>; 2], order: [usize; 2], rooms: [[usize; 2]; 2]) -> Checked {
        let [a, b] = order;
        let call = || format!("\"{}\" and \"{}\" with {s:?}, room {rooms:?}", escaped(&lines[a]), escaped(&lines[b]));
        let wanted = wanted([&readings[a], &readings[b]], rooms);
        self.count(wanted);
        let [first, second] = &mut self.tables;
        let [[e1, p1], [e2, p2]] = rooms;
        let ours = abi::compare([&lines[a], &lines[b]], s, (first.0.lend(e1), first.1.lend(p1)), (second.0.lend(e2), second.1.lend(p2)));
        for ((which, [e_len, p_len]), tables) in order.into_iter().zip(rooms).zip(&mut self.tables) {
            let rows = readings[which].as_ref().ok().filter(|_| wanted.number == 0).map(|reading| &reading.answer);
            let (e, p) = rows.map_or((&[][..], &[][..]), |answer| (&answer.elements[..], &answer.params[..]));
            let left = (tables.0.first(e.len()).to_vec(), tables.1.first(p.len()).to_vec());
            let kept = [tables.0.kept(e.len(), e_len), tables.1.kept(p.len(), p_len)];
            same("an entry that was to be kept", call, kept, [true; 2])?;
            same("the elements of a line", call, &left.0[..], e)?;
            same("the parameters of a line", call, &left.1[..], p)?;
        }
        same("the answer of compare", call, ours, wanted)
    }

    fn count(&mut self, wanted: Compared) {
        self.counts.calls += 1;
        self.counts.refused += (wanted.number != 0) as u64;
        self.counts.same += (wanted.number == 0 && wanted.fields == 0) as u64;
        self.counts.elements += (wanted.fields & 256 != 0) as u64;
        self.counts.named += (wanted.pair_line != 0) as u64;
    }
}

/// A byte of one line changed, so that it may be no UTF-8; or the line made longer than lines are.
fn damage(random: &mut Random, lines: &mut [Vec<u8>; 2]) {
    let line = &mut lines[random.below(2)];
    if random.one_in(3) {
        line.resize(LONGEST - 1 + random.below(4), b'x');
        return;
    }
    let at = random.below(line.len());
    line[at] = random.of(&[0xFF, b'"', b']', b' ', b'\\', b'[', 0]);
}
