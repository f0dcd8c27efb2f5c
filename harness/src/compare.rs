//! The comparison. A case is one service on one line with one set of settings, and what lookup is asked is part of its settings. A case makes
//! several calls: with memory that fits, that is too short by one, of length 0, and longer; they are not counted as cases.

use crate::abi::{self, word, Element, Given, Param, Read, Reader, Settings, Written, RECORD, STRICT_RECORD, STRICT_WORDS, WORDS};
use crate::classes::{self, Class, CLASSES};
use crate::forge::Forged;
use crate::lent::{canary, Lent};
use crate::oracle::{self, Answer};
use crate::random::Random;
use crate::records;
use crate::strict;
use syslog_loose::{Message, ProcId};

/// A difference that no class explains.
#[derive(Debug)]
pub struct Fault {
    pub service: &'static str,
    pub what: &'static str,
    pub ours: String,
    pub theirs: String,
}

type Check = Result<(), Fault>;

#[derive(Clone, Copy, Default)]
pub struct Counts {
    pub lines: u64,
    pub cases: u64,
    pub calls: u64,
    pub read: u64,
    pub strict: u64,
    pub classes: [u64; CLASSES],
}

/// What is lent to a reader.
struct Tables {
    elements: Lent<Element>,
    params: Lent<Param>,
    record: Lent<u8>,
}

pub struct Desk {
    pub counts: Counts,
    random: Random,
    tables: Tables,
    output: Lent<u8>,
    answer: Answer,
    forged: Forged,
    before: Forged,
}

fn name_of(reader: Reader) -> &'static str {
    match reader {
        Reader::Loose => "loose",
        Reader::Strict => "strict",
    }
}

fn fault(service: &'static str, what: &'static str, ours: impl std::fmt::Debug, theirs: impl std::fmt::Debug) -> Check {
    Err(Fault { service, what, ours: format!("{ours:?}"), theirs: format!("{theirs:?}") })
}

impl Tables {
    /// One call with memory of these lengths: answer, record, tables, and that nothing else has changed.
    fn call(&mut self, reader: Reader, line: &[u8], s: Settings, wanted: &Answer, room: [usize; 3]) -> Check {
        let [elements, params, record] = room;
        let (layout, words) = if reader == Reader::Strict { (STRICT_RECORD, STRICT_WORDS) } else { (RECORD, WORDS) };
        let number = wanted.number_for(elements, params, record, layout);
        let got = abi::read(reader, line, s, self.elements.lend(elements), self.params.lend(params), self.record.lend(record));
        let seen = self.compare(name_of(reader), got, number, wanted, words);
        let (e, p, r) = if number == 0 { (wanted.elements.len(), wanted.params.len(), layout) } else { (0, 0, 0) };
        let kept = [self.elements.kept(e, elements), self.params.kept(p, params), self.record.kept(r, record)];
        if seen.is_ok() && kept != [true; 3] {
            return fault(name_of(reader), "a byte that was to be kept", kept, "elements, params, record: all kept");
        }
        seen
    }

    fn compare(&self, service: &'static str, got: Read, number: u32, wanted: &Answer, words: usize) -> Check {
        let answer = Read { number, whole: (number == 0 && wanted.whole) as u32, reach: wanted.reach };
        if got != answer {
            return fault(service, if got.number == number { "kind of answer" } else { "number" }, got, answer);
        }
        if number != 0 {
            return Ok(());
        }
        let bytes = self.record.first(8 * words).chunks_exact(8);
        if !bytes.zip(&wanted.words).all(|(bytes, word)| bytes == word.to_le_bytes()) {
            let ours: Vec<u64> = self.record.first(8 * words).chunks_exact(8).map(|b| u64::from_le_bytes(b.try_into().unwrap())).collect();
            return fault(service, "record", ours, &wanted.words[..words]);
        }
        if self.elements.first(wanted.elements.len()) != wanted.elements {
            return fault(service, "elements", self.elements.first(wanted.elements.len()), &wanted.elements);
        }
        if self.params.first(wanted.params.len()) != wanted.params {
            return fault(service, "parameters", self.params.first(wanted.params.len()), &wanted.params);
        }
        Ok(())
    }
}

/// One case of printing or lookup: outputs of the exact length, longer, shorter by one and of length 0.
fn written(output: &mut Lent<u8>, random: &mut Random, service: &'static str, wanted: &Result<Vec<u8>, u32>, call: impl Fn(&mut [u8]) -> Written) -> Result<u64, Fault> {
    let len = wanted.as_ref().map_or(0, Vec::len);
    let longer = len + 1 + random.below(30);
    let rooms = [len, longer, len.saturating_sub(1), 0];
    let mut calls = 0;
    for (at, &room) in rooms.iter().enumerate() {
        if room > output.room() || at >= 2 && (len == 0 || at == 3 && random.one_in(2)) {
            continue;
        }
        calls += 1;
        let number = match wanted {
            Err(number) => *number,
            Ok(_) if room < len => 8,
            Ok(_) => 0,
        };
        let done = if number == 0 { len } else { 0 };
        let got = call(output.lend(room));
        let same = got == Written { number, len: done } && wanted.as_ref().map_or(true, |bytes| output.first(done) == &bytes[..done]);
        let ours = if same { String::new() } else { format!("room {room}: {got:?} {:?}", String::from_utf8_lossy(output.first(done))) };
        let kept = output.kept(done, room);
        if !same {
            fault(service, "what is written", ours, wanted.as_ref().map(|bytes| String::from_utf8_lossy(bytes).into_owned()))?;
        }
        if !kept {
            fault(service, "a byte that was to be kept", room, done)?;
        }
    }
    Ok(calls)
}

impl Desk {
    pub fn new() -> Self {
        Desk {
            counts: Counts::default(),
            random: Random::new(0),
            tables: Tables {
                elements: Lent::new(4096, canary),
                params: Lent::new(2048, canary),
                record: Lent::new(512, |at| 0xA5 ^ at as u8),
            },
            output: Lent::new(1 << 16, |at| 0x5A ^ at as u8),
            answer: Answer::default(),
            forged: Forged::default(),
            before: Forged::default(),
        }
    }

    /// All cases of one line with one set of settings; `salt` chooses the lengths of what is lent.
    pub fn line(&mut self, line: &[u8], s: Settings, salt: u64) -> Check {
        self.random = Random::new(salt);
        self.counts.lines += 1;
        let mut answer = std::mem::take(&mut self.answer);
        let copy = line.to_vec();
        let seen = self.loose(line, s, &mut answer).and_then(|_| self.forgery(line, &answer)).and_then(|_| self.strict(line, &mut answer));
        self.answer = answer;
        seen?;
        if copy != line {
            return fault("all", "the line was changed", line, copy);
        }
        Ok(())
    }

    /// One case of a reader.
    fn reading(&mut self, reader: Reader, line: &[u8], s: Settings, wanted: &Answer) -> Check {
        self.counts.cases += 1;
        let layout = if reader == Reader::Strict { STRICT_RECORD } else { RECORD };
        let (e, p) = (wanted.elements.len(), wanted.params.len());
        let wide = self.random.one_in(16);
        let (more_e, more_p) = if wide { (64, 256) } else { (self.random.below(3), self.random.below(3)) };
        let more_r = self.random.of(&[0, 0, 1, 32, 40]);
        let mut rooms = vec![[e + more_e, p + more_p, layout + more_r]];
        if e > 0 {
            rooms.push([e - 1, self.random.of(&[p, 0, p + 1]), self.random.of(&[layout, 0])]);
        }
        if p > 0 {
            rooms.push([e, self.random.of(&[p - 1, p - 1, 0]), self.random.of(&[layout, layout - 1])]);
        }
        if self.random.one_in(6) {
            rooms.push([0, 0, layout]);
            rooms.push([e, p, self.random.of(&[layout - 1, 0, layout / 2])]);
        }
        for room in rooms {
            self.counts.calls += 1;
            self.tables.call(reader, line, s, wanted, room)?;
        }
        Ok(())
    }

    fn loose(&mut self, line: &[u8], s: Settings, answer: &mut Answer) -> Check {
        let text = match oracle::admit(line, s) {
            Ok(text) => text,
            Err(number) => {
                answer.clear(number);
                return self.reading(Reader::Loose, line, s, answer);
            }
        };
        let message = oracle::exact(text, s);
        other_agrees(text, s, message.as_ref())?;
        let class = oracle::class_of(text, message.as_ref());
        let reading = message.filter(|_| class.is_none());
        let whole = reading.is_none();
        self.counts.read += !whole as u64;
        let (message, hyphen) = match reading {
            Some(message) => oracle::with_hyphen(text, s, message),
            None => (oracle::whole(text), None),
        };
        oracle::put_message(answer, text, &message);
        answer.whole = whole;
        self.reading(Reader::Loose, line, s, answer)?;
        if let Some(class) = class.or(hyphen) {
            self.counts.classes[class as usize] += 1;
        }
        self.of_message(text, message, answer)?;
        self.counts.classes[Class::D7 as usize] += hyphen.is_some() as u64;
        Ok(())
    }

    /// Printing and lookup of what was read, against the Rust's message.
    fn of_message<'a>(&mut self, text: &'a str, mut message: Message<&'a str>, answer: &Answer) -> Check {
        let pid = oracle::pid_text(text, &message);
        if let Some(class) = classes::of_pid(pid, message.procid.as_ref()) {
            self.counts.classes[class as usize] += 1;
            message.procid = pid.map(ProcId::Name);
        }
        self.forged.from_answer(answer, WORDS, &mut self.random);
        self.lending(text.as_bytes(), |desk, given| {
            desk.printing(given, Ok(message.to_string().into_bytes()))?;
            desk.lookups(given, &message, answer)
        })
    }

    /// Cases that are lent the record and tables of `forged` to read, and that these are as they were after them.
    fn lending(&mut self, line: &[u8], cases: impl FnOnce(&mut Self, Given) -> Check) -> Check {
        let forged = std::mem::take(&mut self.forged);
        self.before.clone_from(&forged);
        let seen = cases(self, forged.given(line));
        let kept = self.before == forged;
        self.forged = forged;
        if seen.is_ok() && !kept {
            return fault("print or lookup", "what was lent to be read", &self.forged, &self.before);
        }
        seen
    }

    /// Printing of a record that the Rust prints so, or that is refused. Where the Rust's fraction has another count of digits than the record has, it
    /// is its number in so many digits that is wanted; every other byte is the Rust's.
    fn printing(&mut self, given: Given, theirs: Result<Vec<u8>, u32>) -> Check {
        self.counts.cases += 1;
        let count = records::words_of(given.record)[word::DIGITS] as usize;
        let in_digits = theirs.as_ref().ok().and_then(|printed| classes::in_digits(printed, count));
        let differs = in_digits.is_some();
        let wanted = in_digits.map_or(theirs, Ok);
        self.counts.calls += written(&mut self.output, &mut self.random, "print", &wanted, |output| abi::print(given, output))?;
        self.counts.classes[Class::D8 as usize] += differs as u64;
        Ok(())
    }

    fn looking(&mut self, given: Given, id: &[u8], name: &[u8], kind: u32, wanted: &Result<Vec<u8>, u32>) -> Check {
        self.counts.cases += 1;
        let call = |output: &mut [u8]| abi::lookup(given, id, name, kind, output);
        let calls = written(&mut self.output, &mut self.random, "lookup", wanted, call);
        self.counts.calls += calls.map_err(|mut fault| {
            fault.ours += &format!(" (id {:?}, name {:?}, kind {kind})", String::from_utf8_lossy(id), String::from_utf8_lossy(name));
            fault
        })?;
        Ok(())
    }

    /// Up to three parameters by id and name, in both kinds; one that is not there; a kind that is none.
    fn lookups(&mut self, given: Given, message: &Message<&str>, answer: &Answer) -> Check {
        let same = |found: &str, wanted: &[u8]| found.as_bytes() == wanted;
        for _ in 0..answer.params.len().min(3) {
            let element = &message.structured_data[answer.params[self.random.below(answer.params.len())][0]];
            let (name, _) = element.params[self.random.below(element.params.len())];
            for kind in 0..2 {
                let value = records::first(message, same, element.id.as_bytes(), name.as_bytes(), kind);
                self.looking(given, element.id.as_bytes(), name.as_bytes(), kind, &value.map(String::into_bytes).ok_or(9))?;
            }
        }
        for element in &message.structured_data {
            for ((_, value), (_, unescaped)) in element.params.iter().zip(element.params()) {
                if records::loose_unescaped(value) != unescaped {
                    return fault("lookup", "a raw value", value, unescaped);
                }
            }
        }
        if self.random.one_in(8) {
            let (id, name) = self.random.of(&[("", ""), ("id", "nowhere"), ("i", "a"), ("nowhere", "a")]);
            let kind = self.random.of(&[0, 1, 2, u32::MAX]);
            let value = records::first(message, same, id.as_bytes(), name.as_bytes(), kind);
            let wanted = if kind > 1 { Err(2) } else { value.map(String::into_bytes).ok_or(9) };
            self.looking(given, id.as_bytes(), name.as_bytes(), kind, &wanted)?;
        }
        Ok(())
    }

    /// A record that no reader made, printed and looked up in; every third line.
    fn forgery(&mut self, line: &[u8], answer: &Answer) -> Check {
        if !self.random.one_in(3) {
            return Ok(());
        }
        self.forged.forge(answer, line.len(), &mut self.random);
        self.lending(line, Self::print_and_look)
    }

    fn print_and_look(&mut self, given: Given) -> Check {
        self.printing(given, records::printed(given))?;
        let part = |start: usize, len: usize| given.line.get(start..start.saturating_add(len)).unwrap_or(b"x");
        let (mut id, mut name): (&[u8], &[u8]) = (b"id", b"a");
        if let Some(last) = given.params.len().checked_sub(1) {
            let param = given.params[self.random.below(last + 1)];
            name = part(param[1], param[2]);
            id = given.elements.get(param[0]).map_or(id, |e| part(e[0], e[1]));
        }
        let kind = self.random.of(&[0, 0, 0, 1, 1, 1, 2]);
        self.looking(given, id, name, kind, &records::looked_up(given, id, name, kind))
    }

    /// The strict reader against the grammar read by hand, and against the Rust where both read.
    fn strict(&mut self, line: &[u8], answer: &mut Answer) -> Check {
        strict::read(line, answer);
        self.reading(Reader::Strict, line, Settings { variant: 0, year: 0, offset: 0 }, answer)?;
        if answer.number != 0 {
            return Ok(());
        }
        self.counts.strict += 1;
        agrees(line, answer)?;
        let words = self.random.of(&[WORDS, STRICT_WORDS]);
        self.forged.from_answer(answer, words, &mut self.random);
        self.lending(line, Self::print_and_look)
    }
}

/// The Rust has a second function, which answers every line: with the reading of the first, or with the whole line where that has none.
fn other_agrees(text: &str, s: Settings, message: Option<&Message<&str>>) -> Check {
    let (mut first, mut second) = (Answer::default(), Answer::default());
    oracle::put_message(&mut first, text, message.unwrap_or(&oracle::whole(text)));
    oracle::put_message(&mut second, text, &oracle::fallback(text, s));
    if first != second {
        return fault("loose", "the Rust's two functions", first, second);
    }
    Ok(())
}

/// A line that is taken strictly has the same fields in the Rust's RFC 5424 reading, but that the message is trimmed. There is none where the line
/// is not UTF-8, where the host ends in a colon or where a later field is a colon alone.
fn agrees(line: &[u8], answer: &Answer) -> Check {
    let Ok(text) = std::str::from_utf8(line) else { return Ok(()) };
    let part = |at: usize| &text[answer.words[at + 1] as usize..(answer.words[at + 1] + answer.words[at + 2]) as usize];
    let Some(message) = oracle::exact(text, Settings { variant: 2, year: 2023, offset: 0 }) else {
        let colons = part(word::HOST).ends_with(':') || [word::APP, word::PID, word::MSGID].iter().any(|&at| part(at) == ":");
        return if colons { Ok(()) } else { fault("strict", "the Rust has no reading", "accepted", "no reading") };
    };
    let mut loose = Answer::default();
    oracle::put_message(&mut loose, text, &message);
    let whole = part(word::MESSAGE - 1);
    let trimmed = whole.trim_end().trim_start_matches([' ', '\t']);
    let same = loose.words[..word::MESSAGE] == answer.words[..word::MESSAGE] && loose.elements == answer.elements && loose.params == answer.params;
    if !same || trimmed != message.msg {
        return fault("strict", "the Rust's fields", answer, &loose);
    }
    Ok(())
}
