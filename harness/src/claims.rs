//! Claimed readings: what the strict reader leaves, with one number changed at a time, against a check by hand. A claim is right exactly when it is the
//! division by hand (strict.rs), and refusal 7 is told by hand too (records.rs).

use crate::abi::{self, word, Element, Given, Param, Reader, Settings, LONGEST, STRICT_RECORD, STRICT_WORDS};
use crate::lines::Lines;
use crate::oracle::Answer;
use crate::random::Random;
use crate::records;
use crate::shrink::escaped;
use crate::strict;

#[derive(Clone, Copy, Default)]
pub struct Counts {
    pub lines: u64,
    pub derived: u64,
    pub claims: u64,
    pub yes: u64,
    pub unsuitable: u64,
    pub wrong: u64,
}

/// What differs on a line: which number was changed, and to what.
pub struct Difference {
    pub what: String,
    pub line: String,
    pub ours: u32,
    pub wanted: u32,
}

/// A record and tables, with entries past the counts that say nothing.
#[derive(Clone, Default, PartialEq)]
struct Claim {
    words: Vec<u64>,
    elements: Vec<Element>,
    params: Vec<Param>,
}

/// A number of a claim.
#[derive(Clone, Copy, Debug)]
enum At {
    Word(usize),
    Element(usize, usize),
    Param(usize, usize),
}

impl Claim {
    fn get(&self, at: At) -> u64 {
        match at {
            At::Word(i) => self.words[i],
            At::Element(i, k) => self.elements[i][k] as u64,
            At::Param(i, k) => self.params[i][k] as u64,
        }
    }

    fn set(&mut self, at: At, number: u64) {
        match at {
            At::Word(i) => self.words[i] = number,
            At::Element(i, k) => self.elements[i][k] = number as usize,
            At::Param(i, k) => self.params[i][k] = number as usize,
        }
    }

    /// Is this the division by hand, up to the counts?
    fn is_of(&self, answer: &Answer) -> bool {
        answer.number == 0
            && self.words == answer.words
            && self.elements.starts_with(&answer.elements)
            && self.params.starts_with(&answer.params)
    }
}

/// The number by hand: 1, then 7, then 16, else 0.
fn told(line: &[u8], claim: &Claim, record: &[u8], answer: &Answer) -> u32 {
    let given = Given { line, record, elements: &claim.elements, params: &claim.params };
    if let Some(number) = records::refusal(given, None) {
        return number;
    }
    let w = &claim.words;
    let text = w[word::STAMP_TEXT + 1] as u128 + w[word::STAMP_TEXT + 2] as u128 <= line.len() as u128;
    if record.len() < STRICT_RECORD || w[word::STAMP_TEXT] > 1 || w[word::HAS_MESSAGE] > 1 || !text {
        return 7;
    }
    if claim.is_of(answer) { 0 } else { 16 }
}

pub struct Claims {
    lines: Lines,
    random: Random,
    answer: Answer,
    claim: Claim,
    record: Vec<u8>,
    pub counts: Counts,
}

/// Every number is changed of tables of up to so many entries; of longer ones those of the first and the last entries, and of so many others.
const SOME: usize = 8;

impl Claims {
    pub fn new(seed: u64, part: u64, parts: u64) -> Self {
        Claims {
            lines: Lines::new(seed, part, parts),
            random: Random::new(seed.wrapping_mul(1_000_003).wrapping_add(part)),
            answer: Answer::default(),
            claim: Claim::default(),
            record: Vec::new(),
            counts: Counts::default(),
        }
    }

    /// The next line: a strict one, whose claim is changed; or one that is none, which no claim is right for.
    pub fn next(&mut self) -> Result<(), Difference> {
        let mut line = Vec::new();
        self.lines.next_strict(&mut line);
        self.counts.lines += 1;
        strict::read(&line, &mut self.answer);
        if self.answer.number != 0 {
            // The claim of the line before.
            return if self.claim.words.is_empty() { Ok(()) } else { self.ask(&line, "the claim of another line") };
        }
        self.counts.derived += 1;
        self.read(&line)?;
        self.ask(&line, "what the strict reader leaves")?;
        let kept = self.claim.clone();
        self.change_numbers(&line)?;
        self.change_past(&line)?;
        self.claim.clone_from(&kept);
        self.change_lengths(&line)?;
        self.claim.clone_from(&kept);
        self.change_line(&mut line)?;
        if self.random.one_in(8) { self.lengthen(&mut line) } else { Ok(()) }
    }

    /// What the archive's strict reader leaves, in tables of the counts or longer ones.
    fn read(&mut self, line: &[u8]) -> Result<(), Difference> {
        let more = [self.random.below(3), self.random.below(3)];
        self.claim.elements.clear();
        self.claim.elements.resize(self.answer.elements.len() + more[0], [usize::MAX; 2]);
        self.claim.params.clear();
        self.claim.params.resize(self.answer.params.len() + more[1], [usize::MAX; 5]);
        self.record.clear();
        self.record.resize(STRICT_RECORD, 0);
        let none = Settings { variant: 0, year: 0, offset: 0 };
        let number = abi::read(Reader::Strict, line, none, &mut self.claim.elements, &mut self.claim.params, &mut self.record).number;
        if number != 0 {
            return Err(Difference { what: "the strict reading".into(), line: escaped(line), ours: number, wanted: 0 });
        }
        self.claim.words = self.record.chunks_exact(8).map(|w| u64::from_le_bytes(w.try_into().unwrap())).collect();
        Ok(())
    }

    /// Asks of the claim as it stands.
    fn ask(&mut self, line: &[u8], what: &str) -> Result<(), Difference> {
        self.ask_of(line, STRICT_RECORD, || what.into())
    }

    /// The same with so many bytes of the record; those past a record are any.
    fn ask_of(&mut self, line: &[u8], record_len: usize, what: impl Fn() -> String) -> Result<(), Difference> {
        self.record.clear();
        self.record.extend(self.claim.words.iter().flat_map(|w| w.to_le_bytes()));
        self.record.resize(record_len, 0xA5);
        let wanted = told(line, &self.claim, &self.record, &self.answer);
        let ours = abi::check_claim(Given { line, record: &self.record, elements: &self.claim.elements, params: &self.claim.params });
        self.counts.claims += 1;
        match ours {
            0 => self.counts.yes += 1,
            7 => self.counts.unsuitable += 1,
            16 => self.counts.wrong += 1,
            _ => {}
        }
        if ours == wanted { Ok(()) } else { Err(Difference { what: what(), line: escaped(line), ours, wanted }) }
    }

    /// The entries of a table whose numbers are changed.
    fn entries(&mut self, count: usize) -> Vec<usize> {
        match count {
            0..=64 => (0..count).collect(),
            _ => [0, 1, count - 2, count - 1].into_iter().chain((0..SOME).map(|_| self.random.below(count))).collect(),
        }
    }

    /// One number at a time, by one, to 0, to the largest, and to some that mean something.
    fn change_numbers(&mut self, line: &[u8]) -> Result<(), Difference> {
        let mut places: Vec<At> = (0..STRICT_WORDS).map(At::Word).collect();
        for i in self.entries(self.answer.elements.len()) {
            places.extend((0..2).map(|k| At::Element(i, k)));
        }
        for i in self.entries(self.answer.params.len()) {
            places.extend((0..5).map(|k| At::Param(i, k)));
        }
        for at in places {
            let right = self.claim.get(at);
            let near = (line.len() as u64).wrapping_sub(right).wrapping_add(self.random.below(3) as u64).wrapping_sub(1);
            let others = [right.wrapping_add(1), right.wrapping_sub(1), 0, u64::MAX, 1, right.wrapping_add(60), near];
            for other in others {
                self.claim.set(at, other);
                self.ask_of(line, STRICT_RECORD, || format!("{at:?} as {other} in place of {right}"))?;
            }
            self.claim.set(at, right);
        }
        self.change_zone(line)
    }

    /// Another offset, with the instant moved along, so that the clock stays what it is: so of `Z` claimed as +60.
    fn change_zone(&mut self, line: &[u8]) -> Result<(), Difference> {
        let (seconds, offset) = (self.claim.words[word::SECONDS], self.claim.words[word::OFFSET]);
        if self.claim.words[word::STAMP] == 0 {
            return Ok(());
        }
        for minutes in [60u64, 1, 60u64.wrapping_neg()] {
            self.claim.words[word::OFFSET] = offset.wrapping_add(minutes);
            self.claim.words[word::SECONDS] = seconds.wrapping_sub(minutes.wrapping_mul(60));
            self.ask(line, "another offset for the same clock")?;
        }
        (self.claim.words[word::SECONDS], self.claim.words[word::OFFSET]) = (seconds, offset);
        Ok(())
    }

    /// Entries past the counts are of no account, and so are bytes past the record.
    fn change_past(&mut self, line: &[u8]) -> Result<(), Difference> {
        self.claim.elements.truncate(self.answer.elements.len());
        self.claim.params.truncate(self.answer.params.len());
        self.ask(line, "tables of the counts")?;
        for _ in 0..3 {
            let number = self.random.next() as usize >> self.random.below(64);
            self.claim.elements.push([number, self.random.below(line.len())]);
            self.claim.params.push([number, 0, 1, self.random.below(line.len()), usize::MAX]);
            let more = self.random.below(9);
            self.ask_of(line, STRICT_RECORD + more, || "entries past the counts changed".into())?;
        }
        Ok(())
    }

    /// A record that is too short, tables that are shorter than the counts, counts that are less or more with tables that hold them.
    fn change_lengths(&mut self, line: &[u8]) -> Result<(), Difference> {
        for len in [0, 215, 216, STRICT_RECORD - 8, STRICT_RECORD - 1] {
            self.ask_of(line, len, || format!("a record of {len} bytes"))?;
        }
        let (elements, params) = (self.answer.elements.len(), self.answer.params.len());
        if let Some(last) = elements.checked_sub(1) {
            let kept = self.claim.elements.split_off(last);
            self.ask(line, "an element too few in the table")?;
            self.claim.elements.extend(kept);
        }
        if let Some(last) = params.checked_sub(1) {
            let kept = self.claim.params.split_off(last);
            self.ask(line, "a parameter too few in the table")?;
            self.claim.params.extend(kept);
        }
        // An entry too many that suits the line.
        self.claim.elements.truncate(elements);
        self.claim.elements.push(self.answer.elements.last().copied().unwrap_or([0; 2]));
        self.claim.words[word::ELEMENTS] += 1;
        self.ask(line, "an element too many")?;
        self.claim.params.truncate(params);
        self.claim.params.push([elements, 0, 1, 0, 1]);
        self.claim.words[word::PARAMS] += 1;
        self.ask(line, "an element and a parameter too many")
    }

    /// The claim kept and a byte of the line changed: right exactly if the grammar by hand divides the other line so.
    fn change_line(&mut self, line: &mut Vec<u8>) -> Result<(), Difference> {
        let means = b"<>0123456789-:.TZ+ []=\"\\aA\xEF\xBB\xBF\x80\xC3\xE0\xF0\xF4\n";
        for _ in 0..8 {
            let at = self.random.below(line.len());
            let right = line[at];
            line[at] = if self.random.one_in(4) { self.random.next() as u8 } else { self.random.of(means) };
            strict::read(line, &mut self.answer);
            self.ask(line, "the claim of a line with another byte")?;
            line[at] = right;
        }
        if line.len() < LONGEST {
            line.push(self.random.of(b" x-]"));
            strict::read(line, &mut self.answer);
            self.ask(line, "the claim of a line with a byte less")?;
            line.pop();
        }
        let last = line.pop();
        strict::read(line, &mut self.answer);
        self.ask(line, "the claim of a line with a byte more")?;
        line.extend(last);
        Ok(())
    }

    /// The line made as long as a line may be, and a byte longer: its message claimed as it was and as it is, and a place that ends past it.
    fn lengthen(&mut self, line: &mut Vec<u8>) -> Result<(), Difference> {
        let len = line.len();
        for long in [LONGEST, LONGEST + 1] {
            line.resize(long, b'x');
            strict::read(line, &mut self.answer);
            self.ask(line, "the claim of a line that was shorter")?;
            for (at, number) in [(word::MESSAGE_LEN, self.claim.words[word::MESSAGE_LEN] + (long - len) as u64), (word::HOST + 1, u64::MAX)] {
                let right = std::mem::replace(&mut self.claim.words[at], number);
                self.ask_of(line, STRICT_RECORD, || format!("word {at} as {number} of a line of {long} bytes"))?;
                self.claim.words[at] = right;
            }
        }
        line.truncate(len);
        Ok(())
    }
}
