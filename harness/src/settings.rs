//! Settings files, records and lines of a gate, against a reader, a writer and a choice of the host by hand: every byte of valid records changed to every
//! other, every length from 0 to 100, and then at random files of good and bad records of few gates, writes at and past every limit, and lines that are read
//! with settings, which the Rust reads too.

use crate::abi::{self, word, Element, GateSettings, Param, Settings, Site, Written, RECORD};
use crate::lent::{canary, Lent};
use crate::lines::Lines;
use crate::oracle::{self, Answer};
use crate::random::Random;
use crate::shrink::escaped;

const BYTES: usize = 32;
const HOST: usize = 20;
/// How many lengths of a file are gone through.
const LENGTHS: usize = 101;
/// The gates of a random file: few, so that many have several records, and some that share a byte.
const GATES: [u16; 6] = [0, 7, 7 << 8, 263, 0x0102, u16::MAX];

/// What is to be written.
#[derive(Clone, Debug)]
struct Meant {
    version: u32,
    gate: u32,
    settings: Settings,
    host: Vec<u8>,
}

#[derive(Clone, Copy, Default)]
pub struct Counts {
    pub cases: u64,
    pub reads: u64,
    pub taken: u64,
    /// Refusals 13, 9, 14 and 15 of reads.
    pub refused: [u64; 4],
    pub writes: u64,
    pub written: u64,
    pub lines: u64,
    pub read: u64,
    pub defaults: u64,
}

/// What differs: the call, and both answers.
pub struct Difference {
    pub what: &'static str,
    pub call: String,
    pub ours: String,
    pub wanted: String,
}

type Checked = Result<(), Difference>;

fn same<T: PartialEq + std::fmt::Debug>(what: &'static str, call: impl Fn() -> String, ours: T, wanted: T) -> Checked {
    if ours == wanted {
        return Ok(());
    }
    Err(Difference { what, call: call(), ours: format!("{ours:?}"), wanted: format!("{wanted:?}") })
}

// ---- by hand

/// Whether all fields but the version are in range.
fn in_range(meant: &Meant) -> bool {
    let s = meant.settings;
    let variants = if meant.version == 1 { 0 } else { 2 };
    meant.gate <= 0xFFFF
        && s.year <= 9999
        && s.offset.abs() <= 1439
        && s.variant <= variants
        && meant.host.len() <= HOST
        && meant.host.iter().all(|byte| byte.is_ascii_graphic())
}

/// The record of settings in range.
fn record_of(meant: &Meant) -> [u8; BYTES] {
    let s = meant.settings;
    let mut record = [0; BYTES];
    (record[0], record[1], record[28]) = (meant.version as u8, meant.host.len() as u8, s.variant as u8);
    record[2..4].copy_from_slice(&(s.year as u16).to_le_bytes());
    record[4..6].copy_from_slice(&(s.offset as i16).to_le_bytes());
    record[6..8].copy_from_slice(&(meant.gate as u16).to_le_bytes());
    record[8..8 + meant.host.len()].copy_from_slice(&meant.host);
    record
}

fn writing(meant: &Meant, room: usize) -> Result<[u8; BYTES], u32> {
    match meant.version {
        1 | 2 if !in_range(meant) => Err(15),
        1 | 2 if room < BYTES => Err(8),
        1 | 2 => Ok(record_of(meant)),
        _ => Err(14),
    }
}

fn pair(record: &[u8], at: usize) -> [u8; 2] {
    [record[at], record[at + 1]]
}

/// The settings that a record means, where it is sound.
fn meaning(record: &[u8]) -> Option<Meant> {
    let host = record[8..8 + HOST].get(..record[1].into())?.to_vec();
    let (year, offset) = (u16::from_le_bytes(pair(record, 2)).into(), i16::from_le_bytes(pair(record, 4)).into());
    let settings = Settings { variant: record[28].into(), year, offset };
    let meant = Meant { version: record[0].into(), gate: u16::from_le_bytes(pair(record, 6)).into(), settings, host };
    (in_range(&meant) && record == record_of(&meant)).then_some(meant)
}

/// The settings of a gate for a reader up to a version, with the place of the host.
fn reading(greatest: u8, file: &[u8], gate: u32) -> Result<(Meant, usize), u32> {
    if file.len() % BYTES != 0 {
        return Err(13);
    }
    let of_gate = |record: &[u8]| u32::from(u16::from_le_bytes(pair(record, 6))) == gate;
    let records = file.chunks_exact(BYTES).enumerate().filter(|(_, record)| of_gate(record));
    let (at, record) = records.last().ok_or(9u32)?;
    if !(1..=greatest).contains(&record[0]) {
        return Err(14);
    }
    meaning(record).map(|meant| (meant, at * BYTES + 8)).ok_or(15)
}

fn answer_of(read: &Result<(Meant, usize), u32>) -> GateSettings {
    match read {
        Err(number) => GateSettings { number: *number, ..GateSettings::default() },
        Ok((Meant { version, gate, settings: s, host }, at)) => GateSettings {
            number: 0,
            version: *version,
            gate: *gate,
            year: s.year,
            offset: s.offset,
            variant: s.variant,
            host_start: *at,
            host_len: host.len(),
        },
    }
}

/// The Rust's reading of a line, or 4 where it has none.
fn line_answer(line: &[u8], s: Settings, answer: &mut Answer) {
    let text = match oracle::admit(line, s) {
        Ok(text) => text,
        Err(number) => return answer.clear(number),
    };
    let message = oracle::exact(text, s);
    let class = oracle::class_of(text, message.as_ref());
    match message.filter(|_| class.is_none()) {
        Some(message) => oracle::put_message(answer, text, &oracle::with_hyphen(text, s, message).0),
        None => answer.clear(4),
    }
}

// ---- random settings

fn host(random: &mut Random) -> Vec<u8> {
    let len = random.of(&[0, 0, 1, 5, 19, 20, 20]);
    (0..len).map(|_| random.of(&[33, 45, 46, 48, 57, 65, 97, 110, 126])).collect()
}

/// Settings in range, at times at a limit.
fn good(random: &mut Random) -> Meant {
    let version = random.of(&[1, 2]);
    let variant = if version == 1 { 0 } else { random.below(3) as u32 };
    let year = random.of(&[0, 1, 255, 256, 2024, 2026, 9984, 9999]);
    let offset = random.of(&[-1439, -1280, -257, -256, -1, 0, 60, 255, 256, 1439]);
    Meant { version, gate: random.of(&GATES).into(), settings: Settings { variant, year, offset }, host: host(random) }
}

/// The same with at most a few fields past their limits.
fn any(random: &mut Random) -> Meant {
    let mut meant = good(random);
    for _ in 0..random.below(3) {
        match random.below(6) {
            0 => meant.version = random.of(&[0, 1, 2, 3, 256, 257, 258, u32::MAX]),
            1 => meant.gate = random.of(&[65_535, 65_536, 65_543, u32::MAX]),
            2 => meant.settings.year = random.of(&[9999, 10_000, 65_536, 67_562, u32::MAX]),
            3 => meant.settings.offset = random.of(&[1439, 1440, -1439, -1440, 65_536, -65_536, i32::MIN + 1, i32::MAX]),
            4 => meant.settings.variant = random.of(&[0, 1, 2, 3, 256, u32::MAX]),
            _ => meant.host = odd_host(random),
        }
    }
    meant
}

/// A host that is too long, or has a byte that none has.
fn odd_host(random: &mut Random) -> Vec<u8> {
    let mut host = vec![b'h'; random.of(&[1, 19, 20, 21, 22, 255, 256, 257])];
    let at = random.below(host.len());
    host[at] = random.of(&[0, 10, 32, 33, 126, 127, 128, 255]);
    host
}

/// A record, one in three of which has a byte or two changed.
fn record(random: &mut Random) -> [u8; BYTES] {
    let mut record = record_of(&good(random));
    if random.one_in(3) {
        for _ in 0..=random.below(2) {
            // The gate stays, so that the record is a bad one of a gate that is asked for.
            let at = random.of(&[0, 1, 3, 5, 8, 9, 10, 27, 28, 29, 30, 31]);
            record[at] = random.of(&[0, 1, 2, 3, 5, 20, 21, 0x26, 0x27, 0x7F, 0xFF]);
        }
    }
    record
}

/// Up to seven records, at times cut or with a few bytes more.
fn file(random: &mut Random) -> Vec<u8> {
    let records = random.below(8);
    let mut file: Vec<u8> = (0..records).flat_map(|_| record(random)).collect();
    match random.below(16) {
        0 => file.truncate(random.below(file.len() + 1)),
        1 => file.resize(file.len() + random.below(BYTES), 0),
        _ => {}
    }
    file
}

pub struct Files {
    random: Random,
    lines: Lines,
    /// The next number of the exhaustive lists, and by how much it rises.
    next: usize,
    parts: usize,
    valid: Vec<[u8; BYTES]>,
    elements: Lent<Element>,
    params: Lent<Param>,
    record: Lent<u8>,
    output: Lent<u8>,
    answer: Answer,
    line: Vec<u8>,
    pub counts: Counts,
}

impl Files {
    pub fn new(seed: u64, part: u64, parts: u64) -> Self {
        let mut random = Random::new(seed.wrapping_mul(1_000_003).wrapping_add(part));
        let of = |version, gate, variant, year, offset, host: &[u8]| {
            record_of(&Meant { version, gate, settings: Settings { variant, year, offset }, host: host.to_vec() })
        };
        let valid = vec![
            of(1, 7, 0, 2026, -300, b"depot"),
            of(2, 7, 1, 2026, 60, b"depot"),
            of(1, 0xFFFF, 0, 9999, 1439, b"12345678901234567890"),
            of(2, 0, 2, 0, -1439, b""),
            record_of(&good(&mut random)),
            record_of(&good(&mut random)),
        ];
        Files {
            random,
            lines: Lines::new(seed, part, parts),
            next: part as usize,
            parts: parts as usize,
            valid,
            elements: Lent::new(4096, canary),
            params: Lent::new(2048, canary),
            record: Lent::new(512, |at| 0xA5 ^ at as u8),
            output: Lent::new(64, |at| 0x5A ^ at as u8),
            answer: Answer::default(),
            line: Vec::new(),
            counts: Counts::default(),
        }
    }

    /// The next case: a file that is read for several gates, a write, or a line.
    pub fn next(&mut self) -> Checked {
        self.counts.cases += 1;
        let (changes, next) = (self.valid.len() * BYTES * 256, self.next);
        self.next = next + self.parts;
        if next < changes {
            return self.changed(next / 256 / BYTES, next / 256 % BYTES, next as u8);
        }
        if next < changes + LENGTHS * self.valid.len() {
            return self.cut((next - changes) / LENGTHS, (next - changes) % LENGTHS);
        }
        match self.random.below(8) {
            0..=3 => self.files(),
            4..=5 => self.write(),
            _ => self.line(),
        }
    }

    /// A valid record with one byte changed, alone and between others, whose gate or another is asked for.
    fn changed(&mut self, which: usize, at: usize, byte: u8) -> Checked {
        let mut changed = self.valid[which];
        let gate = u16::from_le_bytes(pair(&changed, 6)).into();
        changed[at] = byte;
        self.reads(&changed, gate)?;
        let other = self.valid[(which + 1) % self.valid.len()];
        self.reads(&[self.valid[which], other, changed, other].concat(), gate)?;
        self.reads(&[changed, other].concat(), u16::from_le_bytes(pair(&changed, 6)).into())
    }

    /// A file of this length.
    fn cut(&mut self, which: usize, len: usize) -> Checked {
        let record = self.valid[which];
        let file = [record; LENGTHS / BYTES + 1].concat();
        self.reads(&file[..len], u16::from_le_bytes(pair(&record, 6)).into())
    }

    fn files(&mut self) -> Checked {
        let file = file(&mut self.random);
        for gate in GATES {
            self.reads(&file, gate.into())?;
        }
        let past = self.random.of(&[1, 8, 65_536, 65_543, 1 << 31, u32::MAX]);
        self.reads(&file, past)
    }

    /// Both readers on a file. What is read writes the bytes of its record.
    fn reads(&mut self, file: &[u8], gate: u32) -> Checked {
        let call = || format!("gate {gate} of \"{}\"", escaped(file));
        let wanted = reading(2, file, gate);
        self.counts.reads += 2;
        match wanted {
            Ok(_) => self.counts.taken += 1,
            Err(number) => self.counts.refused[[13, 9, 14, 15].iter().position(|&n| n == number).unwrap()] += 1,
        }
        same("the answer of settings_read", call, abi::settings_read(file, gate), answer_of(&wanted))?;
        let of_version_1 = answer_of(&reading(1, file, gate));
        same("the answer of settings_read_1", call, abi::settings_read_1(file, gate), of_version_1)?;
        let Ok((meant, at)) = wanted else { return Ok(()) };
        self.writes(&meant, BYTES)?;
        same("the record that is written back", call, &record_of(&meant)[..], &file[at - 8..at - 8 + BYTES])
    }

    fn write(&mut self) -> Checked {
        let meant = any(&mut self.random);
        let room = if self.random.one_in(2) { BYTES } else { self.random.below(41) };
        self.writes(&meant, room)
    }

    /// The writer, and the reader on what it wrote.
    fn writes(&mut self, meant: &Meant, room: usize) -> Checked {
        let call = || format!("{meant:?} into {room} bytes");
        self.counts.writes += 1;
        let wanted = writing(meant, room);
        let len = if wanted.is_ok() { BYTES } else { 0 };
        let Meant { version, gate, settings, host } = meant;
        let ours = abi::settings_write(*version, *gate, *settings, host, self.output.lend(room));
        let text = self.output.first(len).to_vec();
        let kept = self.output.kept(len, room);
        same("the answer of settings_write", call, ours, Written { number: wanted.err().unwrap_or(0), len })?;
        same("a byte past the record", call, kept, true)?;
        let Ok(record) = wanted else { return Ok(()) };
        self.counts.written += 1;
        same("the record", call, &text[..], &record[..])?;
        same("what is read back", call, abi::settings_read(&text, *gate), answer_of(&Ok((meant.clone(), 8))))
    }

    /// A line that is read with the settings of a gate.
    fn line(&mut self) -> Checked {
        let mut line = std::mem::take(&mut self.line);
        self.lines.next(&mut line);
        let file = if self.random.one_in(4) { file(&mut self.random) } else { record(&mut self.random).to_vec() };
        // The gate of the last record, or any.
        let last = file.len().checked_sub(BYTES).map_or(7, |at| u16::from_le_bytes(pair(&file[at..], 6)));
        let gate = if self.random.one_in(8) { self.random.of(&GATES) } else { last };
        let seen = self.read_with(&file, gate.into(), &line);
        self.line = line;
        seen
    }

    fn read_with(&mut self, file: &[u8], gate: u32, line: &[u8]) -> Checked {
        self.counts.lines += 1;
        let mut answer = std::mem::take(&mut self.answer);
        let settings = reading(2, file, gate);
        match &settings {
            Ok((meant, _)) => line_answer(line, meant.settings, &mut answer),
            Err(number) => answer.clear(*number),
        }
        let default = settings.ok().filter(|(meant, _)| !meant.host.is_empty());
        let (e, p) = (answer.elements.len(), answer.params.len());
        let mut rooms = vec![[e + self.random.below(3), p + self.random.below(3), RECORD + self.random.of(&[0, 0, 1, 32])]];
        rooms.push([self.random.below(e + 1), self.random.below(p + 1), self.random.of(&[RECORD, RECORD - 1, 0])]);
        let mut seen = Ok(());
        for room in rooms {
            seen = seen.and_then(|()| self.call(file, gate, line, &answer, default.as_ref(), room));
        }
        self.answer = answer;
        seen
    }

    /// One call with memory of these lengths: the answer, what is left in the tables and the record, and that nothing else has changed.
    fn call(&mut self, file: &[u8], gate: u32, line: &[u8], wanted: &Answer, default: Option<&(Meant, usize)>, room: [usize; 3]) -> Checked {
        let [elements, params, record] = room;
        let call = || format!("\"{}\" with gate {gate} of \"{}\", room {room:?}", escaped(line), escaped(file));
        let number = wanted.number_for(elements, params, record, RECORD);
        let site = self.site(number, wanted, default);
        let (e, p, r) = if number == 0 { (wanted.elements.len(), wanted.params.len(), RECORD) } else { (0, 0, 0) };
        let ours = abi::read_with_settings(file, gate, line, self.elements.lend(elements), self.params.lend(params), self.record.lend(record));
        let left = (self.record.first(r).to_vec(), self.elements.first(e).to_vec(), self.params.first(p).to_vec());
        let kept = [self.elements.kept(e, elements), self.params.kept(p, params), self.record.kept(r, record)];
        same("the answer of read_with_settings", call, ours, site)?;
        same("a byte that was to be kept", call, kept, [true; 3])?;
        let words: Vec<u8> = wanted.words[..r / 8].iter().flat_map(|word| word.to_le_bytes()).collect();
        same("the record", call, &left.0[..], &words[..])?;
        same("the elements", call, &left.1[..], &wanted.elements[..e])?;
        same("the parameters", call, &left.2[..], &wanted.params[..p])
    }

    /// Whose host it is, and where.
    fn site(&mut self, number: u32, wanted: &Answer, default: Option<&(Meant, usize)>) -> Site {
        if number != 0 {
            return Site { number, ..Site::default() };
        }
        self.counts.read += 1;
        let place = |at: usize| wanted.words[word::HOST + at] as usize;
        if place(0) == 1 {
            return Site { number, holder: 1, host_start: place(1), host_len: place(2) };
        }
        let Some((meant, at)) = default else { return Site::default() };
        self.counts.defaults += 1;
        Site { number, holder: 2, host_start: *at, host_len: meant.host.len() }
    }
}
