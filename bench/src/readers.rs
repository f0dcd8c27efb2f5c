//! The readers that are measured: the Rust, the archive's loose and strict ones, and two walks that only look at each byte.
use chrono::FixedOffset;
use std::hint::black_box;
use syslog_loose::{parse_message_with_year_exact_tz, Message, Variant};

const YEAR: i32 = 2023;
const OFFSET: i32 = 60;

/// What a reader answers (include/khamdoriem.h).
#[cfg(not(number_alone))]
#[repr(C)]
pub struct Answer {
    number: u32,
    whole: u32,
    reach: usize,
}

#[cfg(not(number_alone))]
impl Answer {
    pub fn number(&self) -> u32 {
        self.number
    }

    /// Was there no reading, by the loose reader?
    pub fn is_whole(&self) -> bool {
        self.whole == 1
    }

    /// How far a line that the strict reader refuses with 4 is right. An archive of before that was told says 0.
    pub fn reach(&self) -> usize {
        self.reach
    }
}

/// An archive of before there was one loose reader (bench/run, --before) answers the number alone, and 4 where there is no reading.
#[cfg(number_alone)]
#[repr(transparent)]
pub struct Answer(u32);

#[cfg(number_alone)]
impl Answer {
    pub fn number(&self) -> u32 {
        self.0
    }

    pub fn is_whole(&self) -> bool {
        self.0 == 4
    }

    pub fn reach(&self) -> usize {
        0
    }
}

// A slice crosses as a pointer and a count (include/khamdoriem.h).
#[link(name = "khamdoriem", kind = "static")]
extern "C" {
    #[cfg(not(interface_1))]
    fn khamdoriem_interface() -> u32;
    #[cfg_attr(number_alone, link_name = "khamdoriem_read_exact")]
    fn khamdoriem_read_loose(
        line: *const u8,
        line_len: usize,
        variant: u32,
        year: u32,
        offset: i32,
        elements: *mut [usize; 2],
        elements_len: usize,
        params: *mut [usize; 5],
        params_len: usize,
        record: *mut u8,
        record_len: usize,
    ) -> Answer;
    fn khamdoriem_read_strict(
        line: *const u8,
        line_len: usize,
        elements: *mut [usize; 2],
        elements_len: usize,
        params: *mut [usize; 5],
        params_len: usize,
        record: *mut u8,
        record_len: usize,
    ) -> Answer;
    #[cfg(not(no_claims))]
    fn khamdoriem_check_claim(
        line: *const u8,
        line_len: usize,
        record: *const u8,
        record_len: usize,
        elements: *const [usize; 2],
        elements_len: usize,
        params: *const [usize; 5],
        params_len: usize,
    ) -> u32;
}

/// An archive of before there were claims (bench/run, --before) has no check.
#[cfg(no_claims)]
#[allow(clippy::too_many_arguments)]
unsafe fn khamdoriem_check_claim(_: *const u8, _: usize, _: *const u8, _: usize, _: *const [usize; 2], _: usize, _: *const [usize; 5], _: usize) -> u32 {
    16
}

/// What reading with settings answers.
#[cfg(not(no_settings))]
#[repr(C)]
pub struct Site {
    number: u32,
    holder: u32,
    host_start: usize,
    host_len: usize,
}

#[cfg(not(no_settings))]
extern "C" {
    fn khamdoriem_read_with_settings(
        file: *const u8,
        file_len: usize,
        gate: u32,
        line: *const u8,
        line_len: usize,
        elements: *mut [usize; 2],
        elements_len: usize,
        params: *mut [usize; 5],
        params_len: usize,
        record: *mut u8,
        record_len: usize,
    ) -> Site;
}

/// The number of the archive's interface; one that is older than the call has 1.
pub fn interface() -> u32 {
    #[cfg(interface_1)]
    return 1;
    // SAFETY: it is given nothing.
    #[cfg(not(interface_1))]
    unsafe {
        khamdoriem_interface()
    }
}

/// What a call writes to an output.
#[repr(C)]
pub struct Written {
    pub number: u32,
    pub len: usize,
}

/// `Checked`: the Rust, which asks first whether the line is UTF-8. `Cleared`: ours, with tables and record cleared before each line.
#[derive(Clone, Copy)]
pub enum Reader {
    Rust,
    Checked,
    Loose,
    LooseCleared,
    Strict,
    StrictCleared,
    ByByte,
    BySixteen,
}

impl Reader {
    pub fn named(name: &str) -> Option<Reader> {
        match name {
            "rust" => Some(Reader::Rust),
            "rust_checked" => Some(Reader::Checked),
            "loose" => Some(Reader::Loose),
            "loose_cleared" => Some(Reader::LooseCleared),
            "strict" => Some(Reader::Strict),
            "strict_cleared" => Some(Reader::StrictCleared),
            "by_byte" => Some(Reader::ByByte),
            "by_sixteen" => Some(Reader::BySixteen),
            _ => None,
        }
    }
}

/// The rows of the tables that a host lends for lines of a gate, of elements and of parameters.
pub const ROWS: (usize, usize) = (4, 16);

/// What a call is lent: the tables and the record's memory.
pub struct Lent {
    pub elements: Vec<[usize; 2]>,
    pub params: Vec<[usize; 5]>,
    pub record: [u8; 248],
}

impl Lent {
    /// Room for any line of 8,192 bytes.
    pub fn new() -> Lent {
        Lent::of((4096, 4096))
    }

    pub fn of((elements, params): (usize, usize)) -> Lent {
        Lent { elements: vec![[0; 2]; elements], params: vec![[0; 5]; params], record: [0; 248] }
    }

    fn cleared(&mut self) -> &mut Lent {
        self.elements.fill([0; 2]);
        self.params.fill([0; 5]);
        self.record.fill(0);
        self
    }

    /// Word `i` of the record (docs/INTERFACE.md).
    pub fn word(&self, i: usize) -> usize {
        let bytes = &self.record[8 * i..8 * i + 8];
        usize::from_le_bytes(bytes.try_into().expect("a word has 8 bytes"))
    }

    #[inline]
    pub fn loose(&mut self, line: &[u8], variant: u32) -> Answer {
        let (e, p, r) = (&mut self.elements, &mut self.params, &mut self.record);
        // SAFETY: each pointer comes with its own slice's length, and the slices do not overlap.
        unsafe {
            khamdoriem_read_loose(
                line.as_ptr(),
                line.len(),
                variant,
                YEAR as u32,
                OFFSET,
                e.as_mut_ptr(),
                e.len(),
                p.as_mut_ptr(),
                p.len(),
                r.as_mut_ptr(),
                r.len(),
            )
        }
    }

    /// The number of a reading with settings. An archive of before there were settings files (bench/run, --before) has none.
    #[inline]
    pub fn with_settings(&mut self, file: &[u8], gate: u32, line: &[u8]) -> u32 {
        #[cfg(no_settings)]
        return black_box((file, gate, line)).1;
        #[cfg(not(no_settings))]
        {
            let (e, p, r) = (&mut self.elements, &mut self.params, &mut self.record);
            // SAFETY: as above.
            let site = unsafe {
                khamdoriem_read_with_settings(
                    file.as_ptr(),
                    file.len(),
                    gate,
                    line.as_ptr(),
                    line.len(),
                    e.as_mut_ptr(),
                    e.len(),
                    p.as_mut_ptr(),
                    p.len(),
                    r.as_mut_ptr(),
                    r.len(),
                )
            };
            black_box((site.holder, site.host_start, site.host_len));
            site.number
        }
    }

    #[inline]
    pub fn strict(&mut self, line: &[u8]) -> Answer {
        let (e, p, r) = (&mut self.elements, &mut self.params, &mut self.record);
        // SAFETY: as above.
        unsafe { khamdoriem_read_strict(line.as_ptr(), line.len(), e.as_mut_ptr(), e.len(), p.as_mut_ptr(), p.len(), r.as_mut_ptr(), r.len()) }
    }

    /// The number of the check of what the strict reader left.
    #[inline]
    pub fn check(&self, line: &[u8]) -> u32 {
        let (e, p, r) = (&self.elements, &self.params, &self.record);
        // SAFETY: each pointer comes with its own slice's length, and all are only read.
        unsafe { khamdoriem_check_claim(line.as_ptr(), line.len(), r.as_ptr(), r.len(), e.as_ptr(), e.len(), p.as_ptr(), p.len()) }
    }
}

#[inline]
pub fn rust(line: &str, variant: u32) -> Result<Message<&str>, String> {
    let variant = match variant {
        0 => Variant::Either,
        1 => Variant::RFC3164,
        _ => Variant::RFC5424,
    };
    parse_message_with_year_exact_tz(line, |_| YEAR, FixedOffset::east_opt(60 * OFFSET), variant)
}

/// The cheapest look at each byte by itself, a comparison and a branch: whether the line has a zero. Eight stand in a turn of the loop.
fn by_byte(line: &[u8]) -> bool {
    let has_zero = |bytes: &[u8]| bytes.iter().any(|b| *b == 0);
    let mut eights = line.chunks_exact(8);
    eights.by_ref().any(has_zero) || has_zero(eights.remainder())
}

/// The cheapest look at sixteen bytes at once, which the compiler makes of this: whether all are ASCII.
fn by_sixteen(line: &[u8]) -> u8 {
    line.iter().fold(0, |all, b| all | b)
}

/// Each line once. What is answered is used, so that no call is left out.
fn each<T>(lines: &[&str], mut read: impl FnMut(&str) -> T) {
    for line in lines {
        black_box(&read(black_box(line)));
    }
}

/// Reads every line once. This is the measured part: nothing is printed, and nothing cleared but where the reader says so.
pub fn pass(reader: Reader, variant: u32, lines: &[&str], lent: &mut Lent) {
    match reader {
        Reader::Rust => each(lines, |line| black_box(&rust(line, variant)).is_ok()),
        Reader::Checked => each(lines, |line| std::str::from_utf8(line.as_bytes()).map(|line| black_box(&rust(line, variant)).is_ok())),
        Reader::Loose => each(lines, |line| lent.loose(line.as_bytes(), variant)),
        Reader::LooseCleared => each(lines, |line| lent.cleared().loose(line.as_bytes(), variant)),
        Reader::Strict => each(lines, |line| lent.strict(line.as_bytes())),
        Reader::StrictCleared => each(lines, |line| lent.cleared().strict(line.as_bytes())),
        Reader::ByByte => each(lines, |line| by_byte(line.as_bytes())),
        Reader::BySixteen => each(lines, |line| by_sixteen(line.as_bytes())),
    }
}
