//! What writing a line costs: lines as a gate has them, long values and long messages, and many elements.
use crate::readers::Written;
use crate::work::Work;
use std::hint::black_box;

/// Room for any line.
const OUTPUT: usize = 8192;

/// The fields of a line over one text (include/khamdoriem.h).
#[repr(C)]
#[derive(Clone, Copy, Default)]
struct Part {
    present: usize,
    start: usize,
    len: usize,
}

#[repr(C)]
#[derive(Clone, Copy, Default)]
struct Fields {
    priority: u32,
    version: u32,
    seconds: i64,
    stamped: u32,
    nanos: u32,
    digits: u32,
    offset: i32,
    host: Part,
    app: Part,
    procid: Part,
    msgid: Part,
    message: Part,
    element_count: usize,
    param_count: usize,
}

#[cfg(not(no_writes))]
extern "C" {
    fn khamdoriem_write_strict(
        text: *const u8, text_len: usize, fields: Fields, elements: *const [usize; 2], elements_len: usize, params: *const [usize; 5],
        params_len: usize, output: *mut u8, output_len: usize,
    ) -> Written;
}

/// An archive of before there was a writer (bench/run, --before) writes nothing.
#[cfg(no_writes)]
#[allow(clippy::too_many_arguments)]
unsafe fn khamdoriem_write_strict(
    _: *const u8, _: usize, _: Fields, _: *const [usize; 2], _: usize, _: *const [usize; 5], _: usize, _: *mut u8, _: usize,
) -> Written {
    Written { number: 17, len: 0 }
}

/// A line to be written: what it is, how often in a pass, and what it has.
pub struct Kind {
    pub name: &'static str,
    pub what: &'static str,
    calls: usize,
    make: fn() -> Line,
}

const fn kind(name: &'static str, what: &'static str, calls: usize, make: fn() -> Line) -> Kind {
    Kind { name, what, calls, make }
}

pub const KINDS: [Kind; 10] = [
    kind("nothing", "nothing but a priority", 10_000, || Line::new("").done()),
    kind("gate", "a gate's stage: a timestamp, four texts, an element of two parameters, `ok`", 10_000, || Line::gate().stage("radio").done()),
    kind("gate-3", "the same with three elements", 10_000, || Line::gate().stage("radio").stage("denylist").stage("paddle").done()),
    kind("value", "a value of 8,000 plain bytes", 200, || Line::new("").element("a", &["x".repeat(8_000)]).done()),
    kind("value-escaped", "a value of 4,000 brackets, each of them escaped", 200, || Line::new("").element("a", &["]".repeat(4_000)]).done()),
    kind("value-utf8", "a value of 4,000 characters of two bytes", 200, || Line::new("").element("a", &["é".repeat(4_000)]).done()),
    kind("message", "a message of 8,000 bytes", 200, || Line::new(&"x".repeat(8_000)).done()),
    kind("message-utf8", "a message of a mark and 4,000 characters of two bytes", 200, || Line::new(&("\u{feff}".to_string() + &"é".repeat(4_000))).done()),
    kind("params", "an element of 800 parameters of one byte each", 200, || Line::new("").element("a", &vec!["1".to_string(); 800]).done()),
    kind("elements", "1,000 elements", 200, || (0..1_000).fold(Line::new(""), |line, i| line.element(&format!("{i:x}"), &[])).done()),
];

pub fn named(name: &str) -> Option<&'static Kind> {
    KINDS.iter().find(|kind| kind.name == name)
}

#[derive(Default)]
struct Line {
    text: Vec<u8>,
    fields: Fields,
    elements: Vec<[usize; 2]>,
    params: Vec<[usize; 5]>,
}

impl Line {
    fn place(&mut self, text: &str) -> [usize; 2] {
        self.text.extend(text.as_bytes());
        [self.text.len() - text.len(), text.len()]
    }

    fn part(&mut self, text: &str) -> Part {
        let [start, len] = self.place(text);
        Part { present: 1, start, len }
    }

    /// A line with this message, absent where it is empty.
    fn new(message: &str) -> Line {
        let mut line = Line::default();
        (line.fields.priority, line.fields.version) = (13, 1);
        if !message.is_empty() {
            line.fields.message = line.part(message);
        }
        line
    }

    /// `<13>1 2026-01-05T10:01:02.215+00:00 gate7 reader 42 TAP - ok`
    fn gate() -> Line {
        let mut line = Line::new("ok");
        let f = &mut line.fields;
        (f.stamped, f.seconds, f.nanos, f.digits) = (1, 1_767_607_262, 215_000_000, 3);
        line.fields.host = line.part("gate7");
        line.fields.app = line.part("reader");
        line.fields.procid = line.part("42");
        line.fields.msgid = line.part("TAP");
        line
    }

    fn element(mut self, id: &str, values: &[String]) -> Line {
        let row = self.place(id);
        self.elements.push(row);
        for value in values {
            let ([name, name_len], [value, value_len]) = (self.place("x"), self.place(value));
            self.params.push([self.elements.len() - 1, name, name_len, value, value_len]);
        }
        self
    }

    fn stage(self, name: &str) -> Line {
        let id = format!("stage{}@32473", self.elements.len());
        self.element(&id, &[name.to_string(), "212".to_string()])
    }

    fn done(mut self) -> Line {
        (self.fields.element_count, self.fields.param_count) = (self.elements.len(), self.params.len());
        self
    }

    fn write(&self, output: &mut [u8]) -> Written {
        // SAFETY: each pointer and count are those of one slice, and the output is borrowed mutably.
        unsafe {
            khamdoriem_write_strict(
                self.text.as_ptr(), self.text.len(), self.fields, self.elements.as_ptr(), self.elements.len(), self.params.as_ptr(), self.params.len(),
                output.as_mut_ptr(), output.len(),
            )
        }
    }
}

/// Writes a kind's line so often, and answers its length; fails where it is refused. This is the measured part.
fn pass(kind: &Kind, line: &Line, output: &mut [u8]) -> Result<usize, String> {
    let mut len = 0;
    for _ in 0..kind.calls {
        let written = black_box(line).write(black_box(output));
        if written.number != 0 {
            return Err(format!("{}: writing is refused with {}", kind.name, written.number));
        }
        len = written.len;
    }
    Ok(len)
}

pub fn work(kind: &'static Kind) -> Work {
    let (line, mut output) = ((kind.make)(), vec![0; OUTPUT]);
    Work::new(kind.calls, move || pass(kind, &line, &mut output).map(|_| ()))
}

/// Writes each kind, and says how often and how many bytes, as rows of the results.
pub fn check() -> Result<(), String> {
    if cfg!(no_writes) {
        return Ok(());
    }
    for kind in &KINDS {
        println!("write {} {} {}", kind.name, kind.calls, pass(kind, &(kind.make)(), &mut vec![0; OUTPUT])?);
    }
    Ok(())
}
