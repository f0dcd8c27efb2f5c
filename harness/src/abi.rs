//! The archive's nineteen functions, as include/khamdoriem.h declares them.

pub type Element = [usize; 2];
pub type Param = [usize; 5];

/// The number of the interface that is spoken here.
pub const INTERFACE: u32 = 2;

/// The words of a record at which its fields start: the mark of one that has a mark. A place has its start and its length in the next two words.
pub mod word {
    pub const PROTOCOL: usize = 0;
    pub const VERSION: usize = 1;
    pub const FACILITY: usize = 2;
    pub const SEVERITY: usize = 4;
    pub const STAMP: usize = 6;
    pub const SECONDS: usize = 7;
    pub const NANOS: usize = 8;
    pub const DIGITS: usize = 9;
    pub const OFFSET: usize = 10;
    pub const HOST: usize = 11;
    pub const APP: usize = 14;
    pub const PID: usize = 17;
    pub const MSGID: usize = 20;
    pub const MESSAGE: usize = 23;
    pub const MESSAGE_LEN: usize = 24;
    pub const ELEMENTS: usize = 25;
    pub const PARAMS: usize = 26;
    pub const STAMP_TEXT: usize = 27;
    pub const HAS_MESSAGE: usize = 30;
}

/// Words and bytes of a record from the loose reader, and from the strict one.
pub const WORDS: usize = 27;
pub const STRICT_WORDS: usize = 31;
pub const RECORD: usize = 8 * WORDS;
pub const STRICT_RECORD: usize = 8 * STRICT_WORDS;
pub const LONGEST: usize = 8192;

#[derive(Clone, Copy, Debug, PartialEq)]
pub struct Settings {
    pub variant: u32,
    pub year: u32,
    pub offset: i32,
}

#[repr(C)]
#[derive(Clone, Copy, Debug, PartialEq)]
pub struct Read {
    pub number: u32,
    pub whole: u32,
    pub reach: usize,
}

#[repr(C)]
#[derive(Clone, Copy, Debug, PartialEq)]
pub struct Written {
    pub number: u32,
    pub len: usize,
}

/// Where a stream stands.
#[repr(C)]
#[derive(Clone, Copy, Debug, PartialEq)]
pub struct State {
    pub stage: u32,
    pub left: u32,
    pub came: u32,
}

impl State {
    pub const NONE: State = State { stage: 0, left: 0, came: 0 };
}

#[repr(C)]
#[derive(Clone, Copy, Debug, PartialEq)]
pub struct Started {
    pub number: u32,
    pub state: State,
}

#[repr(C)]
#[derive(Clone, Copy, Debug, PartialEq)]
pub struct Fed {
    pub number: u32,
    pub frame: u32,
    pub taken: usize,
    pub len: usize,
    pub state: State,
}

#[repr(C)]
#[derive(Clone, Copy, Debug, PartialEq)]
pub struct Finished {
    pub number: u32,
    pub unfinished: u32,
}

/// A row of a tally.
pub type Row = [u32; 9];

#[repr(C)]
#[derive(Clone, Copy, Debug, PartialEq)]
pub struct Cell {
    pub number: u32,
    pub count: u32,
}

#[repr(C)]
#[derive(Clone, Copy, Debug, PartialEq)]
pub struct Sum {
    pub number: u32,
    pub sum: u64,
}

/// The settings of a gate, with the place of its host in the file.
#[repr(C)]
#[derive(Clone, Copy, Debug, Default, PartialEq)]
pub struct GateSettings {
    pub number: u32,
    pub version: u32,
    pub gate: u32,
    pub year: u32,
    pub offset: i32,
    pub variant: u32,
    pub host_start: usize,
    pub host_len: usize,
}

/// Whose host a line has that was read with settings, and where.
#[repr(C)]
#[derive(Clone, Copy, Debug, Default, PartialEq)]
pub struct Site {
    pub number: u32,
    pub holder: u32,
    pub host_start: usize,
    pub host_len: usize,
}

/// A text of a line to be written.
#[repr(C)]
#[derive(Clone, Copy, Debug, Default, PartialEq)]
pub struct Part {
    pub present: usize,
    pub start: usize,
    pub len: usize,
}

/// The fields of a line to be written.
#[repr(C)]
#[derive(Clone, Copy, Debug, Default, PartialEq)]
pub struct Fields {
    pub priority: u32,
    pub version: u32,
    pub seconds: i64,
    pub stamped: u32,
    pub nanos: u32,
    pub digits: u32,
    pub offset: i32,
    pub host: Part,
    pub app: Part,
    pub procid: Part,
    pub msgid: Part,
    pub message: Part,
    pub element_count: usize,
    pub param_count: usize,
}

#[derive(Clone, Copy, Debug, PartialEq)]
pub enum Reader {
    Loose,
    Strict,
}

/// What printing, lookup and the check of a claim are lent to read.
#[derive(Clone, Copy)]
pub struct Given<'a> {
    pub line: &'a [u8],
    pub record: &'a [u8],
    pub elements: &'a [Element],
    pub params: &'a [Param],
}

/// What a comparison answers: the number of a refusal and its line, or the fields that differ, a bit each, and where the elements do.
#[repr(C)]
#[derive(Clone, Copy, Debug, Default, PartialEq)]
pub struct Compared {
    pub number: u32,
    pub line: u32,
    pub fields: u32,
    pub pair_line: u32,
    pub position: usize,
    pub pair_entry: usize,
}

#[link(name = "khamdoriem", kind = "static")]
extern "C" {
    fn khamdoriem_interface() -> u32;
    fn khamdoriem_read_loose(
        line: *const u8, line_len: usize, variant: u32, year: u32, offset: i32, elements: *mut Element, elements_len: usize,
        params: *mut Param, params_len: usize, record: *mut u8, record_len: usize,
    ) -> Read;
    fn khamdoriem_read_strict(
        line: *const u8, line_len: usize, elements: *mut Element, elements_len: usize, params: *mut Param, params_len: usize,
        record: *mut u8, record_len: usize,
    ) -> Read;
    fn khamdoriem_print(
        line: *const u8, line_len: usize, record: *const u8, record_len: usize, elements: *const Element, elements_len: usize,
        params: *const Param, params_len: usize, output: *mut u8, output_len: usize,
    ) -> Written;
    fn khamdoriem_lookup(
        line: *const u8, line_len: usize, record: *const u8, record_len: usize, elements: *const Element, elements_len: usize,
        params: *const Param, params_len: usize, id: *const u8, id_len: usize, name: *const u8, name_len: usize, kind: u32,
        output: *mut u8, output_len: usize,
    ) -> Written;
    fn khamdoriem_stream_start(kind: u32) -> Started;
    fn khamdoriem_stream_feed(state: State, bytes: *const u8, bytes_len: usize, buffer: *mut u8, buffer_len: usize) -> Fed;
    fn khamdoriem_stream_finish(state: State) -> Finished;
    fn khamdoriem_tally_add(rows: *mut Row, rows_len: usize, facility_mark: u32, facility: u32, severity_mark: u32, severity: u32) -> u32;
    fn khamdoriem_tally_cell(rows: *const Row, rows_len: usize, row: u32, column: u32) -> Cell;
    fn khamdoriem_tally_row(rows: *const Row, rows_len: usize, row: u32) -> Sum;
    fn khamdoriem_tally_column(rows: *const Row, rows_len: usize, column: u32) -> Sum;
    fn khamdoriem_settings_read(file: *const u8, file_len: usize, gate: u32) -> GateSettings;
    fn khamdoriem_settings_read_1(file: *const u8, file_len: usize, gate: u32) -> GateSettings;
    fn khamdoriem_settings_write(
        version: u32, gate: u32, year: u32, offset: i32, variant: u32, host: *const u8, host_len: usize, output: *mut u8, output_len: usize,
    ) -> Written;
    fn khamdoriem_read_with_settings(
        file: *const u8, file_len: usize, gate: u32, line: *const u8, line_len: usize,
        elements: *mut Element, elements_len: usize, params: *mut Param, params_len: usize, record: *mut u8, record_len: usize,
    ) -> Site;
    fn khamdoriem_check_claim(
        line: *const u8, line_len: usize, record: *const u8, record_len: usize, elements: *const Element, elements_len: usize,
        params: *const Param, params_len: usize,
    ) -> u32;
    fn khamdoriem_write_strict(
        text: *const u8, text_len: usize, fields: Fields, elements: *const Element, elements_len: usize, params: *const Param, params_len: usize,
        output: *mut u8, output_len: usize,
    ) -> Written;
    fn khamdoriem_compare(
        line1: *const u8, line1_len: usize, line2: *const u8, line2_len: usize, variant: u32, year: u32, offset: i32,
        elements1: *mut Element, elements1_len: usize, params1: *mut Param, params1_len: usize,
        elements2: *mut Element, elements2_len: usize, params2: *mut Param, params2_len: usize,
    ) -> Compared;
}

/// The number of the archive's interface.
pub fn interface() -> u32 {
    unsafe { khamdoriem_interface() }
}

pub fn read(reader: Reader, line: &[u8], s: Settings, elements: &mut [Element], params: &mut [Param], record: &mut [u8]) -> Read {
    let (e, el, p, pl, r, rl) =
        (elements.as_mut_ptr(), elements.len(), params.as_mut_ptr(), params.len(), record.as_mut_ptr(), record.len());
    unsafe {
        match reader {
            Reader::Loose => khamdoriem_read_loose(line.as_ptr(), line.len(), s.variant, s.year, s.offset, e, el, p, pl, r, rl),
            Reader::Strict => khamdoriem_read_strict(line.as_ptr(), line.len(), e, el, p, pl, r, rl),
        }
    }
}

pub fn print(g: Given, output: &mut [u8]) -> Written {
    unsafe {
        khamdoriem_print(
            g.line.as_ptr(), g.line.len(), g.record.as_ptr(), g.record.len(), g.elements.as_ptr(), g.elements.len(),
            g.params.as_ptr(), g.params.len(), output.as_mut_ptr(), output.len(),
        )
    }
}

pub fn lookup(g: Given, id: &[u8], name: &[u8], kind: u32, output: &mut [u8]) -> Written {
    unsafe {
        khamdoriem_lookup(
            g.line.as_ptr(), g.line.len(), g.record.as_ptr(), g.record.len(), g.elements.as_ptr(), g.elements.len(),
            g.params.as_ptr(), g.params.len(), id.as_ptr(), id.len(), name.as_ptr(), name.len(), kind, output.as_mut_ptr(), output.len(),
        )
    }
}

pub fn stream_start(kind: u32) -> Started {
    unsafe { khamdoriem_stream_start(kind) }
}

pub fn stream_feed(state: State, bytes: &[u8], buffer: &mut [u8]) -> Fed {
    unsafe { khamdoriem_stream_feed(state, bytes.as_ptr(), bytes.len(), buffer.as_mut_ptr(), buffer.len()) }
}

pub fn stream_finish(state: State) -> Finished {
    unsafe { khamdoriem_stream_finish(state) }
}

pub fn tally_add(rows: &mut [Row], facility_mark: u32, facility: u32, severity_mark: u32, severity: u32) -> u32 {
    unsafe { khamdoriem_tally_add(rows.as_mut_ptr(), rows.len(), facility_mark, facility, severity_mark, severity) }
}

pub fn tally_cell(rows: &[Row], row: u32, column: u32) -> Cell {
    unsafe { khamdoriem_tally_cell(rows.as_ptr(), rows.len(), row, column) }
}

pub fn tally_row(rows: &[Row], row: u32) -> Sum {
    unsafe { khamdoriem_tally_row(rows.as_ptr(), rows.len(), row) }
}

pub fn tally_column(rows: &[Row], column: u32) -> Sum {
    unsafe { khamdoriem_tally_column(rows.as_ptr(), rows.len(), column) }
}

pub fn settings_read(file: &[u8], gate: u32) -> GateSettings {
    unsafe { khamdoriem_settings_read(file.as_ptr(), file.len(), gate) }
}

pub fn settings_read_1(file: &[u8], gate: u32) -> GateSettings {
    unsafe { khamdoriem_settings_read_1(file.as_ptr(), file.len(), gate) }
}

pub fn settings_write(version: u32, gate: u32, s: Settings, host: &[u8], output: &mut [u8]) -> Written {
    unsafe { khamdoriem_settings_write(version, gate, s.year, s.offset, s.variant, host.as_ptr(), host.len(), output.as_mut_ptr(), output.len()) }
}

pub fn read_with_settings(file: &[u8], gate: u32, line: &[u8], elements: &mut [Element], params: &mut [Param], record: &mut [u8]) -> Site {
    let (e, p, r) = (elements.as_mut_ptr(), params.as_mut_ptr(), record.as_mut_ptr());
    unsafe {
        khamdoriem_read_with_settings(file.as_ptr(), file.len(), gate, line.as_ptr(), line.len(), e, elements.len(), p, params.len(), r, record.len())
    }
}

pub fn check_claim(g: Given) -> u32 {
    unsafe {
        khamdoriem_check_claim(
            g.line.as_ptr(), g.line.len(), g.record.as_ptr(), g.record.len(), g.elements.as_ptr(), g.elements.len(), g.params.as_ptr(), g.params.len(),
        )
    }
}

pub fn write_strict(text: &[u8], fields: Fields, elements: &[Element], params: &[Param], output: &mut [u8]) -> Written {
    unsafe {
        khamdoriem_write_strict(
            text.as_ptr(), text.len(), fields, elements.as_ptr(), elements.len(), params.as_ptr(), params.len(), output.as_mut_ptr(), output.len(),
        )
    }
}

/// The tables of a line: elements and parameters.
pub type Tables<'a> = (&'a mut [Element], &'a mut [Param]);

pub fn compare(lines: [&[u8]; 2], s: Settings, first: Tables, second: Tables) -> Compared {
    let [a, b] = lines;
    let (e1, p1, e2, p2) = (first.0.as_mut_ptr(), first.1.as_mut_ptr(), second.0.as_mut_ptr(), second.1.as_mut_ptr());
    let (e1_len, p1_len, e2_len, p2_len) = (first.0.len(), first.1.len(), second.0.len(), second.1.len());
    unsafe {
        khamdoriem_compare(
            a.as_ptr(), a.len(), b.as_ptr(), b.len(), s.variant, s.year, s.offset, e1, e1_len, p1, p1_len, e2, e2_len, p2, p2_len,
        )
    }
}
