//! The nineteen functions of the archive, each behind a safe function over slices and numbers.
//!
//! This and `texts` are the only modules with `unsafe`. What makes each call safe is the same: the archive's functions are
//! total, whatever the bytes, numbers and lengths. They read and write within the counts that they are given and keep nothing
//! after the call. A Rust slice gives what they ask of a pointer: it is never null (an empty slice's is dangling), it is
//! aligned for its type, and what is behind a `&mut` overlaps nothing else of the call. Whatever numbers they store are values
//! of `usize`, `u32` and `u8`. The declarations follow `include/khamdoriem.h`: a slice is a pointer and then a count.

/// The number of the interface that this crate is written for, `KHAMDORIEM_INTERFACE` of the header: where each field of a record
/// stands, and what each answer means.
const INTERFACE: u32 = 2;

/// The memory of one element in [`Tables`](crate::Tables): 16 bytes. What it holds is a reader's, or of a [`Claim`](crate::Claim)'s maker.
// The place of the element's id: start and length.
#[repr(transparent)]
#[derive(Clone, Copy, Debug, Default, PartialEq, Eq)]
pub struct ElementEntry(pub(crate) [usize; 2]);

impl ElementEntry {
    /// The entry that holds nothing, to make an array of.
    pub const EMPTY: ElementEntry = ElementEntry([0; 2]);

    /// The entry of a claimed element: start and length of its id.
    pub const fn new(start: usize, len: usize) -> ElementEntry {
        ElementEntry([start, len])
    }
}

/// The memory of one parameter in [`Tables`](crate::Tables): 40 bytes. What it holds is a reader's, or of a [`Claim`](crate::Claim)'s maker.
// The number of the parameter's element, start and length of its name, start and length of its value.
#[repr(transparent)]
#[derive(Clone, Copy, Debug, Default, PartialEq, Eq)]
pub struct ParamEntry(pub(crate) [usize; 5]);

impl ParamEntry {
    /// The entry that holds nothing, to make an array of.
    pub const EMPTY: ParamEntry = ParamEntry([0; 5]);

    /// The entry of a claimed parameter: the number of its element, from 0, and start and length of its name and of its value.
    pub const fn new(element: usize, name: (usize, usize), value: (usize, usize)) -> ParamEntry {
        ParamEntry([element, name.0, name.1, value.0, value.1])
    }
}

/// What a reader answers. `number` is 0 where it left a record, else that of the refusal. `whole` is 1 where a loose line has no
/// reading, so that the record is the whole line as the message; else it is 0. `reach` is, with 4 of
/// the strict reader, the length of the longest beginning that some strict line has too; else it is 0.
#[repr(C)]
#[derive(Clone, Copy, Debug, PartialEq, Eq)]
pub(crate) struct ReadAnswer {
    pub(crate) number: u32,
    pub(crate) whole: u32,
    pub(crate) reach: usize,
}

/// What printing, lookup and writing answer: 0 and the length of the result, or the number of a refusal and 0.
#[repr(C)]
#[derive(Clone, Copy, Debug, PartialEq, Eq)]
pub(crate) struct Written {
    pub(crate) number: u32,
    pub(crate) len: usize,
}

/// Where a stream stands.
#[repr(C)]
#[derive(Clone, Copy, Debug, PartialEq, Eq)]
pub(crate) struct StreamState {
    pub(crate) stage: u32,
    pub(crate) left: u32,
    pub(crate) came: u32,
}

/// What the start of a stream answers: 0 and its state, or 2 and a state that is none.
#[repr(C)]
#[derive(Clone, Copy, Debug, PartialEq, Eq)]
pub(crate) struct StartAnswer {
    pub(crate) number: u32,
    pub(crate) state: StreamState,
}

/// What feeding answers. `frame` is 1 where a frame is complete, the first `len` bytes of the buffer; `taken` bytes were taken.
#[repr(C)]
#[derive(Clone, Copy, Debug, PartialEq, Eq)]
pub(crate) struct FeedAnswer {
    pub(crate) number: u32,
    pub(crate) frame: u32,
    pub(crate) taken: usize,
    pub(crate) len: usize,
    pub(crate) state: StreamState,
}

/// What the end of a stream answers: 0 and the content bytes of an unfinished frame, or 2 and 0.
#[repr(C)]
#[derive(Clone, Copy, Debug, PartialEq, Eq)]
pub(crate) struct FinishAnswer {
    pub(crate) number: u32,
    pub(crate) unfinished: u32,
}

/// A row of a tally: a count for each severity, and for none.
pub(crate) type Row = [u32; 9];

/// What the read of a cell answers: 0 and what it holds, or the number of a refusal and 0.
#[repr(C)]
#[derive(Clone, Copy, Debug, PartialEq, Eq)]
pub(crate) struct CellAnswer {
    pub(crate) number: u32,
    pub(crate) count: u32,
}

/// What the sum of a row or of a column answers: 0 and the sum, or the number of a refusal and 0.
#[repr(C)]
#[derive(Clone, Copy, Debug, PartialEq, Eq)]
pub(crate) struct SumAnswer {
    pub(crate) number: u32,
    pub(crate) sum: u64,
}

/// What a reader of a settings file answers: 0 and the settings, or the number of a refusal and zeros. The host is a place in
/// the file.
#[repr(C)]
#[derive(Clone, Copy, Debug, Default, PartialEq, Eq)]
pub(crate) struct SettingsAnswer {
    pub(crate) number: u32,
    pub(crate) version: u32,
    pub(crate) gate: u32,
    pub(crate) year: u32,
    pub(crate) offset: i32,
    pub(crate) variant: u32,
    pub(crate) host_start: usize,
    pub(crate) host_len: usize,
}

/// What reading with settings answers: 0 and the place of the host, in the line where `holder` is 1 and in the file where it is
/// 2; or the number of a refusal and zeros.
#[repr(C)]
#[derive(Clone, Copy, Debug, Default, PartialEq, Eq)]
pub(crate) struct SiteAnswer {
    pub(crate) number: u32,
    pub(crate) holder: u32,
    pub(crate) host_start: usize,
    pub(crate) host_len: usize,
}

/// A text of a line to be written: `len` bytes of the lent text from `start` on, or absent where `present` is 0.
#[repr(C)]
#[derive(Clone, Copy, Debug, PartialEq, Eq)]
pub(crate) struct Part {
    pub(crate) present: usize,
    pub(crate) start: usize,
    pub(crate) len: usize,
}

/// The fields of a line to be written, but for the entries of its tables. Where `stamped` is 0 there is no timestamp.
#[repr(C)]
#[derive(Clone, Copy, Debug, PartialEq, Eq)]
pub(crate) struct Fields {
    pub(crate) priority: u32,
    pub(crate) version: u32,
    pub(crate) seconds: i64,
    pub(crate) stamped: u32,
    pub(crate) nanos: u32,
    pub(crate) digits: u32,
    pub(crate) offset: i32,
    pub(crate) host: Part,
    pub(crate) app: Part,
    pub(crate) procid: Part,
    pub(crate) msgid: Part,
    pub(crate) message: Part,
    pub(crate) element_count: usize,
    pub(crate) param_count: usize,
}

impl Fields {
    /// All zeros.
    pub(crate) const EMPTY: Fields = {
        let absent = Part { present: 0, start: 0, len: 0 };
        Fields {
            priority: 0,
            version: 0,
            seconds: 0,
            stamped: 0,
            nanos: 0,
            digits: 0,
            offset: 0,
            host: absent,
            app: absent,
            procid: absent,
            msgid: absent,
            message: absent,
            element_count: 0,
            param_count: 0,
        }
    };
}

/// What a comparison answers: 0 and the fields that differ, a bit each, with the first position at which the elements do and a
/// pair there (the line that it stands in, 1 or 2, and its entry; 0 where none is named); or the number of a refusal, the line
/// that is refused, and zeros.
#[repr(C)]
#[derive(Clone, Copy, Debug, Default, PartialEq, Eq)]
pub(crate) struct CompareAnswer {
    pub(crate) number: u32,
    pub(crate) line: u32,
    pub(crate) fields: u32,
    pub(crate) pair_line: u32,
    pub(crate) position: usize,
    pub(crate) pair_entry: usize,
}

extern "C" {
    fn khamdoriem_interface() -> u32;

    fn khamdoriem_read_loose(
        line: *const u8,
        line_len: usize,
        variant: u32,
        year: u32,
        offset: i32,
        elements: *mut ElementEntry,
        elements_len: usize,
        params: *mut ParamEntry,
        params_len: usize,
        record: *mut u8,
        record_len: usize,
    ) -> ReadAnswer;

    fn khamdoriem_read_strict(
        line: *const u8,
        line_len: usize,
        elements: *mut ElementEntry,
        elements_len: usize,
        params: *mut ParamEntry,
        params_len: usize,
        record: *mut u8,
        record_len: usize,
    ) -> ReadAnswer;

    fn khamdoriem_print(
        line: *const u8,
        line_len: usize,
        record: *const u8,
        record_len: usize,
        elements: *const ElementEntry,
        elements_len: usize,
        params: *const ParamEntry,
        params_len: usize,
        output: *mut u8,
        output_len: usize,
    ) -> Written;

    fn khamdoriem_lookup(
        line: *const u8,
        line_len: usize,
        record: *const u8,
        record_len: usize,
        elements: *const ElementEntry,
        elements_len: usize,
        params: *const ParamEntry,
        params_len: usize,
        id: *const u8,
        id_len: usize,
        name: *const u8,
        name_len: usize,
        kind: u32,
        output: *mut u8,
        output_len: usize,
    ) -> Written;

    fn khamdoriem_stream_start(kind: u32) -> StartAnswer;

    fn khamdoriem_stream_feed(
        state: StreamState,
        bytes: *const u8,
        bytes_len: usize,
        buffer: *mut u8,
        buffer_len: usize,
    ) -> FeedAnswer;

    fn khamdoriem_stream_finish(state: StreamState) -> FinishAnswer;

    fn khamdoriem_tally_add(
        rows: *mut Row,
        rows_len: usize,
        facility_mark: u32,
        facility: u32,
        severity_mark: u32,
        severity: u32,
    ) -> u32;

    fn khamdoriem_tally_cell(rows: *const Row, rows_len: usize, row: u32, column: u32) -> CellAnswer;

    fn khamdoriem_tally_row(rows: *const Row, rows_len: usize, row: u32) -> SumAnswer;

    fn khamdoriem_tally_column(rows: *const Row, rows_len: usize, column: u32) -> SumAnswer;

    fn khamdoriem_settings_read(file: *const u8, file_len: usize, gate: u32) -> SettingsAnswer;

    fn khamdoriem_settings_read_1(file: *const u8, file_len: usize, gate: u32) -> SettingsAnswer;

    fn khamdoriem_settings_write(
        version: u32,
        gate: u32,
        year: u32,
        offset: i32,
        variant: u32,
        host: *const u8,
        host_len: usize,
        output: *mut u8,
        output_len: usize,
    ) -> Written;

    fn khamdoriem_read_with_settings(
        file: *const u8,
        file_len: usize,
        gate: u32,
        line: *const u8,
        line_len: usize,
        elements: *mut ElementEntry,
        elements_len: usize,
        params: *mut ParamEntry,
        params_len: usize,
        record: *mut u8,
        record_len: usize,
    ) -> SiteAnswer;

    fn khamdoriem_check_claim(
        line: *const u8,
        line_len: usize,
        record: *const u8,
        record_len: usize,
        elements: *const ElementEntry,
        elements_len: usize,
        params: *const ParamEntry,
        params_len: usize,
    ) -> u32;

    fn khamdoriem_write_strict(
        text: *const u8,
        text_len: usize,
        fields: Fields,
        elements: *const ElementEntry,
        elements_len: usize,
        params: *const ParamEntry,
        params_len: usize,
        output: *mut u8,
        output_len: usize,
    ) -> Written;

    fn khamdoriem_compare(
        line1: *const u8,
        line1_len: usize,
        line2: *const u8,
        line2_len: usize,
        variant: u32,
        year: u32,
        offset: i32,
        elements1: *mut ElementEntry,
        elements1_len: usize,
        params1: *mut ParamEntry,
        params1_len: usize,
        elements2: *mut ElementEntry,
        elements2_len: usize,
        params2: *mut ParamEntry,
        params2_len: usize,
    ) -> CompareAnswer;
}

/// A facility or a severity as the archive has it: mark 1 and the number, or mark 0 and 0 for none.
#[derive(Clone, Copy)]
pub(crate) struct Marked {
    pub(crate) mark: u32,
    pub(crate) number: u32,
}

/// The settings of the loose reader, as numbers.
#[derive(Clone, Copy)]
pub(crate) struct Numbers {
    pub(crate) variant: u32,
    pub(crate) year: u32,
    pub(crate) offset: i32,
}

/// What a record and its tables are to printing, lookup and the check of a claim: all only read.
#[derive(Clone, Copy)]
pub(crate) struct Lent<'a> {
    pub(crate) line: &'a [u8],
    pub(crate) record: &'a [u8],
    pub(crate) elements: &'a [ElementEntry],
    pub(crate) params: &'a [ParamEntry],
}

/// Panics unless the archive has the interface that this crate is written for: a record of another would be misread.
pub(crate) fn check_interface() {
    // SAFETY: the module's: the function is given nothing and answers a number.
    same_interface(unsafe { khamdoriem_interface() });
}

fn same_interface(archive: u32) {
    assert!(
        archive == INTERFACE,
        "the archive that is linked has interface {archive}, and this crate is written for interface {INTERFACE}: take both from one source"
    );
}

/// Loose reading.
pub(crate) fn read_loose(
    line: &[u8],
    settings: Numbers,
    elements: &mut [ElementEntry],
    params: &mut [ParamEntry],
    record: &mut [u8],
) -> ReadAnswer {
    // SAFETY: the module's: each pointer and count are those of one slice, and the three that are written are borrowed mutably.
    unsafe {
        khamdoriem_read_loose(
            line.as_ptr(),
            line.len(),
            settings.variant,
            settings.year,
            settings.offset,
            elements.as_mut_ptr(),
            elements.len(),
            params.as_mut_ptr(),
            params.len(),
            record.as_mut_ptr(),
            record.len(),
        )
    }
}

/// Strict reading.
pub(crate) fn read_strict(
    line: &[u8],
    elements: &mut [ElementEntry],
    params: &mut [ParamEntry],
    record: &mut [u8],
) -> ReadAnswer {
    // SAFETY: the module's: each pointer and count are those of one slice, and the three that are written are borrowed mutably.
    unsafe {
        khamdoriem_read_strict(
            line.as_ptr(),
            line.len(),
            elements.as_mut_ptr(),
            elements.len(),
            params.as_mut_ptr(),
            params.len(),
            record.as_mut_ptr(),
            record.len(),
        )
    }
}

/// Printing.
pub(crate) fn print(lent: Lent<'_>, output: &mut [u8]) -> Written {
    // SAFETY: the module's: each pointer and count are those of one slice, and the output, borrowed mutably, is all that is
    // written.
    unsafe {
        khamdoriem_print(
            lent.line.as_ptr(),
            lent.line.len(),
            lent.record.as_ptr(),
            lent.record.len(),
            lent.elements.as_ptr(),
            lent.elements.len(),
            lent.params.as_ptr(),
            lent.params.len(),
            output.as_mut_ptr(),
            output.len(),
        )
    }
}

/// Lookup.
pub(crate) fn lookup(lent: Lent<'_>, id: &[u8], name: &[u8], kind: u32, output: &mut [u8]) -> Written {
    // SAFETY: the module's: each pointer and count are those of one slice, and the output, borrowed mutably, is all that is
    // written.
    unsafe {
        khamdoriem_lookup(
            lent.line.as_ptr(),
            lent.line.len(),
            lent.record.as_ptr(),
            lent.record.len(),
            lent.elements.as_ptr(),
            lent.elements.len(),
            lent.params.as_ptr(),
            lent.params.len(),
            id.as_ptr(),
            id.len(),
            name.as_ptr(),
            name.len(),
            kind,
            output.as_mut_ptr(),
            output.len(),
        )
    }
}

/// The start of a stream.
pub(crate) fn stream_start(kind: u32) -> StartAnswer {
    // SAFETY: the module's: the function is given a number and answers numbers.
    unsafe { khamdoriem_stream_start(kind) }
}

/// Bytes of a stream.
pub(crate) fn stream_feed(state: StreamState, bytes: &[u8], buffer: &mut [u8]) -> FeedAnswer {
    // SAFETY: the module's: each pointer and count are those of one slice, and the buffer, borrowed mutably, is all that is
    // written.
    unsafe { khamdoriem_stream_feed(state, bytes.as_ptr(), bytes.len(), buffer.as_mut_ptr(), buffer.len()) }
}

/// The end of a stream.
pub(crate) fn stream_finish(state: StreamState) -> FinishAnswer {
    // SAFETY: the module's: the function is given numbers and answers numbers.
    unsafe { khamdoriem_stream_finish(state) }
}

/// One record more in a tally.
pub(crate) fn tally_add(rows: &mut [Row], facility: Marked, severity: Marked) -> u32 {
    let (rows, len) = (rows.as_mut_ptr(), rows.len());
    // SAFETY: the module's: pointer and count are those of one slice, which is borrowed mutably.
    unsafe { khamdoriem_tally_add(rows, len, facility.mark, facility.number, severity.mark, severity.number) }
}

/// What a cell of a tally holds.
pub(crate) fn tally_cell(rows: &[Row], row: u32, column: u32) -> CellAnswer {
    // SAFETY: the module's: pointer and count are those of one slice, which is only read.
    unsafe { khamdoriem_tally_cell(rows.as_ptr(), rows.len(), row, column) }
}

/// The sum of a row of a tally.
pub(crate) fn tally_row(rows: &[Row], row: u32) -> SumAnswer {
    // SAFETY: the module's: pointer and count are those of one slice, which is only read.
    unsafe { khamdoriem_tally_row(rows.as_ptr(), rows.len(), row) }
}

/// The sum of a column of a tally.
pub(crate) fn tally_column(rows: &[Row], column: u32) -> SumAnswer {
    // SAFETY: the module's: pointer and count are those of one slice, which is only read.
    unsafe { khamdoriem_tally_column(rows.as_ptr(), rows.len(), column) }
}

/// The settings of a gate.
pub(crate) fn settings_read(file: &[u8], gate: u32) -> SettingsAnswer {
    // SAFETY: the module's: pointer and count are those of one slice, which is only read.
    unsafe { khamdoriem_settings_read(file.as_ptr(), file.len(), gate) }
}

/// The settings of a gate, by the reader of version 1.
pub(crate) fn settings_read_1(file: &[u8], gate: u32) -> SettingsAnswer {
    // SAFETY: the module's: pointer and count are those of one slice, which is only read.
    unsafe { khamdoriem_settings_read_1(file.as_ptr(), file.len(), gate) }
}

/// A record of a settings file.
pub(crate) fn settings_write(version: u32, gate: u32, settings: Numbers, host: &[u8], output: &mut [u8]) -> Written {
    // SAFETY: the module's: each pointer and count are those of one slice, and the output, borrowed mutably, is all that is
    // written.
    unsafe {
        khamdoriem_settings_write(
            version,
            gate,
            settings.year,
            settings.offset,
            settings.variant,
            host.as_ptr(),
            host.len(),
            output.as_mut_ptr(),
            output.len(),
        )
    }
}

/// Loose reading with the settings of a gate.
pub(crate) fn read_with_settings(
    file: &[u8],
    gate: u32,
    line: &[u8],
    elements: &mut [ElementEntry],
    params: &mut [ParamEntry],
    record: &mut [u8],
) -> SiteAnswer {
    // SAFETY: the module's: each pointer and count are those of one slice, and the three that are written are borrowed mutably.
    unsafe {
        khamdoriem_read_with_settings(
            file.as_ptr(),
            file.len(),
            gate,
            line.as_ptr(),
            line.len(),
            elements.as_mut_ptr(),
            elements.len(),
            params.as_mut_ptr(),
            params.len(),
            record.as_mut_ptr(),
            record.len(),
        )
    }
}

/// The check of a claimed reading.
pub(crate) fn check_claim(lent: Lent<'_>) -> u32 {
    // SAFETY: the module's: each pointer and count are those of one slice, and all are only read.
    unsafe {
        khamdoriem_check_claim(
            lent.line.as_ptr(),
            lent.line.len(),
            lent.record.as_ptr(),
            lent.record.len(),
            lent.elements.as_ptr(),
            lent.elements.len(),
            lent.params.as_ptr(),
            lent.params.len(),
        )
    }
}

/// Writing.
pub(crate) fn write_strict(
    text: &[u8],
    fields: Fields,
    elements: &[ElementEntry],
    params: &[ParamEntry],
    output: &mut [u8],
) -> Written {
    // SAFETY: the module's: each pointer and count are those of one slice, and the output, borrowed mutably, is all that is written.
    unsafe {
        khamdoriem_write_strict(
            text.as_ptr(),
            text.len(),
            fields,
            elements.as_ptr(),
            elements.len(),
            params.as_ptr(),
            params.len(),
            output.as_mut_ptr(),
            output.len(),
        )
    }
}

/// The entries of both tables of a line.
type Entries<'a> = (&'a mut [ElementEntry], &'a mut [ParamEntry]);

/// The comparison of two lines, each with tables of its own.
pub(crate) fn compare(
    [line1, line2]: [&[u8]; 2],
    settings: Numbers,
    (elements1, params1): Entries<'_>,
    (elements2, params2): Entries<'_>,
) -> CompareAnswer {
    // SAFETY: the module's: each pointer and count are those of one slice, and the four that are written are borrowed mutably.
    unsafe {
        khamdoriem_compare(
            line1.as_ptr(),
            line1.len(),
            line2.as_ptr(),
            line2.len(),
            settings.variant,
            settings.year,
            settings.offset,
            elements1.as_mut_ptr(),
            elements1.len(),
            params1.as_mut_ptr(),
            params1.len(),
            elements2.as_mut_ptr(),
            elements2.len(),
            params2.as_mut_ptr(),
            params2.len(),
        )
    }
}

#[cfg(test)]
mod tests;
