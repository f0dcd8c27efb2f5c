//! The archive itself, with calls that the crate's types do not let a caller make.

use std::format;
use std::vec;
use std::vec::Vec;

use super::*;
use crate::Refusal;

const LINE: &[u8] = br#"<13>1 - gate7 reader 42 TAP [a@1 x="1"][b@1 y="2"] ok"#;
const SETTINGS: Numbers = Numbers { variant: 0, year: 2023, offset: 60 };

/// Entries with numbers that no reader leaves.
const NO_ELEMENT: ElementEntry = ElementEntry([77_777; 2]);
const NO_PARAM: ParamEntry = ParamEntry([88_888; 5]);

/// Memory that is lent to a reader, filled with numbers that no reader leaves.
#[derive(Clone, Debug, PartialEq)]
struct Memory {
    elements: Vec<ElementEntry>,
    params: Vec<ParamEntry>,
    record: Vec<u8>,
}

impl Memory {
    fn new(elements: usize, params: usize, record: usize) -> Memory {
        Memory { elements: vec![NO_ELEMENT; elements], params: vec![NO_PARAM; params], record: vec![99; record] }
    }

    fn read_loose(&mut self, line: &[u8], settings: Numbers) -> ReadAnswer {
        read_loose(line, settings, &mut self.elements, &mut self.params, &mut self.record)
    }

    fn read_strict(&mut self, line: &[u8]) -> ReadAnswer {
        read_strict(line, &mut self.elements, &mut self.params, &mut self.record)
    }

    fn lent<'a>(&'a self, line: &'a [u8]) -> Lent<'a> {
        Lent { line, record: &self.record, elements: &self.elements, params: &self.params }
    }
}

/// A reading.
const READ: ReadAnswer = ReadAnswer { number: 0, whole: 0, reach: 0 };
/// The whole line as the message.
const WHOLE: ReadAnswer = ReadAnswer { number: 0, whole: 1, reach: 0 };

fn refused(number: u32) -> ReadAnswer {
    ReadAnswer { number, whole: 0, reach: 0 }
}

/// `LINE` as the strict reader leaves it.
fn read() -> Memory {
    let mut memory = Memory::new(2, 2, 248);
    assert_eq!(memory.read_strict(LINE), READ);
    memory
}

#[test]
fn settings_out_of_range_are_refused_with_2() {
    let wrong = [
        Numbers { variant: 3, ..SETTINGS },
        Numbers { variant: u32::MAX, ..SETTINGS },
        Numbers { year: 10_000, ..SETTINGS },
        Numbers { offset: 1440, ..SETTINGS },
        Numbers { offset: -1440, ..SETTINGS },
    ];
    for settings in wrong {
        let mut memory = Memory::new(2, 2, 248);
        assert_eq!(memory.read_loose(LINE, settings), refused(2));
        assert_eq!(memory.read_loose(b"no line", settings), refused(2));
        assert_eq!(memory, Memory::new(2, 2, 248));
    }
}

#[test]
fn a_kind_out_of_range_is_refused_with_2() {
    let memory = read();
    let mut output = [b'.'; 1];
    assert_eq!(lookup(memory.lent(LINE), b"b@1", b"y", 2, &mut output), Written { number: 2, len: 0 });
    assert_eq!(&output, b".");
    assert_eq!(lookup(memory.lent(LINE), b"b@1", b"y", 1, &mut output), Written { number: 0, len: 1 });
    assert_eq!(&output, b"2");
}

#[test]
fn a_lone_backslash_at_the_end_of_a_value_goes_or_stays_by_kind() {
    // No reader leaves such a value: backslash takes the next character with it. Here the place ends a byte early.
    let line = br#"<13>1 - gate7 reader 42 TAP [a@1 x="1\\"]"#;
    let mut memory = Memory::new(1, 1, 248);
    assert_eq!(memory.read_strict(line), READ);
    memory.params[0].0[4] -= 1;
    let mut output = [b'.'; 2];
    assert_eq!(lookup(memory.lent(line), b"a@1", b"x", 0, &mut output), Written { number: 0, len: 1 });
    assert_eq!(&output, b"1.");
    assert_eq!(lookup(memory.lent(line), b"a@1", b"x", 1, &mut output), Written { number: 0, len: 2 });
    assert_eq!(&output, br"1\");
}

#[test]
fn refused_readers_change_nothing() {
    for (elements, params, record, number) in [(1, 2, 248, 5), (2, 1, 248, 6), (2, 2, 215, 8)] {
        let untouched = Memory::new(elements, params, record);
        let mut memory = untouched.clone();
        assert_eq!(memory.read_loose(LINE, SETTINGS), refused(number));
        assert_eq!(memory.read_strict(LINE), refused(number));
        assert_eq!(memory, untouched);
    }
    let mut memory = Memory::new(2, 2, 248);
    assert_eq!(memory.read_strict(b"no line"), refused(4));
    assert_eq!(memory, Memory::new(2, 2, 248));
}

#[test]
fn the_loose_reader_refuses_with_the_first_number_that_applies() {
    const WRONG: Numbers = Numbers { year: 10_000, ..SETTINGS };
    let (long, broken) = ([&b"\xff"[..], &[b'x'; 8192]].concat(), b"<13>1 - - - - - [a x=\"\"]\xff");
    // Each is refused by all that come after it too.
    for (line, settings, elements, params, number) in [
        (&long[..], WRONG, 0, 0, 1),
        (broken, WRONG, 0, 0, 2),
        (broken, SETTINGS, 0, 0, 3),
        (LINE, SETTINGS, 1, 1, 5),
        (LINE, SETTINGS, 2, 1, 6),
        (LINE, SETTINGS, 2, 2, 8),
    ] {
        assert_eq!(Memory::new(elements, params, 215).read_loose(line, settings), refused(number));
    }
}

#[test]
fn a_whole_line_is_laid_out_like_a_reading() {
    let mut memory = Memory::new(1, 1, 260);
    assert_eq!(memory.read_loose(b"no line", SETTINGS), WHOLE);
    let mut expected = Memory::new(1, 1, 260);
    expected.record[..216].fill(0);
    expected.record[184 + 8] = 7;
    assert_eq!(memory, expected);
    let mut output = [b'.'; 18];
    assert_eq!(print(memory.lent(b"no line"), &mut output), Written { number: 0, len: 18 });
    assert_eq!(&output, b"<47> - - : no line");

    // Where the record's memory is short it is refused, and says nothing of the line.
    let mut short = Memory::new(0, 0, 215);
    assert_eq!(short.read_loose(b"no line", SETTINGS), refused(8));
    assert_eq!(short, Memory::new(0, 0, 215));
}

#[test]
fn readers_keep_what_lies_past_the_counts_and_the_layout() {
    let mut memory = Memory::new(3, 4, 260);
    assert_eq!(memory.read_loose(LINE, SETTINGS), READ);
    assert_eq!(memory.elements[2..], [NO_ELEMENT]);
    assert_eq!(memory.params[2..], [NO_PARAM; 2]);
    assert_eq!(memory.record[216..], [99; 44]);
    assert_eq!(memory.read_strict(LINE), READ);
    assert_eq!(memory.elements[2..], [NO_ELEMENT]);
    assert_eq!(memory.params[2..], [NO_PARAM; 2]);
    assert_eq!(memory.record[248..], [99; 12]);
}

#[test]
fn records_and_tables_that_do_not_suit_the_line_are_refused_with_7() {
    let damage: [fn(&mut Memory); 10] = [
        |m| m.record[0] = 2,
        |m| m.record[16] = 2,
        |m| m.record[24] = 24,
        |m| m.record[40] = 8,
        |m| m.record[88 + 16] = 200,
        |m| m.record[200] = 3,
        |m| m.record[208] = 3,
        |m| m.record.truncate(215),
        |m| m.elements[1].0 = [LINE.len(), 1],
        |m| m.params[1].0[0] = 2,
    ];
    for (which, damage) in damage.into_iter().enumerate() {
        let mut memory = read();
        let mut output = [b'.'; 64];
        assert_eq!(print(memory.lent(LINE), &mut output).number, 0, "{which}");
        damage(&mut memory);
        output = [b'.'; 64];
        let refused = Written { number: 7, len: 0 };
        assert_eq!(print(memory.lent(LINE), &mut output), refused, "{which}");
        assert_eq!(lookup(memory.lent(LINE), b"b@1", b"y", 0, &mut output), refused, "{which}");
        assert_eq!(output, [b'.'; 64], "{which}");
    }
}

/// A record with this fraction: its digits, and its nanoseconds.
fn with_fraction(digits: u64, nanoseconds: u64) -> (&'static [u8], Memory) {
    let line = b"<13>1 2026-01-05T10:01:02.003Z gate7 reader 42 TAP - ok";
    let mut memory = Memory::new(0, 0, 248);
    assert_eq!(memory.read_strict(line), READ);
    assert_eq!(memory.record[72..80], 3u64.to_le_bytes());
    memory.record[64..72].copy_from_slice(&nanoseconds.to_le_bytes());
    memory.record[72..80].copy_from_slice(&digits.to_le_bytes());
    (line, memory)
}

#[test]
fn a_fraction_that_its_digits_show_is_printed_with_as_many() {
    for (digits, nanoseconds, text) in [
        (0, 0, ""),
        (1, 0, ".0"),
        (1, 500_000_000, ".5"),
        (3, 0, ".000"),
        (6, 500_000_000, ".500000"),
        (8, 123_456_780, ".12345678"),
        (9, 123_456_789, ".123456789"),
        (9, 999_999_999, ".999999999"),
    ] {
        let (line, memory) = with_fraction(digits, nanoseconds);
        let printed = format!("<13>1 2026-01-05T10:01:02{text}+00:00 gate7 reader 42 TAP - ok");
        let mut output = [b'.'; 80];
        assert_eq!(print(memory.lent(line), &mut output), Written { number: 0, len: printed.len() });
        assert_eq!(&output[..printed.len()], printed.as_bytes());
    }
}

#[test]
fn a_fraction_that_its_digits_do_not_show_is_refused_with_7() {
    for (digits, nanoseconds) in [
        (10, 0),
        (10, 500_000_000),
        (1 << 32, 0),
        (u64::MAX, 0),
        (0, 500_000_000),
        (1, 10_000_000),
        (3, 1_000),
        (6, 1),
        (8, 123_456_789),
        (9, 1_000_000_000),
    ] {
        let (line, memory) = with_fraction(digits, nanoseconds);
        let mut output = [b'.'; 80];
        let refused = Written { number: 7, len: 0 };
        assert_eq!(print(memory.lent(line), &mut output), refused, "{digits} digits, {nanoseconds} nanoseconds");
        assert_eq!(lookup(memory.lent(line), b"a@1", b"x", 0, &mut output), refused);
        assert_eq!(output, [b'.'; 80]);
    }
}

#[test]
fn a_timestamp_that_is_absent_has_no_digits() {
    let mut memory = read();
    assert_eq!(memory.record[48..88], [0; 40]);
    memory.record[72] = 1;
    assert_eq!(print(memory.lent(LINE), &mut [b'.'; 64]), Written { number: 7, len: 0 });
}

/// A state that no start makes.
const ODD: StreamState = StreamState { stage: 2, left: 0, came: 5 };

#[test]
fn a_stream_of_another_kind_or_of_no_stage_is_refused_with_2_before_8() {
    for kind in [2, 3, u32::MAX] {
        let none = StreamState { stage: 0, left: 0, came: 0 };
        assert_eq!(stream_start(kind), StartAnswer { number: 2, state: none });
    }
    for stage in [0, 5, u32::MAX] {
        let state = StreamState { stage, ..ODD };
        let refused = FeedAnswer { number: 2, frame: 0, taken: 0, len: 0, state };
        let mut buffer = [b'.'; 8192];
        assert_eq!(stream_feed(state, b"1 a", &mut buffer), refused);
        assert_eq!(stream_feed(state, b"1 a", &mut buffer[..8191]), refused);
        assert_eq!(buffer, [b'.'; 8192]);
        assert_eq!(stream_finish(state), FinishAnswer { number: 2, unfinished: 0 });
    }
}

#[test]
fn a_buffer_that_is_too_short_is_refused_with_8() {
    for state in [stream_start(0).state, stream_start(1).state, StreamState { stage: 4, ..ODD }] {
        for len in [0, 1, 8191] {
            let mut buffer = vec![b'.'; len];
            let refused = FeedAnswer { number: 8, frame: 0, taken: 0, len: 0, state };
            assert_eq!(stream_feed(state, b"1 a\n", &mut buffer), refused);
            assert!(buffer.iter().all(|&byte| byte == b'.'));
        }
    }
}

#[test]
fn what_lies_past_the_content_is_kept() {
    let mut buffer = vec![b'.'; 9000];
    let answer = stream_feed(stream_start(0).state, b"3 abc2 de", &mut buffer);
    let start = stream_start(0).state;
    assert_eq!(answer, FeedAnswer { number: 0, frame: 1, taken: 5, len: 3, state: start });
    assert!(&buffer[..3] == b"abc" && buffer[3..].iter().all(|&byte| byte == b'.'));
    let long = vec![b'x'; 8500];
    let answer = stream_feed(stream_start(1).state, &long, &mut buffer);
    assert_eq!(answer.state, StreamState { stage: 3, left: 0, came: 8500 });
    assert!(buffer[..8192].iter().all(|&byte| byte == b'x') && buffer[8192..].iter().all(|&byte| byte == b'.'));
}

/// A tally of so many rows, with a count in each cell that tells its place.
fn tally(rows: usize) -> Vec<Row> {
    (0..rows as u32).map(|i| core::array::from_fn(|j| 100 * i + j as u32)).collect()
}

const NONE: Marked = Marked { mark: 0, number: 0 };

fn level(number: u32) -> Marked {
    Marked { mark: 1, number }
}

#[test]
fn an_addition_without_a_cell_is_refused_with_7_before_8_before_10() {
    let odd = [Marked { mark: 0, number: 1 }, Marked { mark: 2, number: 0 }, Marked { mark: u32::MAX, number: 0 }];
    let facilities = [24, 25, 256, u32::MAX].map(level);
    let severities = [8, 9, 256, u32::MAX].map(level);
    for rows in [0, 24, 25, 27] {
        let mut full = tally(rows);
        full.iter_mut().for_each(|row| *row = [u32::MAX; 9]);
        let untouched = full.clone();
        for facility in facilities.into_iter().chain(odd) {
            assert_eq!(tally_add(&mut full, facility, level(0)), 7);
        }
        for severity in severities.into_iter().chain(odd) {
            assert_eq!(tally_add(&mut full, level(0), severity), 7);
        }
        let number = if rows < 25 { 8 } else { 10 };
        assert_eq!(tally_add(&mut full, level(23), level(7)), number);
        assert_eq!(tally_add(&mut full, NONE, NONE), number);
        assert_eq!(full, untouched);
    }
}

#[test]
fn rows_past_the_25th_are_kept_and_not_counted() {
    let mut rows = tally(27);
    assert_eq!(tally_add(&mut rows, NONE, NONE), 0);
    assert_eq!(tally_add(&mut rows, level(23), NONE), 0);
    let mut expected = tally(27);
    expected[24][8] += 1;
    expected[23][8] += 1;
    assert_eq!(rows, expected);
    let sum = expected[..25].iter().map(|row| u64::from(row[8])).sum();
    assert_eq!(tally_column(&rows, 8), SumAnswer { number: 0, sum });
}

#[test]
fn a_read_past_the_last_row_or_column_is_refused_with_7_before_8() {
    for rows in [0, 24, 25, 27] {
        let rows = tally(rows);
        for past in [25, 26, 256, u32::MAX] {
            assert_eq!(tally_cell(&rows, past, 0), CellAnswer { number: 7, count: 0 });
            assert_eq!(tally_row(&rows, past), SumAnswer { number: 7, sum: 0 });
        }
        for past in [9, 24, 256, u32::MAX] {
            assert_eq!(tally_cell(&rows, 0, past), CellAnswer { number: 7, count: 0 });
            assert_eq!(tally_column(&rows, past), SumAnswer { number: 7, sum: 0 });
        }
        let (number, kept) = if rows.len() < 25 { (8, 0) } else { (0, 1) };
        assert_eq!(tally_cell(&rows, 1, 8), CellAnswer { number, count: kept * 108 });
        assert_eq!(tally_row(&rows, 24), SumAnswer { number, sum: u64::from(kept) * 21_636 });
        assert_eq!(tally_column(&rows, 1), SumAnswer { number, sum: u64::from(kept) * 30_025 });
    }
}

/// What a line is written of: `<13>1 1970-01-01T00:00:00.5+00:00 gate7 reader 42 TAP [a@1 x="1"][b@1 x="1"] ok`.
const TEXT: &[u8] = b"gate7reader42TAPa@1b@1x1ok";
const ELEMENTS: [ElementEntry; 2] = [ElementEntry([16, 3]), ElementEntry([19, 3])];
const PARAMS: [ParamEntry; 2] = [ParamEntry([0, 22, 1, 23, 1]), ParamEntry([1, 22, 1, 23, 1])];

fn at(start: usize, len: usize) -> Part {
    Part { present: 1, start, len }
}

fn fields() -> Fields {
    Fields {
        priority: 13,
        version: 1,
        stamped: 1,
        nanos: 500_000_000,
        digits: 1,
        host: at(0, 5),
        app: at(5, 6),
        procid: at(11, 2),
        msgid: at(13, 3),
        message: at(24, 2),
        element_count: 2,
        param_count: 2,
        ..Fields::EMPTY
    }
}

/// The number that writing answers to these fields and tables, and that nothing is written where it is not 0.
fn number(fields: Fields, elements: &[ElementEntry], params: &[ParamEntry], room: usize) -> u32 {
    let mut output = vec![0xA5; room];
    let answer = write_strict(TEXT, fields, elements, params, &mut output);
    assert!(answer.number == 0 || answer.len == 0 && output.iter().all(|&byte| byte == 0xA5));
    answer.number
}

#[test]
fn fields_over_a_text_are_written() {
    let mut output = [0xA5; 96];
    let line = br#"<13>1 1970-01-01T00:00:00.5+00:00 gate7 reader 42 TAP [a@1 x="1"][b@1 x="1"] ok"#;
    assert_eq!(write_strict(TEXT, fields(), &ELEMENTS, &PARAMS, &mut output), Written { number: 0, len: line.len() });
    assert_eq!(output[..line.len()], line[..]);
    assert!(output[line.len()..].iter().all(|&byte| byte == 0xA5));
    // Fewer entries count, a mark is any number but 0, and what stands beside a mark of 0 is of no account.
    let few = Fields { element_count: 1, param_count: 0, stamped: 0, nanos: u32::MAX, offset: i32::MIN, ..fields() };
    let few = Fields { host: Part { present: usize::MAX, ..few.host }, msgid: Part { present: 0, ..few.msgid }, ..few };
    let line = b"<13>1 - gate7 reader 42 - [a@1] ok";
    assert_eq!(write_strict(TEXT, few, &ELEMENTS, &PARAMS, &mut output), Written { number: 0, len: line.len() });
    assert_eq!(output[..line.len()], line[..]);
}

#[test]
fn places_past_the_text_are_refused_with_7_and_no_sum_wraps() {
    let end = TEXT.len();
    let set: [fn(&mut Fields, Part); 5] = [
        |fields, part| fields.host = part,
        |fields, part| fields.app = part,
        |fields, part| fields.procid = part,
        |fields, part| fields.msgid = part,
        |fields, part| fields.message = part,
    ];
    for set in set {
        for (start, len) in [(end, 1), (end - 1, 2), (end + 1, 0), (0, end + 1), (1, usize::MAX), (usize::MAX, 1)] {
            for present in [0, 1, usize::MAX] {
                let mut fields = fields();
                set(&mut fields, Part { present, start, len });
                assert_eq!(number(fields, &ELEMENTS, &PARAMS, 128), 7);
            }
        }
        let mut fields = fields();
        set(&mut fields, Part { present: 0, start: end, len: 0 });
        assert_eq!(number(fields, &ELEMENTS, &PARAMS, 128), 0);
    }
    for [start, len] in [[end, 1], [end + 1, 0], [usize::MAX, 1], [2, usize::MAX - 1]] {
        let element = [ELEMENTS[0], ElementEntry([start, len])];
        assert_eq!(number(fields(), &element, &PARAMS, 128), 7);
        for wrong in [[1, start, len, 23, 1], [1, 22, 1, start, len]] {
            assert_eq!(number(fields(), &ELEMENTS, &[PARAMS[0], ParamEntry(wrong)], 128), 7);
        }
    }
}

#[test]
fn counts_numbers_and_timestamps_that_do_not_suit_are_refused_with_7() {
    let (few, most) = (Fields { element_count: 3, ..fields() }, Fields { param_count: usize::MAX, ..fields() });
    assert_eq!((number(few, &ELEMENTS, &PARAMS, 128), number(most, &ELEMENTS, &PARAMS, 128)), (7, 7));
    // A number that reaches the count, and one that falls.
    for numbers in [[0, 2], [0, usize::MAX], [1, 0]] {
        let params = [0, 1].map(|i| ParamEntry([numbers[i], 22, 1, 23, 1]));
        assert_eq!(number(fields(), &ELEMENTS, &params, 128), 7);
    }
    let wrong = [
        Fields { nanos: 1_000_000_000, ..fields() },
        Fields { nanos: 510_000_000, ..fields() },
        Fields { digits: 0, ..fields() },
        Fields { digits: 10, ..fields() },
        Fields { offset: 1440, ..fields() },
        Fields { offset: -1440, ..fields() },
        Fields { offset: i32::MIN, ..fields() },
        Fields { seconds: i64::MIN, ..fields() },
        Fields { seconds: i64::MAX, offset: 1439, ..fields() },
        Fields { seconds: 253_402_300_800, ..fields() },
        Fields { seconds: -62_167_219_201, ..fields() },
    ];
    for wrong in wrong {
        assert_eq!(number(wrong, &ELEMENTS, &PARAMS, 128), 7, "{wrong:?}");
        assert_eq!(number(Fields { stamped: 0, ..wrong }, &ELEMENTS, &PARAMS, 128), 0);
        assert_eq!(number(Fields { stamped: u32::MAX, ..wrong }, &ELEMENTS, &PARAMS, 128), 7);
    }
}

#[test]
fn numbers_out_of_range_are_refused_with_17() {
    let wrong = [
        Fields { priority: 192, ..fields() },
        Fields { priority: u32::MAX, ..fields() },
        Fields { version: 0, ..fields() },
        Fields { version: 1000, ..fields() },
        Fields { version: u32::MAX, ..fields() },
        Fields { digits: 7, ..fields() },
        Fields { digits: 9, ..fields() },
    ];
    for wrong in wrong {
        assert_eq!(number(wrong, &ELEMENTS, &PARAMS, 128), 17, "{wrong:?}");
    }
    // The digits of no timestamp are of no account.
    assert_eq!(number(Fields { digits: 9, stamped: 0, ..fields() }, &ELEMENTS, &PARAMS, 128), 0);
}

#[test]
fn writing_refuses_with_the_first_number_that_applies() {
    // A text of over 8,192 bytes is no refusal of its own.
    let text = [TEXT, &[b'x'; 9000]].concat();
    let refused = |fields, room| {
        let mut output = vec![0xA5; room];
        let answer = write_strict(&text, fields, &ELEMENTS, &PARAMS, &mut output);
        assert!(answer.number == 0 || answer.len == 0 && output.iter().all(|&byte| byte == 0xA5));
        answer.number
    };
    let long = Fields { message: at(26, 9000), ..fields() };
    let unfit = Fields { version: 0, ..long };
    assert_eq!(refused(Fields { host: at(9026, 1), ..unfit }, 0), 7);
    assert_eq!((refused(unfit, 0), refused(long, 0), refused(fields(), 0)), (17, 1, 8));
    assert_eq!((refused(fields(), 78), refused(fields(), 79)), (8, 0));
}

#[test]
fn the_archive_has_this_interface() {
    check_interface();
}

#[test]
#[should_panic(expected = "has interface 3, and this crate is written for interface 2")]
fn a_newer_interface_is_not_taken() {
    same_interface(3);
}

#[test]
#[should_panic(expected = "has interface 1, and this crate is written for interface 2")]
fn an_older_interface_is_not_taken() {
    same_interface(1);
}

#[test]
fn a_number_that_no_call_brings_about_is_an_error_of_its_own() {
    let mut memory = read();
    memory.record[0] = 2;
    let refused = Refusal::check(print(memory.lent(LINE), &mut []).number);
    assert_eq!(refused, Err(Refusal::Unexpected(7)));
    assert_eq!(refused.unwrap_err().number(), 7);
    let words = "the archive answered 7, which no call of khamdoriem brings about";
    assert_eq!(format!("{}", refused.unwrap_err()), words);
}

#[test]
fn every_number_is_a_refusal_with_that_number() {
    assert_eq!(Refusal::check(0), Ok(()));
    for number in (1..100).chain([u32::MAX]) {
        let refusal = Refusal::check(number).unwrap_err();
        assert_eq!(refusal.number(), number);
        let known = matches!(number, 1 | 3 | 5 | 6 | 8..=17);
        assert_eq!(matches!(refusal, Refusal::Unexpected(_)), !known, "{number}");
    }
}

#[test]
fn the_strict_reader_alone_answers_4_and_says_how_far_the_line_is_right() {
    for number in (0..100).chain([u32::MAX]) {
        let checked = Refusal::check_strict(ReadAnswer { number, whole: 0, reach: 36 });
        let expected = if number == 4 { Err(Refusal::NoReading { reach: Some(36) }) } else { Refusal::check(number) };
        assert_eq!(checked, expected);
    }
    assert_eq!(Refusal::NoReading { reach: Some(36) }.number(), 4);
    let mut memory = Memory::new(2, 2, 248);
    assert_eq!(memory.read_strict(b"<13>1 - gate7 x"), ReadAnswer { number: 4, whole: 0, reach: 15 });
    assert_eq!(memory.read_strict(&LINE[..LINE.len() - 4]), ReadAnswer { number: 4, whole: 0, reach: LINE.len() - 4 });
    assert_eq!(memory, Memory::new(2, 2, 248));
    for (elements, params, record, number) in [(1, 2, 248, 5), (2, 1, 248, 6), (2, 2, 247, 8)] {
        assert_eq!(Memory::new(elements, params, record).read_strict(LINE), refused(number));
    }
}

#[test]
fn a_refused_comparison_names_the_line_and_changes_no_table() {
    let cases: [([&[u8]; 2], Numbers, [usize; 4], u32, u32); 9] = [
        ([LINE, LINE], Numbers { variant: 3, ..SETTINGS }, [2; 4], 1, 2),
        ([LINE, LINE], Numbers { year: 10_000, ..SETTINGS }, [2; 4], 1, 2),
        ([b"\xFF", b"no reading"], SETTINGS, [2; 4], 1, 3),
        ([b"no reading", b"\xFF"], SETTINGS, [2; 4], 1, 4),
        ([LINE, b"no reading"], SETTINGS, [2; 4], 2, 4),
        ([LINE, LINE], SETTINGS, [1, 2, 0, 0], 1, 5),
        ([LINE, LINE], SETTINGS, [2, 1, 0, 0], 1, 6),
        ([LINE, LINE], SETTINGS, [2, 2, 1, 2], 2, 5),
        ([LINE, LINE], SETTINGS, [2, 2, 2, 1], 2, 6),
    ];
    for (lines, settings, [e1, p1, e2, p2], line, number) in cases {
        let (mut first, mut second) = (Memory::new(e1, p1, 0), Memory::new(e2, p2, 0));
        let (a, b) =
            ((&mut first.elements[..], &mut first.params[..]), (&mut second.elements[..], &mut second.params[..]));
        assert_eq!(compare(lines, settings, a, b), CompareAnswer { number, line, ..CompareAnswer::default() });
        assert_eq!((first, second), (Memory::new(e1, p1, 0), Memory::new(e2, p2, 0)));
    }
}

#[test]
fn a_comparison_leaves_the_tables_as_the_loose_reader_does() {
    let other = br#"<13>1 - gate7 reader 42 TAP [a@1 x="1"][b@1 y="3"] ok"#;
    let (mut first, mut second) = (Memory::new(3, 3, 0), Memory::new(3, 3, 0));
    let (a, b) = ((&mut first.elements[..], &mut first.params[..]), (&mut second.elements[..], &mut second.params[..]));
    let expected = CompareAnswer { fields: 256, pair_line: 1, position: 1, pair_entry: 1, ..CompareAnswer::default() };
    assert_eq!(compare([LINE, other], SETTINGS, a, b), expected);
    for (memory, line) in [(first, LINE), (second, &other[..])] {
        let mut alone = Memory::new(3, 3, 216);
        assert_eq!(alone.read_loose(line, SETTINGS), READ);
        assert_eq!((memory.elements, memory.params), (alone.elements, alone.params));
    }
}
