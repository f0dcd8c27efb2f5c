//! Lines that are written: what stands in them, what is refused and in which order, and that the strict reader reads the same. Runs
//! without the feature `std` too.

use khamdoriem::{
    Draft, ElementEntry, Facility, InElement, Line, Offset, ParamEntry, Priority, Protocol, Reading, Refusal, Severity,
    Strict, Tables, Timestamp, Unescape, Version, MAX_ELEMENTS, MAX_LINE, MAX_PARAMS,
};

const NOTICE: (Facility, Severity) = (Facility::User, Severity::Notice);

/// What every test needs, with tables that are long enough for any line.
struct Desk {
    text: [u8; MAX_LINE],
    elements: Vec<ElementEntry>,
    params: Vec<ParamEntry>,
    read_elements: Vec<ElementEntry>,
    read_params: Vec<ParamEntry>,
}

impl Desk {
    fn new() -> Box<Desk> {
        let (elements, params) = (vec![ElementEntry::EMPTY; MAX_ELEMENTS], vec![ParamEntry::EMPTY; MAX_PARAMS]);
        let (read_elements, read_params) = (elements.clone(), params.clone());
        Box::new(Desk { text: [0; MAX_LINE], elements, params, read_elements, read_params })
    }

    /// Writes a line, and sees that it is the answer, that it is refused with 8 where a byte is missing, and that nothing else is
    /// written.
    fn write(&mut self, make: impl FnOnce(&mut Draft<'_>, &mut dyn FnMut(&dyn Writes))) -> Result<Vec<u8>, Refusal> {
        let mut draft = Draft::over(&mut self.text, &mut self.elements, &mut self.params);
        let mut answer = None;
        make(&mut draft, &mut |line| answer = Some(written(line)));
        answer.expect("a line is written")
    }

    fn read<T>(&mut self, line: &[u8], seen: impl FnOnce(Reading<'_, '_, Strict>) -> T) -> T {
        let mut tables = Tables::over(&mut self.read_elements, &mut self.read_params);
        seen(tables.read_strict(line).expect("the strict reader takes what is written"))
    }
}

/// A line of either mark.
trait Writes {
    fn write_to<'output>(&self, output: &'output mut [u8]) -> Result<&'output [u8], Refusal>;
}

impl<At> Writes for Line<'_, At> {
    fn write_to<'output>(&self, output: &'output mut [u8]) -> Result<&'output [u8], Refusal> {
        self.write(output)
    }
}

/// An output as it is lent: a byte more than the longest line has.
const KEPT: [u8; MAX_LINE + 1] = [0xA5; MAX_LINE + 1];

fn written(line: &dyn Writes) -> Result<Vec<u8>, Refusal> {
    let mut output = KEPT;
    let answer = line.write_to(&mut output).map(<[u8]>::to_vec);
    let len = answer.as_ref().map_or(0, Vec::len);
    assert_eq!(&output[len..], &KEPT[len..], "bytes past the line are kept");
    if len > 0 {
        let mut exact = KEPT;
        assert_eq!(line.write_to(&mut exact[..len - 1]), Err(Refusal::OutputTooShort));
        assert_eq!(exact, KEPT);
        assert_eq!(line.write_to(&mut exact[..len]), Ok(&output[..len]));
    }
    answer
}

/// A line of one parameter.
fn value(desk: &mut Desk, value: &[u8]) -> Result<Vec<u8>, Refusal> {
    desk.write(|draft, put| put(&Line::new(draft, NOTICE).element("a").param("x", value)))
}

fn message(desk: &mut Desk, message: &[u8]) -> Result<Vec<u8>, Refusal> {
    desk.write(|draft, put| put(&Line::new(draft, NOTICE).message(message)))
}

/// The value of parameter `x` of element `a`, unescaped as RFC 5424 has it.
fn value_of(desk: &mut Desk, line: &[u8]) -> Vec<u8> {
    let mut output = [0; MAX_LINE];
    desk.read(line, |reading| reading.lookup("a", "x", Unescape::Strict, &mut output).unwrap().to_vec())
}

#[test]
fn what_is_not_given_is_absent() {
    let mut desk = Desk::new();
    let line = desk.write(|draft, put| put(&Line::new(draft, NOTICE))).unwrap();
    assert_eq!(line, b"<13>1 - - - - - -");
    desk.read(&line, |reading| {
        assert_eq!((reading.timestamp(), reading.host(), reading.app_name()), (None, None, None));
        assert_eq!((reading.process_id(), reading.message_id(), reading.message()), (None, None, None));
        assert_eq!(reading.elements().len(), 0);
    });
}

#[test]
fn all_that_is_given_is_written_in_its_place() {
    let mut desk = Desk::new();
    let stamp = Timestamp::new(1_767_607_262, 215_000_000, 3, Offset::from_minutes(-90).unwrap()).unwrap();
    // In another order than the line's.
    let line = desk.write(|draft, put| {
        let line = Line::new(draft, Priority::new(Facility::Local7, Severity::Debug)).message("ok").element("b@1");
        let line = line.param("y", "").param("y", "2").message_id("TAP").element("a@1").process_id("42").element("c");
        put(&line.param("z", "3").app_name("reader").host("gate7").version(Version::new(999).unwrap()).timestamp(stamp))
    });
    let line = line.unwrap();
    let wanted = br#"<191>999 2026-01-05T08:31:02.215-01:30 gate7 reader 42 TAP [b@1 y="" y="2"][a@1][c z="3"] ok"#;
    assert_eq!(String::from_utf8_lossy(&line), String::from_utf8_lossy(wanted));
    desk.read(&line, |reading| {
        assert_eq!((reading.facility(), reading.severity()), (Some(Facility::Local7), Some(Severity::Debug)));
        assert_eq!((reading.protocol(), reading.timestamp()), (Protocol::Rfc5424 { version: 999 }, Some(stamp)));
        assert_eq!(reading.elements().map(|element| element.params().count()).collect::<Vec<_>>(), [2, 0, 1]);
    });
}

#[test]
fn a_text_that_is_given_twice_is_the_later_one() {
    let mut desk = Desk::new();
    let line =
        desk.write(|draft, put| put(&Line::new(draft, NOTICE).host("gate7").host("gate8").message("a").message("")));
    assert_eq!(line.unwrap(), b"<13>1 - gate8 - - - - ");
}

#[test]
fn every_priority_and_version_is_written() {
    let mut desk = Desk::new();
    for number in 0..=191 {
        let priority = Priority::from_number(number).unwrap();
        let line = desk.write(|draft, put| put(&Line::new(draft, priority))).unwrap();
        assert_eq!(line, format!("<{number}>1 - - - - - -").into_bytes());
        let read = desk.read(&line, |reading| Priority::new(reading.facility().unwrap(), reading.severity().unwrap()));
        assert_eq!((read, read.number()), (priority, number));
    }
    assert!((192..=255).all(|number| Priority::from_number(number).is_none()));
    for number in 1..=999 {
        let version = Version::new(number).unwrap();
        let line = desk.write(|draft, put| put(&Line::new(draft, NOTICE).version(version))).unwrap();
        assert_eq!(line, format!("<13>{number} - - - - - -").into_bytes());
        desk.read(&line, |reading| assert_eq!(reading.protocol(), Protocol::Rfc5424 { version: number.into() }));
    }
    assert_eq!((Version::new(0), Version::new(1000), Version::new(u16::MAX)), (None, None, None));
}

#[test]
fn every_byte_in_a_value() {
    let mut desk = Desk::new();
    for byte in 0..=255u8 {
        // Alone, at each end and between others.
        for raw in [vec![byte], vec![byte, b'b'], vec![b'a', byte], vec![b'a', byte, b'b'], vec![byte; 40]] {
            let answer = value(&mut desk, &raw);
            if byte >= 0x80 {
                assert_eq!(answer, Err(Refusal::Unwritable), "{raw:?}");
                continue;
            }
            let mut wanted = b"<13>1 - - - - - [a x=\"".to_vec();
            for &byte in &raw {
                wanted.extend(br#""\]"#.contains(&byte).then(|| b'\\'));
                wanted.push(byte);
            }
            wanted.extend(b"\"]");
            assert_eq!(answer.as_ref(), Ok(&wanted));
            assert_eq!(value_of(&mut desk, &wanted), raw);
        }
    }
}

#[test]
fn values_are_utf_8_and_nothing_else() {
    let mut desk = Desk::new();
    // The first and the last characters of each length, and those beside the surrogates.
    for character in
        ['\u{7f}', '\u{80}', '\u{7ff}', '\u{800}', '\u{d7ff}', '\u{e000}', '\u{ffff}', '\u{10000}', '\u{10ffff}']
    {
        let raw = format!("]{character}\\{character}\"");
        let line = value(&mut desk, raw.as_bytes()).unwrap();
        assert_eq!(value_of(&mut desk, &line), raw.as_bytes());
    }
    let broken: [&[u8]; 9] = [
        b"\xc1\xbf",
        b"\xc3",
        b"\xe0\x9f\xbf",
        b"\xed\xa0\x80",
        b"\xef\xbf",
        b"\xf0\x8f\xbf\xbf",
        b"\xf4\x90\x80\x80",
        b"\xf5\x80\x80\x80",
        b"0123456789abcdef0123456789abcdef\x80",
    ];
    for raw in broken {
        assert_eq!(value(&mut desk, raw), Err(Refusal::Unwritable), "{raw:?}");
    }
    // A character is not made of the end of one text and the start of the next.
    let halves =
        desk.write(|draft, put| put(&Line::new(draft, NOTICE).element("a").param("x", b"\xc3").param(b"\xa9", "")));
    assert_eq!(halves, Err(Refusal::Unwritable));
}

#[test]
fn every_byte_in_a_message() {
    let mut desk = Desk::new();
    let every: Vec<u8> = (0..=255).collect();
    let alone = (0..=255).map(|byte| vec![byte]);
    for raw in alone.chain([vec![], every.clone(), [&b"\xef\xbb"[..], &every].concat()]) {
        let line = message(&mut desk, &raw).unwrap();
        assert_eq!(line, [&b"<13>1 - - - - - - "[..], &raw].concat());
        desk.read(&line, |reading| assert_eq!(reading.message(), Some(&raw[..])));
    }
    // Behind the mark it is UTF-8.
    let mark = b"\xef\xbb\xbf";
    for byte in 0..=255u8 {
        let raw = [&mark[..], &[byte]].concat();
        let answer = message(&mut desk, &raw);
        assert_eq!(answer.is_ok(), byte < 0x80);
        assert!(answer.is_ok() || answer == Err(Refusal::Unwritable));
    }
    assert!(message(&mut desk, mark).is_ok());
    assert!(message(&mut desk, &[&mark[..], "é".as_bytes(), mark].concat()).is_ok());
    assert_eq!(message(&mut desk, &[&mark[..], b"\xc3"].concat()), Err(Refusal::Unwritable));
    assert!(message(&mut desk, &[&b"x"[..], mark, b"\xc3"].concat()).is_ok());
}

/// A text of the front, by the method that takes it.
type Put = fn(&mut Desk, &[u8]) -> Result<Vec<u8>, Refusal>;

const FRONT: [(usize, usize, Put); 4] = [
    (0, 255, |desk, text| desk.write(|draft, put| put(&Line::new(draft, NOTICE).host(text)))),
    (1, 48, |desk, text| desk.write(|draft, put| put(&Line::new(draft, NOTICE).app_name(text)))),
    (2, 128, |desk, text| desk.write(|draft, put| put(&Line::new(draft, NOTICE).process_id(text)))),
    (3, 32, |desk, text| desk.write(|draft, put| put(&Line::new(draft, NOTICE).message_id(text)))),
];

const ID: Put = |desk, text| desk.write(|draft, put| put(&Line::new(draft, NOTICE).element(text)));
const NAME: Put = |desk, text| desk.write(|draft, put| put(&Line::new(draft, NOTICE).element("a").param(text, "1")));

#[test]
fn texts_of_the_front_have_a_length_and_bytes_of_33_to_126() {
    let mut desk = Desk::new();
    for (place, most, write) in FRONT {
        for byte in 0..=255u8 {
            for text in [vec![byte; 2], vec![b'a', byte], vec![byte, b'a']] {
                let answer = write(&mut desk, &text);
                assert_eq!(answer.is_ok(), (33..=126).contains(&byte), "{text:?}");
                assert!(answer.is_ok() || answer == Err(Refusal::Unwritable));
            }
        }
        for len in [1, 2, most - 1, most] {
            let text = "x".repeat(len);
            let line = write(&mut desk, text.as_bytes()).unwrap();
            let mut wanted = ["-"; 4];
            wanted[place] = &text;
            assert_eq!(line, format!("<13>1 - {} -", wanted.join(" ")).into_bytes());
            let read = desk.read(&line, |reading| {
                [reading.host(), reading.app_name(), reading.process_id(), reading.message_id()][place]
                    .map(<[u8]>::to_vec)
            });
            assert_eq!(read, Some(text.into_bytes()));
        }
        for len in [0, most + 1, most + 256, MAX_LINE] {
            assert_eq!(write(&mut desk, &vec![b'x'; len]), Err(Refusal::Unwritable), "{len}");
        }
        // Absent has its own mark.
        assert_eq!(write(&mut desk, b"-"), Err(Refusal::Unwritable));
        assert!(write(&mut desk, b"--").is_ok());
    }
}

#[test]
fn ids_and_names_have_a_length_and_bytes_of_their_own() {
    let mut desk = Desk::new();
    for write in [ID, NAME] {
        for byte in 0..=255u8 {
            for text in [vec![byte], vec![b'a', byte], vec![byte, b'a']] {
                let answer = write(&mut desk, &text);
                assert_eq!(answer.is_ok(), (33..=126).contains(&byte) && !b"=]\"".contains(&byte), "{text:?}");
                assert!(answer.is_ok() || answer == Err(Refusal::Unwritable));
            }
        }
        for (len, taken) in [(0, false), (1, true), (31, true), (32, true), (33, false), (288, false)] {
            assert_eq!(write(&mut desk, &vec![b'x'; len]).is_ok(), taken, "{len}");
        }
        // These mark nothing here.
        assert!(write(&mut desk, b"-").is_ok() && write(&mut desk, b"[").is_ok() && write(&mut desk, b"\\").is_ok());
    }
}

/// A line of so many elements, the last of them with the id of number `last`.
fn many(desk: &mut Desk, count: usize, last: usize) -> Result<Vec<u8>, Refusal> {
    desk.write(|draft, put| {
        let mut line = Line::new(draft, NOTICE).element("0");
        for i in 1..count {
            line = line.element(if i + 1 == count { last } else { i }.to_string());
        }
        put(&line)
    })
}

#[test]
fn ids_differ_however_many() {
    let mut desk = Desk::new();
    for count in [2, 3, 8, 9, 10, 64, 65, 512, 513, 1000] {
        let line = many(&mut desk, count, count - 1).unwrap();
        assert_eq!(desk.read(&line, |reading| reading.elements().len()), count);
        for last in [0, count / 2 - 1, count - 2] {
            assert_eq!(many(&mut desk, count, last), Err(Refusal::Unwritable), "{last} of {count}");
        }
    }
    // Ids that begin alike, and that differ in case, differ.
    let line =
        desk.write(|draft, put| put(&Line::new(draft, NOTICE).element("a").element("ab").element("A").element("b")));
    assert_eq!(line.unwrap(), b"<13>1 - - - - - [a][ab][A][b]");
}

#[test]
fn a_line_has_8192_bytes_at_most() {
    let mut desk = Desk::new();
    let front = message(&mut desk, b"").unwrap().len();
    assert_eq!(message(&mut desk, &vec![0xff; MAX_LINE - front]).unwrap().len(), MAX_LINE);
    assert_eq!(message(&mut desk, &vec![0xff; MAX_LINE - front + 1]), Err(Refusal::LineTooLong));
    // With values that double, of even and of odd length.
    let front = value(&mut desk, b"").unwrap().len();
    for escaped in [b"\"", b"\\", b"]"] {
        let most = (MAX_LINE - front) / 2;
        let raw = [escaped.repeat(most), vec![b'x'; (MAX_LINE - front) % 2]].concat();
        let line = value(&mut desk, &raw).unwrap();
        assert_eq!(line.len(), MAX_LINE);
        assert_eq!(value_of(&mut desk, &line), raw);
        assert_eq!(value(&mut desk, &[&raw[..], b"x"].concat()), Err(Refusal::LineTooLong));
        assert_eq!(value(&mut desk, &escaped.repeat(most + 1)), Err(Refusal::LineTooLong));
        assert_eq!(value(&mut desk, &escaped.repeat(MAX_LINE - 2)), Err(Refusal::LineTooLong));
    }
    // As many elements, and as many parameters, as a line holds.
    let mut ends = many_ids(MAX_ELEMENTS).into_iter().scan(16, |end, id| Some((*end += id.len() + 2, *end).1));
    let count = ends.position(|end| end > MAX_LINE).unwrap();
    for (count, taken) in [(count, true), (count + 1, false)] {
        let answer = desk.write(|draft, put| {
            let mut ids = many_ids(count).into_iter();
            let mut line = Line::new(draft, NOTICE).element(ids.next().unwrap());
            for id in ids {
                line = line.element(id);
            }
            put(&line)
        });
        assert_eq!(answer.as_ref().map(|_| ()), if taken { Ok(()) } else { Err(&Refusal::LineTooLong) });
        assert!(!taken || desk.read(&answer.unwrap(), |reading| reading.elements().len()) == count);
    }
}

/// Ids that differ: of one byte, then of two.
fn many_ids(count: usize) -> Vec<Vec<u8>> {
    let bytes = || (33..=126u8).filter(|byte| !b"=]\"".contains(byte));
    let two = bytes().flat_map(|one| bytes().map(move |two| vec![one, two]));
    bytes().map(|one| vec![one]).chain(two).take(count).collect()
}

#[test]
fn the_first_refusal_that_applies_is_given() {
    let mut desk = Desk::new();
    let long = vec![b']'; 4100]; // a value of 8,200 bytes
    let mut all = |host: &str, value: &[u8], room: usize| {
        let mut draft = Draft::over(&mut desk.text, &mut desk.elements, &mut desk.params);
        let mut output = vec![0xA5; room];
        let answer =
            Line::new(&mut draft, NOTICE).host(host).element("a").param("x", value).write(&mut output).map(<[u8]>::len);
        assert!(answer.is_ok() || output.iter().all(|&byte| byte == 0xA5));
        answer
    };
    assert_eq!(all("-", &long, 0), Err(Refusal::Unwritable));
    assert_eq!(all("-", b"1", 0), Err(Refusal::Unwritable));
    assert_eq!(all("gate7", &long, 0), Err(Refusal::LineTooLong));
    assert_eq!(all("gate7", b"1", 0), Err(Refusal::OutputTooShort));
    assert_eq!(all("gate7", b"1", 64), Ok(29));
}

#[test]
fn what_a_draft_cannot_hold_is_refused_first() {
    let mut text = [0; MAX_LINE];
    let (mut elements, mut params) = ([ElementEntry::EMPTY; 1], [ParamEntry::EMPTY; 2]);
    let mut draft = Draft::over(&mut text, &mut elements, &mut params);
    assert_eq!((draft.element_capacity(), draft.param_capacity()), (1, 2));
    let mut output = [0xA5; 64];
    fn new<'draft>(draft: &'draft mut Draft<'_>) -> Line<'draft, InElement> {
        Line::new(draft, NOTICE).host("-").element("a")
    }
    let answers = [
        new(&mut draft).param("x", "1").param("x", "2").write(&mut output).err(),
        new(&mut draft).element("b").write(&mut output).err(),
        new(&mut draft).element("b").param("x", "1").param("x", "2").param("x", "3").write(&mut output).err(),
        new(&mut draft).param("x", "1").param("x", "2").param("x", "3").element("b").write(&mut output).err(),
        new(&mut draft).param("x", "1").message([b'x'; MAX_LINE - 4]).write(&mut output).err(),
        new(&mut draft).param("x", "1").message([b'x'; MAX_LINE - 3]).write(&mut output).err(),
        new(&mut draft).message([b'x'; MAX_LINE]).element("b").write(&mut output).err(),
    ];
    use Refusal::*;
    let wanted = [Unwritable, TooManyElements, TooManyElements, TooManyParams, Unwritable, LineTooLong, LineTooLong];
    assert_eq!(answers, wanted.map(Some));
    assert_eq!(output, [0xA5; 64]);
    // Without an entry for elements.
    let mut draft = Draft::over(&mut text, &mut [], &mut params);
    assert_eq!(Line::new(&mut draft, NOTICE).element("a").param("x", "1").write(&mut output), Err(TooManyElements));
    assert_eq!(Line::new(&mut draft, NOTICE).write(&mut output), Ok(&b"<13>1 - - - - - -"[..]));
}

#[test]
fn timestamps_are_written_with_their_digits_and_their_offset() {
    let mut desk = Desk::new();
    let mut stamped = |stamp| {
        let line = desk.write(|draft, put| put(&Line::new(draft, NOTICE).timestamp(stamp)))?;
        desk.read(&line, |reading| assert_eq!(reading.timestamp(), Some(stamp)));
        assert_eq!(line, format!("<13>1 {stamp} - - - - -").into_bytes());
        Ok(line)
    };
    for digits in 0..=9u8 {
        for nanoseconds in [0, 10u32.pow(9 - u32::from(digits)) % 1_000_000_000] {
            let answer = stamped(Timestamp::new(1_767_607_262, nanoseconds, digits, Offset::UTC).unwrap());
            assert_eq!(answer.as_ref().err(), (digits > 6).then(|| &Refusal::Unwritable));
        }
    }
    for minutes in -1439..=1439 {
        let stamp = Timestamp::new(-1, 750_000_000, 2, Offset::from_minutes(minutes).unwrap()).unwrap();
        assert!(stamped(stamp).is_ok());
    }
    // The first and the last second of the years, at their offset.
    for (seconds, minutes) in
        [(-62_167_219_200, 0), (253_402_300_799, 0), (-62_167_305_540, 1439), (253_402_387_139, -1439)]
    {
        let offset = Offset::from_minutes(minutes).unwrap();
        assert!(stamped(Timestamp::new(seconds, 0, 0, offset).unwrap()).is_ok());
        let past = if seconds < 0 { seconds - 1 } else { seconds + 1 };
        assert_eq!(Timestamp::new(past, 0, 0, offset), None);
    }
}

#[test]
fn a_timestamp_is_made_of_what_it_can_be() {
    let new = |seconds, nanoseconds, digits| Timestamp::new(seconds, nanoseconds, digits, Offset::UTC);
    assert!(new(0, 999_999_999, 9).is_some() && new(0, 1_000_000_000, 9).is_none() && new(0, u32::MAX, 9).is_none());
    assert!(new(0, 0, 9).is_some() && new(0, 0, 10).is_none() && new(0, 0, u8::MAX).is_none());
    assert!(new(0, 120_000_000, 2).is_some() && new(0, 120_000_000, 1).is_none() && new(0, 1, 8).is_none());
    assert!(new(i64::MIN, 0, 0).is_none() && new(i64::MAX, 0, 0).is_none());
    assert_eq!(Timestamp::new(i64::MIN, 0, 0, Offset::MIN), None);
    assert_eq!(Timestamp::new(i64::MAX, 0, 0, Offset::MAX), None);
}

#[test]
fn a_line_is_written_again_after_a_short_output() {
    let mut desk = Desk::new();
    let mut draft = Draft::over(&mut desk.text, &mut desk.elements, &mut desk.params);
    let line = Line::new(&mut draft, NOTICE).host("gate7").message("ok");
    let mut output = [b'.'; 32];
    assert_eq!(line.write(&mut output[..23]), Err(Refusal::OutputTooShort));
    assert_eq!(line.write(&mut output[..24]), Ok(&b"<13>1 - gate7 - - - - ok"[..]));
    assert_eq!(&output, b"<13>1 - gate7 - - - - ok........");
    assert_eq!(format!("{line:?}"), "Line { bytes: 7, elements: 0, params: 0, .. }");
}

/// Writes a reading again.
fn again(desk: &mut Desk, line: &[u8]) -> Vec<u8> {
    let Desk { text, elements, params, read_elements, read_params } = desk;
    let mut tables = Tables::over(read_elements, read_params);
    let reading = tables.read_strict(line).unwrap();
    let mut draft = Draft::over(text, elements, params);
    let mut new = Line::new(&mut draft, (reading.facility().unwrap(), reading.severity().unwrap()));
    if let Some(stamp) = reading.timestamp() {
        new = new.timestamp(stamp);
    }
    if let Some(host) = reading.host() {
        new = new.host(host);
    }
    if let Some(message) = reading.message() {
        new = new.message(message);
    }
    let (mut output, mut value) = ([0; MAX_LINE], [0; MAX_LINE]);
    let mut whole = reading.elements();
    let Some(first) = whole.next() else { return new.write(&mut output).unwrap().to_vec() };
    let mut new = new.element(first.id());
    for param in first.params() {
        new = new.param(param.name(), param.unescaped(Unescape::Strict, &mut value).unwrap());
    }
    for element in whole {
        new = new.element(element.id());
        for param in element.params() {
            new = new.param(param.name(), param.unescaped(Unescape::Strict, &mut value).unwrap());
        }
    }
    new.write(&mut output).unwrap().to_vec()
}

#[test]
fn what_is_read_and_written_again_reads_the_same() {
    let mut desk = Desk::new();
    // In the writer's own form: the same bytes.
    let own = [
        r#"<0>1 - - - - - -"#,
        r#"<13>1 2026-01-05T10:01:02.000-00:01 gate7 - - - [a x="\"\\\]" y=""][b][c z="é"] "#,
        r#"<13>1 2026-01-05T10:01:02+00:00 gate7 - - - - [a x="]"] ok"#,
    ];
    for line in own {
        assert_eq!(String::from_utf8(again(&mut desk, line.as_bytes())).unwrap(), line);
    }
    // In another: `Z`, `-00:00`, and a backslash that is not needed. Then it is.
    let (line, wanted) = (
        r#"<13>1 2026-01-05T10:01:02.5Z gate7 - - - [a x="\n"] ok"#,
        r#"<13>1 2026-01-05T10:01:02.5+00:00 gate7 - - - [a x="\\n"] ok"#,
    );
    assert_eq!(String::from_utf8(again(&mut desk, line.as_bytes())).unwrap(), wanted);
    assert_eq!(again(&mut desk, wanted.as_bytes()), wanted.as_bytes());
}
