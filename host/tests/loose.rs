//! The loose reader: the rules line by line, the fields of both protocols, absent and empty.

#![cfg(feature = "std")]

use khamdoriem::{
    Facility, LooseAnswer, Offset, Protocol, Reading, Refusal, Settings, Severity, Tables, Variant, WholeLine, Year,
};

fn settings(variant: Variant, year: u32, minutes: i32) -> Settings {
    Settings::new(variant, Year::new(year).unwrap(), Offset::from_minutes(minutes).unwrap())
}

/// Reads with tables of 8 and 8 and shows the reading, if there is one, to `look`.
fn read<T>(line: &str, settings: Settings, look: impl FnOnce(Reading<'_, '_>) -> T) -> Result<T, Refusal> {
    let mut tables = Tables::new(8, 8);
    tables.read_loose(line.as_bytes(), settings)?.exact().map(look)
}

/// The same for either protocol at the year 2023 and offset +60.
fn at_60<T>(line: &str, look: impl FnOnce(Reading<'_, '_>) -> T) -> Result<T, Refusal> {
    read(line, settings(Variant::Either, 2023, 60), look)
}

fn text(field: Option<&[u8]>) -> Option<String> {
    field.map(|bytes| String::from_utf8(bytes.to_vec()).unwrap())
}

fn some(text: &str) -> Option<String> {
    Some(text.to_string())
}

/// Seconds, nanoseconds, digits and minutes of the offset.
fn stamp(line: &str) -> Result<Option<(i64, u32, u8, i32)>, Refusal> {
    at_60(line, |r| r.timestamp().map(|t| (t.seconds(), t.nanoseconds(), t.digits(), t.offset().minutes())))
}

fn message(line: &str) -> Result<String, Refusal> {
    at_60(line, |r| text(Some(r.message())).unwrap())
}

fn printed(line: &str) -> Result<String, Refusal> {
    at_60(line, |r| {
        let mut output = [0; 512];
        text(r.print(&mut output).ok()).unwrap()
    })
}

#[test]
fn priority() {
    let levels = |line: &str| at_60(line, |r| (r.facility().map(Facility::number), r.severity().map(Severity::number)));
    assert_eq!(levels("<191>1 - h a p m - x"), Ok((Some(23), Some(7))));
    assert_eq!(levels("<192>1 - h a p m - x"), Ok((None, Some(0))));
    assert_eq!(levels("<0>1 - h a p m - x"), Ok((Some(0), Some(0))));
    assert_eq!(levels("<013>1 - h a p m - x"), Ok((Some(1), Some(5))));
    // Not consumed: RFC 5424 has no version behind it, and RFC 3164 no timestamp.
    assert_eq!(levels("<256>1 - h a p m - x"), Err(Refusal::NoReading { reach: None }));
    assert_eq!(levels("Feb 5 10:01:02 h t: m"), Ok((None, None)));
}

#[test]
fn a_failing_element_is_skipped_through_the_next_bracket() {
    let read = at_60(r#"<13>1 - h a p m [id a="x]y" b]"#, |r| (r.elements().len(), text(Some(r.message()))));
    assert_eq!(read, Ok((0, some(r#"y" b]"#))));
}

#[test]
fn rfc3164_elements_without_parameters_stay_in_the_message() {
    assert_eq!(message("<13>Feb 5 10:01:02 h t: [x] m"), Ok("[x] m".to_string()));
    assert_eq!(at_60("<13>Feb 5 10:01:02 h t: [x] m", |r| r.elements().len()), Ok(0));
}

#[test]
fn rfc3164_hyphen_before_the_message_belongs_to_it() {
    for text in ["-5 ms", "- ok", "-", "---", "-[a b=\"c\"] x"] {
        assert_eq!(message(&format!("<13>Feb 5 10:01:02 h t: {text}")), Ok(text.to_string()));
        assert_eq!(message(&format!("<13>Feb 5 10:01:02 h t:{text}")), Ok(text.to_string()));
    }
    assert_eq!(message("<13>1 - h a p m - -5 ms"), Ok("-5 ms".to_string()));
    assert_eq!(message("<13>1 - h a p m -5 ms"), Ok("5 ms".to_string()));
}

#[test]
fn a_tag_that_is_a_dash_takes_the_host_with_it() {
    let read = at_60("<13>Feb 5 10:01:02 gate7 - m", |r| (text(r.host()), text(r.app_name()), text(r.process_id())));
    assert_eq!(read, Ok((None, None, None)));
}

#[test]
fn a_timestamp_with_a_year_is_utc_shown_at_the_offset() {
    let line = "<13>Feb 5 2023 10:01:02 gate7 reader[42]: tap ok";
    assert_eq!(printed(line), Ok("<13> 2023-02-05T11:01:02+01:00 gate7 reader[42]: tap ok".to_string()));
    assert_eq!(at_60(line, |r| r.timestamp().unwrap().seconds()), Ok(1_675_591_262));
}

#[test]
fn a_timestamp_without_a_year_is_local() {
    let line = "<13>Feb  5 10:01:02 gate7 reader[42]: tap ok";
    assert_eq!(stamp(line), Ok(Some((1_675_587_662, 0, 0, 60))));
    assert_eq!(printed(line), Ok("<13> 2023-02-05T10:01:02+01:00 gate7 reader[42]: tap ok".to_string()));
}

#[test]
fn days_by_month_and_year() {
    let seconds = |line: &str| at_60(line, |r| r.timestamp().unwrap().seconds());
    assert_eq!(seconds("<13>1 2023-02-29T00:00:00Z h a p m - x"), Err(Refusal::NoReading { reach: None }));
    assert_eq!(seconds("<13>1 2024-02-29T00:00:00Z h a p m - x"), Ok(1_709_164_800));
    // The year of RFC 3164 is the setting's.
    let line = "<13>Feb 29 00:00:00 h t: m";
    assert_eq!(seconds(line), Err(Refusal::NoReading { reach: None }));
    let leap = settings(Variant::Either, 2024, 0);
    assert_eq!(read(line, leap, |r| r.timestamp().unwrap().seconds()), Ok(1_709_164_800));
}

#[test]
fn a_quoted_value_may_hold_a_bracket() {
    let line = r#"<13>1 - h a p m [id a="x]y"] z"#;
    let read = at_60(line, |r| {
        let values: Vec<_> = r.params().map(|p| text(Some(p.value())).unwrap()).collect();
        (values, text(Some(r.message())))
    });
    assert_eq!(read, Ok((vec!["x]y".to_string()], some("z"))));
}

#[test]
fn a_host_that_ends_in_a_colon_has_no_reading_in_rfc5424() {
    assert_eq!(message("<13>1 - h: a p m - x"), Err(Refusal::NoReading { reach: None }));
    assert_eq!(message("<13>1 - h a p m - x"), Ok("x".to_string()));
}

#[test]
fn fields_of_rfc3164() {
    let read = at_60("<13>Feb  5 10:01:02 gate7 reader[42]: tap ok", |r| {
        assert_eq!(r.protocol(), Protocol::Rfc3164);
        assert_eq!((r.facility(), r.severity()), (Some(Facility::User), Some(Severity::Notice)));
        assert_eq!(text(r.host()), some("gate7"));
        assert_eq!(text(r.app_name()), some("reader"));
        assert_eq!(text(r.process_id()), some("42"));
        assert_eq!(text(r.message_id()), None);
        assert_eq!(r.message(), b"tap ok");
        assert_eq!((r.elements().len(), r.params().len()), (0, 0));
    });
    assert_eq!(read, Ok(()));
}

#[test]
fn fields_of_rfc5424() {
    let line = r#"<13>1 2026-01-05T10:01:02.003Z gate7 reader 42 TAP [stage@32473 name="denylist" ms="212"] ok"#;
    let read = at_60(line, |r| {
        assert_eq!(r.line(), line.as_bytes());
        assert_eq!(r.protocol(), Protocol::Rfc5424 { version: 1 });
        assert_eq!((r.facility(), r.severity()), (Some(Facility::User), Some(Severity::Notice)));
        assert_eq!(stamp(line), Ok(Some((1_767_607_262, 3_000_000, 3, 0))));
        assert_eq!(text(r.host()), some("gate7"));
        assert_eq!(text(r.app_name()), some("reader"));
        assert_eq!(text(r.process_id()), some("42"));
        assert_eq!(text(r.message_id()), some("TAP"));
        assert_eq!(r.message(), b"ok");
    });
    assert_eq!(read, Ok(()));
}

#[test]
fn versions_have_32_bits() {
    let version = |line: &str| at_60(line, |r| r.protocol());
    assert_eq!(version("<13>007 - h a p m - x"), Ok(Protocol::Rfc5424 { version: 7 }));
    assert_eq!(version("<13>4294967295 - h a p m - x"), Ok(Protocol::Rfc5424 { version: u32::MAX }));
    assert_eq!(version("<13>4294967296 - h a p m - x"), Err(Refusal::NoReading { reach: None }));
}

#[test]
fn absent_and_empty_differ() {
    let fields = |line: &str| at_60(line, |r| [r.host(), r.app_name(), r.process_id(), r.message_id()].map(text));
    assert_eq!(fields("<13>1 - - - - - - x"), Ok([None, None, None, None]));
    assert_eq!(at_60("<13>1 - - - - - - x", |r| r.timestamp()), Ok(None));
    // A field that is wholly `[1]` splits into an app that is empty and there.
    assert_eq!(fields("<13>Feb 5 10:01:02 [1]: m"), Ok([None, some(""), some("1"), None]));
    assert_eq!(printed("<13>Feb 5 10:01:02 [1]: m"), Ok("<13> 2023-02-05T10:01:02+01:00 - [1]: m".to_string()));
    assert_eq!(message("<13>1 - h a p m -"), Ok(String::new()));
}

#[test]
fn an_empty_value_lies_between_its_quotes() {
    let line = r#"<13>1 - h a p m [id a=""] x"#;
    let at = at_60(line, |r| {
        let value = r.params().next().unwrap().value();
        (value.len(), value.as_ptr() as usize - r.line().as_ptr() as usize)
    });
    assert_eq!(at, Ok((0, line.find(r#""""#).unwrap() + 1)));
}

#[test]
fn timestamps_before_1970_have_negative_seconds() {
    assert_eq!(stamp("<13>1 1969-12-31T23:59:59Z h a p m - x"), Ok(Some((-1, 0, 0, 0))));
    assert_eq!(stamp("<13>1 1969-12-31T23:59:59.25Z h a p m - x"), Ok(Some((-1, 250_000_000, 2, 0))));
    assert_eq!(stamp("<13>1 0000-01-01T00:00:00Z h a p m - x"), Ok(Some((-62_167_219_200, 0, 0, 0))));
    let west = "<13>1 1970-01-01T00:00:00.999999999-23:59 h a p m - x";
    assert_eq!(stamp(west), Ok(Some((86_340, 999_999_999, 9, -1439))));
    assert_eq!(stamp("<13>1 1970-01-01T00:00:00+23:59 h a p m - x"), Ok(Some((-86_340, 0, 0, 1439))));
}

#[test]
fn a_fraction_keeps_its_digits() {
    for (fraction, nanoseconds, digits, resolution) in [
        ("", 0, 0, 1_000_000_000),
        (".0", 0, 1, 100_000_000),
        (".5", 500_000_000, 1, 100_000_000),
        (".000", 0, 3, 1_000_000),
        (".500", 500_000_000, 3, 1_000_000),
        (".500000", 500_000_000, 6, 1_000),
        (".1234567", 123_456_700, 7, 100),
        (".000000000", 0, 9, 1),
        (".123456789", 123_456_789, 9, 1),
    ] {
        // Form (c) in both protocols, and what they print.
        for (before, after) in [("<13>1 ", " gate7 reader 42 TAP - ok"), ("<13>", " gate7 reader[42]: ok")] {
            let line = format!("{before}2026-01-05T10:01:02{fraction}Z{after}");
            assert_eq!(stamp(&line), Ok(Some((1_767_607_262, nanoseconds, digits, 0))), "{line}");
            assert_eq!(at_60(&line, |r| r.timestamp().unwrap().resolution_nanoseconds()), Ok(resolution), "{line}");
            let space = if before.ends_with(' ') { "" } else { " " };
            assert_eq!(printed(&line), Ok(format!("{before}{space}2026-01-05T10:01:02{fraction}+00:00{after}")));
        }
    }
    // A point without a digit is no fraction, and ten digits are none: what is past the ninth could not be kept.
    for fraction in [".", ".1234567890", ".0000000000"] {
        assert_eq!(
            stamp(&format!("<13>1 2026-01-05T10:01:02{fraction}Z h a p m - x")),
            Err(Refusal::NoReading { reach: None })
        );
    }
}

#[test]
fn the_clocks_of_rfc3164_have_whole_seconds() {
    for line in ["<13>Feb  5 10:01:02 gate7 reader[42]: ok", "<13>Feb  5 2023 10:01:02 gate7 reader[42]: ok"] {
        let read = at_60(line, |r| r.timestamp().map(|t| (t.nanoseconds(), t.digits(), t.resolution_nanoseconds())));
        assert_eq!(read, Ok(Some((0, 0, 1_000_000_000))));
    }
    assert_eq!(stamp("<13>- gate7 reader[42]: ok"), Ok(None));
}

#[test]
fn timestamps_of_one_instant_differ_in_their_digits() {
    let at = |fraction: &str| {
        let line = format!("<13>1 2026-01-05T10:01:02{fraction}Z gate7 reader 42 TAP - ok");
        at_60(&line, |r| r.timestamp().unwrap()).unwrap()
    };
    assert_eq!(at(".50"), at(".50"));
    assert_ne!(at(".50"), at(".5"));
    assert_eq!((at(".50").seconds(), at(".50").nanoseconds()), (at(".5").seconds(), at(".5").nanoseconds()));
}

#[test]
fn variants_choose_the_protocol() {
    let (old, new) = ("<13>Feb 5 10:01:02 h t: m", "<13>1 - h a p m - x");
    let reads = |line, variant| read(line, settings(variant, 2023, 0), |r| r.protocol());
    assert_eq!(reads(old, Variant::Either), Ok(Protocol::Rfc3164));
    assert_eq!(reads(old, Variant::Rfc3164), Ok(Protocol::Rfc3164));
    assert_eq!(reads(old, Variant::Rfc5424), Err(Refusal::NoReading { reach: None }));
    assert_eq!(reads(new, Variant::Either), Ok(Protocol::Rfc5424 { version: 1 }));
    assert_eq!(reads(new, Variant::Rfc5424), Ok(Protocol::Rfc5424 { version: 1 }));
    assert_eq!(reads(new, Variant::Rfc3164), Err(Refusal::NoReading { reach: None }));
}

#[test]
fn a_line_with_a_reading_is_trimmed() {
    assert_eq!(message("\u{3000} <13>1 - h a p m - x\u{85}\r\n"), Ok("x".to_string()));
}

/// The line that is answered whole, if it is.
fn whole<'line, 'tables>(
    tables: &'tables mut Tables<'_>,
    line: &'line str,
    settings: Settings,
) -> Option<WholeLine<'line, 'tables>> {
    match tables.read_loose(line.as_bytes(), settings).unwrap() {
        LooseAnswer::Read(_) => None,
        LooseAnswer::Whole(whole) => Some(whole),
    }
}

#[test]
fn a_line_with_no_reading_is_answered_whole() {
    let (at, old) = (settings(Variant::Either, 2023, 60), settings(Variant::Rfc3164, 2023, 60));
    let mut tables = Tables::new(8, 8);
    let mut whole = |line, settings| whole(&mut tables, line, settings).map(|whole| whole.message());
    for line in ["  tap ok ", "", " ", "\u{3000}\r\n", "<13>1 - h: a p m - x", "<13>4294967296 - h a p m - x"] {
        assert_eq!(whole(line, at), Some(line.as_bytes()));
    }
    for line in ["<13>Feb  5 10:01:02 gate7 reader[42]: tap ok", "<13>1 - h a p m - x", "-", "<13>-x"] {
        assert_eq!(whole(line, at), None);
    }
    // By the variant.
    let line = "<13>1 - h a p m - x";
    assert_eq!(whole(line, old), Some(line.as_bytes()));
}

#[test]
fn a_whole_line_is_the_message_alone() {
    let at = settings(Variant::Either, 2023, 60);
    let mut tables = Tables::new(0, 0);
    let whole = whole(&mut tables, "  tap ok ", at).unwrap();
    assert_eq!(format!("{whole:?}"), r#"WholeLine("  tap ok ")"#);
    let reading = whole.into_reading();
    assert_eq!(reading.message(), b"  tap ok ");
    assert_eq!(reading.protocol(), Protocol::Rfc3164);
    assert_eq!((reading.facility(), reading.severity(), reading.timestamp()), (None, None, None));
    assert_eq!([reading.host(), reading.app_name(), reading.process_id(), reading.message_id()], [None; 4]);
    assert_eq!((reading.elements().len(), reading.params().len()), (0, 0));
}

#[test]
fn whole_lines_print() {
    let at = settings(Variant::Either, 2023, 60);
    let mut tables = Tables::new(0, 0);
    let line = whole(&mut tables, "  Tür ok ", at).unwrap();
    let mut output = [b'.'; 22];
    assert_eq!(line.print(&mut output[..20]), Err(Refusal::OutputTooShort));
    assert_eq!(output, [b'.'; 22]);
    assert_eq!(line.print(&mut output), Ok("<47> - - :   Tür ok ".as_bytes()));
    assert_eq!(output[21], b'.');
    assert_eq!(whole(&mut tables, "", at).unwrap().print(&mut output), Ok(&b"<47> - - : "[..]));
}

#[test]
fn either_is_taken_as_a_reading_by_who_wants_it() {
    let at = settings(Variant::Either, 2023, 60);
    let mut tables = Tables::new(0, 0);
    let line = b"<13>Feb  5 10:01:02 gate7 reader[42]: tap ok";
    assert_eq!(tables.read_loose(line, at).unwrap().or_whole().host(), Some(&b"gate7"[..]));
    assert_eq!(tables.read_loose(line, at).unwrap().exact().unwrap().host(), Some(&b"gate7"[..]));
    let reading = tables.read_loose(b"tap ok", at).unwrap().or_whole();
    assert_eq!((reading.host(), reading.message()), (None, &b"tap ok"[..]));
    assert_eq!(tables.read_loose(b"tap ok", at).unwrap().exact().unwrap_err(), Refusal::NoReading { reach: None });
}
