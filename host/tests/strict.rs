//! The strict reader: what the grammar of RFC 5424 takes and refuses, and what only it tells.

#![cfg(feature = "std")]

use khamdoriem::{Facility, Protocol, Reading, Refusal, Severity, Strict, Tables, MAX_LINE};

fn taken(line: &[u8]) -> Result<(), Refusal> {
    Tables::new(8, 8).read_strict(line).map(|_| ())
}

/// No reading, and how many bytes are right.
fn right_to<T>(reach: usize) -> Result<T, Refusal> {
    Err(Refusal::NoReading { reach: Some(reach) })
}

/// Seconds, nanoseconds, digits and minutes of the offset.
fn stamp(reading: Reading<'_, '_, Strict>) -> (i64, u32, u8, i32) {
    let t = reading.timestamp().unwrap();
    (t.seconds(), t.nanoseconds(), t.digits(), t.offset().minutes())
}

#[test]
fn fields() {
    let mut tables = Tables::new(8, 8);
    let line = br#"<165>1 2003-10-11T22:14:15.003-07:00 gate7 reader 42 TAP [stage@32473 name="denylist" ms="212"] ok"#;
    let reading = tables.read_strict(line).unwrap();
    assert_eq!(reading.line(), line);
    assert_eq!(reading.protocol(), Protocol::Rfc5424 { version: 1 });
    assert_eq!((reading.facility(), reading.severity()), (Some(Facility::Local4), Some(Severity::Notice)));
    assert_eq!(stamp(reading), (1_065_935_655, 3_000_000, 3, -420));
    assert_eq!(reading.timestamp_text(), Some(&b"2003-10-11T22:14:15.003-07:00"[..]));
    assert_eq!(reading.host(), Some(&b"gate7"[..]));
    assert_eq!(reading.app_name(), Some(&b"reader"[..]));
    assert_eq!(reading.process_id(), Some(&b"42"[..]));
    assert_eq!(reading.message_id(), Some(&b"TAP"[..]));
    assert_eq!(reading.message(), Some(&b"ok"[..]));
    assert_eq!((reading.elements().len(), reading.params().len()), (1, 2));
}

#[test]
fn a_message_is_absent_or_empty() {
    let mut tables = Tables::new(0, 0);
    assert_eq!(tables.read_strict(b"<13>1 - h a p m -").unwrap().message(), None);
    assert_eq!(tables.read_strict(b"<13>1 - h a p m - ").unwrap().message(), Some(&b""[..]));
    assert_eq!(tables.read_strict(b"<13>1 - h a p m - \xff").unwrap().message(), Some(&b"\xff"[..]));
    let none = tables.read_strict(b"<13>1 - h a p m -").unwrap();
    assert_eq!(none.into_loose().unwrap().message(), b"");
}

#[test]
fn a_mark_in_front_of_a_message_stays_and_asks_for_utf8() {
    let mut tables = Tables::new(0, 0);
    let marked = tables.read_strict("<13>1 - h a p m - \u{feff}tür".as_bytes()).unwrap();
    assert_eq!(marked.message(), Some("\u{feff}tür".as_bytes()));
    assert_eq!(taken(b"<13>1 - h a p m - \xef\xbb\xbf\xff"), right_to(21));
}

#[test]
fn absent_fields() {
    let mut tables = Tables::new(0, 0);
    let reading = tables.read_strict(b"<13>1 - - - - - - x").unwrap();
    assert_eq!((reading.timestamp(), reading.timestamp_text()), (None, None));
    assert_eq!([reading.host(), reading.app_name(), reading.process_id(), reading.message_id()], [None; 4]);
}

#[test]
fn line_by_line() {
    // The loose reader takes the first and has no reading of the second.
    assert_eq!(taken(br#"<13>1 - h a p m [id a="x]y"]"#), right_to(24));
    assert_eq!(taken(b"<13>1 - h: a p m - x"), Ok(()));
    assert_eq!(taken(b"<13>1 2023-02-29T00:00:00Z h a p m - x"), right_to(15));
    assert_eq!(taken(b"<13>1 2024-02-29T00:00:00Z h a p m - x"), Ok(()));
    assert_eq!(taken(b"<191>1 - h a p m - x"), Ok(()));
    assert_eq!(taken(b"<192>1 - h a p m - x"), right_to(3));
    assert_eq!(taken(b"<013>1 - h a p m - x"), right_to(2));
    assert_eq!(taken(br#"<13>1 - h a p m [id a="x\"]"#), right_to(26));
    assert_eq!(taken(br#"<13>1 - h a p m [id a="x\\"]"#), Ok(()));
    assert_eq!(taken(b"<13>1 - h a p m [x]"), Ok(()));
    assert_eq!(taken(b"<13>1 - h a p m x"), right_to(16));
    assert_eq!(taken(b" <13>1 - h a p m - x"), right_to(0));
    assert_eq!(taken(b""), right_to(0));
}

#[test]
fn a_host_has_at_most_255_bytes() {
    let with_host = |len: usize| format!("<13>1 - {} a p m - x", "h".repeat(len));
    assert_eq!(taken(with_host(255).as_bytes()), Ok(()));
    assert_eq!(taken(with_host(256).as_bytes()), right_to(8 + 255));
}

#[test]
fn a_line_has_at_most_8192_bytes() {
    let mut line = b"<13>1 - h a p m - ".to_vec();
    line.resize(MAX_LINE, b'x');
    assert_eq!(taken(&line), Ok(()));
    line.push(b'x');
    assert_eq!(taken(&line), Err(Refusal::LineTooLong));
}

#[test]
fn a_fraction_has_at_most_six_digits_and_keeps_them() {
    let mut tables = Tables::new(0, 0);
    let mut read = |fraction: &str| {
        let line = format!("<13>1 2024-02-29T00:00:00{fraction}Z h a p m - x");
        let reading = tables.read_strict(line.as_bytes())?;
        let mut output = [0; 64];
        let printed = format!("<13>1 2024-02-29T00:00:00{fraction}+00:00 h a p m - x");
        assert_eq!(reading.print(&mut output), Ok(printed.as_bytes()));
        let (_, nanoseconds, digits, _) = stamp(reading);
        Ok((nanoseconds, digits, reading.timestamp().unwrap().resolution_nanoseconds()))
    };
    assert_eq!(read(""), Ok((0, 0, 1_000_000_000)));
    assert_eq!(read(".5"), Ok((500_000_000, 1, 100_000_000)));
    assert_eq!(read(".000"), Ok((0, 3, 1_000_000)));
    assert_eq!(read(".000001"), Ok((1_000, 6, 1_000)));
    assert_eq!(read(".500000"), Ok((500_000_000, 6, 1_000)));
    for (fraction, right) in [(".", 26), (".0000001", 32), (".500000000", 32)] {
        assert_eq!(read(fraction), right_to(right));
    }
}

#[test]
fn before_1970() {
    let mut tables = Tables::new(0, 0);
    let reading = tables.read_strict(b"<13>1 1969-12-31T23:59:58.5Z h a p m - x").unwrap();
    assert_eq!(stamp(reading), (-2, 500_000_000, 1, 0));
}

#[test]
fn examples_of_rfc5424() {
    let mut tables = Tables::new(2, 4);
    let line = "<34>1 2003-10-11T22:14:15.003Z mymachine.example.com su - ID47 - \u{feff}'su root' failed for lonvick on /dev/pts/8";
    let reading = tables.read_strict(line.as_bytes()).unwrap();
    assert_eq!((reading.facility(), reading.severity()), (Some(Facility::Auth), Some(Severity::Crit)));
    assert_eq!((reading.process_id(), reading.message_id()), (None, Some(&b"ID47"[..])));
    assert_eq!(reading.message(), Some("\u{feff}'su root' failed for lonvick on /dev/pts/8".as_bytes()));

    let line = b"<165>1 2003-08-24T05:14:15.000003-07:00 192.0.2.1 myproc 8710 - - %% It's time to make the do-nuts.";
    let reading = tables.read_strict(line).unwrap();
    assert_eq!(stamp(reading), (1_061_727_255, 3_000, 6, -420));
    assert_eq!((reading.process_id(), reading.message_id()), (Some(&b"8710"[..]), None));

    let line = br#"<165>1 2003-10-11T22:14:15.003Z mymachine.example.com evntslog - ID47 [exampleSDID@32473 iut="3" eventSource="Application" eventID="1011"][examplePriority@32473 class="high"]"#;
    let reading = tables.read_strict(line).unwrap();
    let ids: Vec<&[u8]> = reading.elements().map(|element| element.id()).collect();
    assert_eq!(ids, [&b"exampleSDID@32473"[..], b"examplePriority@32473"]);
    let values: Vec<&[u8]> = reading.params().map(|param| param.value()).collect();
    assert_eq!(values, [&b"3"[..], b"Application", b"1011", b"high"]);
    assert_eq!(reading.message(), None);
}

#[test]
fn timestamps_of_rfc5424() {
    let mut tables = Tables::new(0, 0);
    let mut seconds = |stamp: &str| {
        let line = format!("<13>1 {stamp} h a p m - x");
        tables.read_strict(line.as_bytes()).map(|reading| reading.timestamp().unwrap().seconds())
    };
    assert_eq!(seconds("1985-04-12T23:20:50.52Z"), Ok(482_196_050));
    assert_eq!(seconds("1985-04-12T19:20:50.52-04:00"), Ok(482_196_050));
    assert_eq!(seconds("2003-08-24T05:14:15.000000003-07:00"), right_to(32));
    assert_eq!(seconds("2003-08-24t05:14:15Z"), right_to(16));
    assert_eq!(seconds("2003-08-24T05:14:60Z"), right_to(23));
}
