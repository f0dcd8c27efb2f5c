//! Texts as `str`, and what is shown: readings, protocols, facilities and severities.

#![cfg(feature = "std")]

use khamdoriem::{
    Facility, Loose, LooseAnswer, Offset, Protocol, Reading, Refusal, Settings, Severity, Tables, Unescape, Variant,
    Year, MAX_ELEMENTS, MAX_LINE, MAX_PARAMS, MAX_PRINTED,
};

const SETTINGS: Settings = Settings::new(Variant::Either, Year::MIN, Offset::UTC);
const TURNSTILE: &str =
    r#"<165>1 2026-01-05T10:01:02.50Z türe9 lesegerät 4²2 TÜR [stufe@32473 näme="ö\"l\"" ms="212"][b@1] schließt"#;

fn read<'line, 'tables>(tables: &'tables mut Tables<'_>, line: &'line str) -> Reading<'line, 'tables, Loose> {
    tables.read_loose(line.as_bytes(), SETTINGS).unwrap().exact().unwrap()
}

#[test]
fn texts_of_a_loose_reading() {
    let mut tables = Tables::new(4, 4);
    let reading = read(&mut tables, TURNSTILE);
    assert_eq!(reading.host_str(), Some("türe9"));
    assert_eq!(reading.app_name_str(), Some("lesegerät"));
    assert_eq!(reading.process_id_str(), Some("4²2"));
    assert_eq!(reading.message_id_str(), Some("TÜR"));
    assert_eq!(reading.message_str(), "schließt");
    assert_eq!(reading.line_str(), TURNSTILE);
    let ids: Vec<&str> = reading.elements().map(|element| element.id_str()).collect();
    assert_eq!(ids, ["stufe@32473", "b@1"]);
    let param = reading.params().next().unwrap();
    assert_eq!((param.id_str(), param.name_str(), param.value_str()), ("stufe@32473", "näme", r#"ö\"l\""#));
    let mut output = [0; MAX_LINE];
    assert_eq!(param.unescaped_str(Unescape::Loose, &mut output), Ok("ö\"l\""));
    assert_eq!(reading.lookup_str("stufe@32473", "näme", Unescape::Loose, &mut output), Ok("ö\"l\""));
    assert_eq!(reading.lookup_str("b@1", "näme", Unescape::Loose, &mut output), Err(Refusal::NoSuchParam));
    let mut output = [0; MAX_PRINTED];
    assert_eq!(reading.print_str(&mut output), Ok(TURNSTILE.replace('Z', "+00:00").as_str()));
}

#[test]
fn absent_texts_are_no_texts() {
    let mut tables = Tables::new(0, 0);
    let reading = read(&mut tables, "<13>1 - - - - - -");
    let texts = [reading.host_str(), reading.app_name_str(), reading.process_id_str(), reading.message_id_str()];
    assert_eq!((texts, reading.message_str()), ([None; 4], ""));
    // Absent and empty differ.
    let reading = read(&mut tables, "<13>Feb 5 10:01:02 [1]: m");
    assert_eq!((reading.host_str(), reading.app_name_str(), reading.process_id_str()), (None, Some(""), Some("1")));
}

#[test]
fn the_text_of_a_whole_line() {
    let mut tables = Tables::new(0, 0);
    match tables.read_loose("  Tür klemmt ".as_bytes(), SETTINGS).unwrap() {
        LooseAnswer::Whole(whole) => assert_eq!(whole.message_str(), "  Tür klemmt "),
        LooseAnswer::Read(reading) => panic!("{reading:?}"),
    }
}

#[test]
fn texts_of_a_strict_reading() {
    let mut tables = Tables::new(1, 1);
    let line = r#"<13>1 2026-01-05T10:01:02.50Z gate7 reader 42 TAP [a@1 x="ö\]"] ok"#;
    let reading = tables.read_strict(line.as_bytes()).unwrap();
    let texts = [reading.host_str(), reading.app_name_str(), reading.process_id_str(), reading.message_id_str()];
    assert_eq!(texts, [Some("gate7"), Some("reader"), Some("42"), Some("TAP")]);
    assert_eq!(reading.timestamp_text_str(), Some("2026-01-05T10:01:02.50Z"));
    let param = reading.params().next().unwrap();
    assert_eq!((param.id_str(), param.name_str(), param.value_str()), ("a@1", "x", r"ö\]"));
    let mut output = [0; 8];
    assert_eq!(param.unescaped_str(Unescape::Strict, &mut output), Ok("ö]"));
    assert_eq!(reading.lookup_str("a@1", "x", Unescape::Strict, &mut output), Ok("ö]"));
}

#[test]
fn a_strict_reading_passes_for_a_loose_one_where_its_message_is_utf8() {
    let mut tables = Tables::new(0, 0);
    for (message, expected) in [
        ("", Ok("")),
        (" ", Ok("")),
        (" Tür", Ok("Tür")),
        (" \u{feff}Tür", Ok("\u{feff}Tür")),
        ("\u{0}", Err(Refusal::NoReading { reach: Some(17) })),
    ] {
        let line = format!("<13>1 - h a p m -{message}");
        let read = tables.read_strict(line.as_bytes()).and_then(Reading::into_loose);
        assert_eq!(read.map(|reading| reading.message_str()), expected);
        assert_eq!(read.map(|reading| reading.line_str()).ok(), expected.map(|_| line.as_str()).ok());
    }
    // A character cut short, bytes that begin none, a surrogate, a number past the last.
    for message in [&b"T\xc3"[..], b"\xff", b"\x80", b"\xed\xa0\x80", b"\xf4\x90\x80\x80"] {
        let line = [&b"<13>1 - h a p m - "[..], message].concat();
        let reading = tables.read_strict(&line).unwrap();
        assert_eq!(reading.message(), Some(message));
        assert_eq!(reading.into_loose().unwrap_err(), Refusal::NotUtf8);
        assert_eq!(tables.read_loose(&line, SETTINGS).unwrap_err(), Refusal::NotUtf8);
    }
}

#[test]
fn every_text_of_damaged_lines_is_utf8() {
    // A build with debug assertions checks each text that is asked for.
    fn ask<Kind>(reading: Reading<'_, '_, Kind>) -> usize {
        let mut output = [0; MAX_LINE];
        let texts = [reading.host_str(), reading.app_name_str(), reading.process_id_str(), reading.message_id_str()];
        let mut len = texts.iter().flatten().map(|text| text.chars().count()).sum::<usize>();
        for param in reading.params() {
            len += param.id_str().len() + param.name_str().len() + param.value_str().len();
            for unescape in [Unescape::Loose, Unescape::Strict] {
                len += param.unescaped_str(unescape, &mut output).unwrap().chars().count();
            }
        }
        len
    }
    let strict_line = r#"<13>1 2026-01-05T10:01:02.50Z gate7 reader 42 TAP [a@1 x="ö\]" y="€"][b@1] Tür"#;
    let mut tables = Tables::for_any_line();
    let (mut loose, mut strict, mut characters) = (0, 0, 0);
    for line in [TURNSTILE, strict_line] {
        for (at, byte) in
            (0..line.len()).flat_map(|at| b"\"\\] <-:\n\x80\xc3\xe2\xff".iter().map(move |&byte| (at, byte)))
        {
            let mut line = line.as_bytes().to_vec();
            line[at] = byte;
            if let Ok(answer) = tables.read_loose(&line, SETTINGS) {
                let reading = answer.or_whole();
                let mut output = [0; MAX_PRINTED];
                characters += ask(reading) + reading.message_str().chars().count();
                characters += reading.print_str(&mut output).unwrap().chars().count();
                loose += 1;
            }
            if let Ok(reading) = tables.read_strict(&line) {
                characters += ask(reading);
                strict += 1;
            }
        }
    }
    assert!(loose > 1000 && strict > 200 && characters > 0, "{loose} loose, {strict} strict");
}

#[test]
fn readings_are_shown_as_they_print() {
    let mut tables = Tables::new(4, 4);
    for line in [TURNSTILE, "<13>Feb 29 10:01:02 gate7 reader[42]: Tür", "tap ok", "", "<13>1 - - - - - -"] {
        let reading = tables.read_loose(line.as_bytes(), SETTINGS).unwrap().or_whole();
        let mut output = [0; MAX_PRINTED];
        assert_eq!(reading.to_string(), reading.print_str(&mut output).unwrap());
    }
    let strict = tables.read_strict(b"<13>1 2026-01-05T10:01:02.50Z gate7 reader 42 TAP - ok").unwrap();
    assert_eq!(strict.to_string(), "<13>1 2026-01-05T10:01:02.50+00:00 gate7 reader 42 TAP - ok");
}

#[test]
fn a_message_that_is_not_utf8_is_shown_as_std_shows_it() {
    let mut tables = Tables::new(0, 0);
    for message in [
        &b"\xff"[..],
        b"\xc3",
        b"T\xc3",
        b"\xc3\xbc\xc3",
        b"a\xffb\xffc",
        b"\xff\xfe",
        b"\xe2\x82",
        b"\xe2\x82x",
        b"\xf0\x9f\x98\x80\xf0\x9f\x98",
        b"\xed\xa0\x80.",
        b"\x80\x80 ok",
    ] {
        let line = [&b"<13>1 - gate7 reader 42 TAP - "[..], message].concat();
        let reading = tables.read_strict(&line).unwrap();
        assert_eq!(reading.to_string(), String::from_utf8_lossy(&line));
    }
}

/// The line, of so many bytes at most, with as many of a unit as go in.
fn filled(head: &str, unit: &str, tail: &str) -> (usize, String) {
    let times = (MAX_LINE - head.len() - tail.len()) / unit.len();
    (times, format!("{head}{}{tail}", unit.repeat(times)))
}

#[test]
fn what_is_enough_for_any_line_is_hardly_more_than_the_most() {
    let mut tables = Tables::for_any_line();
    let mut counts = |line: &str| {
        let reading = read(&mut tables, line);
        (reading.elements().len(), reading.params().len(), reading.to_string().len())
    };
    let (times, line) = filled("1 - h a p m ", "[x]", "");
    assert_eq!((times, counts(&line).0), (2726, 2726));
    let (times, line) = filled("-[x\n=\"\"", " a=\"\"", "]");
    assert_eq!((times, counts(&line).1), (1636, 1637));
    let (times, mut line) = filled("Feb 5 1:2:3", "[x\n=\"\"]", "");
    line.push_str(&"x".repeat(MAX_LINE - line.len()));
    assert_eq!((times, counts(&line).2), (1168, 9385));
    assert_eq!((MAX_ELEMENTS, MAX_PARAMS, MAX_PRINTED), (2730, 1638, 9385));
}

#[test]
fn protocols_are_shown() {
    assert_eq!(Protocol::Rfc3164.to_string(), "RFC 3164");
    assert_eq!(Protocol::Rfc5424 { version: 1 }.to_string(), "RFC 5424 version 1");
    assert_eq!(format!("[{:>10}]", Protocol::Rfc3164), "[  RFC 3164]");
}

#[test]
fn names_of_facilities_and_severities() {
    let facilities = "kern user mail daemon auth syslog lpr news uucp cron authpriv ftp ntp audit alert clockd \
        local0 local1 local2 local3 local4 local5 local6 local7";
    let severities = "emerg alert crit err warning notice info debug";
    let mut tables = Tables::new(0, 0);
    for (f, facility) in facilities.split(' ').enumerate() {
        for (s, severity) in severities.split(' ').enumerate() {
            let line = format!("<{}>1 - gate7 reader 42 TAP - ok", 8 * f + s);
            let reading = read(&mut tables, &line);
            assert_eq!(reading.facility().unwrap().as_str(), facility);
            assert_eq!(reading.severity().unwrap().to_string(), severity);
            assert_eq!(usize::from(reading.facility().unwrap().number()), f);
            assert_eq!(usize::from(reading.severity().unwrap().number()), s);
        }
    }
    assert_eq!((facilities.split(' ').count(), severities.split(' ').count()), (24, 8));
    for number in 0..=255 {
        assert_eq!(Facility::from_number(number).map(Facility::number), Some(number).filter(|&n| n < 24));
        assert_eq!(Severity::from_number(number).map(Severity::number), Some(number).filter(|&n| n < 8));
    }
    assert!(Severity::Err < Severity::Warning);
    assert_eq!(read(&mut tables, "<192>1 - h a p m - x").facility(), None);
}
