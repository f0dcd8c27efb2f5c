//! What README says to write in place of each item of syslog_loose, row by row.

#![cfg(feature = "std")]

use std::time::{Duration, SystemTime};

use khamdoriem::{
    Facility, Offset, Protocol, Reading, Refusal, Settings, Severity, Tables, Unescape, Variant, Year, MAX_LINE,
};

const OLD: &str = r#"<165>Feb  5 10:01:02 gate7 reader[042]: [stage@32473 name="deny\"list\"" ms="212"] tap ok"#;

fn settings() -> Settings {
    Settings::new(Variant::Either, Year::new(2023).unwrap(), Offset::from_minutes(60).unwrap())
}

/// `parse_message_with_year_tz`
fn parse_message<'line, 'tables>(
    input: &'line str,
    tables: &'tables mut Tables<'_>,
) -> Result<Reading<'line, 'tables>, Refusal> {
    Ok(tables.read_loose(input.as_bytes(), settings())?.or_whole())
}

/// `parse_message_with_year_exact_tz`
fn parse_message_exact<'line, 'tables>(
    input: &'line str,
    tables: &'tables mut Tables<'_>,
) -> Result<Reading<'line, 'tables>, Refusal> {
    tables.read_loose(input.as_bytes(), settings())?.exact()
}

#[test]
fn functions() {
    let mut tables = Tables::for_any_line();
    assert_eq!(parse_message(OLD, &mut tables).unwrap().message_str(), "tap ok");
    assert_eq!(parse_message("no line", &mut tables).unwrap().message_str(), "no line");
    assert_eq!(parse_message_exact(OLD, &mut tables).unwrap().message_str(), "tap ok");
    assert_eq!(parse_message_exact("no line", &mut tables).unwrap_err(), Refusal::NoReading { reach: None });
    // Its own error is gone; what is here beside it is of the length and of the tables.
    assert_eq!(parse_message(&"x".repeat(MAX_LINE + 1), &mut tables).unwrap_err(), Refusal::LineTooLong);
    assert_eq!(parse_message(OLD, &mut Tables::new(0, 0)).unwrap_err(), Refusal::TooManyElements);
}

#[test]
fn a_form_with_a_year_is_utc() {
    let mut tables = Tables::new(0, 0);
    let reading = parse_message("<13>Feb 5 2023 10:01:02 gate7 reader: ok", &mut tables).unwrap();
    assert_eq!(reading.timestamp().unwrap().to_string(), "2023-02-05T11:01:02+01:00");
}

#[test]
fn header_fields() {
    let mut tables = Tables::for_any_line();
    let reading = parse_message(OLD, &mut tables).unwrap();
    assert_eq!(reading.protocol(), Protocol::Rfc3164);
    assert_eq!((reading.facility(), reading.severity()), (Some(Facility::Local4), Some(Severity::Notice)));
    assert_eq!(reading.facility().map(Facility::as_str), Some("local4"));
    assert_eq!(reading.severity().map(Severity::number), Some(5));
    let owned: Option<String> = reading.host_str().map(String::from);
    assert_eq!(owned.as_deref(), Some("gate7"));
    assert_eq!((reading.app_name_str(), reading.message_id_str()), (Some("reader"), None));
    assert_eq!(reading.process_id_str(), Some("042"));
    assert_eq!(reading.process_id_str().map(str::parse::<i32>), Some(Ok(42)));
    let named = parse_message("<13>1 - gate7 reader main TAP - ok", &mut tables).unwrap();
    assert_eq!(named.process_id_str().map(|id| id.parse::<i32>().map_err(|_| id)), Some(Err("main")));
    assert_eq!(named.protocol(), Protocol::Rfc5424 { version: 1 });
}

#[test]
fn decompose_pri() {
    let decompose_pri = |pri: u8| (Facility::from_number(pri >> 3), Severity::from_number(pri & 7));
    assert_eq!(decompose_pri(0), (Some(Facility::Kern), Some(Severity::Emerg)));
    assert_eq!(decompose_pri(165), (Some(Facility::Local4), Some(Severity::Notice)));
    assert_eq!(decompose_pri(191), (Some(Facility::Local7), Some(Severity::Debug)));
    assert_eq!(decompose_pri(192), (None, Some(Severity::Emerg)));
}

#[test]
fn timestamps() {
    let mut tables = Tables::for_any_line();
    let timestamp = parse_message(OLD, &mut tables).unwrap().timestamp().unwrap();
    assert_eq!(timestamp.to_string(), "2023-02-05T10:01:02+01:00");
    assert_eq!((timestamp.seconds(), timestamp.nanoseconds()), (1_675_587_662, 0));
    assert_eq!((timestamp.digits(), timestamp.offset().minutes()), (0, 60));
    assert_eq!(SystemTime::from(timestamp), SystemTime::UNIX_EPOCH + Duration::from_secs(1_675_587_662));
}

#[test]
fn structured_data() {
    let mut tables = Tables::for_any_line();
    let reading = parse_message(OLD, &mut tables).unwrap();
    let ids: Vec<&str> = reading.elements().map(|element| element.id_str()).collect();
    assert_eq!(ids, ["stage@32473"]);
    let stage = reading.elements_with("stage@32473").next().unwrap();
    let raw: Vec<(&str, &str)> = stage.params().map(|param| (param.name_str(), param.value_str())).collect();
    assert_eq!(raw, [("name", r#"deny\"list\""#), ("ms", "212")]);
    let mut buffer = [0; MAX_LINE];
    let mut unescaped: Vec<(&str, String)> = Vec::new();
    for param in stage.params() {
        unescaped.push((param.name_str(), param.unescaped_str(Unescape::Loose, &mut buffer).unwrap().to_string()));
    }
    assert_eq!(unescaped, [("name", r#"deny"list""#.to_string()), ("ms", "212".to_string())]);
    assert_eq!(stage.get("ms").map(|ms| ms.value_str()), Some("212"));
}

#[test]
fn display() {
    let mut tables = Tables::for_any_line();
    let reading = parse_message(OLD, &mut tables).unwrap();
    let text =
        r#"<165> 2023-02-05T10:01:02+01:00 gate7 reader[042]: [stage@32473 name="deny\"list\"" ms="212"] tap ok"#;
    assert_eq!(reading.to_string(), text);
    let mut output = [0; 128];
    assert_eq!(reading.print(&mut output), Ok(text.as_bytes()));
}
