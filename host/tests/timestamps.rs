//! Timestamps as RFC 3339 and as `SystemTime`.

#![cfg(feature = "std")]

use std::time::{Duration, SystemTime};

use khamdoriem::{Offset, Settings, Tables, Timestamp, Variant, Year};

const SETTINGS: Settings = Settings::new(Variant::Either, Year::MIN, Offset::UTC);

/// The timestamp, and what the archive prints of it.
fn read(tables: &mut Tables<'_>, stamp: &str) -> (Timestamp, String) {
    let line = format!("<13>1 {stamp} gate7 reader 42 TAP - ok");
    let reading = tables.read_loose(line.as_bytes(), SETTINGS).unwrap().exact().expect(stamp);
    let mut output = [0; 128];
    let printed = reading.print_str(&mut output).unwrap();
    (reading.timestamp().unwrap(), printed.split(' ').nth(1).unwrap().to_string())
}

#[test]
fn a_timestamp_is_shown_as_it_prints() {
    let mut tables = Tables::new(0, 0);
    let mut shown = |stamp: &str| {
        let (timestamp, printed) = read(&mut tables, stamp);
        assert_eq!(timestamp.to_string(), printed);
        printed
    };
    // The years at the ends of every century, at their own ends and around their leap days.
    for year in (0..10_000).filter(|year| !(5..=95).contains(&(year % 100))) {
        let leap = year % 4 == 0 && (year % 100 != 0 || year % 400 == 0);
        for day in ["01-01", "02-28", if leap { "02-29" } else { "03-01" }, "12-31"] {
            let stamp = format!("{year:04}-{day}T23:59:59+00:00");
            assert_eq!(shown(&stamp), stamp);
        }
    }
    // Every day of a year of each kind.
    for (year, days) in [(2023, 28), (2024, 29)] {
        for (month, days) in [31, days, 31, 30, 31, 30, 31, 31, 30, 31, 30, 31].into_iter().enumerate() {
            for day in 1..=days {
                let stamp = format!("{year}-{:02}-{day:02}T00:00:00.0+00:00", month + 1);
                assert_eq!(shown(&stamp), stamp);
            }
        }
    }
    // Every minute of a day, and offsets over midnight either way.
    for minute in 0..1440 {
        let (hour, minute) = (minute / 60, minute % 60);
        for sign in if (hour, minute) == (0, 0) { "+" } else { "+-" }.chars() {
            let stamp = format!("1970-01-01T{hour:02}:{minute:02}:07.000001{sign}{hour:02}:{minute:02}");
            assert_eq!(shown(&stamp), stamp);
        }
    }
    assert_eq!(shown("1970-01-01T00:00:00-00:00"), "1970-01-01T00:00:00+00:00");
    for end in ["0000-01-01T00:00:00+23:59", "9999-12-31T23:59:59.999999999-23:59"] {
        assert_eq!(shown(end), end);
    }
}

#[test]
fn a_system_time_is_cut_to_the_digits_before_1970_too() {
    let at = |nanoseconds: i64| match u64::try_from(nanoseconds) {
        Ok(since) => SystemTime::UNIX_EPOCH + Duration::from_nanos(since),
        Err(_) => SystemTime::UNIX_EPOCH - Duration::from_nanos(nanoseconds.unsigned_abs()),
    };
    for nanoseconds in
        [0, 1, -1, 999_999_999, -999_999_999, 1_000_000_000, -1_000_000_000, -1_500_000_001, 1_767_607_262_215_678_901]
    {
        for digits in 0..=9 {
            let stamp = Timestamp::from_system_time(at(nanoseconds), digits, Offset::UTC).unwrap();
            let step = i64::from(stamp.resolution_nanoseconds());
            assert_eq!(SystemTime::from(stamp), at(nanoseconds.div_euclid(step) * step));
            assert_eq!(stamp.digits(), digits);
        }
    }
    assert_eq!(Timestamp::from_system_time(at(0), 10, Offset::UTC), None);
    let past = SystemTime::UNIX_EPOCH + Duration::from_secs(253_402_300_800);
    assert_eq!(Timestamp::from_system_time(past, 0, Offset::UTC), None);
    assert!(Timestamp::from_system_time(past, 0, Offset::MIN).is_some());
}

#[test]
fn the_digits_of_a_fraction_are_shown() {
    let mut tables = Tables::new(0, 0);
    for fraction in ["", ".0", ".5", ".05", ".000", ".500", ".500000", ".1234567", ".000000001", ".999999999"] {
        let (timestamp, _) = read(&mut tables, &format!("2026-01-05T10:01:02{fraction}Z"));
        assert_eq!(timestamp.to_string(), format!("2026-01-05T10:01:02{fraction}+00:00"));
    }
}

#[test]
fn a_timestamp_is_a_system_time() {
    let mut tables = Tables::new(0, 0);
    let mut at = |stamp: &str| SystemTime::from(read(&mut tables, stamp).0);
    let (epoch, nanoseconds) = (SystemTime::UNIX_EPOCH, Duration::from_nanos);
    assert_eq!(at("1970-01-01T00:00:00Z"), epoch);
    assert_eq!(at("1970-01-01T00:00:00.000000001Z"), epoch + nanoseconds(1));
    assert_eq!(at("2026-01-05T11:01:02.5+01:00"), epoch + Duration::from_millis(1_767_607_262_500));
    // Before 1970 a fraction still counts forward.
    assert_eq!(at("1969-12-31T23:59:59.999999999Z"), epoch - nanoseconds(1));
    assert_eq!(at("1969-12-31T23:59:59Z"), epoch - Duration::from_secs(1));
    assert_eq!(at("1969-12-31T23:59:58.25Z"), epoch - Duration::from_millis(1_750));
    assert_eq!(at("0000-01-01T00:00:00Z"), epoch - Duration::from_secs(62_167_219_200));
    assert_eq!(at("9999-12-31T23:59:59Z"), epoch + Duration::from_secs(253_402_300_799));
}
