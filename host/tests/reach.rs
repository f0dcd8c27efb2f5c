//! How far a line that the strict reader refuses is right: lines by hand, with the number of bytes that can stand.

#![cfg(feature = "std")]

use khamdoriem::{LooseAnswer, Offset, Refusal, Settings, Tables, Variant, Year, MAX_LINE};

/// The strict reader's refusal of a line.
fn refused(line: &[u8]) -> Refusal {
    Tables::for_any_line().read_strict(line).unwrap_err()
}

/// How far a line is right that begins with `right` and goes on with `wrong`: it must be where the two meet.
#[track_caller]
fn breaks(right: &str, wrong: &str) {
    assert_eq!(refused(format!("{right}{wrong}").as_bytes()).reach(), Some(right.len()), "{right}|{wrong}");
}

#[test]
fn a_date_breaks_at_the_digit_that_no_day_has() {
    breaks("<13>1 2023-02-2", "9T10:01:02Z gate7 reader 42 TAP - ok");
    breaks("<13>1 2023-02-", "30T10:01:02Z gate7 reader 42 TAP - ok");
    breaks("<13>1 2024-02-", "30T10:01:02Z gate7 reader 42 TAP - ok");
    breaks("<13>1 2023-04-3", "1T10:01:02Z gate7 reader 42 TAP - ok");
    breaks("<13>1 2023-01-3", "2T10:01:02Z gate7 reader 42 TAP - ok");
    breaks("<13>1 2023-01-0", "0T10:01:02Z gate7 reader 42 TAP - ok");
    breaks("<13>1 2023-1", "3-01T10:01:02Z gate7 reader 42 TAP - ok");
    breaks("<13>1 2023-0", "0-01T10:01:02Z gate7 reader 42 TAP - ok");
    breaks("<13>1 1900-02-2", "9T10:01:02Z gate7 reader 42 TAP - ok");
}

#[test]
fn the_header_breaks_at_its_first_wrong_byte() {
    breaks("", "13>1 - gate7 reader 42 TAP - ok");
    breaks("<", ">1 - gate7 reader 42 TAP - ok");
    breaks("<0", "13>1 - gate7 reader 42 TAP - ok");
    breaks("<19", "2>1 - gate7 reader 42 TAP - ok");
    breaks("<191", "1>1 - gate7 reader 42 TAP - ok");
    breaks("<13>", "01 - gate7 reader 42 TAP - ok");
    breaks("<13>999", "9 - gate7 reader 42 TAP - ok");
    breaks("<13>1 ", " - gate7 reader 42 TAP - ok");
    breaks("<13>1 2023-02-05T2", "4:00:00Z gate7 reader 42 TAP - ok");
    breaks("<13>1 2023-02-05T10:01:", "60Z gate7 reader 42 TAP - ok");
    breaks("<13>1 2023-02-05T10:01:02.123456", "7Z gate7 reader 42 TAP - ok");
    breaks("<13>1 2023-02-05T10:01:02.", "Z gate7 reader 42 TAP - ok");
    breaks("<13>1 2023-02-05T10:01:02+2", "4:00 gate7 reader 42 TAP - ok");
    breaks("<13>1 - ", " gate7 reader 42 TAP - ok");
    breaks(&format!("<13>1 - {}", "h".repeat(255)), "h reader 42 TAP - ok");
    breaks("<13>1 - gate7 reader 42 TAP ", "ok");
    breaks("<13>1 - gate7 reader 42 TAP -", "ok");
}

#[test]
fn structured_data_breaks_at_its_first_wrong_byte() {
    breaks("<13>1 - h a p m [", "]");
    breaks("<13>1 - h a p m [id", "=\"x\"]");
    breaks("<13>1 - h a p m [id ", "]");
    breaks("<13>1 - h a p m [id a", "]");
    breaks("<13>1 - h a p m [id a=", "x]");
    breaks("<13>1 - h a p m [id a=\"x", "]y\"]");
    breaks("<13>1 - h a p m [id a=\"x\\\"", "]");
    breaks("<13>1 - h a p m [id a=\"x\"", "b=\"y\"]");
    breaks("<13>1 - h a p m [id]", "x");
    breaks(&format!("<13>1 - h a p m [{}", "i".repeat(32)), "i]");
}

#[test]
fn an_id_that_is_used_breaks_where_it_ends() {
    breaks("<13>1 - h a p m [a][a", "]");
    breaks("<13>1 - h a p m [a][a", " b=\"c\"]");
    breaks("<13>1 - h a p m [ab][a][a", "] x");
    // Of 32 bytes it breaks at the last: no longer id begins so.
    let id = "i".repeat(32);
    breaks(&format!("<13>1 - h a p m [{id}][{}", &id[1..]), "i]");
    // Of 31 bytes it breaks one byte earlier where all 91 longer ones are used too, and else behind the 31.
    let id = "i".repeat(31);
    let mut line = format!("<13>1 - h a p m [{id}]");
    for byte in ('!'..='~').filter(|byte| !"=]\"".contains(*byte) && *byte != 'q') {
        line += &format!("[{id}{byte}]");
    }
    breaks(&format!("{line}[{id}"), "]");
    breaks(&format!("{line}[{id}q]"), "x");
    breaks(&format!("{line}[{id}q][{}", &id[1..]), "i]");
}

#[test]
fn bytes_that_are_no_utf8_break_where_no_character_goes_on_so() {
    let front = &b"<13>1 - h a p m [id a=\""[..];
    for (right, wrong) in [
        (&b""[..], &b"\xff"[..]),
        (b"\xc3", b"x"),
        (b"\xe0", b"\x80\x80"),
        (b"\xed", b"\xa0\x80"),
        (b"\xf0\x90", b"\""),
        (b"\xf4", b"\x90\x80\x80"),
    ] {
        let line = [front, right, wrong, b"\"] x"].concat();
        assert_eq!(refused(&line).reach(), Some(front.len() + right.len()));
        let front = &b"<13>1 - h a p m - \xef\xbb\xbf"[..];
        let line = [front, right, wrong].concat();
        assert_eq!(refused(&line).reach(), Some(front.len() + right.len()));
    }
}

#[test]
fn a_line_cut_short_is_right_as_far_as_it_goes() {
    let elements = r#"[t@32473 ms="212"][u n="\"ö"]"#;
    let line = format!("<13>1 2024-02-29T10:01:02.5+01:00 gate7 reader 42 TAP {elements} \u{feff}tür ok");
    let line = line.as_bytes();
    let mut tables = Tables::for_any_line();
    let (mut read, mut cut) = (0, 0);
    for len in 0..=line.len() {
        match tables.read_strict(&line[..len]) {
            Ok(_) => read += 1,
            Err(refusal) => {
                cut += 1;
                assert_eq!(refusal, Refusal::NoReading { reach: Some(len) });
                assert_eq!(refusal.column(), Some(len + 1));
            }
        }
    }
    // It ends well behind both elements, behind the space, in the mark, and behind each character that is whole.
    assert_eq!((read, cut), (12, line.len() + 1 - 12));
}

#[test]
fn the_longest_line_can_be_right_to_its_last_byte() {
    let mut line = b"<13>1 - h a p m [id a=\"".to_vec();
    line.resize(MAX_LINE, b'x');
    assert_eq!(refused(&line).reach(), Some(MAX_LINE));
    line.push(b'x');
    assert_eq!(refused(&line), Refusal::LineTooLong);
}

#[test]
fn other_refusals_have_no_place() {
    let settings = Settings::new(Variant::Either, Year::MIN, Offset::UTC);
    let mut tables = Tables::new(0, 0);
    assert_eq!(tables.read_strict(b"<13>1 - h a p m [id] x").unwrap_err().reach(), None);
    let loose = tables.read_loose(b"tap ok", settings).and_then(LooseAnswer::exact).unwrap_err();
    assert_eq!((loose, loose.column()), (Refusal::NoReading { reach: None }, None));
}
