//! Each refusal by its number, that it leaves what it was lent, and that 2 and, of a reading, 7 do not arise.

#![cfg(feature = "std")]

use std::thread;

use khamdoriem::{LooseAnswer, Offset, Reading, Refusal, Settings, Tables, Unescape, Variant, Year, MAX_LINE};

const SETTINGS: Settings = Settings::new(Variant::Either, Year::MIN, Offset::UTC);
const TWO_BY_TWO: &[u8] = br#"<13>1 - gate7 reader 42 TAP [a@1 x="1"][b@1 y="2"] ok"#;

fn refused<T: std::fmt::Debug>(result: Result<T, Refusal>) -> u32 {
    result.unwrap_err().number()
}

#[test]
fn number_1() {
    let mut tables = Tables::new(0, 0);
    let mut line = b"<13>1 - h a p m - ".to_vec();
    line.resize(MAX_LINE, b'x');
    assert_eq!(tables.read_loose(&line, SETTINGS).unwrap().exact().unwrap().message(), &line[18..]);
    line.push(b'x');
    assert_eq!(refused(tables.read_loose(&line, SETTINGS)), 1);
    assert_eq!(refused(tables.read_strict(&line)), 1);
}

#[test]
fn number_3() {
    let mut tables = Tables::new(0, 0);
    let line = b"<13>1 - h a p m - \xff";
    assert_eq!(refused(tables.read_loose(line, SETTINGS)), 3);
    assert!(tables.read_strict(line).is_ok());
}

#[test]
fn number_4() {
    let mut tables = Tables::new(0, 0);
    assert_eq!(refused(tables.read_strict(b"tap ok")), 4);
    assert_eq!(refused(tables.read_loose(b"tap ok", SETTINGS).and_then(LooseAnswer::exact)), 4);
    assert!(matches!(tables.read_loose(b"tap ok", SETTINGS), Ok(LooseAnswer::Whole(_))));
}

#[test]
fn a_line_with_no_reading_is_refused_all_the_same_with_1_and_3() {
    let mut tables = Tables::new(0, 0);
    let mut line = vec![b'x'; MAX_LINE];
    assert!(matches!(tables.read_loose(&line, SETTINGS), Ok(LooseAnswer::Whole(_))));
    line[0] = b'\xff';
    assert_eq!(refused(tables.read_loose(&line, SETTINGS)), 3);
    line.push(b'x');
    assert_eq!(refused(tables.read_loose(&line, SETTINGS)), 1);
}

#[test]
fn numbers_5_and_6() {
    for (elements, params, number) in [(0, 0, 5), (1, 2, 5), (2, 1, 6), (2, 0, 6)] {
        let mut tables = Tables::new(elements, params);
        assert_eq!(refused(tables.read_loose(TWO_BY_TWO, SETTINGS)), number);
        assert_eq!(refused(tables.read_strict(TWO_BY_TWO)), number);
    }
    let mut tables = Tables::new(2, 2);
    assert_eq!((tables.element_capacity(), tables.param_capacity()), (2, 2));
    assert!(matches!(tables.read_loose(TWO_BY_TWO, SETTINGS), Ok(LooseAnswer::Read(_))));
    assert!(tables.read_strict(TWO_BY_TWO).is_ok());
}

#[test]
fn number_8_leaves_the_output_alone() {
    let mut tables = Tables::new(2, 2);
    let reading = tables.read_strict(TWO_BY_TWO).unwrap();
    let mut output = [b'.'; 64];
    let len = reading.print(&mut output).unwrap().len();
    assert_eq!(&output[..len], TWO_BY_TWO);
    assert!(output[len..].iter().all(|&byte| byte == b'.'));

    output = [b'.'; 64];
    assert_eq!(refused(reading.print(&mut output[..len - 1])), 8);
    assert_eq!(output, [b'.'; 64]);
    assert_eq!(refused(reading.print(&mut [])), 8);
    assert_eq!(refused(reading.lookup(b"a@1", b"x", Unescape::Loose, &mut [])), 8);
    assert!(reading.print(&mut output[..len]).is_ok());
}

#[test]
fn number_9_comes_before_8() {
    let mut tables = Tables::new(2, 2);
    let reading = tables.read_strict(TWO_BY_TWO).unwrap();
    let mut output = [b'.'; 4];
    assert_eq!(refused(reading.lookup(b"a@1", b"y", Unescape::Strict, &mut output)), 9);
    assert_eq!(refused(reading.lookup(b"a@1", b"y", Unescape::Strict, &mut [])), 9);
    assert_eq!(&output, b"....");
}

#[test]
fn tables_are_read_into_again() {
    let mut tables = Tables::new(2, 2);
    let hosts: Vec<_> = [TWO_BY_TWO, b"<13>1 - gate8 reader 42 TAP - ok", b"no line", TWO_BY_TWO]
        .into_iter()
        .map(|line| match tables.read_strict(line) {
            Ok(r) => (r.host(), r.elements().len(), r.params().map(|p| p.value()).collect::<Vec<_>>()),
            Err(_) => (None, 0, vec![]),
        })
        .collect();
    let two = (Some(&b"gate7"[..]), 2, vec![&b"1"[..], &b"2"[..]]);
    assert_eq!(hosts, [two.clone(), (Some(&b"gate8"[..]), 0, vec![]), (None, 0, vec![]), two]);
}

#[test]
fn a_loose_reading_after_a_strict_one_and_back() {
    let mut tables = Tables::new(2, 2);
    let strict = tables.read_strict(b"<13>1 2026-01-05T10:01:02Z gate7 reader 42 TAP - ok").unwrap();
    assert_eq!(strict.timestamp_text(), Some(&b"2026-01-05T10:01:02Z"[..]));
    let loose = tables.read_loose(TWO_BY_TWO, SETTINGS).unwrap().or_whole();
    assert_eq!((loose.timestamp(), loose.message()), (None, &b"ok"[..]));
    let strict = tables.read_strict(b"<13>1 - gate7 reader 42 TAP -").unwrap();
    assert_eq!((strict.timestamp_text(), strict.message()), (None, None));
}

#[test]
fn each_thread_reads_with_its_own_tables() {
    thread::scope(|scope| {
        for gate in 0..4 {
            scope.spawn(move || {
                let line = format!("<13>1 - gate{gate} reader {gate}{gate} TAP [a@1 x=\"{gate}\"] ok");
                let mut tables = Tables::new(1, 1);
                for _ in 0..500 {
                    let reading = tables.read_strict(line.as_bytes()).unwrap();
                    let mut output = [0; 64];
                    assert_eq!(reading.print(&mut output), Ok(line.as_bytes()));
                }
            });
        }
    });
}

/// Prints the reading and looks each of its parameters up. An answer of 2 or 7 would panic.
fn use_all<Kind>(reading: Reading<'_, '_, Kind>) {
    let mut output = [0; MAX_LINE + 64];
    assert!(reading.print(&mut output).is_ok());
    for param in reading.params() {
        for unescape in [Unescape::Loose, Unescape::Strict] {
            assert!(reading.lookup(param.id(), param.name(), unescape, &mut output).is_ok());
            assert!(param.unescaped(unescape, &mut output).is_ok());
        }
    }
}

#[test]
fn number_2_does_not_arise_at_the_ends_of_the_ranges() {
    assert_eq!((Year::new(0), Year::new(9999), Year::new(10_000)), (Some(Year::MIN), Some(Year::MAX), None));
    assert_eq!(Year::new(u32::MAX), None);
    assert_eq!((Offset::from_minutes(-1439), Offset::from_minutes(-1440)), (Some(Offset::MIN), None));
    assert_eq!((Offset::from_minutes(1439), Offset::from_minutes(1440)), (Some(Offset::MAX), None));
    assert_eq!((Offset::from_minutes(i32::MIN), Offset::from_minutes(i32::MAX)), (None, None));

    let first = b"<13>Jan 1 00:00:00 gate7 reader[42]: tap ok";
    let last = b"<13>Dec 31 23:59:59 gate7 reader[42]: tap ok";
    let lines = [TWO_BY_TWO, first, last, b"no line"];
    let mut tables = Tables::new(2, 2);
    for variant in [Variant::Either, Variant::Rfc3164, Variant::Rfc5424] {
        for year in [Year::MIN, Year::MAX] {
            for offset in [Offset::MIN, Offset::UTC, Offset::MAX] {
                let settings = Settings::new(variant, year, offset);
                for line in lines {
                    use_all(tables.read_loose(line, settings).unwrap().or_whole());
                }
            }
        }
    }
}

#[test]
fn number_7_does_not_arise_from_damaged_lines() {
    // Each line with each byte replaced in turn, and each of its beginnings: what is read can be printed and looked up.
    let lines: [&[u8]; 3] = [
        br#"<13>1 2026-01-05T10:01:02.003Z gate7 reader 42 TAP [a@1 x="1\"" z="]"][b@1 y=""] ok"#,
        br#"<13>Feb  5 10:01:02 gate7 reader[42]: [a@1 x="1" z="2"] tap ok"#,
        b"<191>1 - - - - - -",
    ];
    let mut tables = Tables::for_any_line();
    let mut taken = 0;
    for line in lines {
        for at in 0..=line.len() {
            for byte in *b"\"\\]=[ <-:9\n\xc2" {
                let mut damaged = line.to_vec();
                match damaged.get_mut(at) {
                    Some(place) => *place = byte,
                    None => damaged.push(byte),
                }
                taken += strict_and_loose(&mut tables, &damaged);
            }
            taken += strict_and_loose(&mut tables, &line[..at]);
        }
    }
    assert!(taken > 1000, "only {taken} readings");
}

fn strict_and_loose(tables: &mut Tables<'_>, line: &[u8]) -> usize {
    let loose = tables.read_loose(line, SETTINGS).map(|answer| use_all(answer.or_whole())).is_ok();
    let strict = tables.read_strict(line).map(use_all).is_ok();
    usize::from(loose) + usize::from(strict)
}

#[test]
fn refusals_have_numbers_and_words() {
    let all = [
        (Refusal::LineTooLong, 1, "the line has over 8,192 bytes"),
        (Refusal::NotUtf8, 3, "the line is not UTF-8"),
        (Refusal::NoReading { reach: None }, 4, "the line has no reading"),
        (Refusal::NoReading { reach: Some(0) }, 4, "the line has no reading from column 1 on"),
        (Refusal::NoReading { reach: Some(36) }, 4, "the line has no reading from column 37 on"),
        (Refusal::TooManyElements, 5, "the reading has more elements than the table"),
        (Refusal::TooManyParams, 6, "the reading has more parameters than the table"),
        (Refusal::OutputTooShort, 8, "the output is shorter than the result"),
        (Refusal::NoSuchParam, 9, "there is no parameter of this element and name"),
        (Refusal::CellFull, 10, "the cell of the tally holds 4,294,967,295 already"),
        (Refusal::BadCount, 11, "the count of a frame is none, and the stream has ended"),
        (Refusal::FrameTooLong, 12, "a frame of over 8,192 bytes was passed over"),
        (Refusal::NoSuchGate, 9, "the settings file has no record of the gate"),
        (Refusal::BadLength, 13, "the length of the settings file is no multiple of 32"),
        (Refusal::UnknownVersion, 14, "the version of the settings record is not known"),
        (Refusal::BadField, 15, "a field of the settings record is out of range, or a reserved byte is not zero"),
        (Refusal::Unsuitable, 7, "what is claimed does not suit the line"),
        (Refusal::WrongClaim, 16, "what is claimed is not the line's reading"),
        (Refusal::Unwritable, 17, "a field of the line to be written breaks the grammar"),
    ];
    for (refusal, number, words) in all {
        let error: Box<dyn std::error::Error> = Box::new(refusal);
        assert_eq!((refusal.number(), error.to_string().as_str()), (number, words));
    }
}
