//! Settings files: every byte of a record changed, files of several records, what is written and read back, and lines that are read
//! with settings. Runs without the feature `std` too.

use khamdoriem::{
    ElementEntry, Gate, GateSettings, Offset, ParamEntry, Refusal, Settings, SettingsFile, SettingsVersion, Tables,
    Variant, Year,
};

fn settings(variant: Variant, year: u32, offset: i32) -> Settings {
    Settings::new(variant, Year::new(year).unwrap(), Offset::from_minutes(offset).unwrap())
}

fn of_gate(version: SettingsVersion, gate: u16, settings: Settings, host: &str) -> GateSettings<'_> {
    let host = host.as_bytes();
    GateSettings { version, gate: Gate(gate), settings, host: (!host.is_empty()).then_some(host) }
}

/// A record of version 1 with no variant, and one of version 2.
fn depot(version: SettingsVersion) -> GateSettings<'static> {
    of_gate(version, 7, settings(Variant::Either, 2026, -300), "depot")
}

fn record(settings: GateSettings<'_>) -> [u8; GateSettings::RECORD] {
    let mut record = [0xA5; GateSettings::RECORD];
    assert_eq!(settings.write(&mut record).map(<[u8]>::len), Ok(32));
    record
}

/// What a byte of the record of gate 7 may be, where all others are as they are: the first refusal that applies.
fn judged(at: usize, byte: u8, version: SettingsVersion, greatest: u8) -> Option<Refusal> {
    let ok = match at {
        0 if byte == 0 || byte > greatest => return Some(Refusal::UnknownVersion),
        0 => true,
        1 => byte == 5,
        3 => u32::from(byte) * 256 + 0xEA <= 9999,
        5 => (-1439..=1439).contains(&i16::from_le_bytes([0xD4, byte])),
        6 if byte != 7 => return Some(Refusal::NoSuchGate),
        7 if byte != 0 => return Some(Refusal::NoSuchGate),
        8..=12 => (33..=126).contains(&byte),
        13..=27 | 29.. => byte == 0,
        28 => byte <= if version == SettingsVersion::One { 0 } else { 2 },
        _ => true,
    };
    (!ok).then_some(Refusal::BadField)
}

#[test]
fn a_record_has_the_bytes_of_the_request() {
    let expected = *b"\x02\x05\xEA\x07\xD4\xFE\x07\x00depot\0\0\0\0\0\0\0\0\0\0\0\0\0\0\0\0\0\0\0";
    assert_eq!(record(depot(SettingsVersion::Two)), expected);
    let far = of_gate(SettingsVersion::Two, 0xABCD, settings(Variant::Rfc5424, 9999, 1439), "12345678901234567890");
    assert_eq!(&record(far), b"\x02\x14\x0F\x27\x9F\x05\xCD\xAB12345678901234567890\x02\0\0\0");
    let least = of_gate(SettingsVersion::One, 0, settings(Variant::Either, 0, 0), "");
    assert_eq!(&record(least), b"\x01\0\0\0\0\0\0\0\0\0\0\0\0\0\0\0\0\0\0\0\0\0\0\0\0\0\0\0\0\0\0\0");
}

#[test]
fn every_byte_of_a_record_changed_to_every_other() {
    for version in [SettingsVersion::One, SettingsVersion::Two] {
        let right = record(depot(version));
        for at in 0..right.len() {
            for byte in 0..=255 {
                let mut changed = right;
                changed[at] = byte;
                let version_of = |byte| if byte == 1 { SettingsVersion::One } else { SettingsVersion::Two };
                let version = if at == 0 { version_of(byte) } else { version };
                let file = SettingsFile::new(&changed);
                let answer = file.gate(Gate(7));
                assert_eq!(answer.err(), judged(at, byte, version, 2), "byte {at} is {byte}");
                // What is read writes the same bytes.
                if let Ok(settings) = answer {
                    assert_eq!(record(settings), changed);
                }
                let of_version_1 = file.gate_version_1(Gate(7));
                match answer {
                    Ok(settings) if settings.version == SettingsVersion::Two => {
                        assert_eq!(of_version_1, Err(Refusal::UnknownVersion));
                    }
                    Err(Refusal::BadField) if version == SettingsVersion::Two => {
                        assert_eq!(of_version_1, Err(Refusal::UnknownVersion));
                    }
                    _ => assert_eq!(of_version_1, answer),
                }
            }
        }
    }
}

#[test]
fn what_is_written_is_read_back() {
    for version in [SettingsVersion::One, SettingsVersion::Two] {
        for variant in [Variant::Either, Variant::Rfc3164, Variant::Rfc5424] {
            for (year, offset) in [(0, 0), (2026, 60), (9999, 1439), (255, -1439), (256, -1), (257, 256)] {
                for (gate, host) in [(0, ""), (255, "h"), (256, "!~"), (u16::MAX, "12345678901234567890")] {
                    let settings = of_gate(version, gate, settings(variant, year, offset), host);
                    let mut output = [0xA5; 40];
                    let written = settings.write(&mut output);
                    if version == SettingsVersion::One && variant != Variant::Either {
                        assert_eq!(written, Err(Refusal::BadField));
                        assert_eq!(output, [0xA5; 40]);
                        continue;
                    }
                    assert_eq!(SettingsFile::new(written.unwrap()).gate(Gate(gate)), Ok(settings));
                    assert_eq!(output[32..], [0xA5; 8]);
                }
            }
        }
    }
}

#[test]
fn a_writer_names_what_is_wrong_and_writes_nothing() {
    let right = depot(SettingsVersion::Two);
    for host in ["123456789012345678901", "a b", " ", "a\u{7f}", "é", "\0"] {
        let mut output = [7; 40];
        let wrong = GateSettings { host: Some(host.as_bytes()), ..right };
        for room in [0, 31, 32, 40] {
            assert_eq!(wrong.write(&mut output[..room]), Err(Refusal::BadField), "{host}");
        }
        assert_eq!(output, [7; 40]);
    }
    for room in 0..32 {
        let mut output = [7; 40];
        assert_eq!(right.write(&mut output[..room]), Err(Refusal::OutputTooShort));
        assert_eq!(output, [7; 40]);
    }
    // An empty host is none.
    let empty = GateSettings { host: Some(b""), ..right };
    assert_eq!(record(empty), record(GateSettings { host: None, ..right }));
}

#[test]
fn the_last_record_of_a_gate_counts_and_no_other_is_judged() {
    let first = record(depot(SettingsVersion::One));
    let last = of_gate(SettingsVersion::Two, 7, settings(Variant::Rfc3164, 2027, 0), "last");
    let other = record(of_gate(SettingsVersion::One, 8, settings(Variant::Either, 2026, 0), ""));
    // But for its gate, a record of bytes that no record has.
    let bad = |gate: u8| {
        let mut bad = [0xFF; 32];
        (bad[6], bad[7]) = (gate, 0);
        bad
    };
    let file = [first, bad(7), other, record(last), bad(9), other].concat();
    let file = SettingsFile::new(&file);
    assert_eq!(file.gate(Gate(7)), Ok(last));
    assert_eq!(file.gate_version_1(Gate(7)), Err(Refusal::UnknownVersion));
    assert_eq!(file.gate(Gate(8)).map(|settings| settings.host), Ok(None));
    assert_eq!(file.gate(Gate(9)), Err(Refusal::UnknownVersion));
    assert_eq!(file.gate(Gate(10)), Err(Refusal::NoSuchGate));
    let worse = [file.bytes(), &bad(7)].concat();
    assert_eq!(SettingsFile::new(&worse).gate(Gate(7)), Err(Refusal::UnknownVersion));
}

#[test]
fn a_file_has_whole_records() {
    let file = [record(depot(SettingsVersion::One)); 4].concat();
    for len in 0..=100 {
        let answer = SettingsFile::new(&file[..len]).gate(Gate(7));
        match len {
            0 => assert_eq!(answer, Err(Refusal::NoSuchGate)),
            len if len % 32 == 0 => assert_eq!(answer, Ok(depot(SettingsVersion::One))),
            _ => assert_eq!(answer, Err(Refusal::BadLength)),
        }
    }
}

/// A file with gate 7 (either protocol, a default), 8 (no default), 9 (RFC 5424 alone) and 10 (bad).
fn site() -> Vec<u8> {
    let mut bad = record(of_gate(SettingsVersion::Two, 10, settings(Variant::Either, 2026, 0), ""));
    bad[31] = 1;
    [
        record(of_gate(SettingsVersion::Two, 7, settings(Variant::Either, 2026, 60), "depot")),
        record(of_gate(SettingsVersion::One, 8, settings(Variant::Either, 2026, 60), "")),
        record(of_gate(SettingsVersion::Two, 9, settings(Variant::Rfc5424, 2026, 60), "depot")),
        bad,
    ]
    .concat()
}

#[test]
fn the_host_is_the_lines_own_or_the_settings() {
    let (mut elements, mut params) = ([ElementEntry::EMPTY; 2], [ParamEntry::EMPTY; 2]);
    let mut tables = Tables::over(&mut elements, &mut params);
    let file = site();
    let file = SettingsFile::new(&file);
    let own = b"<13>1 - gate7 reader 42 TAP - ok";
    let none = b"<13>1 - - reader 42 TAP - ok";
    for gate in [7, 8, 9].map(Gate) {
        let site = tables.read_with(file, gate, own).unwrap();
        assert_eq!((site.host(), site.is_default()), (Some(&b"gate7"[..]), false));
    }
    let site = tables.read_with(file, Gate(7), none).unwrap();
    assert_eq!((site.host_str(), site.is_default(), site.reading().host()), (Some("depot"), true, None));
    let shown = format!("{site:?}");
    assert!(shown.starts_with("SiteReading { host: Some(\"depot\"), is_default: true, reading: Reading {"), "{shown}");
    let host = site.host().unwrap();
    assert_eq!(file.bytes()[8..].as_ptr(), host.as_ptr());
    let site = tables.read_with(file, Gate(8), none).unwrap();
    assert_eq!((site.host(), site.host_str(), site.is_default()), (None, None, false));
    // Year and offset are the record's, the variant too: 2026-12-31T22:59:59Z.
    let old = b"Dec 31 23:59:59 reader[1]: m";
    let site = tables.read_with(file, Gate(7), old).unwrap();
    assert_eq!((site.host_str(), site.reading().timestamp().unwrap().seconds()), (Some("depot"), 1_798_757_999));
    assert_eq!(tables.read_with(file, Gate(9), old).unwrap_err(), Refusal::NoReading { reach: None });
}

#[test]
fn refusals_of_the_settings_come_before_those_of_the_line() {
    let mut tables = Tables::over(&mut [], &mut []);
    let bytes = site();
    let (file, cut) = (SettingsFile::new(&bytes), SettingsFile::new(&bytes[1..]));
    let long = vec![b'x'; 8193];
    let with_element = br#"<13>1 - - reader 42 TAP [a x="1"] ok"#;
    for (line, refusal) in [
        (&long[..], Refusal::LineTooLong),
        (b"\xFF", Refusal::NotUtf8),
        (b"antenna detuned", Refusal::NoReading { reach: None }),
        (with_element, Refusal::TooManyElements),
    ] {
        assert_eq!(tables.read_with(file, Gate(7), line).unwrap_err(), refusal);
        assert_eq!(tables.read_with(file, Gate(10), line).unwrap_err(), Refusal::BadField);
        assert_eq!(tables.read_with(file, Gate(11), line).unwrap_err(), Refusal::NoSuchGate);
        assert_eq!(tables.read_with(cut, Gate(7), line).unwrap_err(), Refusal::BadLength);
    }
    let mut elements = [ElementEntry::EMPTY; 1];
    let mut tables = Tables::over(&mut elements, &mut []);
    assert_eq!(tables.read_with(file, Gate(7), with_element).unwrap_err(), Refusal::TooManyParams);
}

#[test]
fn gates_and_files_are_shown() {
    assert_eq!((Gate(7).to_string(), Gate::from(65_535)), ("7".to_string(), Gate(u16::MAX)));
    assert_eq!(format!("{:>3}", Gate(7)), "  7");
    assert_eq!(format!("{:?}", SettingsFile::new(&[])), "SettingsFile { len: 0, .. }");
    let shown = format!("{:?}", depot(SettingsVersion::One));
    assert!(shown.starts_with("GateSettings { version: One, gate: Gate(7), settings: Settings {"), "{shown}");
    assert!(shown.ends_with(", host: Some(\"depot\") }"), "{shown}");
}
