//! Tables over memory that is lent. Alone of the tests, this runs without the feature `std` too.

use khamdoriem::{
    Answer, ElementEntry, LooseAnswer, Offset, ParamEntry, Reading, Refusal, Settings, Tables, Variant, Year,
};

const SETTINGS: Settings = Settings::new(Variant::Either, Year::MIN, Offset::UTC);
const TWO_BY_TWO: &[u8] = br#"<13>1 - gate7 reader 42 TAP [a@1 x="1"][b@1 y="2"] ok"#;
const THREE_STAGES: &[u8] = br#"<13>1 - gate8 reader 43 TAP [stage@32473 name="radio" ms="30"][stage@32473 name="denylist" ms="4"][stage@32473 name="paddle" ms="47"] open"#;

#[test]
fn tables_on_the_stack() {
    let (mut elements, mut params) = ([ElementEntry::EMPTY; 3], [ParamEntry::default(); 6]);
    let mut tables = Tables::over(&mut elements, &mut params);
    assert_eq!((tables.element_capacity(), tables.param_capacity()), (3, 6));
    let reading = tables.read_loose(THREE_STAGES, SETTINGS).unwrap().exact().unwrap();
    let mut ms = reading.elements_with("stage@32473").map(|stage| stage.get("ms").unwrap().value_str());
    assert_eq!([ms.next(), ms.next(), ms.next(), ms.next()], [Some("30"), Some("4"), Some("47"), None]);
    // Read into again.
    assert_eq!(tables.read_strict(TWO_BY_TWO).unwrap().params().len(), 2);
}

#[test]
fn tables_as_long_as_the_memory() {
    for (elements, params, refusal) in [(1, 2, Refusal::TooManyElements), (2, 1, Refusal::TooManyParams)] {
        let (mut entries, mut rows) = ([ElementEntry::EMPTY; 2], [ParamEntry::EMPTY; 2]);
        let mut tables = Tables::over(&mut entries[..elements], &mut rows[..params]);
        assert_eq!(tables.read_strict(TWO_BY_TWO).unwrap_err(), refusal);
        assert_eq!(tables.read_loose(TWO_BY_TWO, SETTINGS).unwrap_err(), refusal);
    }
    let mut tables = Tables::over(&mut [], &mut []);
    assert!(tables.read_strict(b"<13>1 - gate7 reader 42 TAP - ok").is_ok());
}

#[test]
fn a_refused_call_leaves_the_memory_and_a_reading_only_its_own_entries() {
    let (mut elements, mut params) = ([ElementEntry::EMPTY; 3], [ParamEntry::EMPTY; 3]);
    assert!(Tables::over(&mut elements, &mut params).read_strict(b"no line").is_err());
    assert_eq!((elements, params), ([ElementEntry::EMPTY; 3], [ParamEntry::EMPTY; 3]));
    assert!(Tables::over(&mut elements, &mut params).read_strict(TWO_BY_TWO).is_ok());
    assert!(elements[..2].iter().all(|&entry| entry != ElementEntry::EMPTY));
    assert!(params[..2].iter().all(|&entry| entry != ParamEntry::EMPTY));
    assert_eq!((elements[2], params[2]), (ElementEntry::EMPTY, ParamEntry::EMPTY));
}

/// A function that takes tables, whosever their memory is.
fn host<'line>(tables: &mut Tables<'_>, line: &'line [u8]) -> Option<&'line str> {
    tables.read_loose(line, SETTINGS).ok()?.or_whole().host_str()
}

#[test]
fn one_function_takes_tables_of_either_memory() {
    assert_eq!(host(&mut Tables::over(&mut [], &mut []), b"<13>1 - gate7 reader 42 TAP - ok"), Some("gate7"));
    #[cfg(feature = "std")]
    assert_eq!(host(&mut Tables::new(0, 0), b"<13>1 - gate7 reader 42 TAP - ok"), Some("gate7"));
}

/// Strict, else loose, in one function.
fn strict_else_loose<'line, 'tables>(
    tables: &'tables mut Tables<'_>,
    line: &'line [u8],
) -> Result<(bool, Reading<'line, 'tables>), Refusal> {
    match tables.read_strict_or_loose(line, SETTINGS)? {
        Answer::Strict(reading) => Ok((true, reading.into_loose()?)),
        Answer::Loose(answer) => Ok((false, answer.or_whole())),
    }
}

#[test]
fn strict_else_loose_in_one_function() {
    let (mut elements, mut params) = ([ElementEntry::EMPTY; 3], [ParamEntry::EMPTY; 6]);
    let mut tables = Tables::over(&mut elements, &mut params);
    for (line, strict, host, elements) in [
        (TWO_BY_TWO, true, Some("gate7"), 2),
        // One id thrice is no strict line.
        (THREE_STAGES, false, Some("gate8"), 3),
        (b"<13>Feb 5 10:01:02 gate9 reader[7]: ok", false, Some("gate9"), 0),
        (b"tap ok", false, None, 0),
    ] {
        let (by_grammar, reading) = strict_else_loose(&mut tables, line).unwrap();
        assert_eq!((by_grammar, reading.host_str(), reading.elements().len()), (strict, host, elements));
    }
}

#[test]
fn strict_or_loose_refuses_as_the_reader_that_it_comes_to() {
    let (mut elements, mut params) = ([ElementEntry::EMPTY; 2], [ParamEntry::EMPTY; 1]);
    let mut tables = Tables::over(&mut elements, &mut params);
    let mut refusal = |line: &[u8]| tables.read_strict_or_loose(line, SETTINGS).map(|_| ()).unwrap_err();
    assert_eq!(refusal(&[b'x'; 8193]), Refusal::LineTooLong);
    // A strict line that has no room is not read loosely, also where that would have room: a host with a colon is no host there.
    assert_eq!(refusal(TWO_BY_TWO), Refusal::TooManyParams);
    assert_eq!(refusal(br#"<13>1 - gate7: reader 42 TAP [a@1 x="1" y="2"] ok"#), Refusal::TooManyParams);
    assert_eq!(refusal(THREE_STAGES), Refusal::TooManyElements);
    assert_eq!(refusal(b"\xff"), Refusal::NotUtf8);
    // The grammar takes any bytes for a message.
    let strict = tables.read_strict_or_loose(b"<13>1 - gate7 reader 42 TAP - \xff", SETTINGS);
    assert!(matches!(strict, Ok(Answer::Strict(_))));
    let loose = tables.read_strict_or_loose(b"tap ok", SETTINGS);
    assert!(matches!(loose, Ok(Answer::Loose(LooseAnswer::Whole(_)))));
}
