//! Two lines compared: every field, elements and their pairs, refusals, and words. Runs without the feature `std` too.

use khamdoriem::{
    Comparer, Differences, ElementEntry, Field, Offset, ParamEntry, Refusal, Settings, Tables, Variant, Which, Year,
};

const SETTINGS: Settings = Settings::new(Variant::Either, Year::MIN, Offset::UTC);
const LINE: &str = "<13>1 2026-01-02T03:04:05Z gate7 reader 42 TAP - ok";

/// Compares with tables of eight entries that are lent.
fn with<T>(first: &str, second: &str, see: impl FnOnce(Result<Differences<'_>, (Which, Refusal)>) -> T) -> T {
    let (mut elements, mut params) = ([[ElementEntry::EMPTY; 8]; 2], [[ParamEntry::EMPTY; 8]; 2]);
    let ([e1, e2], [p1, p2]) = (&mut elements, &mut params);
    let mut comparer = Comparer::over(Tables::over(e1, p1), Tables::over(e2, p2));
    see(comparer.compare(first.as_bytes(), second.as_bytes(), SETTINGS))
}

/// The fields that differ; the same where the lines are exchanged.
fn fields(first: &str, second: &str) -> Vec<Field> {
    let seen = with(first, second, |compared| compared.unwrap().fields().collect::<Vec<_>>());
    assert_eq!(seen, with(second, first, |compared| compared.unwrap().fields().collect::<Vec<_>>()));
    seen
}

fn words(first: &str, second: &str) -> String {
    with(first, second, |compared| compared.unwrap().to_string())
}

/// `LINE` with these elements.
fn data(elements: &str) -> String {
    LINE.replace(" - ok", &format!(" {elements} ok"))
}

#[test]
fn each_field_is_named_alone() {
    assert_eq!(fields(LINE, LINE), []);
    for (field, from, to) in [
        (Field::Protocol, ">1 ", ">2 "),
        (Field::Facility, "<13>", "<21>"),
        (Field::Severity, "<13>", "<14>"),
        (Field::Timestamp, "05Z", "06Z"),
        (Field::Timestamp, "03:04:05Z", "04:04:05+01:00"),
        (Field::Timestamp, "2026-01-02T03:04:05Z", "-"),
        (Field::Host, "gate7", "gate8"),
        (Field::AppName, "reader", "-"),
        (Field::ProcessId, " 42 ", " 042 "),
        (Field::MessageId, "TAP", "tap"),
        (Field::Elements, " - ok", " [x] ok"),
        (Field::Message, "ok", "okay"),
    ] {
        assert_eq!(fields(LINE, &LINE.replacen(from, to, 1)), [field], "{field}");
    }
}

#[test]
fn the_fields_come_in_their_order() {
    let other = r#"<22>Feb  5 10:01:02 gate8 tap[1]: [x a="1"] no"#;
    assert_eq!(fields(LINE, other), Field::ALL);
    assert!(Field::ALL.windows(2).all(|pair| pair[0] < pair[1]));
    with(LINE, other, |compared| {
        let (differences, mut fields) = (compared.unwrap(), compared.unwrap().fields());
        assert!(Field::ALL.into_iter().all(|field| differences.contains(field)));
        assert_eq!((fields.len(), fields.next(), fields.len()), (10, Some(Field::Protocol), 9));
        assert_eq!(fields.by_ref().last(), Some(Field::Message));
        assert_eq!((fields.next(), fields.len()), (None, 0));
    });
}

#[test]
fn digits_of_a_fraction_escapes_and_order_are_of_no_account() {
    assert_eq!(fields(LINE, &LINE.replace("05Z", "05.000Z")), []);
    assert_eq!(fields(&data(r#"[x a="\]"]"#), &data(r#"[x a="]"]"#)), []);
    assert_eq!(fields(&data(r#"[x a="\\x"]"#), &data(r#"[x a="\x"]"#)), []);
    assert_eq!(fields(&data(r#"[x a="1" b="2" a="1"]"#), &data(r#"[x a="1" a="1" b="2"]"#)), []);
}

#[test]
fn absent_and_empty_differ() {
    let fields = fields("<13>Feb  5 10:01:02 gate7 [42]: m", "<13>Feb  5 10:01:02 gate7: m");
    assert!(fields.contains(&Field::AppName) && fields.contains(&Field::ProcessId));
}

#[test]
fn elements_have_a_position_and_a_pair() {
    for (first, second, position, pair) in [
        ("-", "[x]", 0, None),
        ("[x]", "[x][y]", 1, None),
        (r#"[x a="1"][y]"#, r#"[y][x a="1"]"#, 0, None),
        (r#"[x a="1" a="1"]"#, r#"[x a="1"]"#, 0, Some((Which::First, "a", "1"))),
        (r#"[x a="1"]"#, r#"[x b="2" a="1"]"#, 0, Some((Which::Second, "b", "2"))),
        (r#"[x a="1"][y c="\]"]"#, r#"[x a="1"][y c="4"]"#, 1, Some((Which::First, "c", "\\]"))),
    ] {
        with(&data(first), &data(second), |compared| {
            let difference = compared.unwrap().elements().unwrap();
            let seen = difference.pair.map(|(which, param)| (which, param.name_str(), param.value_str()));
            assert_eq!((difference.position, seen), (position, pair), "{first} {second}");
        });
    }
    assert!(with(LINE, LINE, |compared| compared.unwrap().elements().is_none()));
}

#[test]
fn a_refusal_names_its_line() {
    let refused = |first: &str, second: &str| with(first, second, |compared| compared.unwrap_err());
    let no_reading = Refusal::NoReading { reach: None };
    let long = "x".repeat(8193);
    assert_eq!(refused("", &long), (Which::First, no_reading));
    assert_eq!(refused(LINE, ""), (Which::Second, no_reading));
    assert_eq!(refused(&long, ""), (Which::First, Refusal::LineTooLong));
    let many = data(&"[x]".repeat(9));
    assert_eq!(refused(LINE, &many), (Which::Second, Refusal::TooManyElements));
    let params = data(&format!("[x{}]", r#" a="1""#.repeat(9)));
    assert_eq!(refused(&params, &many), (Which::First, Refusal::TooManyParams));
}

#[test]
fn words_are_for_people() {
    assert_eq!(words(LINE, LINE), "same");
    assert_eq!(words(LINE, &LINE.replace("gate7", "gate8").replace("ok", "no")), "host, message");
    let (first, second) = (data(r#"[x a="1"]"#), data(r#"[x a="2"]"#).replace("ok", "no"));
    assert_eq!(words(&first, &second), r#"elements at 0: a="1" of the first line, message"#);
    assert_eq!(words(LINE, &data("[x]")), "elements at 0");
    assert_eq!(format!("{:>6}|{:<7}|", Which::Second, Which::First), "second|first  |");
    let names: Vec<String> = Field::ALL.iter().map(Field::to_string).collect();
    assert_eq!(names[5..8], ["app name", "process id", "message id"]);
}

#[cfg(feature = "std")]
#[test]
fn one_pair_needs_no_comparer() {
    let many = data(&format!("[x{}]", r#" a="1""#.repeat(1300)));
    let differences = khamdoriem::compare(LINE.as_bytes(), many.as_bytes(), SETTINGS).unwrap();
    assert_eq!(differences.to_string(), "elements at 0");
}
