//! Elements and parameters, lookup and unescaping.

#![cfg(feature = "std")]

use khamdoriem::{Loose, Offset, Reading, Refusal, Settings, Tables, Unescape, Variant, Year, MAX_LINE};

const SETTINGS: Settings = Settings::new(Variant::Either, Year::MIN, Offset::UTC);

/// Three elements: the first and the last of one id, which the loose reader takes, the second without parameters.
const STAGES: &[u8] =
    br#"<13>1 - gate7 reader 42 TAP [stage@32473 name="radio" ms="31"][tap@32473][stage@32473 name="deny\"list\]" ms="212"] ok"#;

fn read<'line, 'tables>(tables: &'tables mut Tables<'_>, line: &'line [u8]) -> Reading<'line, 'tables, Loose> {
    tables.read_loose(line, SETTINGS).unwrap().exact().unwrap()
}

fn pairs(tables: &mut Tables<'_>, line: &[u8]) -> Vec<(String, Vec<(String, String)>)> {
    let text = |bytes: &[u8]| String::from_utf8(bytes.to_vec()).unwrap();
    let reading = read(tables, line);
    let params = |e: khamdoriem::Element<'_, '_>| e.params().map(|p| (text(p.name()), text(p.value()))).collect();
    reading.elements().map(|e| (text(e.id()), params(e))).collect()
}

fn owned(elements: &[(&str, &[(&str, &str)])]) -> Vec<(String, Vec<(String, String)>)> {
    let pair = |&(name, value): &(&str, &str)| (name.to_string(), value.to_string());
    elements.iter().map(|(id, params)| (id.to_string(), params.iter().map(pair).collect())).collect()
}

#[test]
fn elements_and_their_parameters_in_order() {
    let expected = owned(&[
        ("stage@32473", &[("name", "radio"), ("ms", "31")]),
        ("tap@32473", &[]),
        ("stage@32473", &[("name", r#"deny\"list\]"#), ("ms", "212")]),
    ]);
    assert_eq!(pairs(&mut Tables::new(3, 4), STAGES), expected);
}

#[test]
fn elements_of_rfc3164() {
    let line = br#"<13>Feb  5 10:01:02 gate8 reader[7]: [stage@32473 name="paddle" ms="48"] open"#;
    assert_eq!(pairs(&mut Tables::new(1, 2), line), owned(&[("stage@32473", &[("name", "paddle"), ("ms", "48")])]));
}

#[test]
fn iterators_know_their_lengths() {
    let mut tables = Tables::new(3, 4);
    let reading = read(&mut tables, STAGES);
    let mut elements = reading.elements();
    let mut lengths = Vec::new();
    while let Some(element) = elements.next() {
        lengths.push((elements.len(), element.params().len()));
    }
    assert_eq!(lengths, [(2, 2), (1, 0), (0, 2)]);
    assert!(elements.next().is_none());
    assert_eq!(reading.params().len(), 4);
}

#[test]
fn parameters_know_the_id_of_their_element() {
    let mut tables = Tables::new(3, 4);
    let line = br#"<13>1 - h a p m [x@1 a="1"][y@1][z@1 b="2" c="3"]"#;
    let reading = tables.read_strict(line).unwrap();
    let ids: Vec<&[u8]> = reading.params().map(|p| p.id()).collect();
    assert_eq!(ids, [b"x@1", b"z@1", b"z@1"]);
}

#[test]
fn elements_with_an_id_in_order() {
    let mut tables = Tables::new(3, 4);
    let reading = read(&mut tables, STAGES);
    let ms = |id: &str| -> Vec<Option<&[u8]>> {
        reading.elements_with(id).map(|element| element.get("ms").map(|ms| ms.value())).collect()
    };
    assert_eq!(ms("stage@32473"), [Some(&b"31"[..]), Some(b"212")]);
    assert_eq!(ms("tap@32473"), [None]);
    for id in ["stage@3247", "stage@324733", "Stage@32473", ""] {
        assert!(ms(id).is_empty());
    }
    // Bytes, arrays of them, strings and references to either.
    let owned = String::from("stage@32473");
    assert_eq!(reading.elements_with(b"stage@32473").count(), 2);
    assert_eq!(reading.elements_with(&b"stage@32473"[..]).count(), 2);
    assert_eq!((reading.elements_with(&owned).count(), reading.elements_with(&&owned[..]).count()), (2, 2));
    // It ends, and stays ended; it outlives the reading's name.
    let mut stages = reading.elements_with("stage@32473");
    assert_eq!(stages.size_hint(), (0, Some(3)));
    assert_eq!((stages.next().is_some(), stages.size_hint()), (true, (0, Some(2))));
    assert_eq!((stages.next().is_some(), stages.next().is_some(), stages.next().is_some()), (true, false, false));
    assert_eq!(format!("{:?}", reading.elements_with("tap@32473")), r#"[Element { id: "tap@32473", params: [] }]"#);
}

#[test]
fn get_finds_the_first_of_a_name() {
    let mut tables = Tables::new(2, 5);
    let line = br#"<13>1 - h a p m [x a="1\\" b="2" a="3"][x b="4" c=""] ok"#;
    let reading = read(&mut tables, line);
    let elements: Vec<_> = reading.elements_with("x").collect();
    let get = |which: usize, name: &str| elements[which].get(name).map(|param| param.value_str());
    assert_eq!([get(0, "a"), get(0, "b"), get(0, "c"), get(0, "")], [Some(r"1\\"), Some("2"), None, None]);
    assert_eq!([get(1, "a"), get(1, "b"), get(1, "c"), get(1, "B")], [None, Some("4"), Some(""), None]);
    // Both ways.
    let mut output = [0; 8];
    let a = elements[0].get("a").unwrap();
    assert_eq!((a.value(), a.unescaped(Unescape::Loose, &mut output)), (&br"1\\"[..], Ok(&br"1\"[..])));
    assert_eq!(a.id(), b"x");
}

#[test]
fn no_elements() {
    let mut tables = Tables::new(0, 0);
    assert_eq!(tables.read_strict(b"<13>1 - h a p m -").unwrap().elements().count(), 0);
    assert_eq!(tables.read_strict(b"<13>1 - h a p m -").unwrap().params().count(), 0);
}

#[test]
fn lookup_finds_the_first() {
    let mut tables = Tables::new(3, 4);
    let reading = read(&mut tables, STAGES);
    let mut output = [0; 8];
    let mut look = |id: &[u8], name: &[u8]| reading.lookup(id, name, Unescape::Strict, &mut output).map(<[u8]>::to_vec);
    assert_eq!(look(b"stage@32473", b"ms"), Ok(b"31".to_vec()));
    assert_eq!(look(b"stage@32473", b"name"), Ok(b"radio".to_vec()));
    assert_eq!(look(b"stage@32473", b"m"), Err(Refusal::NoSuchParam));
    assert_eq!(look(b"stage@3247", b"ms"), Err(Refusal::NoSuchParam));
    assert_eq!(look(b"tap@32473", b"ms"), Err(Refusal::NoSuchParam));
    assert_eq!(look(b"", b""), Err(Refusal::NoSuchParam));
}

#[test]
fn both_unescapings() {
    // In the loose reading backslash takes the next character with it, so a value cannot end in a lone one.
    let mut tables = Tables::new(1, 1);
    let reading = read(&mut tables, br#"<13>1 - h a p m [id a="q\" b\\ c\] n\n z\z"] x"#);
    let mut output = [0; 64];
    let loose = reading.lookup(b"id", b"a", Unescape::Loose, &mut output).unwrap();
    assert_eq!(loose, b"q\" b\\ c] n\n z\\z");
    let strict = reading.lookup(b"id", b"a", Unescape::Strict, &mut output).unwrap();
    assert_eq!(strict, b"q\" b\\ c] n\\n z\\z");
}

#[test]
fn a_parameter_of_a_later_element_is_unescaped() {
    let mut tables = Tables::new(3, 4);
    let reading = read(&mut tables, STAGES);
    let second = reading.elements().filter(|e| e.id() == b"stage@32473").nth(1).unwrap();
    let name = second.params().next().unwrap();
    let mut output = [b'.'; 12];
    assert_eq!(name.unescaped(Unescape::Strict, &mut output), Ok(&br#"deny"list]"#[..]));
    assert_eq!(&output, br#"deny"list].."#);
}

#[test]
fn unescaping_of_a_parameter_is_that_of_lookup() {
    let line = br#"<13>1 - h a p m [id a="q\" b\\ c\] n\n z\z" b=""][other c="\\n"] x"#;
    let mut tables = Tables::new(2, 3);
    let reading = tables.read_strict(line).unwrap();
    for unescape in [Unescape::Loose, Unescape::Strict] {
        for param in reading.params() {
            let (mut one, mut other) = ([0; 64], [0; 64]);
            let found = reading.lookup(param.id(), param.name(), unescape, &mut one);
            assert_eq!(param.unescaped(unescape, &mut other), found);
            assert!(found.is_ok());
        }
    }
}

#[test]
fn an_output_one_short_is_left_alone() {
    let mut tables = Tables::new(3, 4);
    let reading = read(&mut tables, STAGES);
    let mut output = [b'.'; 5];
    assert_eq!(
        reading.lookup(b"stage@32473", b"name", Unescape::Strict, &mut output[..4]),
        Err(Refusal::OutputTooShort)
    );
    assert_eq!(&output, b".....");
    let name = reading.params().next().unwrap();
    assert_eq!(name.unescaped(Unescape::Strict, &mut output[..4]), Err(Refusal::OutputTooShort));
    assert_eq!(&output, b".....");
    assert_eq!(name.unescaped(Unescape::Strict, &mut output), Ok(&b"radio"[..]));
}

#[test]
fn an_empty_value_needs_no_output() {
    let mut tables = Tables::new(1, 1);
    let reading = tables.read_strict(br#"<13>1 - h a p m [id a=""]"#).unwrap();
    assert_eq!(reading.lookup(b"id", b"a", Unescape::Strict, &mut []), Ok(&b""[..]));
    assert_eq!(reading.lookup(b"id", b"b", Unescape::Strict, &mut []), Err(Refusal::NoSuchParam));
}

#[test]
fn tables_for_any_line_take_the_lines_with_most() {
    let mut tables = Tables::for_any_line();
    let fill = |head: &str, unit: &str, tail: &str| {
        let times = (MAX_LINE - head.len() - tail.len()) / unit.len();
        (times, format!("{head}{}{tail}", unit.repeat(times)))
    };
    let (elements, line) = fill("<1>1 - - - - - ", "[a]", "");
    assert_eq!(read(&mut tables, line.as_bytes()).elements().len(), elements);
    let (params, line) = fill("<1>1 - - - - - [a", " b=\"\"", "]");
    assert_eq!(tables.read_strict(line.as_bytes()).unwrap().params().len(), params);
    assert_eq!(read(&mut tables, line.as_bytes()).params().len(), params);
}

#[test]
fn ids_of_a_strict_line_differ() {
    let mut tables = Tables::for_any_line();
    let mut count = |ids: &[String]| {
        let line = format!("<1>1 - - - - - [{}]", ids.join("]["));
        tables.read_strict(line.as_bytes()).map(|reading| reading.elements().len())
    };
    // As many as a line has room for, in each size of the reader's own tables: all different, and with the first again in place of the last.
    let letters: Vec<char> = ('!'..='~').filter(|letter| !"=\"]".contains(*letter)).collect();
    let ids: Vec<String> =
        (0..2044).map(|k| [letters[k / letters.len()], letters[k % letters.len()]].iter().collect()).collect();
    for many in [1, 2, 8, 9, 64, 65, 512, 513, ids.len()] {
        let mut some = ids[..many].to_vec();
        assert_eq!(count(&some), Ok(many));
        some.push(ids[0].clone());
        if many < ids.len() {
            // Right up to the byte behind the id that is used.
            assert_eq!(count(&some), Err(Refusal::NoReading { reach: Some(15 + 4 * many + 3) }));
        }
    }
}

#[test]
fn one_id_twice_is_no_strict_reading() {
    let mut tables = Tables::new(0, 0);
    let mut refused = |line: &[u8]| tables.read_strict(line).err().unwrap();
    assert_eq!(
        refused(br#"<13>1 - h a p m [t@32473 ms="1"][t@32473 ms="2"] x"#),
        Refusal::NoReading { reach: Some(40) }
    );
    assert_eq!(refused(br#"<13>1 - h a p m [t@32473 ms="1"][T@32473 ms="2"] x"#), Refusal::TooManyElements);
    assert_eq!(refused(br#"<13>1 - h a p m [t@32473 ms="1" ms="1"] x"#), Refusal::TooManyElements);
}
