//! Claims: what the strict reader leaves, a vendor's numbers, and each number changed.

use khamdoriem::{
    check_claim, Claim, ClaimedText, ElementEntry, Facility, ParamEntry, Refusal, Severity, Tables, MAX_LINE,
};

const LINE: &[u8] = br#"<34>1 2023-02-05T10:01:02.5Z gate7 - - TAP [t@32473 ms="212"][u] ok"#;
const ELEMENTS: [ElementEntry; 2] = [ElementEntry::new(44, 7), ElementEntry::new(62, 1)];
const PARAMS: [ParamEntry; 1] = [ParamEntry::new(0, (52, 2), (56, 3))];

/// The claim of `LINE`, number by number.
fn vendor() -> Claim<'static> {
    let mut claim = Claim::new(&ELEMENTS, &PARAMS);
    claim.priority(Facility::Auth, Severity::Crit).version(1);
    claim.timestamp(1_675_591_262, 500_000_000, 1, 0, (6, 22));
    claim.text(ClaimedText::Host, 29, 5).text(ClaimedText::MessageId, 39, 3);
    claim.message(65, 2);
    claim
}

fn tables<Answer>(call: impl FnOnce(&mut Tables<'_>) -> Answer) -> Answer {
    let (mut elements, mut params) = ([ElementEntry::EMPTY; 4], [ParamEntry::EMPTY; 4]);
    call(&mut Tables::over(&mut elements, &mut params))
}

#[test]
fn what_the_strict_reader_leaves_is_told_yes() {
    for line in [LINE, b"<0>1 - - - - - -", b"<191>999 - - - - - - ", b"<13>1 - h a p m [a][b x=\"\\]\"] \xff"] {
        tables(|tables| {
            let claim = Claim::of(&tables.read_strict(line).unwrap());
            assert_eq!(check_claim(line, &claim), Ok(()));
        });
    }
}

#[test]
fn a_vendor_who_follows_the_grammar_is_told_yes() {
    assert_eq!(check_claim(LINE, &vendor()), Ok(()));
    tables(|tables| {
        let read = Claim::of(&tables.read_strict(LINE).unwrap());
        assert_eq!(vendor().words(), read.words());
    });
}

#[test]
fn each_number_of_the_record_counts() {
    let right = vendor().words();
    for at in 0..Claim::WORDS {
        for other in [right[at].wrapping_add(1), right[at].wrapping_sub(1), 0, u64::MAX] {
            let mut words = right;
            words[at] = other;
            let told = check_claim(LINE, &Claim::from_words(&words, &ELEMENTS, &PARAMS));
            match told {
                Ok(()) => assert_eq!(other, right[at], "word {at}"),
                Err(refusal) => {
                    assert!(matches!(refusal, Refusal::Unsuitable | Refusal::WrongClaim), "word {at}: {refusal}")
                }
            }
            assert_eq!(told.is_ok(), other == right[at], "word {at} as {other}");
        }
    }
}

#[test]
fn each_number_of_the_tables_counts() {
    let words = vendor().words();
    for (start, len) in [(45, 7), (43, 7), (44, 8), (44, 6), (0, 7), (44, 0), (usize::MAX, 7), (44, usize::MAX)] {
        let elements = [ElementEntry::new(start, len), ELEMENTS[1]];
        assert!(check_claim(LINE, &Claim::from_words(&words, &elements, &PARAMS)).is_err(), "{start} {len}");
    }
    let right = [0, 52, 2, 56, 3];
    for at in 0..5 {
        for other in [right[at] + 1, usize::wrapping_sub(right[at], 1), usize::MAX] {
            let mut numbers = right;
            numbers[at] = other;
            let [element, name, name_len, value, value_len] = numbers;
            let params = [ParamEntry::new(element, (name, name_len), (value, value_len))];
            assert!(check_claim(LINE, &Claim::from_words(&words, &ELEMENTS, &params)).is_err(), "{numbers:?}");
        }
    }
}

#[test]
fn entries_past_the_counts_are_of_no_account() {
    let (elements, params) = ([ELEMENTS[0], ELEMENTS[1], ElementEntry::new(9, 9_999)], [PARAMS[0], ParamEntry::EMPTY]);
    assert_eq!(check_claim(LINE, &Claim::from_words(&vendor().words(), &elements, &params)), Ok(()));
    // Counted, they are.
    let mut claim = Claim::from_words(&vendor().words(), &elements, &params);
    claim.counts(2, 2);
    assert_eq!(check_claim(LINE, &claim), Err(Refusal::WrongClaim));
    claim.counts(3, 1);
    assert_eq!(check_claim(LINE, &claim), Err(Refusal::Unsuitable));
    claim.counts(4, 1);
    assert_eq!(check_claim(LINE, &claim), Err(Refusal::Unsuitable));
}

#[test]
fn an_offset_of_0_is_no_other() {
    for (zone, len) in [("Z", 20), ("+00:00", 25), ("-00:00", 25)] {
        let mut line = [b' '; 48];
        let parts: [&[u8]; 3] = [b"<0>1 2023-02-05T10:01:02", zone.as_bytes(), b" - - - - -"];
        let mut end = 0;
        for part in parts {
            line[end..end + part.len()].copy_from_slice(part);
            end += part.len();
        }
        let mut claim = Claim::new(&[], &[]);
        claim.priority(Facility::Kern, Severity::Emerg).version(1);
        claim.timestamp(1_675_591_262, 0, 0, 0, (5, len));
        assert_eq!(check_claim(&line[..end], &claim), Ok(()), "{zone}");
        claim.timestamp(1_675_591_262 - 3_600, 0, 0, 60, (5, len));
        assert_eq!(check_claim(&line[..end], &claim), Err(Refusal::WrongClaim), "{zone}");
    }
}

#[test]
fn ids_that_repeat_are_no_claim() {
    let elements = [ElementEntry::new(16, 1), ElementEntry::new(19, 1)];
    let mut claim = Claim::new(&elements, &[]);
    claim.priority(Facility::Kern, Severity::Emerg).version(1);
    assert_eq!(check_claim(b"<0>1 - - - - - [a][b]", &claim), Ok(()));
    assert_eq!(check_claim(b"<0>1 - - - - - [a][a]", &claim), Err(Refusal::WrongClaim));
}

#[test]
fn the_refusals_in_their_order() {
    let mut line = [b'x'; MAX_LINE + 1];
    let mut claim = vendor();
    claim.text(ClaimedText::AppName, usize::MAX, usize::MAX);
    assert_eq!(check_claim(&line, &claim).unwrap_err().number(), 1);
    assert_eq!(check_claim(&line[1..], &claim).unwrap_err().number(), 7);
    line[1..][..LINE.len()].copy_from_slice(LINE);
    assert_eq!(check_claim(&line[1..], &vendor()).unwrap_err().number(), 16);
}
