//! A tally against counts by hand, its cells at their limit, and the table that it writes. Runs without the feature `std` too.

use khamdoriem::{
    ElementEntry, Facility, Offset, ParamEntry, Refusal, Settings, Severity, Tables, Tally, TallyCell, Variant, Year,
};

const SETTINGS: Settings = Settings::new(Variant::Either, Year::MIN, Offset::UTC);

/// Every facility and none, in the order of the rows.
fn facilities() -> Vec<Option<Facility>> {
    (0..=24).map(Facility::from_number).collect()
}

/// Every severity and none, in the order of the columns.
fn severities() -> Vec<Option<Severity>> {
    (0..=8).map(Severity::from_number).collect()
}

#[test]
fn the_empty_tally_has_nothing() {
    let tally = Tally::new();
    assert_eq!((tally.total(), tally.cells().count(), tally.counts()), (0, 0, &[[0; 9]; 25]));
    assert_eq!(tally, Tally::default());
    assert!(facilities().into_iter().all(|facility| tally.row(facility) == 0));
    assert!(severities().into_iter().all(|severity| tally.column(severity) == 0));
}

#[test]
fn an_addition_raises_its_cell_and_leaves_the_rest() {
    let mut tally = Tally::new();
    let mut by_hand = [[0; 9]; 25];
    for (i, &facility) in facilities().iter().enumerate() {
        for (j, &severity) in severities().iter().enumerate() {
            // So often that no two cells of a row or of a column hold the same.
            for _ in 0..=(i + 25 * j) % 31 {
                assert_eq!(tally.add(facility, severity), Ok(()));
                by_hand[i][j] += 1;
                assert_eq!(tally.counts(), &by_hand);
            }
            assert_eq!(tally.cell(facility, severity), by_hand[i][j]);
        }
    }
}

#[test]
fn sums_are_those_of_the_cells_and_the_total_is_how_many_were_accepted() {
    let mut tally = Tally::new();
    let (facilities, severities) = (facilities(), severities());
    let mut number: u32 = 1;
    for accepted in 1..=5000 {
        number = number.wrapping_mul(1_664_525).wrapping_add(1_013_904_223);
        let (i, j) = ((number >> 16) as usize % 25, (number >> 8) as usize % 9);
        assert_eq!(tally.add(facilities[i], severities[j]), Ok(()));
        assert_eq!(tally.total(), accepted);
    }
    for (i, &facility) in facilities.iter().enumerate() {
        assert_eq!(tally.row(facility), tally.counts()[i].iter().map(|&count| u64::from(count)).sum());
    }
    for (j, &severity) in severities.iter().enumerate() {
        assert_eq!(tally.column(severity), tally.counts().iter().map(|row| u64::from(row[j])).sum());
    }
    assert_eq!(severities.iter().map(|&severity| tally.column(severity)).sum::<u64>(), 5000);
    assert_eq!(tally.cells().map(|cell| u64::from(cell.count)).sum::<u64>(), 5000);
}

#[test]
fn a_full_cell_is_refused_with_10_and_the_tally_is_as_it_was() {
    for (i, &facility) in facilities().iter().enumerate() {
        for (j, &severity) in severities().iter().enumerate() {
            let mut counts = [[7; 9]; 25];
            counts[i][j] = u32::MAX - 1;
            let mut tally = Tally::from_counts(counts);
            assert_eq!(tally.add(facility, severity), Ok(()));
            counts[i][j] = u32::MAX;
            assert_eq!(tally.counts(), &counts);
            for _ in 0..2 {
                assert_eq!(tally.add(facility, severity), Err(Refusal::CellFull));
                assert_eq!(tally.counts(), &counts);
            }
            assert_eq!(tally.cell(facility, severity), u32::MAX);
        }
    }
    // Those beside it are not full.
    let mut counts = [[u32::MAX; 9]; 25];
    counts[3][4] = 0;
    let mut tally = Tally::from_counts(counts);
    assert_eq!(tally.add(Some(Facility::Daemon), Some(Severity::Err)), Err(Refusal::CellFull));
    assert_eq!(tally.add(Some(Facility::Daemon), Some(Severity::Warning)), Ok(()));
    assert_eq!(tally.cell(Some(Facility::Daemon), Some(Severity::Warning)), 1);
}

#[test]
fn no_sum_wraps() {
    let tally = Tally::from_counts([[u32::MAX; 9]; 25]);
    assert_eq!(tally.row(None), 9 * u64::from(u32::MAX));
    assert_eq!(tally.column(Some(Severity::Emerg)), 25 * u64::from(u32::MAX));
    assert_eq!(tally.total(), 225 * u64::from(u32::MAX));
}

#[test]
fn readings_are_added_as_they_stand() {
    let (mut elements, mut params) = ([ElementEntry::EMPTY; 1], [ParamEntry::EMPTY; 1]);
    let mut tables = Tables::over(&mut elements, &mut params);
    let mut tally = Tally::new();
    let strict = tables.read_strict(b"<165>1 - gate7 reader 42 TAP - ok").unwrap();
    tally.add_reading(&strict).unwrap();
    // Both, a severity alone, neither, and a line that has no reading.
    for line in ["<165>1 - h a p m - ok", "<192>Jan 5 10:01:11 gate9 reader[7]: ok", "1 - h a p m - ok", "tap ok"] {
        let line = line.as_bytes();
        tally.add_reading(&tables.read_loose(line, SETTINGS).unwrap().or_whole()).unwrap();
    }
    let cell = |facility, severity, count| TallyCell { facility, severity, count };
    let cells: Vec<TallyCell> = tally.cells().collect();
    let local = cell(Some(Facility::Local4), Some(Severity::Notice), 2);
    assert_eq!(cells, [local, cell(None, Some(Severity::Emerg), 1), cell(None, None, 2)]);
    let shown: Vec<String> = cells.iter().map(TallyCell::to_string).collect();
    assert_eq!(shown, ["local4.notice 2", "none.emerg 1", "none.none 2"]);
    assert_eq!((cells[2].facility_name(), cells[2].severity_name()), ("none", "none"));
    assert_eq!(format!("{tally:?}"), "{local4.notice: 2, none.emerg: 1, none.none: 2}");
}

#[test]
fn cells_come_row_by_row_and_those_of_zero_do_not() {
    let all: Vec<TallyCell> = Tally::from_counts([[1; 9]; 25]).cells().collect();
    let places: Vec<_> = all.iter().map(|cell| (cell.facility, cell.severity)).collect();
    let (facilities, severities) = (facilities(), severities());
    let expected: Vec<_> = facilities.iter().flat_map(|&f| severities.iter().map(move |&s| (f, s))).collect();
    assert_eq!(places, expected);
    let mut counts = [[0; 9]; 25];
    (counts[0][8], counts[24][0]) = (5, u32::MAX);
    let tally = Tally::from_counts(counts);
    let mut cells = tally.cells();
    assert_eq!(cells.next(), Some(TallyCell { facility: Some(Facility::Kern), severity: None, count: 5 }));
    assert_eq!(cells.clone().next(), cells.next());
    assert_eq!((cells.next(), cells.next()), (None, None));
}

#[test]
fn a_tally_goes_on_from_its_counts_and_is_cleared() {
    let mut tally = Tally::new();
    tally.add(None, None).unwrap();
    let mut copy = Tally::from_counts(*tally.counts());
    assert_eq!(copy, tally);
    copy.add(None, None).unwrap();
    assert_ne!(copy, tally);
    copy.clear();
    assert_eq!(copy, Tally::new());
}

#[test]
fn the_table_has_names_sums_and_columns_as_wide_as_they_need() {
    assert_eq!(
        Tally::new().to_string(),
        "facility  emerg  alert  crit  err  warning  notice  info  debug  none  sum\n\
         sum           0      0     0    0        0       0     0      0     0    0"
    );
    let mut counts = [[0; 9]; 25];
    (counts[10][3], counts[23][3], counts[23][5], counts[24][8]) = (u32::MAX, 12, 1, 99_999);
    assert_eq!(
        Tally::from_counts(counts).to_string(),
        "facility  emerg  alert  crit         err  warning  notice  info  debug   none         sum\n\
         authpriv      .      .     .  4294967295        .       .     .      .      .  4294967295\n\
         local7        .      .     .          12        .       1     .      .      .          13\n\
         none          .      .     .           .        .       .     .      .  99999       99999\n\
         sum           0      0     0  4294967307        0       1     0      0  99999  4295067307"
    );
}

#[test]
fn all_are_in_the_order_of_their_numbers() {
    assert_eq!((Facility::ALL.len(), Severity::ALL.len()), (24, 8));
    assert!(Facility::ALL.iter().enumerate().all(|(i, facility)| usize::from(facility.number()) == i));
    assert!(Severity::ALL.iter().enumerate().all(|(i, severity)| usize::from(severity.number()) == i));
}
