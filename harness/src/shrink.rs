//! The smallest input that shows a difference: bytes are taken out of the line while a difference of the same kind stays.

use crate::abi::Settings;
use crate::compare::{Desk, Fault};

/// Pieces up to this length are all tried, until none goes.
const SMALL: usize = 24;

pub struct Shown {
    pub line: Vec<u8>,
    pub settings: Settings,
    pub fault: Fault,
}

fn still(desk: &mut Desk, line: &[u8], settings: Settings, salt: u64, like: &Fault) -> Option<Fault> {
    let fault = desk.line(line, settings, salt).err()?;
    (fault.service == like.service && fault.what == like.what).then_some(fault)
}

/// Takes out pieces of one length; says whether one went.
fn pass(desk: &mut Desk, shown: &mut Shown, salt: u64, piece: usize) -> bool {
    let mut went = false;
    let mut at = 0;
    while at + piece <= shown.line.len() {
        let mut shorter = shown.line.clone();
        shorter.drain(at..at + piece);
        match still(desk, &shorter, shown.settings, salt, &shown.fault) {
            Some(fault) => {
                shown.line = shorter;
                shown.fault = fault;
                went = true;
            }
            None => at += 1.max(piece / 2),
        }
    }
    went
}

pub fn shrink(desk: &mut Desk, mut shown: Shown, salt: u64) -> Shown {
    for (variant, year, offset) in [(0, 2023, 0), (shown.settings.variant, 2023, 0), (0, shown.settings.year, shown.settings.offset)] {
        let plain = Settings { variant, year, offset };
        if let Some(fault) = still(desk, &shown.line, plain, salt, &shown.fault) {
            shown.settings = plain;
            shown.fault = fault;
            break;
        }
    }
    let mut piece = (shown.line.len() / 2).max(1);
    while piece > SMALL {
        pass(desk, &mut shown, salt, piece);
        piece /= 2;
    }
    while (1..=SMALL).rev().any(|piece| pass(desk, &mut shown, salt, piece)) {}
    shown
}

/// The line with every byte that is not a plain character as an escape.
pub fn escaped(line: &[u8]) -> String {
    line.iter().flat_map(|&b| std::ascii::escape_default(b)).map(char::from).collect()
}
