//! Elements with nothing but an id, each another, made to be slow to tell apart. All of a list have one length.
use crate::random::Random;

const SEED: u64 = 1;
const LONGEST: usize = 32;

/// The bytes that an id may have: ASCII that prints, without `"`, `=` and `]`.
fn bytes() -> Vec<char> {
    ('!'..='~').filter(|c| !"\"=]".contains(*c)).collect()
}

/// The first `n` texts of two bytes.
fn pairs(n: usize) -> Vec<String> {
    let bytes = bytes();
    (0..n).map(|i| format!("{}{}", bytes[i / bytes.len()], bytes[i % bytes.len()])).collect()
}

fn elements(ids: &[String]) -> Vec<String> {
    ids.iter().map(|id| format!("[{id}]")).collect()
}

/// Ids of 32 bytes with pairs at place `p`, `a` elsewhere.
fn long(pairs: &[String], p: usize) -> Vec<String> {
    pairs.iter().map(|pair| format!("{}{pair}{}", "a".repeat(p), "a".repeat(LONGEST - p - 2))).collect()
}

pub fn in_order(n: usize) -> Vec<String> {
    elements(&pairs(n))
}

/// The same, shuffled (Fisher and Yates).
pub fn shuffled(n: usize) -> Vec<String> {
    let mut r = Random::new(SEED);
    let mut all = in_order(n);
    for i in (1..n).rev() {
        all.swap(i, r.below(i as u64 + 1) as usize);
    }
    all
}

pub fn late(n: usize) -> Vec<String> {
    elements(&long(&pairs(n), LONGEST - 2))
}

pub fn middle(n: usize) -> Vec<String> {
    elements(&long(&pairs(n), LONGEST / 2 - 1))
}

/// Up to 32 ids, a `b` at another place in each.
fn spread(n: usize) -> Vec<String> {
    (0..n.min(LONGEST)).map(|i| format!("{}b{}", "a".repeat(i), "a".repeat(LONGEST - 1 - i))).collect()
}

/// Then pairs at the end, none of which begins with `a` or `b`.
pub fn each_elsewhere(n: usize) -> Vec<String> {
    let mut ids = spread(n);
    ids.extend(long(&pairs(n - ids.len()), LONGEST - 2));
    elements(&ids)
}

/// Then the numbers with two bits or more, in `a` and `b` at the end.
pub fn binary(n: usize) -> Vec<String> {
    let bits = |i: u32| (0..8).map(|k| if i >> k & 1 == 1 { 'b' } else { 'a' }).collect::<String>();
    let mut ids = spread(n);
    let numbers = (0..256u32).filter(|i| i.count_ones() > 1).take(n - ids.len());
    ids.extend(numbers.map(|i| format!("{}{}", "a".repeat(LONGEST - 8), bits(i))));
    elements(&ids)
}
