//! Texts that follow from a seed: policies, records, and what damage leaves.

use crate::{compare, compare_cuts};
use second::generate::any_case;
use second::generate::damage::{damage_policy, damage_record};
use second::generate::random::Random;
use second::generate::share::{least, share};
use second::Scan;

const TEXTS: usize = 150_000;

/// The texts compared so far, and how many of them the scan found what.
#[derive(Default)]
struct Tally {
    whole: usize,
    breaks: usize,
    deep: usize,
}

impl Tally {
    fn compare(&mut self, text: &[u8]) {
        compare(text);
        match second::scan(text) {
            Scan::Whole => self.whole += 1,
            Scan::Breaks(_) => self.breaks += 1,
            Scan::TooDeep => self.deep += 1,
        }
    }

    fn texts(&self) -> usize {
        self.whole + self.breaks + self.deep
    }
}

#[test]
fn policies_and_records_agree() {
    let mut random = Random::new(1);
    let mut tally = Tally::default();
    while tally.texts() < share(TEXTS) {
        let case = any_case(&mut random);
        compare_damaged(&case.policy, damage_policy, &mut tally, &mut random);
        for record in &case.records {
            compare_damaged(record, damage_record, &mut tally, &mut random);
        }
    }
    // Damage that left nothing whole, or nothing broken, would try little.
    assert!(tally.whole > least(TEXTS / 10), "{} whole", tally.whole);
    assert!(tally.breaks > least(TEXTS / 10), "{} broken", tally.breaks);
    assert!(tally.deep > least(TEXTS / 200), "{} too deep", tally.deep);
}

/// Compares a text, damaged ever more.
fn compare_damaged(
    text: &[u8],
    damage: fn(&[u8], &mut Random) -> Vec<u8>,
    tally: &mut Tally,
    random: &mut Random,
) {
    let mut text = text.to_vec();
    tally.compare(&text);
    for _ in 0..3 {
        text = damage(&text, random);
        tally.compare(&text);
    }
}

/// One flip of each bit, and one cut at each length, of some texts.
#[test]
fn every_flip_and_cut_agrees() {
    let mut random = Random::new(2);
    for _ in 0..share(12) {
        let case = any_case(&mut random);
        for text in case.records.iter().chain([&case.policy]) {
            let mut flipped = text[..text.len().min(600)].to_vec();
            compare_cuts(&flipped);
            for bit in 0..flipped.len() * 8 {
                flipped[bit / 8] ^= 1 << (bit % 8);
                compare(&flipped);
                flipped[bit / 8] ^= 1 << (bit % 8);
            }
        }
    }
}
