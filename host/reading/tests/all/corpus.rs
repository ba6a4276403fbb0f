//! Files that others wrote, where they are at hand.

use crate::agree;
use second::corpus::at_hand;
use second::generate::edits::edit;
use second::generate::random::Random;
use second::generate::share::share;
use std::fs;

#[test]
fn files_of_others_agree() {
    for (folder, least) in [("policies", 100), ("json", 90)] {
        let Some(folder) = at_hand(folder) else {
            continue;
        };
        let comparison = reading::compare(&folder, &[]).unwrap();
        assert!(
            comparison.differences.is_empty(),
            "{:#?}",
            comparison.differences
        );
        assert!(comparison.texts >= least, "{} texts", comparison.texts);
    }
}

/// Policies of others, cut and edited with parts of one another.
#[test]
fn changed_policies_of_others_agree() {
    let Some(folder) = at_hand("policies") else {
        return;
    };
    let mut random = Random::new(4);
    let mut other = b"[]".to_vec();
    for file in fs::read_dir(folder).unwrap() {
        let text = fs::read(file.unwrap().path()).unwrap();
        for _ in 0..share(20) {
            let _ = agree::policy(&text[..random.below(text.len())]);
            let once = edit(&text, &other, &mut random);
            let _ = agree::policy(&once);
            let _ = agree::policy(&edit(&once, &other, &mut random));
        }
        other = text;
    }
}
