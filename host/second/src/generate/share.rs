//! How much of what tests generate and sweep is run: all of it, unless the
//! environment says that one in so many is enough. It does so where the
//! processor is emulated and all would take hours. Nothing else decides it.

use super::random::Random;
use std::env::{self, VarError};
use std::iter;

/// Set to a number from 1 on: one in so many is run.
pub const VARIABLE: &str = "MUCKPOSY_SHARE";

/// The share of a count of cases: at least one.
pub fn share(count: usize) -> usize {
    share_of(count, one_in())
}

/// How often a share has to meet what all cases have to meet so often: half of
/// what is due, since of fewer cases chance decides more.
pub fn least(times: usize) -> usize {
    least_of(times, one_in())
}

/// The share of a sweep: the first, the last, and some of those between. Which
/// ones, a seed says: steps of one width would miss whatever returns as often.
pub fn spread<T>(all: impl IntoIterator<Item = T>) -> impl Iterator<Item = T> {
    spread_of(all.into_iter(), one_in())
}

fn one_in() -> usize {
    divisor(env::var(VARIABLE))
}

fn divisor(said: Result<String, VarError>) -> usize {
    let number = match &said {
        Ok(text) => text.parse().ok(),
        Err(VarError::NotPresent) => Some(1),
        Err(VarError::NotUnicode(_)) => None,
    };
    let number = number.filter(|&number| number > 0);
    number.unwrap_or_else(|| panic!("{VARIABLE} has to be a number from 1 on, not {said:?}"))
}

fn share_of(count: usize, one_in: usize) -> usize {
    (count / one_in).max(1)
}

fn least_of(times: usize, one_in: usize) -> usize {
    match one_in {
        1 => times,
        _ => times / one_in / 2,
    }
}

fn spread_of<T>(all: impl Iterator<Item = T>, one_in: usize) -> impl Iterator<Item = T> {
    let mut random = Random::new(0);
    let mut all = all.peekable();
    let mut is_first = true;
    iter::from_fn(move || loop {
        let item = all.next()?;
        let is_end = is_first || all.peek().is_none();
        is_first = false;
        if random.below(one_in) == 0 || is_end {
            return Some(item);
        }
    })
}

#[cfg(test)]
mod tests {
    use super::*;
    use std::panic::catch_unwind;

    fn said(text: &str) -> usize {
        divisor(Ok(text.to_owned()))
    }

    #[test]
    fn the_variable_is_a_number_from_one_on() {
        assert_eq!(divisor(Err(VarError::NotPresent)), 1);
        assert_eq!([said("1"), said("20")], [1, 20]);
        for nonsense in ["", "0", "-1", "1.5", " 2", "all"] {
            assert!(catch_unwind(|| said(nonsense)).is_err(), "{nonsense:?}");
        }
        let strange = || divisor(Err(VarError::NotUnicode("2".into())));
        assert!(catch_unwind(strange).is_err());
    }

    #[test]
    fn counts_are_divided_and_never_none() {
        let shares = [0, 1, 19, 20, 24_000].map(|count| share_of(count, 20));
        assert_eq!(shares, [1, 1, 1, 1, 1_200]);
        assert_eq!(share_of(24_000, 1), 24_000);
    }

    #[test]
    fn half_of_what_is_due_is_enough() {
        let least = [0, 39, 40, 79, 80, 24_000].map(|times| least_of(times, 20));
        assert_eq!(least, [0, 0, 1, 1, 2, 600]);
        assert_eq!([0, 7].map(|times| least_of(times, 1)), [0, 7]);
    }

    #[test]
    fn sweeps_keep_their_ends_and_are_thinned() {
        for length in [0, 1, 2, 3, 100] {
            assert!(spread_of(0..length, 1).eq(0..length));
        }
        let thinned: Vec<usize> = spread_of(0..10_000, 20).collect();
        assert_eq!((thinned[0], thinned[thinned.len() - 1]), (0, 9_999));
        assert!((400..600).contains(&thinned.len()), "{}", thinned.len());
        assert!(thinned.is_sorted_by(|one, next| one < next && next - one < 400));
        let kept = |place: usize| thinned.iter().any(|item| item % 20 == place);
        assert!((0..20).all(kept), "no place in the period is missed");
    }
}
