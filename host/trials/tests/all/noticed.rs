//! Every wrong implementation fails some trial: a trial that nothing fails
//! shows nothing.

use crate::imitations::{Faulty, Imitation, Wrong, ALL};
use second::fault::Fault;
use second::implementation::Implementation;
use second::properties::check_seed;
use trials::tally::Tally;
use trials::{damage, logs, Encoding, Subject};

fn subject(implementation: &dyn Implementation) -> Subject<'_> {
    Subject {
        implementation,
        encoding: Encoding::LowerFirst,
    }
}

/// The trials that an implementation fails.
fn failed(implementation: &dyn Implementation) -> Vec<&'static str> {
    let all = trials::ALL.into_iter();
    let failed = all.filter(|(_, trial)| trial(&subject(implementation)).is_err());
    failed.map(|(name, _)| name).collect()
}

fn fails_logs(implementation: &dyn Implementation) -> bool {
    logs::check_all(&subject(implementation), 0..100).is_err()
}

#[test]
fn imitations_fail_trials() {
    for (wrong, trials) in [
        (
            Wrong::RefusesAlways,
            vec!["denied", "without cause", "characters"],
        ),
        (Wrong::AllowsAlways, vec!["denied", "star stays plain"]),
        (
            Wrong::FeedsNothing,
            vec!["numbered", "charged twice", "longest beginning"],
        ),
        (Wrong::FeedsOnce, vec!["numbered", "longest beginning"]),
        (Wrong::JoinsNothing, vec!["contents", "joined contents"]),
        (Wrong::JoinsOver, vec!["contents", "joined contents"]),
        (Wrong::JoinsAnything, vec!["join", "contents", "marks"]),
        (Wrong::FinishesUnrefined, vec!["numbered", "output lengths"]),
        (Wrong::FinishesFixed, vec!["numbered", "output lengths"]),
        (Wrong::FinishesByOne, vec!["numbered", "output lengths"]),
        (Wrong::WritesBehind, vec!["numbered", "output lengths"]),
        (Wrong::WritesWhenRefused, vec!["restate", "output lengths"]),
        (Wrong::ChangesWhenRefused, vec!["feed", "room lengths"]),
        (Wrong::ForgetsPlaces, vec!["decide", "restate"]),
        (Wrong::LeavesOneNumber, vec!["fresh"]),
    ] {
        let failed = failed(&Imitation(wrong));
        for trial in trials {
            assert!(
                failed.contains(&trial),
                "{wrong:?} passes {trial}: {failed:?}"
            );
        }
    }
}

#[test]
fn faults_fail_trials() {
    for (fault, trials) in [
        (Fault::BeginningCutInBytes, vec!["numbered", "shared bytes"]),
        (Fault::LoggedStarBare, vec!["numbered", "star stays plain"]),
        (Fault::FirstEntryOnly, vec!["charged twice", "charged rows"]),
        (Fault::DeniedCharged, vec!["denied"]),
        (Fault::MissingKeyHolds, vec!["numbered"]),
    ] {
        let failed = failed(&Faulty(fault));
        for trial in trials {
            assert!(
                failed.contains(&trial),
                "{fault:?} passes {trial}: {failed:?}"
            );
        }
    }
}

/// Generated logs notice whatever changes an answer, a room or a result.
#[test]
fn imitations_and_faults_fail_logs() {
    // No room of a log is damaged.
    let in_logs = |wrong: &Wrong| *wrong != Wrong::JoinsAnything;
    for wrong in ALL.iter().copied().filter(in_logs) {
        assert!(fails_logs(&Imitation(wrong)), "{wrong:?}");
    }
    for fault in [
        Fault::BeginningCutInBytes,
        Fault::LoggedStarBare,
        Fault::FirstEntryOnly,
        Fault::DeniedCharged,
        Fault::MissingKeyHolds,
    ] {
        assert!(fails_logs(&Faulty(fault)), "{fault:?}");
    }
}

/// Damaged rooms notice who takes them.
#[test]
fn taking_anything_fails_damage() {
    let imitation = Imitation(Wrong::JoinsAnything);
    let mut tally = Tally::default();
    let noticed = damage::check(&subject(&imitation), 0, 100, &mut tally);
    assert!(noticed.is_err());
    assert!(damage::every_number(&subject(&imitation), &mut tally).is_err());
}

/// The second implementation's own properties notice all of them too.
#[test]
fn imitations_fail_properties() {
    for &wrong in ALL {
        let noticed = (0..60).any(|seed| check_seed(&Imitation(wrong), seed).is_err());
        assert!(noticed, "{wrong:?}");
    }
}

/// Rooms read with a number's halves the wrong way round are not passed: the
/// two encodings are told apart.
#[test]
fn the_encoding_matters() {
    let other = Subject {
        encoding: Encoding::UpperFirst,
        ..Subject::second()
    };
    let mut tally = Tally::default();
    let noticed = (0..200).any(|seed| damage::check(&other, seed, 10, &mut tally).is_err());
    assert!(noticed);
    assert!(logs::check_all(&other, 0..200).is_err());
}
