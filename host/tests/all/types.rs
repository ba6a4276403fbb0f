//! What answers say about themselves.

use muckposy::{decide, restate_to_vec, Decision, Outcome, Reason, Refusal, Room, WrongLength};
use std::collections::HashSet;
use std::error::Error;
use std::thread;
use trials::texts::{policy, record, with_resource, ALLOW};

#[test]
fn every_number_has_its_words() {
    let mut told: Vec<String> = (1..=12)
        .map(|number| Refusal { number, place: 5 }.to_string())
        .collect();
    for (number, words) in (1..).zip(&told) {
        assert!(
            words.starts_with(&format!("refused by {number}: ")),
            "{words}"
        );
        let placed = words.ends_with(", from byte 5 on");
        assert_eq!(placed, number == 3 || number == 8, "{words}");
        assert!(!words.contains("no refusal"), "{words}");
    }
    told.sort();
    told.dedup();
    assert_eq!(told.len(), 12);
    let none = Refusal {
        number: 13,
        place: 0,
    };
    assert!(none.to_string().contains("no refusal"));
}

#[test]
fn refusals_are_errors() {
    let refused = || -> Result<Decision, Box<dyn Error>> { Ok(decide(b"{", b"")?) };
    let error = refused().unwrap_err();
    let expected = Refusal {
        number: 3,
        place: 1,
    };
    assert_eq!(error.downcast_ref::<Refusal>(), Some(&expected));
}

#[test]
fn answers_are_plain_values() {
    let text = policy(ALLOW);
    let decision = decide(text.as_bytes(), record("").as_bytes()).unwrap();
    let copy = decision;
    assert_eq!(copy, decision);
    let shown = "Decision { outcome: Allowed, statement: 1 }";
    assert_eq!(format!("{decision:?}"), shown);
    assert_ne!(Outcome::ExplicitlyDenied, Outcome::ImplicitlyDenied);
}

#[test]
fn every_number_has_its_reason() {
    assert_eq!(Reason::ALL.len(), 12);
    for (number, &reason) in (1..).zip(Reason::ALL) {
        let refusal = Refusal { number, place: 0 };
        assert_eq!(refusal.reason(), reason);
        assert_eq!(reason.number(), number);
        assert_eq!(Reason::from_number(number), Some(reason));
        assert_eq!(reason.to_string(), reason.meaning());
        let told = format!("refused by {number}: {reason}");
        assert!(refusal.to_string().starts_with(&told), "{refusal}");
    }
    for number in [0, 13, u32::MAX] {
        assert_eq!(Reason::from_number(number), None);
    }
}

#[test]
#[should_panic(expected = "a number from 1 to 12")]
fn a_number_set_by_hand_has_no_reason() {
    let refusal = Refusal {
        number: 13,
        place: 0,
    };
    let _ = refusal.reason();
}

#[test]
fn decisions_in_words() {
    let words = |outcome, statement| Decision { outcome, statement }.to_string();
    assert_eq!(words(Outcome::Allowed, 2), "allowed by statement 2");
    let denied = words(Outcome::ExplicitlyDenied, 16);
    assert_eq!(denied, "explicitly denied by statement 16");
    assert_eq!(words(Outcome::ImplicitlyDenied, 0), "implicitly denied");
    assert_eq!(format!("{:>9}|", Outcome::Allowed), "  allowed|");
}

/// Compiles only if each may be sent to and shared by threads, and outlives a
/// caught panic.
#[test]
fn everything_crosses_threads() {
    fn crosses<T: Send + Sync + Unpin + std::panic::UnwindSafe + 'static>() {}
    crosses::<Room>();
    crosses::<Decision>();
    crosses::<Outcome>();
    crosses::<Reason>();
    crosses::<Refusal>();
    crosses::<WrongLength>();
}

#[test]
fn answers_are_kept_in_sets() {
    let mut refusals = HashSet::new();
    for text in [&b"{"[..], b"[", b"{}", b"{ }"] {
        refusals.insert(decide(text, b"").unwrap_err());
    }
    assert_eq!(refusals.len(), 2);
    let rooms = HashSet::from([Room::new(), Room::default()]);
    assert_eq!(rooms.len(), 1);
    let reasons: HashSet<Reason> = Reason::ALL.iter().copied().collect();
    assert_eq!(reasons.len(), Reason::ALL.len());
}

/// What the documentation advises for threads of a chosen size, on policies of every
/// length and on texts of every depth.
#[test]
fn a_small_stack_is_enough() {
    let small = thread::Builder::new().stack_size(256 << 10);
    let walk = small.spawn(|| {
        let entry = format!(r#""arn:::::{}*""#, r"a\u00e9".repeat(30));
        for entries in [1, 2, 8, 16, 40, 63] {
            let list = vec![entry.as_str(); entries].join(",");
            let allowed = every_operation(&with_resource(&format!("[{list}]")), &record(""));
            assert!(allowed.is_ok());
        }
        for depth in 1..18 {
            let (open, close) = (r#"[{"a":"#.repeat(depth), "}]".repeat(depth));
            for inner in ["1", r#""\ud834\udd1e""#, r#""\x""#] {
                let text = format!("{open}{inner}{close}");
                assert!(every_operation(&text, &record("")).is_err());
                assert!(every_operation(&policy(ALLOW), &text).is_err());
            }
        }
    });
    walk.unwrap().join().unwrap();
}

fn every_operation(policy: &str, record: &str) -> Result<Decision, Refusal> {
    let (policy, record) = (policy.as_bytes(), record.as_bytes());
    let mut room = Room::new();
    let _ = room.feed(policy, record);
    let _ = room.join(policy, &Room::new());
    let _ = room.finish(policy);
    let _ = restate_to_vec(policy);
    decide(policy, record)
}
