//! T1 to T12 through the operations, and trials for what they leave open.
//!
//! Each feeds records that ask for some values, one record for each, and says
//! what is written of one list of the policy. The whole written policy is
//! compared.

use crate::subject::{refused, Subject};
use crate::texts::*;
use crate::{ensure, same, shown, Check};
use second::{Decision, Outcome};

/// The list that a trial is about.
#[derive(Debug, Clone, Copy)]
enum Field {
    Action,
    Resource,
    /// A row of the key k under this operator.
    Row(&'static str),
    /// The same, where the records have another key.
    Missing(&'static str),
}

use Field::{Action, Missing, Resource, Row};

const EQUALS: &str = "StringEquals";
const LIKE: &str = "StringLike";
const AT_MOST: &str = "NumericLessThanEquals";

struct Trial {
    name: &'static str,
    field: Field,
    entries: &'static str,
    logged: &'static [&'static str],
    /// The list as it is written; or nothing, where the room stays empty and
    /// Finish is refused by 10.
    written: Option<&'static str>,
}

const fn trial(
    name: &'static str,
    field: Field,
    entries: &'static str,
    logged: &'static [&'static str],
    written: &'static str,
) -> Trial {
    Trial {
        name,
        field,
        entries,
        logged,
        written: Some(written),
    }
}

const TRIALS: [Trial; 15] = [
    trial(
        "T1",
        Resource,
        r#"["arn:aws:s3:::gate/*"]"#,
        &["arn:aws:s3:::gate/north/é1", "arn:aws:s3:::gate/north/è1"],
        r#"["arn:aws:s3:::gate/north/*"]"#,
    ),
    trial(
        "T2",
        Resource,
        r#"["arn:aws:s3:::gate/*"]"#,
        &["arn:aws:s3:::gate/n", "arn:aws:s3:::gate/n1"],
        r#"["arn:aws:s3:::gate/n*"]"#,
    ),
    trial(
        "T3",
        Resource,
        r#"["arn:aws:s3:::gate/*"]"#,
        &["arn:aws:s3:::gate/"],
        r#"["arn:aws:s3:::gate/"]"#,
    ),
    trial(
        "T4",
        Resource,
        r#"["arn:aws:s3:::gate/*"]"#,
        &["arn:aws:s3:::gate/a*b"],
        r#"["arn:aws:s3:::gate/a${*}b"]"#,
    ),
    trial(
        "T5",
        Action,
        r#"["*"]"#,
        &["s3:GetObject", "s3:GetBucketAcl"],
        r#"["s3:Get*"]"#,
    ),
    trial(
        "T6",
        Action,
        r#"["*"]"#,
        &["s3:GetObject", "sqs:SendMessage"],
        r#"["*"]"#,
    ),
    trial(
        "T7",
        Resource,
        r#"["*"]"#,
        &["arn:aws:s3:::a", "arn:aws:s3:::b"],
        r#"["arn:aws:s3:::*"]"#,
    ),
    trial("T8", Resource, r#"["*"]"#, &["*"], r#"["*"]"#),
    trial(
        "T9",
        Row(AT_MOST),
        "[10,100]",
        &["7", "50"],
        r#"["7","50"]"#,
    ),
    trial(
        "T10 with two",
        Resource,
        r#"["arn:aws:s3:::gate/a?c"]"#,
        &["arn:aws:s3:::gate/abc", "arn:aws:s3:::gate/adc"],
        r#"["arn:aws:s3:::gate/a?c"]"#,
    ),
    trial(
        "T10 with one",
        Resource,
        r#"["arn:aws:s3:::gate/a?c"]"#,
        &["arn:aws:s3:::gate/abc"],
        r#"["arn:aws:s3:::gate/abc"]"#,
    ),
    // T11 is `denied_records_charge_nothing`.
    Trial {
        name: "T12",
        field: Resource,
        entries: r#"["arn:aws:s3:::gate/*"]"#,
        logged: &[],
        written: None,
    },
    // Nothing is charged of a record that no statement matches.
    Trial {
        name: "a missing key",
        field: Missing(LIKE),
        entries: r#"["*"]"#,
        logged: &["a"],
        written: None,
    },
    Trial {
        name: "a missing number",
        field: Missing(AT_MOST),
        entries: "[10]",
        logged: &["7"],
        written: None,
    },
    Trial {
        name: "no value below the bound",
        field: Row(AT_MOST),
        entries: "[6]",
        logged: &["7"],
        written: None,
    },
];

/// Several entries that match the same value, and values of several kinds.
const SHARED: [Trial; 9] = [
    trial(
        "10 and 100 with 7 alone",
        Row(AT_MOST),
        "[10,100]",
        &["7"],
        r#"["7","7"]"#,
    ),
    trial(
        "one bound is too low",
        Row(AT_MOST),
        "[10,100,6]",
        &["7"],
        r#"["7","7"]"#,
    ),
    trial(
        "resources",
        Resource,
        r#"["arn:aws:s3:::gate/*","*","arn:aws:s3:::*/n"]"#,
        &["arn:aws:s3:::gate/n"],
        r#"["arn:aws:s3:::gate/n","arn:aws:s3:::gate/n","arn:aws:s3:::gate/n"]"#,
    ),
    trial(
        "actions",
        Action,
        r#"["s3:G*","s3:Get?","*","sqs:*"]"#,
        &["s3:Get1", "s3:Get2"],
        r#"["s3:Get*","s3:Get?","s3:Get*"]"#,
    ),
    trial(
        "a star under StringLike",
        Row(LIKE),
        r#"["*"]"#,
        &["*"],
        r#"["${*}"]"#,
    ),
    trial(
        "a star under StringEquals",
        Row(EQUALS),
        r#"["*","${*}","?"]"#,
        &["*"],
        r#"["*","*"]"#,
    ),
    trial(
        "specials",
        Row(LIKE),
        r#"["a*"]"#,
        &["a?$x", "a?$y"],
        r#"["a${?}${$}*"]"#,
    ),
    trial(
        "the empty text",
        Row(LIKE),
        r#"["*","**",""]"#,
        &[""],
        r#"["","",""]"#,
    ),
    trial(
        "a star behind a plain one",
        Row(LIKE),
        r#"["a${*}*","a**"]"#,
        &["a*b1", "a*b2"],
        r#"["a${*}b*","a**"]"#,
    ),
];

/// T1 to T10 and T12.
pub fn trials_hold(subject: &Subject) -> Check {
    TRIALS.iter().try_for_each(|trial| holds(subject, trial))
}

/// A value is charged to every entry of a list that matches it.
pub fn every_entry_is_charged(subject: &Subject) -> Check {
    SHARED.iter().try_for_each(|trial| holds(subject, trial))
}

fn holds(subject: &Subject, trial: &Trial) -> Check {
    let policy = before(trial.field, trial.entries);
    let asks = |value: &&str| asks(trial.field, value);
    let records: Vec<_> = trial.logged.iter().map(asks).collect();
    let room = subject.fed(&policy, &records)?;
    let found = subject.finished(policy.as_bytes(), &room)?;
    let expected = trial.written.map(|list| after(trial.field, list));
    let right = match (&found, &expected) {
        (Ok(found), Some(expected)) => found == expected.as_bytes(),
        (Err(refusal), None) => *refusal == refused(10) && room.iter().all(|&n| n == 0),
        _ => false,
    };
    ensure(right, || {
        let found = found.map(|bytes| shown(&bytes));
        format!("{}: {found:?}, not {expected:?}", trial.name)
    })
}

/// A policy with the trial's list.
fn before(field: Field, list: &str) -> String {
    match field {
        Action => with_action(list),
        Resource => with_resource(list),
        Row(operator) | Missing(operator) => with_row(operator, "k", list),
    }
}

/// The same as it is written with another list, once a:b on * was charged, or
/// what the list is about.
fn after(field: Field, list: &str) -> String {
    let (any, logged) = (r#"["*"]"#, r#"["a:b"]"#);
    let statement = match field {
        Action => statement(list, any),
        Resource => statement(logged, list),
        Row(operator) | Missing(operator) => format!(
            r#"{{"Effect":"Allow","Action":{logged},"Resource":{any},"Condition":{{"{operator}":{{"k":{list}}}}}}}"#
        ),
    };
    statements(&[statement])
}

/// A record that asks for a value.
fn asks(field: Field, value: &str) -> String {
    let (key, operator) = match field {
        Action => return asking(value, "*"),
        Resource => return asking("a:b", value),
        Row(operator) => ("k", operator),
        Missing(operator) => ("other", operator),
    };
    let kind = match operator {
        AT_MOST => "numeric",
        _ => "string",
    };
    with_context(&[context_entry(key, kind, value)])
}

/// T11: where a Deny matches as well, the answer is the Deny's, and the room
/// stays all zero; so does it for records that nothing matches.
pub fn denied_records_charge_nothing(subject: &Subject) -> Check {
    let gate = r#""arn:aws:s3:::gate/*""#;
    let policy = statements(&[
        statement(r#""s3:*""#, gate),
        statement_to("Deny", r#""s3:Put*""#, gate),
        statement(r#""s3:P*""#, r#""*""#),
    ]);
    let implicit = (Outcome::ImplicitlyDenied, 0);
    let explicit = (Outcome::ExplicitlyDenied, 2);
    let allowed = (Outcome::Allowed, 1);
    for (action, resource, (outcome, statement)) in [
        ("s3:PutObject", "arn:aws:s3:::gate/a", explicit),
        ("s3:Put", "arn:aws:s3:::gate/", explicit),
        ("s3:Get", "arn:aws:s3:::gates/a", implicit),
        ("sqs:Get", "arn:aws:s3:::gate/a", implicit),
        ("s3:Get", "arn:aws:s3:::gate/a", allowed),
    ] {
        let mut room = vec![0; crate::subject::ROOM];
        let record = asking(action, resource);
        let (text, record) = (policy.as_bytes(), record.as_bytes());
        let expected = Ok(Decision { outcome, statement });
        let name = format!("{action} on {resource}");
        same(subject.implementation.decide(text, record), expected, &name)?;
        same(
            subject.implementation.feed(text, record, &mut room),
            expected,
            &name,
        )?;
        let empty = room.iter().all(|&number| number == 0);
        ensure(empty == (outcome != Outcome::Allowed), || {
            format!("{name}: the room is empty: {empty}")
        })?;
    }
    Ok(())
}

/// T4's second half: what was held for a*b no longer matches aXb.
pub fn a_held_star_is_no_wildcard(subject: &Subject) -> Check {
    let policy = with_resource(r#""arn:aws:s3:::gate/*""#);
    let logged = asking("a:b", "arn:aws:s3:::gate/a*b");
    let other = asking("a:b", "arn:aws:s3:::gate/aXb");
    let refined = subject.refined(&policy, std::slice::from_ref(&logged))?;
    let refined = refined.map_err(|refusal| refusal.to_string())?;
    for (policy, record, expected) in [
        (policy.as_bytes(), &other, Outcome::Allowed),
        (&refined, &other, Outcome::ImplicitlyDenied),
        (&refined, &logged, Outcome::Allowed),
    ] {
        let decision = subject.implementation.decide(policy, record.as_bytes());
        let outcome = decision.map(|decision| decision.outcome);
        same(outcome, Ok(expected), record)?;
    }
    Ok(())
}
