//! The texts that kernels are run on. They follow from a seed, and each is a
//! policy or a record that the second implementation takes.

use second::generate::random::Random;

pub struct Sample {
    pub name: &'static str,
    pub texts: Vec<Vec<u8>>,
}

impl Sample {
    pub fn bytes(&self) -> usize {
        self.texts.iter().map(Vec::len).sum()
    }
}

/// A policy, and records that are decided and fed under it.
#[derive(Clone)]
pub struct Log {
    pub name: &'static str,
    pub policy: Vec<u8>,
    pub records: Vec<Vec<u8>>,
}

/// Of each four records three are allowed, and one is a stray.
pub fn logs() -> Vec<Log> {
    let mut random = Random::new(7);
    let statements = large_statements(&mut random);
    let large = large_policy(&statements);
    let mut of_large = |_| large_request(&statements, &mut random);
    let of_large = (0..64).map(&mut of_large).collect();
    let mut random = Random::new(8);
    let of_small: Vec<Vec<u8>> = (0..64)
        .map(|number| small_request(number, &mut random))
        .collect();
    let log = |name, policy, records| Log {
        name,
        policy,
        records,
    };
    let of_sorted = of_small.iter().map(|record| sorted(record));
    let of_sorted = of_sorted.collect();
    let of_tiny = of_small.clone();
    vec![
        log("policy-2k", small_policy(), of_small),
        log("policy-16k", large, of_large),
        log("sorted-1k", sorted(&small_policy()), of_sorted),
        log("tiny", TINY_POLICY.as_bytes().to_vec(), of_tiny),
    ]
}

/// The same without white space, its members sorted by their names: as many
/// programs write JSON, and in another order than the layouts'.
fn sorted(text: &[u8]) -> Vec<u8> {
    let value: serde_json::Value = serde_json::from_slice(text).expect("JSON");
    serde_json::to_vec(&value).expect("what was read is written")
}

pub fn small_policy() -> Vec<u8> {
    SMALL_POLICY.as_bytes().to_vec()
}

pub fn samples() -> Vec<Sample> {
    let mut random = Random::new(7);
    let large = large_policy(&large_statements(&mut random));
    let small = small_policy();
    let records: Vec<Vec<u8>> = (0..64).map(|_| record(&mut random)).collect();
    for policy in [&large, &small] {
        second::decide(policy, &records[0]).expect("a policy within the limits, and a record");
    }
    for record in &records {
        second::decide(&small, record).expect("a record");
    }
    vec![
        sample("policy-16k", vec![large]),
        sample("policy-2k", vec![small]),
        sample("records", records),
    ]
}

fn sample(name: &'static str, texts: Vec<Vec<u8>>) -> Sample {
    Sample { name, texts }
}

/// A statement of the large policy, its texts as they stand between quotes.
struct Statement {
    action: &'static str,
    /// Without the star behind them.
    resources: [String; 2],
    tag: String,
}

/// Sixteen statements of four entries each, three of them as long as may be.
fn large_statements(random: &mut Random) -> Vec<Statement> {
    let statement = |_| Statement {
        action: random.word(&ACTIONS),
        resources: [(); 2].map(|()| format!("arn:aws:s3:::{}/", path(239, random))),
        tag: path(253, random),
    };
    (0..16).map(statement).collect()
}

/// One space behind each comma and colon, as many programs write JSON.
fn large_policy(statements: &[Statement]) -> Vec<u8> {
    let statements: Vec<String> = statements.iter().enumerate().map(large_statement).collect();
    let statements = statements.join(", ");
    format!(r#"{{"Version": "2012-10-17", "Statement": [{statements}]}}"#).into_bytes()
}

fn large_statement((index, statement): (usize, &Statement)) -> String {
    let effect = if index % 5 == 4 { "Deny" } else { "Allow" };
    let Statement {
        action,
        resources: [first, second],
        tag,
    } = statement;
    format!(
        r#"{{"Sid": "WhatTheNightlyReportsMayReadAndWrite{index}", "Effect": "{effect}", "Action": ["{action}"], "Resource": ["{first}*", "{second}*"], "Condition": {{"StringLike": {{"aws:PrincipalTag/department": "{tag}*"}}}}}}"#
    )
}

/// A request that one of the first two statements allows: more of them, with the
/// Deny statements whole, would be refused as a result. Every fourth is a stray.
fn large_request(statements: &[Statement], random: &mut Random) -> Vec<u8> {
    if random.chance(1, 4) {
        return record(random);
    }
    let statement = &statements[random.below(2)];
    let action = statement.action.replace('*', "Acl");
    // No text may be longer by more than a character.
    let resource = format!("{}{}", random.pick(&statement.resources), random.below(10));
    let tag = format!("{}{}", statement.tag, random.word(&["", "a", "b"]));
    let tag = ("aws:PrincipalTag/department", "string", tag);
    request(&action, &resource, &[tag])
}

/// A request that the small policy allows; every fourth is a stray.
pub fn small_request(number: usize, random: &mut Random) -> Vec<u8> {
    let (length, keys) = (random.between(8, 40), random.below(100));
    let name = path(length, random);
    match number % 8 {
        3 | 7 => record(random),
        0 => {
            let action = random.word(&["s3:ListAllMyBuckets", "s3:GetBucketLocation"]);
            request(action, &format!("arn:aws:s3:::example-{name}"), &[])
        }
        1 => {
            let prefix = ("s3:prefix", "string", "daily/".to_owned());
            let keys = ("s3:max-keys", "numeric", keys.to_string());
            request(
                "s3:ListBucket",
                "arn:aws:s3:::example-reports",
                &[prefix, keys],
            )
        }
        2 => {
            let key = format!("arn:aws:kms:eu-central-1:111122223333:key/{name}");
            request("kms:Decrypt", &key, &[])
        }
        _ => {
            let action = random.word(&["s3:GetObject", "s3:PutObject", "s3:GetObjectTagging"]);
            let folder = random.word(&["daily", "weekly"]);
            let resource = format!("arn:aws:s3:::example-reports/{folder}/{name}");
            let department = random.word(&["finance", "audit-eu", "audit-us"]).to_owned();
            let department = ("aws:PrincipalTag/department", "string", department);
            request(action, &resource, &[department])
        }
    }
}

/// A path of so many characters: mostly letters, one in 150 an `é` as it
/// stands, one in 300 an escape.
fn path(characters: usize, random: &mut Random) -> String {
    const LETTERS: &[u8] = b"abcdefghijklmnopqrstuvwxyz0123456789-/";
    (0..characters)
        .map(|_| match random.below(300) {
            0 => "\\u00e9".to_owned(),
            1 | 2 => "é".to_owned(),
            _ => char::from(*random.pick(LETTERS)).to_string(),
        })
        .collect()
}

/// A request of about 500 bytes, as a log has it in one line. Neither policy
/// allows it.
fn record(random: &mut Random) -> Vec<u8> {
    let action = random.word(&ACTIONS).trim_end_matches('*');
    let length = random.between(95, 155);
    let resource = format!("arn:aws:s3:::{}", path(length, random));
    let context = [
        ("aws:PrincipalTag/team", "string", path(12, random)),
        ("aws:SourceIp", "string", address(random)),
        ("s3:max-keys", "numeric", random.below(1000).to_string()),
    ];
    request(action, &resource, &context)
}

/// The parts of a context entry: its key, its type and its value.
type Context = (&'static str, &'static str, String);

fn request(action: &str, resource: &str, context: &[Context]) -> Vec<u8> {
    let context: Vec<String> = context
        .iter()
        .map(|(key, kind, value)| {
            format!(
                r#"{{"ContextKeyName":"{key}","ContextKeyType":"{kind}","ContextKeyValues":["{value}"]}}"#
            )
        })
        .collect();
    let context = context.join(",");
    format!(
        r#"{{"ActionNames":["{action}"],"ResourceArns":["{resource}"],"ContextEntries":[{context}]}}"#
    )
    .into_bytes()
}

fn address(random: &mut Random) -> String {
    let parts: Vec<String> = (0..4).map(|_| random.below(256).to_string()).collect();
    parts.join(".")
}

const ACTIONS: [&str; 6] = [
    "s3:GetObject",
    "s3:GetObject*",
    "s3:ListBucket",
    "s3:PutObjectTagging",
    "kms:Decrypt",
    "dynamodb:BatchGetItem",
];

/// As short as a policy may be, nearly: what is left is what every call costs.
const TINY_POLICY: &str =
    r#"{"Version":"2012-10-17","Statement":[{"Effect":"Allow","Action":"*","Resource":"*"}]}"#;

/// As people write them: indented, with short names and few long texts.
const SMALL_POLICY: &str = r#"{
    "Version": "2012-10-17",
    "Statement": [
        {
            "Sid": "ListTheBuckets",
            "Effect": "Allow",
            "Action": [
                "s3:ListAllMyBuckets",
                "s3:GetBucketLocation"
            ],
            "Resource": "*"
        },
        {
            "Sid": "ReadAndWriteReports",
            "Effect": "Allow",
            "Action": [
                "s3:GetObject",
                "s3:GetObjectTagging",
                "s3:PutObject",
                "s3:AbortMultipartUpload"
            ],
            "Resource": [
                "arn:aws:s3:::example-reports/daily/*",
                "arn:aws:s3:::example-reports/weekly/*"
            ],
            "Condition": {
                "StringLike": {
                    "aws:PrincipalTag/department": [
                        "finance",
                        "audit-*"
                    ]
                }
            }
        },
        {
            "Sid": "ListSomePrefixes",
            "Effect": "Allow",
            "Action": "s3:ListBucket",
            "Resource": "arn:aws:s3:::example-reports",
            "Condition": {
                "StringEquals": {
                    "s3:prefix": [
                        "daily/",
                        "weekly/"
                    ]
                },
                "NumericLessThanEquals": {
                    "s3:max-keys": "100"
                }
            }
        },
        {
            "Sid": "UseTheKey",
            "Effect": "Allow",
            "Action": [
                "kms:Decrypt",
                "kms:DescribeKey"
            ],
            "Resource": "arn:aws:kms:eu-central-1:111122223333:key/*"
        },
        {
            "Sid": "KeepTheArchive",
            "Effect": "Deny",
            "Action": "s3:DeleteObject*",
            "Resource": "arn:aws:s3:::example-reports/archive/*"
        }
    ]
}
"#;
