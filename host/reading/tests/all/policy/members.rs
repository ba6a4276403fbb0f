//! The members of a policy and of a statement.

use crate::tables::{framed, policies, ACCEPTED, POLICY_LAYOUT};
use crate::texts::{conditional, policy, ALLOW};

#[test]
fn versions() {
    let frame = |version: &str| format!(r#"{{"Version":{version},"Statement":{ALLOW}}}"#);
    let table = [
        (r#""2012-10-17""#, ACCEPTED),
        (r#""2012\u002d10-17""#, ACCEPTED),
        (r#""\u0032\u0030\u0031\u0032-10-17""#, ACCEPTED),
        (r#""2008-10-17""#, POLICY_LAYOUT),
        (r#""2012-10-1""#, POLICY_LAYOUT),
        (r#""2012-10-17 ""#, POLICY_LAYOUT),
        (r#""2012-10-17\u0000""#, POLICY_LAYOUT),
        (r#""2012-10-17\ud800""#, POLICY_LAYOUT),
        (r#""2012–10–17""#, POLICY_LAYOUT),
        (r#""""#, POLICY_LAYOUT),
        ("20121017", POLICY_LAYOUT),
        ("2012.1017", POLICY_LAYOUT),
        ("null", POLICY_LAYOUT),
        ("true", POLICY_LAYOUT),
        (r#"["2012-10-17"]"#, POLICY_LAYOUT),
        (r#"{"2012-10-17":1}"#, POLICY_LAYOUT),
        ("{}", POLICY_LAYOUT),
    ];
    policies(framed(frame, &table));
}

#[test]
fn members_of_a_policy() {
    let frame = |text: &str| text.replace("ALLOW", ALLOW);
    let table = [
        (r#"{"Version":"2012-10-17","Statement":ALLOW}"#, ACCEPTED),
        (r#"{"Statement":ALLOW,"Version":"2012-10-17"}"#, ACCEPTED),
        (
            r#"{"\u0053tatement":[ALLOW],"Versio\u006e":"2012-10-17"}"#,
            ACCEPTED,
        ),
        (
            "\t{\r\"Version\" :\n\"2012-10-17\" , \"Statement\": ALLOW }\n",
            ACCEPTED,
        ),
        ("{}", POLICY_LAYOUT),
        (r#"{"Version":"2012-10-17"}"#, POLICY_LAYOUT),
        (r#"{"Statement":ALLOW}"#, POLICY_LAYOUT),
        (r#"{"Statement":ALLOW,"Statement":ALLOW}"#, POLICY_LAYOUT),
        (
            r#"{"Version":"2012-10-17","Version":"2012-10-17"}"#,
            POLICY_LAYOUT,
        ),
        (
            r#"{"Version":"2012-10-17","Statement":ALLOW,"Id":"x"}"#,
            POLICY_LAYOUT,
        ),
        (
            r#"{"Version":"2012-10-17","Statement":ALLOW,"":1}"#,
            POLICY_LAYOUT,
        ),
        (
            r#"{"Version":"2012-10-17","Statement":ALLOW,"x":{"y":[1]}}"#,
            POLICY_LAYOUT,
        ),
        (
            r#"{"Version":"2012-10-17","Statement":ALLOW,"Version":"2012-10-17"}"#,
            POLICY_LAYOUT,
        ),
        (
            r#"{"Version":"2012-10-17","Statement":ALLOW,"\u0056ersion":"2012-10-17"}"#,
            POLICY_LAYOUT,
        ),
        (
            r#"{"Version":"2008-10-17","Statement":ALLOW,"Version":"2012-10-17"}"#,
            POLICY_LAYOUT,
        ),
        (
            r#"{"Version":"2012-10-17","Statement":ALLOW,"Statement":ALLOW}"#,
            POLICY_LAYOUT,
        ),
        (
            r#"{"Version":"2012-10-17","Statement":ALLOW,"Statement":[]}"#,
            POLICY_LAYOUT,
        ),
        (
            r#"{"version":"2012-10-17","Statement":ALLOW}"#,
            POLICY_LAYOUT,
        ),
        (
            r#"{"Version":"2012-10-17","statement":ALLOW}"#,
            POLICY_LAYOUT,
        ),
        (
            r#"{"Version":"2012-10-17","Statements":ALLOW}"#,
            POLICY_LAYOUT,
        ),
        (
            r#"{"Version":"2012-10-17","Statemen":ALLOW}"#,
            POLICY_LAYOUT,
        ),
        (
            r#"{"Version ":"2012-10-17","Statement":ALLOW}"#,
            POLICY_LAYOUT,
        ),
        (
            r#"{"Version\u0000":"2012-10-17","Statement":ALLOW}"#,
            POLICY_LAYOUT,
        ),
        (
            r#"{"Version":"2012-10-17","Statement":ALLOW,"\ud800":1}"#,
            POLICY_LAYOUT,
        ),
        (
            r#"{"Version\udc00":"2012-10-17","Statement":ALLOW}"#,
            POLICY_LAYOUT,
        ),
        (
            r#"[{"Version":"2012-10-17","Statement":ALLOW}]"#,
            POLICY_LAYOUT,
        ),
        (r#"["Version","2012-10-17"]"#, POLICY_LAYOUT),
        (r#""2012-10-17""#, POLICY_LAYOUT),
        (r#""\ud800""#, POLICY_LAYOUT),
        ("[]", POLICY_LAYOUT),
        ("7", POLICY_LAYOUT),
        ("-0.5e+3", POLICY_LAYOUT),
        ("null", POLICY_LAYOUT),
        (" true ", POLICY_LAYOUT),
    ];
    policies(framed(frame, &table));
}

#[test]
fn one_statement_or_a_list() {
    let frame = |value: &str| policy(&value.replace("ALLOW", ALLOW));
    let table = [
        ("ALLOW", ACCEPTED),
        ("[ALLOW]", ACCEPTED),
        ("[ALLOW,ALLOW]", ACCEPTED),
        ("[ ALLOW ,\nALLOW\t,ALLOW ]", ACCEPTED),
        ("[]", POLICY_LAYOUT),
        ("[ ]", POLICY_LAYOUT),
        ("{}", POLICY_LAYOUT),
        ("[{}]", POLICY_LAYOUT),
        ("[[ALLOW]]", POLICY_LAYOUT),
        ("[[]]", POLICY_LAYOUT),
        ("[ALLOW,[]]", POLICY_LAYOUT),
        ("[ALLOW,1]", POLICY_LAYOUT),
        ("[1,ALLOW]", POLICY_LAYOUT),
        ("[ALLOW,null]", POLICY_LAYOUT),
        ("[ALLOW,{}]", POLICY_LAYOUT),
        ("[ALLOW,\"Allow\"]", POLICY_LAYOUT),
        ("{\"0\":ALLOW}", POLICY_LAYOUT),
        ("null", POLICY_LAYOUT),
        ("0", POLICY_LAYOUT),
        ("false", POLICY_LAYOUT),
        ("\"Allow\"", POLICY_LAYOUT),
    ];
    policies(framed(frame, &table));
}

#[test]
fn members_of_a_statement() {
    let table = [
        (r#""Effect":"Allow","Action":"*","Resource":"*""#, ACCEPTED),
        (r#""Resource":"*","Action":"*","Effect":"Deny""#, ACCEPTED),
        (r#""Action":"*","Effect":"Deny","Resource":"*""#, ACCEPTED),
        (
            r#""\u0045ffect":"Allow","\u0041ction":"*","\u0052esource":"*""#,
            ACCEPTED,
        ),
        (
            r#""Condition":{"StringLike":{"k":"v"}},"Sid":"a","Resource":"*","Action":"*","Effect":"Deny""#,
            ACCEPTED,
        ),
        (
            r#""Sid":"a","Effect":"Allow","Action":"*","Resource":"*","Condition":{"StringLike":{"k":"v"}}"#,
            ACCEPTED,
        ),
        (r#""Action":"*","Resource":"*""#, POLICY_LAYOUT),
        (r#""Effect":"Allow","Resource":"*""#, POLICY_LAYOUT),
        (r#""Effect":"Allow","Action":"*""#, POLICY_LAYOUT),
        (r#""Effect":"Allow""#, POLICY_LAYOUT),
        (r#""Effect":"Allow","Action":"*","Sid":"a""#, POLICY_LAYOUT),
        (
            r#""Effect":"Allow","Action":"*","Resource":"*","Principal":"*""#,
            POLICY_LAYOUT,
        ),
        (
            r#""Effect":"Allow","Action":"*","Resource":"*","NotPrincipal":"*""#,
            POLICY_LAYOUT,
        ),
        (
            r#""Effect":"Allow","Action":"*","Resource":"*","NotAction":"a:b""#,
            POLICY_LAYOUT,
        ),
        (
            r#""Effect":"Allow","Action":"*","Resource":"*","NotResource":"*""#,
            POLICY_LAYOUT,
        ),
        (
            r#""Effect":"Allow","NotAction":"a:b","Resource":"*""#,
            POLICY_LAYOUT,
        ),
        (
            r#""Effect":"Allow","Action":"*","NotResource":"*""#,
            POLICY_LAYOUT,
        ),
        (
            r#""Effect":"Allow","Action":"*","Resource":"*","Id":"x""#,
            POLICY_LAYOUT,
        ),
        (
            r#""Effect":"Allow","Action":"*","Resource":"*","Version":"2012-10-17""#,
            POLICY_LAYOUT,
        ),
        (
            r#""Effect":"Allow","Action":"*","Resource":"*","":1"#,
            POLICY_LAYOUT,
        ),
        (
            r#""effect":"Allow","Action":"*","Resource":"*""#,
            POLICY_LAYOUT,
        ),
        (
            r#""Effect":"Allow","action":"*","Resource":"*""#,
            POLICY_LAYOUT,
        ),
        (
            r#""Effect":"Allow","Actions":"*","Resource":"*""#,
            POLICY_LAYOUT,
        ),
        (
            r#""Effect":"Allow","Action":"*","RESOURCE":"*""#,
            POLICY_LAYOUT,
        ),
        (
            r#""Effect":"Allow","Action":"*","Resource":"*","sid":"a""#,
            POLICY_LAYOUT,
        ),
        (
            r#""Effect":"Allow","Action":"*","Resource":"*","condition":{"StringLike":{"k":"v"}}"#,
            POLICY_LAYOUT,
        ),
        (
            r#""Effect":"Allow","Effect":"Allow","Action":"*","Resource":"*""#,
            POLICY_LAYOUT,
        ),
        (
            r#""Effect":"Allow","Action":"*","Resource":"*","Effect":"Deny""#,
            POLICY_LAYOUT,
        ),
        (
            r#""Effect":"Allow","Action":"*","Action":"*","Resource":"*""#,
            POLICY_LAYOUT,
        ),
        (
            r#""Effect":"Allow","Action":"*","Resource":"*","Resource":"*""#,
            POLICY_LAYOUT,
        ),
        (
            r#""Effect":"Allow","Action":"*","Resource":"*","\u0052esource":"*""#,
            POLICY_LAYOUT,
        ),
        (
            r#""Sid":"a","Effect":"Allow","Action":"*","Resource":"*","Sid":"b""#,
            POLICY_LAYOUT,
        ),
        (
            r#""Effect":"Allow","Action":"*","Resource":"*","\udfff":1"#,
            POLICY_LAYOUT,
        ),
        (
            r#""Effect":"Allow","Action":"*","Resource":"*","Effect\ud800":1"#,
            POLICY_LAYOUT,
        ),
    ];
    policies(framed(
        |members: &str| policy(&format!("{{{members}}}")),
        &table,
    ));
    let condition = r#"{"StringLike":{"k":"v"}}"#;
    let twice = format!(r#"{condition},"Condition":{condition}"#);
    policies([(policy(&conditional(&twice)), POLICY_LAYOUT)]);
}

#[test]
fn effects() {
    let frame = |effect: &str| {
        policy(&format!(
            r#"{{"Effect":{effect},"Action":"*","Resource":"*"}}"#
        ))
    };
    let table = [
        (r#""Allow""#, ACCEPTED),
        (r#""Deny""#, ACCEPTED),
        (r#""\u0041llow""#, ACCEPTED),
        (r#""\u0044\u0065\u006e\u0079""#, ACCEPTED),
        (r#""allow""#, POLICY_LAYOUT),
        (r#""ALLOW""#, POLICY_LAYOUT),
        (r#""deny""#, POLICY_LAYOUT),
        (r#""Allow ""#, POLICY_LAYOUT),
        (r#"" Deny""#, POLICY_LAYOUT),
        (r#""Den""#, POLICY_LAYOUT),
        (r#""Allows""#, POLICY_LAYOUT),
        (r#""Denied""#, POLICY_LAYOUT),
        (r#""*""#, POLICY_LAYOUT),
        (r#""""#, POLICY_LAYOUT),
        (r#""Allow\ud800""#, POLICY_LAYOUT),
        (r#""Аllow""#, POLICY_LAYOUT),
        (r#"["Allow"]"#, POLICY_LAYOUT),
        (r#"{"Allow":1}"#, POLICY_LAYOUT),
        ("true", POLICY_LAYOUT),
        ("null", POLICY_LAYOUT),
        ("1", POLICY_LAYOUT),
    ];
    policies(framed(frame, &table));
}
