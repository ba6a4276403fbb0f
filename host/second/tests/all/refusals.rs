//! Layout before limits, and refusals in words. The order of all refusals is
//! tried by `trials`.

use crate::common::*;
use second::Refusal;

/// A limit passed in one place and the layout broken in another: the layout,
/// wherever it stands.
#[test]
fn layout_before_limits() {
    let long = format!("\"arn:::::{}\"", "x".repeat(300));
    let bad = "\"nothing\"";
    let lists = [format!("[{long},{bad}]"), format!("[{bad},{long}]")];
    for list in lists {
        assert_eq!(policy_number(allow("\"*\"", &list)), 4);
    }
    let sid = r#"{"Sid":"a","Effect":"Allow","Action":"*","Resource":"*"}"#;
    assert_eq!(policy_number(policy(&vec![sid.to_owned(); 17])), 4);
    let long_key = "k".repeat(65);
    let repeated = format!(
        r#"{{"StringLike":{{"{long_key}":"a","{}":"a"}}}}"#,
        long_key.to_uppercase()
    );
    assert_eq!(policy_number(allow_if(&repeated)), 4);
    let long_and_lone = format!("\"arn:::::{}\\ud800\"", "x".repeat(300));
    assert_eq!(policy_number(allow("\"*\"", &long_and_lone)), 4);
}

#[test]
fn refusals_speak() {
    let refusal = Refusal {
        number: 3,
        place: 17,
    };
    assert!(refusal.to_string().starts_with("refused 3 at 17: "));
    let error: Box<dyn std::error::Error> = Box::new(refusal);
    assert!(error.to_string().contains("JSON"));
    let mut meanings: Vec<&str> = (1..=12).map(|number| refused(number).meaning()).collect();
    meanings.sort_unstable();
    meanings.dedup();
    assert_eq!(meanings.len(), 12);
}
