//! Texts that stay JSON and lose their meaning: values and names put where
//! others stood, parts dropped, repeated, moved or wrapped.

use super::random::Random;
use super::tree::{quoted, Path, Tree};

/// One change to a value; parts are those of a list or object.
#[derive(Debug, Clone)]
enum Edit {
    Replace(Tree),
    /// The value alone in a list.
    Wrap,
    /// The only element of a list, without the list.
    Unwrap,
    Drop(usize),
    /// Once more behind itself.
    Repeat(usize),
    /// Behind the part that follows it.
    Swap(usize),
    Rename(usize, &'static str),
}

/// Values put in the place of others.
const VALUES: [&str; 34] = [
    "null",
    "true",
    "0",
    "1.0",
    "1e2",
    "-0",
    "9007199254740991",
    "9007199254740992",
    r#""""#,
    r#""*""#,
    r#""?""#,
    r#""k""#,
    r#""a:b""#,
    r#""a:*""#,
    r#""arn:::::""#,
    r#""arn::::""#,
    r#""${*}""#,
    r#""${x}""#,
    r#""\ud800""#,
    r#""\u00e9""#,
    r#""01""#,
    r#""9007199254740991""#,
    r#""Allow""#,
    r#""Deny""#,
    r#""string""#,
    r#""numeric""#,
    r#""2012-10-17""#,
    "[]",
    "{}",
    r#"["*"]"#,
    r#"["a:b","a:b"]"#,
    r#"{"k":"v"}"#,
    r#"{"StringLike":{"k":"v","l":[""]}}"#,
    "[[[[[[[[[[[[[[[[[]]]]]]]]]]]]]]]]]",
];

/// Names put in the place of others.
const NAMES: [&str; 23] = [
    "",
    "k",
    "K",
    "x y",
    r"\ud800",
    "effect",
    r"\u0045ffect",
    "Version",
    "Statement",
    "Sid",
    "Effect",
    "Action",
    "Resource",
    "Condition",
    "StringEquals",
    "StringLike",
    "NumericLessThanEquals",
    "ActionNames",
    "ResourceArns",
    "ContextEntries",
    "ContextKeyName",
    "ContextKeyType",
    "ContextKeyValues",
];

/// Changes one value of a text, a third of the time into a value of another.
/// Texts that are not JSON stay as they are.
pub fn edit(text: &[u8], other: &[u8], random: &mut Random) -> Vec<u8> {
    let (Some(mut tree), Some(other)) = (Tree::read(text), Tree::read(other)) else {
        return text.to_vec();
    };
    let path = random.pick(&tree.paths()).clone();
    let edit = match random.below(3) {
        0 => {
            let from = other.paths();
            Edit::Replace(other.at(random.pick::<Path>(&from)).clone())
        }
        1 => random.pick(&replacements()).clone(),
        _ => random.pick(&rearrangements(tree.at(&path))).clone(),
    };
    apply(&edit, tree.at_mut(&path));
    tree.write()
}

/// A text under every single edit; none for texts that are not JSON.
pub fn every_edit(text: &[u8]) -> Vec<Vec<u8>> {
    let mut texts = Vec::new();
    let Some(tree) = Tree::read(text) else {
        return texts;
    };
    for path in tree.paths() {
        let edits = [replacements(), rearrangements(tree.at(&path))].concat();
        for edit in edits {
            let mut changed = tree.clone();
            apply(&edit, changed.at_mut(&path));
            texts.push(changed.write());
        }
    }
    texts
}

fn replacements() -> Vec<Edit> {
    let leaf = |value: &str| Edit::Replace(Tree::Leaf(value.as_bytes().to_vec()));
    VALUES.map(leaf).to_vec()
}

/// What can be done to a value and its parts alone.
fn rearrangements(tree: &Tree) -> Vec<Edit> {
    let mut edits = vec![Edit::Wrap];
    let count = tree.parts().len();
    if matches!(tree, Tree::List(_)) && count == 1 {
        edits.push(Edit::Unwrap);
    }
    for part in 0..count {
        edits.extend([Edit::Drop(part), Edit::Repeat(part)]);
        if part + 1 < count {
            edits.push(Edit::Swap(part));
        }
        if matches!(tree, Tree::Object(_)) {
            edits.extend(NAMES.map(|name| Edit::Rename(part, name)));
        }
    }
    edits
}

fn apply(edit: &Edit, tree: &mut Tree) {
    match (edit, &mut *tree) {
        (Edit::Replace(value), _) => *tree = value.clone(),
        (Edit::Wrap, _) => *tree = Tree::List(vec![tree.clone()]),
        (Edit::Unwrap, Tree::List(elements)) => *tree = elements.remove(0),
        (Edit::Rename(part, name), Tree::Object(members)) => {
            members[*part].0 = quoted(name.as_bytes());
        }
        (_, Tree::List(elements)) => rearrange(edit, elements),
        (_, Tree::Object(members)) => rearrange(edit, members),
        (_, Tree::Leaf(_)) => {}
    }
}

fn rearrange<T: Clone>(edit: &Edit, parts: &mut Vec<T>) {
    match *edit {
        Edit::Drop(part) => drop(parts.remove(part)),
        Edit::Repeat(part) => parts.insert(part, parts[part].clone()),
        Edit::Swap(part) => parts.swap(part, part + 1),
        _ => {}
    }
}

#[cfg(test)]
mod tests {
    use super::*;

    fn edited(text: &str) -> Vec<String> {
        let texts = every_edit(text.as_bytes()).into_iter();
        texts.map(|t| String::from_utf8(t).unwrap()).collect()
    }

    #[test]
    fn every_edit_is_made_at_every_value() {
        let texts = edited(r#" { "a" : [1, 2] , "b" : [ "x" ] } "#);
        for expected in [
            r#"{"a":[1,2],"b":null}"#,
            r#"{"a":[[],2],"b":["x"]}"#,
            r#"[{"a":[1,2],"b":["x"]}]"#,
            r#"{"a":[1,2],"b":"x"}"#,
            r#"{"a":[1,2],"b":[["x"]]}"#,
            r#"{"b":["x"]}"#,
            r#"{"a":[1],"b":["x"]}"#,
            r#"{"a":[1,2],"a":[1,2],"b":["x"]}"#,
            r#"{"a":[1,1,2],"b":["x"]}"#,
            r#"{"b":["x"],"a":[1,2]}"#,
            r#"{"a":[2,1],"b":["x"]}"#,
            r#"{"a":[1,2],"K":["x"]}"#,
        ] {
            assert!(texts.iter().any(|text| text == expected), "{expected}");
        }
        // Six values; lists and objects with parts and, once, an only one.
        let parts = 2 * 2 + 1 + 2 * 2 + 1 + 2;
        assert_eq!(texts.len(), 6 * 35 + parts + 2 * 23 + 1);
        assert!(edited("[1,").is_empty());
    }

    #[test]
    fn random_edits_are_among_them_or_from_the_other_text() {
        let mut random = Random::new(7);
        let (text, other) = (r#"{"a":[1,2]}"#, r#"[true]"#);
        let mut expected = edited(text);
        for value in ["[true]", "true"] {
            let places = [value.to_owned(), format!(r#"{{"a":{value}}}"#)];
            expected.extend(places);
            expected.extend([
                format!(r#"{{"a":[{value},2]}}"#),
                format!(r#"{{"a":[1,{value}]}}"#),
            ]);
        }
        for _ in 0..200 {
            let found = edit(text.as_bytes(), other.as_bytes(), &mut random);
            let found = String::from_utf8(found).unwrap();
            assert!(expected.contains(&found), "{found}");
        }
        assert_eq!(edit(b"{", b"[]", &mut random), b"{");
    }
}
