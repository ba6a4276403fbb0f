//! A JSON text as its parts, to be taken apart and put together otherwise.

use crate::json::{Kind, Scan, Source, Tape};

/// Names and leaves are kept as they were spelled, strings with their quotes.
#[derive(Debug, Clone, PartialEq, Eq)]
pub enum Tree {
    Leaf(Vec<u8>),
    List(Vec<Tree>),
    Object(Vec<(Vec<u8>, Tree)>),
}

/// The way from the whole to one of its values, by numbers of parts.
pub type Path = Vec<usize>;

impl Tree {
    /// A text that is not JSON, or nested too deep, has no parts.
    pub fn read(text: &[u8]) -> Option<Tree> {
        let mut tape = Tape::default();
        let whole = tape.scan(text) == Scan::Whole;
        whole.then(|| Tree::of(&Source::new(text, &tape), 0))
    }

    fn of(source: &Source, node: usize) -> Tree {
        let raw = source.raw(node);
        let value = |node| Tree::of(source, node);
        let member = |(name, node)| (quoted(source.raw(name)), value(node));
        match source.kind(node) {
            Kind::Number | Kind::Word => Tree::Leaf(raw.to_vec()),
            Kind::Ascii | Kind::Text => Tree::Leaf(quoted(raw)),
            Kind::List => Tree::List(source.elements(node).map(value).collect()),
            Kind::Object => Tree::Object(source.members(node).map(member).collect()),
        }
    }

    /// The text, without spaces outside strings.
    pub fn write(&self) -> Vec<u8> {
        match self {
            Tree::Leaf(spelled) => spelled.clone(),
            Tree::List(elements) => enclosed(b"[", elements.iter().map(Tree::write), b"]"),
            Tree::Object(members) => {
                let members = members
                    .iter()
                    .map(|(name, value)| [name, &b":"[..], &value.write()].concat());
                enclosed(b"{", members, b"}")
            }
        }
    }

    /// The ways to every value, the whole first.
    pub fn paths(&self) -> Vec<Path> {
        let mut paths = vec![Path::new()];
        for (number, part) in self.parts().enumerate() {
            let inner = part.paths().into_iter();
            paths.extend(inner.map(|path| [&[number], &path[..]].concat()));
        }
        paths
    }

    /// The value to which a way leads.
    pub fn at(&self, path: &[usize]) -> &Tree {
        path.iter().fold(self, |tree, &number| {
            let part = tree.parts().nth(number);
            part.expect("ways lead through parts")
        })
    }

    pub fn at_mut(&mut self, path: &[usize]) -> &mut Tree {
        path.iter().fold(self, |tree, &number| match tree {
            Tree::Leaf(_) => tree,
            Tree::List(elements) => &mut elements[number],
            Tree::Object(members) => &mut members[number].1,
        })
    }

    /// The values directly inside.
    pub fn parts(&self) -> Box<dyn ExactSizeIterator<Item = &Tree> + '_> {
        match self {
            Tree::Leaf(_) => Box::new([].iter()),
            Tree::List(elements) => Box::new(elements.iter()),
            Tree::Object(members) => Box::new(members.iter().map(|(_, value)| value)),
        }
    }
}

/// A string's bytes with their quotes.
pub fn quoted(raw: &[u8]) -> Vec<u8> {
    [b"\"", raw, b"\""].concat()
}

fn enclosed(open: &[u8], parts: impl Iterator<Item = Vec<u8>>, close: &[u8]) -> Vec<u8> {
    let parts: Vec<_> = parts.collect();
    [open, &parts.join(&b','), close].concat()
}
