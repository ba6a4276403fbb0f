//! What the JSON scan finds, and the flat table of values that it leaves
//! behind: a run of nodes in text order, so that the layouts are read without
//! looking at spaces, commas or quotes again.

use crate::scanner;

/// What the scan of a whole text found.
#[derive(Debug, Clone, Copy, PartialEq, Eq)]
pub enum Scan {
    /// A JSON text of at most 16 levels.
    Whole,
    /// The offset of the first byte that no JSON text can have there, or the
    /// length where the text ends before its value does.
    Breaks(usize),
    /// A seventeenth level opens before anything breaks.
    TooDeep,
}

#[derive(Debug, Clone, Copy, PartialEq, Eq)]
pub enum Kind {
    Object,
    List,
    /// A string of ASCII without a backslash: its bytes are its characters.
    Ascii,
    /// A string that has to be decoded.
    Text,
    Number,
    /// true, false or null.
    Word,
}

/// One value or member name. A member is two nodes: its name, then its value.
#[derive(Debug, Clone, Copy)]
pub struct Node {
    pub kind: Kind,
    /// First byte; for strings the one behind the opening quote.
    pub start: u32,
    /// Byte behind the last; for strings the closing quote.
    pub end: u32,
    /// The node that follows this value and everything inside it.
    pub next: u32,
}

/// The nodes of one text, kept between texts so that their store is reused.
#[derive(Debug, Default)]
pub struct Tape {
    nodes: Vec<Node>,
}

/// Scans a text on its own.
pub fn scan(text: &[u8]) -> Scan {
    Tape::default().scan(text)
}

impl Tape {
    /// Scans a text and, if it is whole, holds its nodes.
    pub fn scan(&mut self, text: &[u8]) -> Scan {
        self.nodes.clear();
        scanner::scan(text, &mut self.nodes)
    }
}

/// A text that was scanned whole, with its nodes.
#[derive(Clone, Copy)]
pub struct Source<'a> {
    text: &'a [u8],
    nodes: &'a [Node],
}

impl<'a> Source<'a> {
    /// The tape must have scanned this very text as whole.
    pub fn new(text: &'a [u8], tape: &'a Tape) -> Source<'a> {
        Source {
            text,
            nodes: &tape.nodes,
        }
    }

    pub fn kind(&self, node: usize) -> Kind {
        self.nodes[node].kind
    }

    /// The bytes of a number or word, or those between a string's quotes.
    pub fn raw(&self, node: usize) -> &'a [u8] {
        let Node { start, end, .. } = self.nodes[node];
        &self.text[start as usize..end as usize]
    }

    pub fn is_string(&self, node: usize) -> bool {
        matches!(self.kind(node), Kind::Ascii | Kind::Text)
    }

    /// The values directly inside a list.
    pub fn elements(&self, list: usize) -> Elements<'a> {
        Elements {
            nodes: self.nodes,
            at: list + 1,
            end: self.nodes[list].next as usize,
        }
    }

    /// The names and values directly inside an object.
    pub fn members(&self, object: usize) -> Members<'a> {
        Members(self.elements(object))
    }
}

pub struct Elements<'a> {
    nodes: &'a [Node],
    at: usize,
    end: usize,
}

impl Iterator for Elements<'_> {
    type Item = usize;

    fn next(&mut self) -> Option<usize> {
        if self.at == self.end {
            return None;
        }
        let node = self.at;
        self.at = self.nodes[node].next as usize;
        Some(node)
    }
}

pub struct Members<'a>(Elements<'a>);

impl Iterator for Members<'_> {
    type Item = (usize, usize);

    fn next(&mut self) -> Option<(usize, usize)> {
        let name = self.0.next()?;
        let value = self.0.next()?;
        Some((name, value))
    }
}
