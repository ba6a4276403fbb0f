//! The JSON scan.
//!
//! One walk over the bytes decides three things: whether the text is JSON,
//! where it stops being the beginning of one, and whether it nests too deep.
//! The walk stops at whichever trouble comes first.

use crate::json::{Kind, Node, Scan};
use crate::limits::LEVELS;

/// Scans a text, noting its values.
pub fn scan(text: &[u8], nodes: &mut Vec<Node>) -> Scan {
    let mut scanner = Scanner { text, at: 0, nodes };
    match scanner.document() {
        Ok(()) => Scan::Whole,
        Err(Halt::Breaks) => Scan::Breaks(scanner.at),
        Err(Halt::TooDeep) => Scan::TooDeep,
    }
}

/// Why the walk stopped; where it stopped is the scanner's position.
enum Halt {
    Breaks,
    TooDeep,
}

type Step = Result<(), Halt>;

struct Scanner<'a> {
    text: &'a [u8],
    at: usize,
    nodes: &'a mut Vec<Node>,
}

impl Scanner<'_> {
    fn document(&mut self) -> Step {
        self.skip_spaces();
        self.value(LEVELS)?;
        self.skip_spaces();
        if self.at == self.text.len() {
            Ok(())
        } else {
            Err(Halt::Breaks)
        }
    }

    /// `levels` more lists or objects may be opened inside one another.
    fn value(&mut self, levels: usize) -> Step {
        match self.peek() {
            Some(b'"') => self.string(),
            Some(b'{') => self.nested(Kind::Object, b'}', levels),
            Some(b'[') => self.nested(Kind::List, b']', levels),
            Some(b'-' | b'0'..=b'9') => self.number(),
            Some(b't') => self.word(b"true"),
            Some(b'f') => self.word(b"false"),
            Some(b'n') => self.word(b"null"),
            _ => Err(Halt::Breaks),
        }
    }

    fn nested(&mut self, kind: Kind, close: u8, levels: usize) -> Step {
        let Some(inside) = levels.checked_sub(1) else {
            return Err(Halt::TooDeep);
        };
        let node = self.nodes.len();
        self.note(kind, self.at);
        self.at += 1;
        self.skip_spaces();
        if self.peek() == Some(close) {
            self.at += 1;
        } else {
            self.items(kind, close, inside)?;
        }
        self.nodes[node].end = self.at as u32;
        self.nodes[node].next = self.nodes.len() as u32;
        Ok(())
    }

    /// At least one item, then the closing byte.
    fn items(&mut self, kind: Kind, close: u8, levels: usize) -> Step {
        loop {
            if kind == Kind::Object {
                self.name()?;
            }
            self.value(levels)?;
            self.skip_spaces();
            if self.peek() == Some(close) {
                self.at += 1;
                return Ok(());
            }
            self.expect(b',')?;
            self.skip_spaces();
        }
    }

    fn name(&mut self) -> Step {
        if self.peek() != Some(b'"') {
            return Err(Halt::Breaks);
        }
        self.string()?;
        self.skip_spaces();
        self.expect(b':')?;
        self.skip_spaces();
        Ok(())
    }

    fn string(&mut self) -> Step {
        self.at += 1;
        let start = self.at;
        let mut kind = Kind::Ascii;
        loop {
            self.skip_plain_ascii();
            match self.peek() {
                Some(b'"') => break,
                Some(b'\\') => self.escape()?,
                Some(0x80..) => self.multi_byte()?,
                _ => return Err(Halt::Breaks),
            }
            kind = Kind::Text;
        }
        self.note(kind, start);
        self.at += 1;
        Ok(())
    }

    fn skip_plain_ascii(&mut self) {
        let rest = &self.text[self.at..];
        let plain = rest.iter().position(|&byte| !PLAIN_ASCII[byte as usize]);
        self.at += plain.unwrap_or(rest.len());
    }

    fn escape(&mut self) -> Step {
        self.at += 1;
        match self.peek() {
            Some(b'"' | b'\\' | b'/' | b'b' | b'f' | b'n' | b'r' | b't') => self.at += 1,
            Some(b'u') => {
                self.at += 1;
                for _ in 0..4 {
                    self.expect_in(|byte| byte.is_ascii_hexdigit())?;
                }
            }
            _ => return Err(Halt::Breaks),
        }
        Ok(())
    }

    /// One character of two to four bytes. Only the second byte's range
    /// depends on the first: that shuts out surrogates, needlessly long forms
    /// and numbers above U+10FFFF as early as RFC 3629 allows.
    fn multi_byte(&mut self) -> Step {
        let (second, more) = match self.text[self.at] {
            0xC2..=0xDF => (0x80..=0xBF, 0),
            0xE0 => (0xA0..=0xBF, 1),
            0xED => (0x80..=0x9F, 1),
            0xE1..=0xEF => (0x80..=0xBF, 1),
            0xF0 => (0x90..=0xBF, 2),
            0xF1..=0xF3 => (0x80..=0xBF, 2),
            0xF4 => (0x80..=0x8F, 2),
            _ => return Err(Halt::Breaks),
        };
        self.at += 1;
        self.expect_in(|byte| second.contains(&byte))?;
        for _ in 0..more {
            self.expect_in(|byte| (0x80..=0xBF).contains(&byte))?;
        }
        Ok(())
    }

    fn number(&mut self) -> Step {
        let start = self.at;
        if self.peek() == Some(b'-') {
            self.at += 1;
        }
        // A leading zero stands alone; a digit behind it breaks in the caller.
        if self.peek() == Some(b'0') {
            self.at += 1;
        } else {
            self.digits()?;
        }
        if self.peek() == Some(b'.') {
            self.at += 1;
            self.digits()?;
        }
        if matches!(self.peek(), Some(b'e' | b'E')) {
            self.at += 1;
            if matches!(self.peek(), Some(b'+' | b'-')) {
                self.at += 1;
            }
            self.digits()?;
        }
        self.note(Kind::Number, start);
        Ok(())
    }

    fn digits(&mut self) -> Step {
        self.expect_in(|byte| byte.is_ascii_digit())?;
        while matches!(self.peek(), Some(b'0'..=b'9')) {
            self.at += 1;
        }
        Ok(())
    }

    fn word(&mut self, word: &[u8]) -> Step {
        let start = self.at;
        for &byte in word {
            self.expect(byte)?;
        }
        self.note(Kind::Word, start);
        Ok(())
    }

    fn note(&mut self, kind: Kind, start: usize) {
        // Offsets fit: layouts are read only from texts of a few thousand bytes.
        self.nodes.push(Node {
            kind,
            start: start as u32,
            end: self.at as u32,
            next: self.nodes.len() as u32 + 1,
        });
    }

    fn peek(&self) -> Option<u8> {
        self.text.get(self.at).copied()
    }

    fn expect(&mut self, wanted: u8) -> Step {
        self.expect_in(|byte| byte == wanted)
    }

    fn expect_in(&mut self, fits: impl Fn(u8) -> bool) -> Step {
        match self.peek() {
            Some(byte) if fits(byte) => {
                self.at += 1;
                Ok(())
            }
            _ => Err(Halt::Breaks),
        }
    }

    fn skip_spaces(&mut self) {
        while matches!(self.peek(), Some(b' ' | b'\t' | b'\n' | b'\r')) {
            self.at += 1;
        }
    }
}

/// Bytes of a string that stand for themselves and need no further look.
static PLAIN_ASCII: [bool; 256] = plain_ascii();

const fn plain_ascii() -> [bool; 256] {
    let mut table = [false; 256];
    let mut byte = 0x20;
    while byte < 0x80 {
        table[byte] = byte != b'"' as usize && byte != b'\\' as usize;
        byte += 1;
    }
    table
}
