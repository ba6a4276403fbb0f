//! What a row holds, and the two ways in which its 256 numbers say it.
//!
//! | Number 0 | Content | Behind it |
//! |---|---|---|
//! | 0 | nothing | zeros |
//! | 1 | the entry itself | zeros |
//! | 2 | one text | its length, its characters, zeros |
//! | 3 | a longer beginning and then `*` | the length without the star, the characters, zeros |
//! | 4 | a number | two halves of 32 bits, zeros |
//!
//! The proved library has a number's upper half first (crates/candidates,
//! specs/Rows.antt), the second implementation its lower half.

/// Numbers in a row.
pub const ROW: usize = 256;

/// The longest text that a row has space for.
const TEXT: usize = ROW - 2;

/// What a row holds, said apart from its numbers.
#[derive(Debug, Clone, PartialEq, Eq)]
pub enum Content {
    Empty,
    Itself,
    Single(Vec<u32>),
    Beginning(Vec<u32>),
    Number(u64),
}

impl Content {
    pub fn single(text: &str) -> Content {
        Content::Single(characters(text))
    }

    pub fn beginning(text: &str) -> Content {
        Content::Beginning(characters(text))
    }

    pub fn name(&self) -> &'static str {
        match self {
            Content::Empty => "empty",
            Content::Itself => "itself",
            Content::Single(_) => "single",
            Content::Beginning(_) => "beginning",
            Content::Number(_) => "number",
        }
    }
}

fn characters(text: &str) -> Vec<u32> {
    text.chars().map(u32::from).collect()
}

/// Which half of a number stands first.
#[derive(Debug, Clone, Copy, PartialEq, Eq)]
pub enum Encoding {
    /// The proved library's.
    UpperFirst,
    /// The second implementation's.
    LowerFirst,
}

impl Encoding {
    /// The row that holds a content, whose text fits in.
    pub fn row(self, content: &Content) -> Vec<u32> {
        let mut row = match content {
            Content::Empty => Vec::new(),
            Content::Itself => vec![1],
            Content::Single(text) => text_row(2, text),
            Content::Beginning(text) => text_row(3, text),
            Content::Number(number) => self.number_row(*number),
        };
        assert!(row.len() <= ROW, "a row has no space for {content:?}");
        row.resize(ROW, 0);
        row
    }

    fn number_row(self, number: u64) -> Vec<u32> {
        let (upper, lower) = ((number >> 32) as u32, number as u32);
        match self {
            Encoding::UpperFirst => vec![4, upper, lower],
            Encoding::LowerFirst => vec![4, lower, upper],
        }
    }

    /// What a row holds; nothing if it is no row at all, be it by its last
    /// number.
    pub fn content(self, row: &[u32]) -> Option<Content> {
        let text = || {
            let length = usize::try_from(row[1]).ok().filter(|&n| n <= TEXT)?;
            Some(row[2..2 + length].to_vec())
        };
        let content = match row[0] {
            0 => Content::Empty,
            1 => Content::Itself,
            2 => Content::Single(text()?),
            3 => Content::Beginning(text()?),
            4 => Content::Number(self.number([row[1], row[2]])),
            _ => return None,
        };
        (self.row(&content) == row).then_some(content)
    }

    fn number(self, [one, other]: [u32; 2]) -> u64 {
        let (upper, lower) = match self {
            Encoding::UpperFirst => (one, other),
            Encoding::LowerFirst => (other, one),
        };
        u64::from(upper) << 32 | u64::from(lower)
    }

    /// The contents of a room's rows, if all of them are rows.
    pub fn contents(self, room: &[u32]) -> Option<Vec<Content>> {
        room.chunks(ROW).map(|row| self.content(row)).collect()
    }

    /// The room with the same contents in another encoding.
    pub fn translated(self, room: &[u32], to: Encoding) -> Option<Vec<u32>> {
        let contents = self.contents(room)?;
        Some(
            contents
                .iter()
                .flat_map(|content| to.row(content))
                .collect(),
        )
    }
}

fn text_row(mark: u32, text: &[u32]) -> Vec<u32> {
    let mut row = vec![mark, text.len() as u32];
    row.extend(text);
    row
}

#[cfg(test)]
mod tests {
    use super::*;
    use Encoding::{LowerFirst, UpperFirst};

    fn filled(numbers: &[u32]) -> Vec<u32> {
        let mut row = numbers.to_vec();
        row.resize(ROW, 0);
        row
    }

    #[test]
    fn each_content_has_its_row() {
        let longest = vec![0x10_FFFF; TEXT];
        let long_row = [&[2, 254], &longest[..]].concat();
        for (content, upper, lower) in [
            (Content::Empty, vec![], vec![]),
            (Content::Itself, vec![1], vec![1]),
            (Content::single(""), vec![2, 0], vec![2, 0]),
            (
                Content::single("aé"),
                vec![2, 2, 97, 233],
                vec![2, 2, 97, 233],
            ),
            (
                Content::beginning("𝄞"),
                vec![3, 1, 0x1D11E],
                vec![3, 1, 0x1D11E],
            ),
            (Content::Number(0), vec![4], vec![4]),
            (Content::Number(7), vec![4, 0, 7], vec![4, 7]),
            (Content::Number((5 << 32) + 6), vec![4, 5, 6], vec![4, 6, 5]),
            (Content::Single(longest), long_row.clone(), long_row),
        ] {
            assert_eq!(UpperFirst.row(&content), filled(&upper));
            assert_eq!(LowerFirst.row(&content), filled(&lower));
            for encoding in [UpperFirst, LowerFirst] {
                assert_eq!(
                    encoding.content(&encoding.row(&content)),
                    Some(content.clone())
                );
            }
        }
    }

    #[test]
    fn what_is_no_row() {
        let mut last = vec![0; ROW];
        last[ROW - 1] = 1;
        let too_long = [vec![2, 255], vec![97; TEXT]].concat();
        for row in [
            filled(&[5]),
            filled(&[u32::MAX]),
            filled(&[0, 1]),
            filled(&[1, 1]),
            filled(&[2, 1, 97, 98]),
            filled(&[2, u32::MAX]),
            filled(&[4, 0, 0, 1]),
            last,
            too_long,
        ] {
            assert_eq!(UpperFirst.content(&row), None);
            assert_eq!(LowerFirst.content(&row), None);
        }
    }

    #[test]
    fn rooms_are_translated_row_by_row() {
        let row = |encoding: Encoding| encoding.row(&Content::Number(7));
        let room = |encoding: Encoding| [row(encoding), vec![0; ROW], row(encoding)].concat();
        let translated = UpperFirst.translated(&room(UpperFirst), LowerFirst);
        assert_eq!(translated, Some(room(LowerFirst)));
        let mut broken = room(UpperFirst);
        broken[ROW + 9] = 1;
        assert_eq!(UpperFirst.translated(&broken, LowerFirst), None);
    }
}
