//! How an input is read: the policy and the records with a byte FF behind each,
//! which no UTF-8 text has; behind another FF the changes to the room, each of
//! six bytes. Every input means something, and small changes of it mean small
//! changes of the case.

use second::generate::Case;

/// Stands behind a text.
const END: u8 = 0xFF;

/// Feeding more records takes long and shows little.
const RECORDS: usize = 12;

const CHANGES: usize = 12;

/// A number in a room, and what it becomes.
pub struct Change {
    pub row: usize,
    pub column: usize,
    pub number: u32,
}

pub struct Input {
    pub log: Case,
    pub changes: Vec<Change>,
}

impl Input {
    pub fn read(bytes: &[u8]) -> Input {
        let mut rest = bytes;
        let policy = text(&mut rest);
        let mut records = Vec::new();
        while !rest.is_empty() {
            let record = text(&mut rest);
            if record.is_empty() {
                break;
            }
            if records.len() < RECORDS {
                records.push(record);
            }
        }
        let changes = rest.chunks_exact(6).take(CHANGES);
        Input {
            log: Case { policy, records },
            changes: changes.map(change).collect(),
        }
    }

    /// The bytes that are read as these texts and changes; nothing if a text has
    /// a byte FF itself, or if there are too many.
    pub fn write(policy: &[u8], records: &[Vec<u8>], changes: &[[u8; 6]]) -> Option<Vec<u8>> {
        let mut bytes = Vec::new();
        for text in [policy]
            .into_iter()
            .chain(records.iter().map(Vec::as_slice))
        {
            if text.contains(&END) {
                return None;
            }
            bytes.extend(text);
            bytes.push(END);
        }
        bytes.push(END);
        bytes.extend(changes.concat());
        (records.len() <= RECORDS && changes.len() <= CHANGES).then_some(bytes)
    }
}

/// Takes the next text off.
fn text(rest: &mut &[u8]) -> Vec<u8> {
    let end = rest.iter().position(|&byte| byte == END);
    let text = &rest[..end.unwrap_or(rest.len())];
    *rest = end.map_or(&[], |end| &rest[end + 1..]);
    text.to_vec()
}

fn change(six: &[u8]) -> Change {
    Change {
        row: usize::from(six[0]) % 64,
        column: usize::from(six[1]),
        number: u32::from_le_bytes([six[2], six[3], six[4], six[5]]),
    }
}
