//! Every size that the order fixes, each written down once.

/// A policy text may have this many bytes.
pub const POLICY_BYTES: usize = 16_384;
/// A record may have this many bytes.
pub const RECORD_BYTES: usize = 8_192;
/// Finish and Restate write at most this many bytes.
pub const RESULT_BYTES: usize = 6_144;

/// Lists and objects may be nested this deep, the outermost being level 1.
pub const LEVELS: usize = 16;

pub const STATEMENTS: usize = 16;
/// Entries in a whole policy, Deny entries included; also the rows of a room.
pub const ENTRIES: usize = 64;
/// Condition rows in one statement.
pub const CONDITION_ROWS: usize = 8;
/// Characters of an entry, and of each text in a record.
pub const ENTRY_CHARACTERS: usize = 254;
pub const KEY_CHARACTERS: usize = 64;
pub const SID_CHARACTERS: usize = 64;
pub const CONTEXT_ENTRIES: usize = 16;
/// The largest number of a numeric condition: 2^53 - 1.
pub const LARGEST_NUMBER: u64 = 9_007_199_254_740_991;

/// Numbers in one row of a room: the longest text and two numbers before it.
pub const ROW_NUMBERS: usize = ENTRY_CHARACTERS + 2;
/// Numbers in a room.
pub const ROOM_NUMBERS: usize = ENTRIES * ROW_NUMBERS;
