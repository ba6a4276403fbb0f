//! Texts and rooms that are no longer what they were: some of them are
//! refused, some only mean something else, a few still mean the same.

use super::random::Random;
use crate::limits::{POLICY_BYTES, RECORD_BYTES};

/// Changes a policy text.
pub fn damage_policy(text: &[u8], random: &mut Random) -> Vec<u8> {
    let members: [&[u8]; 4] = [
        b"\"Version\":\"2012-10-17\",",
        b"\"Sid\":\"S0\",",
        b"\"Id\":\"x\",",
        b"\"Effect\":\"Allow\",",
    ];
    damage(text, &members, POLICY_BYTES, random)
}

/// Changes a record.
pub fn damage_record(text: &[u8], random: &mut Random) -> Vec<u8> {
    let members: [&[u8]; 4] = [
        b"\"ActionNames\":[\"s3:Get\"],",
        b"\"ContextEntries\":[],",
        b"\"CallerArn\":\"x\",",
        b"\"ContextKeyType\":\"string\",",
    ];
    damage(text, &members, RECORD_BYTES, random)
}

fn damage(text: &[u8], members: &[&[u8]], limit: usize, random: &mut Random) -> Vec<u8> {
    let mut text = text.to_vec();
    match random.below(12) {
        0 | 1 => flip(&mut text, random),
        2 => text.truncate(random.below(text.len() + 1)),
        3 => insert(&mut text, any_byte, &[random.draw() as u8], random),
        4 => cut_out(&mut text, random),
        5 | 6 => {
            let member = *random.pick(members);
            insert(&mut text, |byte| byte == b'{', member, random);
        }
        7 => {
            let lone = *random.pick(&LONE_SURROGATES);
            insert(&mut text, |byte| byte == b'"', lone, random);
        }
        8 => {
            let broken = *random.pick(&BROKEN_UTF8);
            insert(&mut text, |byte| byte == b'"', broken, random);
        }
        9 => deepen(&mut text, random),
        10 => lengthen(&mut text, limit, random),
        _ => replace_token(&mut text, random),
    }
    text
}

const LONE_SURROGATES: [&[u8]; 4] = [
    b"\\ud800",
    b"\\udfff",
    b"\\ud800\\ud800\\udc00",
    b"\\uDBFF\\n",
];

/// Each breaks at another of its bytes, or only with what follows.
const BROKEN_UTF8: [&[u8]; 10] = [
    b"\x80",
    b"\xc0\x80",
    b"\xc3",
    b"\xe0\x80\x80",
    b"\xed\xa0\x80",
    b"\xe2\x82",
    b"\xf0\x80\x80\x80",
    b"\xf4\x90\x80\x80",
    b"\xf5\x80\x80\x80",
    b"\xf1\x80\x80\xc0",
];

fn any_byte(_: u8) -> bool {
    true
}

fn flip(text: &mut [u8], random: &mut Random) {
    if !text.is_empty() {
        let at = random.below(text.len());
        text[at] ^= 1 << random.below(8);
    }
}

/// Inserts behind a random byte of a certain kind, if there is one.
fn insert(text: &mut Vec<u8>, kind: impl Fn(u8) -> bool, new: &[u8], random: &mut Random) {
    let places: Vec<usize> = (0..text.len()).filter(|&at| kind(text[at])).collect();
    if !places.is_empty() {
        let at = random.pick(&places) + 1;
        text.splice(at..at, new.iter().copied());
    }
}

fn cut_out(text: &mut Vec<u8>, random: &mut Random) {
    if !text.is_empty() {
        let at = random.below(text.len());
        let end = (at + random.between(1, 6)).min(text.len());
        text.drain(at..end);
    }
}

/// Puts lists around some value or into an object, about 16 deep, closed or
/// left open.
fn deepen(text: &mut Vec<u8>, random: &mut Random) {
    let depth = random.between(11, 17);
    let mut nest = b"[".repeat(depth);
    if random.chance(3, 4) {
        nest.extend(b"]".repeat(depth));
        nest.push(b',');
    }
    let in_object = random.chance(1, 2);
    if in_object {
        nest.splice(..0, b"\"Deep\":".iter().copied());
    }
    let open = if in_object { b'{' } else { b'[' };
    insert(text, |byte| byte == open, &nest, random);
}

/// Brings a text to its limit of bytes or one past it, by spaces behind it.
fn lengthen(text: &mut Vec<u8>, limit: usize, random: &mut Random) {
    let length = limit + random.below(2);
    if text.len() < length {
        text.resize(length, b' ');
    }
}

/// Writes one token where another stood.
fn replace_token(text: &mut Vec<u8>, random: &mut Random) {
    let tokens: [&[u8]; 14] = [
        b"null",
        b"true",
        b"-",
        b"0",
        b"01",
        b"1.0",
        b"1e2",
        b"-0",
        b"\"\"",
        b"{}",
        b"[]",
        b"\"*\"",
        b"9007199254740992",
        b"\"${x}\"",
    ];
    let starts: Vec<usize> = (0..text.len())
        .filter(|&at| b"\"[{:,".contains(&text[at]))
        .collect();
    if starts.is_empty() {
        return;
    }
    let at = *random.pick(&starts);
    let rest = &text[at + 1..];
    let end = rest
        .iter()
        .position(|byte| b"\"]},:".contains(byte))
        .unwrap_or(rest.len());
    let token = *random.pick(&tokens);
    text.splice(at..at + 1 + end, token.iter().copied());
}

/// Changes one number of a room, mostly in its first rows.
pub fn damage_room(room: &mut [u32], random: &mut Random) {
    let row = if random.chance(4, 5) {
        random.below(6)
    } else {
        random.below(64)
    };
    let column = match random.below(4) {
        0 => 0,
        1 => 1,
        2 => 2 + random.below(24),
        _ => random.below(256),
    };
    let other = [
        0,
        1,
        2,
        3,
        4,
        5,
        253,
        254,
        255,
        0x2A,
        0x3A,
        0x61,
        0xE9,
        0xD800,
        0x11_0000,
        u32::MAX,
    ];
    let number = &mut room[row * 256 + column];
    *number = match random.below(3) {
        0 => number.wrapping_add(1),
        1 => number.wrapping_sub(1),
        _ => *random.pick(&other),
    };
}
