//! What the policy and the record layout have in common: objects with known
//! members, and strings.

use crate::json::{Kind, Source};
use crate::strings::{decode_onto, reads_as};

/// Why a JSON text was not taken.
#[derive(Debug, Clone, Copy, PartialEq, Eq)]
pub enum Mismatch {
    Layout,
    /// The layout holds everywhere, but something is too long or too many.
    Limit,
}

/// Finds the values of an object's members by name. A value that is no object
/// and an unknown or repeated member are against every layout; absent members
/// are left to the caller.
pub fn gather<const N: usize>(
    source: &Source,
    node: usize,
    names: [&str; N],
) -> Result<[Option<usize>; N], Mismatch> {
    if source.kind(node) != Kind::Object {
        return Err(Mismatch::Layout);
    }
    let mut found = [None; N];
    for (name, value) in source.members(node) {
        let raw = source.raw(name);
        let which = names
            .iter()
            .position(|known| name_is(source.kind(name), raw, known));
        let place = &mut found[which.ok_or(Mismatch::Layout)?];
        if place.replace(value).is_some() {
            return Err(Mismatch::Layout);
        }
    }
    Ok(found)
}

fn name_is(kind: Kind, raw: &[u8], known: &str) -> bool {
    match kind {
        Kind::Ascii => raw == known.as_bytes(),
        _ => reads_as(raw, known),
    }
}

/// Decodes a string behind what the store holds; other values and lone
/// surrogates are against the layout.
pub fn string_onto(source: &Source, node: usize, store: &mut Vec<u32>) -> Result<(), Mismatch> {
    let raw = source.raw(node);
    match source.kind(node) {
        Kind::Ascii => store.extend(raw.iter().map(|&byte| u32::from(byte))),
        Kind::Text => decode_onto(raw, store).map_err(|_| Mismatch::Layout)?,
        _ => return Err(Mismatch::Layout),
    }
    Ok(())
}
