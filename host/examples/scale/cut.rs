//! Cutting a log into parts of whole lines, without reading it.

use std::io::{self, BufRead, Seek, SeekFrom};
use std::ops::Range;

/// So many parts of about the same length, as places in the log. Each cut is put
/// off to the next end of a line, so that a part is empty where a line is longer
/// than a part should be.
pub fn cut(log: &mut (impl BufRead + Seek), parts: u64) -> io::Result<Vec<Range<u64>>> {
    let length = log.seek(SeekFrom::End(0))?;
    let mut cuts = vec![0];
    for part in 1..parts {
        let wanted = u128::from(length) * u128::from(part) / u128::from(parts);
        cuts.push(line_end(log, wanted as u64)?);
    }
    cuts.push(length);
    Ok(cuts.windows(2).map(|ends| ends[0]..ends[1]).collect())
}

/// The first place from this one on behind which a line begins, or the end of
/// the log. The byte before decides: a line may begin at the place itself.
fn line_end(log: &mut (impl BufRead + Seek), place: u64) -> io::Result<u64> {
    let Some(before) = place.checked_sub(1) else {
        return Ok(0);
    };
    log.seek(SeekFrom::Start(before))?;
    Ok(before + log.skip_until(b'\n')? as u64)
}
