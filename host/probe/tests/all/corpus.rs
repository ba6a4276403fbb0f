//! Files that others wrote, where they stand beside the checkout.

use crate::{compare_cuts, compare_replaced};
use second::corpus::at_hand;
use std::fs;
use std::io;
use std::path::{Path, PathBuf};

/// Bytes that turn tokens into others: a quote, a reverse solidus, brackets,
/// a comma, a digit, a letter, controls, the beginnings and tails of sequences.
const OTHERS: &[u8] = b"\"\\[]{},0e\0\n \x7F\x80\xC3\xED\xF0";

#[test]
fn files_of_json_suites_agree() {
    let Some(folder) = at_hand("json") else {
        return;
    };
    let mut files = Vec::new();
    find_files(&folder, &mut files).unwrap();
    assert!(!files.is_empty(), "{} is empty", folder.display());
    for file in files {
        let text = fs::read(file).unwrap();
        compare_cuts(&text);
        compare_replaced(&text, 300, OTHERS.iter().copied());
    }
}

fn find_files(folder: &Path, files: &mut Vec<PathBuf>) -> io::Result<()> {
    for item in fs::read_dir(folder)? {
        let path = item?.path();
        if path.is_dir() {
            find_files(&path, files)?;
        } else {
            files.push(path);
        }
    }
    Ok(())
}
