//! The file of a content, compared with the digest that the content has.
use crate::folder::inventory::ContentDigest;
use crate::folder::log_files::Paced;
use crate::folder::page_cache;
use std::fs::File;
use std::io::{self, Read};
use std::path::Path;

/// The number of bytes that are read at a time.
const PIECE: usize = 1 << 16;

/// What a file has in place of a content.
#[derive(Debug, PartialEq, Eq)]
pub(super) enum Compared {
    Same,
    Damaged(String),
    /// It could not be read for a reason that has nothing to do with the disk.
    Unknown,
}

impl Compared {
    fn of_error(error: &io::Error) -> Compared {
        match error.raw_os_error() {
            Some(libc::EMFILE | libc::ENFILE | libc::ENOMEM) => Compared::Unknown,
            _ if error.kind() == io::ErrorKind::NotFound => Compared::Damaged("the file is missing".to_string()),
            _ => Compared::Damaged(format!("the file cannot be read: {error}")),
        }
    }

    fn of_length(has: u64, len: u64) -> Compared {
        match has < len {
            true => Compared::Damaged(format!("the file ends after {has} of {len} bytes")),
            false => Compared::Same,
        }
    }
}

/// Looks whether a file is there and has at least `len` bytes.
pub(super) fn look(path: &Path, len: u64) -> Compared {
    match std::fs::metadata(path) {
        Ok(file) => Compared::of_length(file.len(), len),
        Err(error) => Compared::of_error(&error),
    }
}

/// Reads the first `len` bytes of a file, at most `bytes_s` bytes a second, and compares them with their digest. `count` gets the numbers of
/// bytes that are read.
pub(super) fn compare(path: &Path, digest: &ContentDigest, len: u64, bytes_s: u64, count: &mut impl FnMut(u64)) -> Compared {
    let file = match File::open(path) {
        Ok(file) => file,
        Err(error) => return Compared::of_error(&error),
    };
    // A page that is cached would be read from memory.
    page_cache::forget(&file);
    let mut input = Paced::new((&file).take(len), bytes_s);
    let (mut hash, mut has, mut buffer) = (digest.hash(), 0, [0; PIECE]);
    while has < len {
        match input.read(&mut buffer) {
            Ok(0) => return Compared::of_length(has, len),
            Ok(read) => {
                hash.add(&buffer[..read]);
                count(read as u64);
                has += read as u64;
            }
            Err(error) if error.kind() == io::ErrorKind::Interrupted => {}
            Err(error) => return Compared::of_error(&error),
        }
    }
    page_cache::forget(&file);
    match hash.digest() == *digest {
        true => Compared::Same,
        false => Compared::Damaged("the bytes have another digest".to_string()),
    }
}
