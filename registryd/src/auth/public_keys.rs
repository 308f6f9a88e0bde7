//! Public keys in files of PEM (RFC 7468, 13).
use crate::operation::reload::read_file;
use pem::Pem;
use std::path::Path;

/// The beginning of the DER of a public key on the curve P-256 (RFC 5480), up to the point.
pub(crate) const P256: [u8; 26] =
    *b"\x30\x59\x30\x13\x06\x07\x2a\x86\x48\xce\x3d\x02\x01\x06\x08\x2a\x86\x48\xce\x3d\x03\x01\x07\x03\x42\x00";

/// The label of a public key.
const LABEL: &str = "PUBLIC KEY";

/// Fails if a block is not labelled as a public key.
pub(crate) fn check_label(block: &Pem) -> Result<(), String> {
    match &*block.tag {
        LABEL => Ok(()),
        other => Err(format!("a block is not {LABEL}: {other}")),
    }
}

/// Reads the blocks of a file. There is at least one.
///
/// # Errors
///
/// - The file cannot be read, or is no PEM.
/// - It has no block.
pub(crate) fn read_blocks(path: &Path) -> Result<Vec<Pem>, String> {
    let text = read_file(path).map_err(|error| error.to_string())?;
    let blocks = pem::parse_many(text).map_err(|error| error.to_string())?;
    match blocks.is_empty() {
        true => Err("no public key in PEM".to_string()),
        false => Ok(blocks),
    }
}
