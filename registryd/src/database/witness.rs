//! The file `registry.commits`: the number of the database's last transaction, written after that is on the disk. If a start
//! finds a database with fewer transactions, the database was replaced by an older one.
//!
//! The file itself is not synced. A crash may leave an older number in it, or none that is whole, but no greater one.
use std::fs::{File, OpenOptions};
use std::io;
use std::os::unix::fs::{FileExt, OpenOptionsExt};
use std::path::Path;

/// The name of the file in the folder.
pub(crate) const FILE_NAME: &str = "registry.commits";

/// What the second number of the file differs by from the first one, so that a torn or a damaged file has no number.
const CHECK: u64 = 0x636f_6d6d_6974_7321;

/// The open file.
pub(super) struct Witness(File);

impl Witness {
    /// Opens the file in a folder, or makes it.
    pub(super) fn open(folder: &Path) -> io::Result<Witness> {
        let mut options = OpenOptions::new();
        options.read(true).write(true).create(true).mode(0o600).open(folder.join(FILE_NAME)).map(Witness)
    }

    /// Returns the number in the file, or 0 if there is none.
    pub(super) fn read(&self) -> u64 {
        let mut bytes = [0; 16];
        let number = |bytes: &[u8]| <[u8; 8]>::try_from(bytes).map_or(0, u64::from_le_bytes);
        match self.0.read_exact_at(&mut bytes, 0) {
            Ok(()) if number(&bytes[..8]) ^ CHECK == number(&bytes[8..]) => number(&bytes[..8]),
            _ => 0,
        }
    }

    /// Writes a number.
    pub(super) fn write(&self, number: u64) -> io::Result<()> {
        self.0.write_all_at(&[number.to_le_bytes(), (number ^ CHECK).to_le_bytes()].concat(), 0)
    }
}

#[cfg(test)]
mod tests {
    use super::*;

    #[test]
    fn a_file_that_is_torn_has_no_number() {
        let folder = std::env::temp_dir().join(format!("registryd-witness-{}", uuid::Uuid::new_v4()));
        std::fs::create_dir(&folder).unwrap();
        let witness = Witness::open(&folder).unwrap();
        assert_eq!(witness.read(), 0);
        witness.write(1000).unwrap();
        assert_eq!(Witness::open(&folder).unwrap().read(), 1000);
        for place in 0..16 {
            witness.write(1000).unwrap();
            witness.0.write_all_at(&[77], place).unwrap();
            assert_eq!(witness.read(), 0, "{place}");
        }
        witness.write(1000).unwrap();
        witness.0.set_len(15).unwrap();
        assert_eq!(witness.read(), 0);
        std::fs::remove_dir_all(folder).unwrap();
    }
}
