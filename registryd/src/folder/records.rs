//! The records of the store's log (docs/LOG.md, "Records"), read from the payloads of its frames. The bytes of contents are skipped.

/// The lengths of a record's head and of a note, in bytes.
const HEAD: usize = 24;
const NOTE: usize = 16;

/// The change that a record describes.
#[derive(Clone, Copy, Debug, PartialEq, Eq)]
pub(super) enum Kind {
    Opened,
    Received,
    Sealed,
    Abandoned,
    Linked,
    Unlinked,
    /// A chunk of a content in a file, by its notes.
    ReceivedNoted,
    /// A session whose content lies in a file became a blob.
    SealedNoted,
    /// A content that lies in a file was stored.
    StoredNoted,
    /// A change that has nothing to do with the places of contents.
    Other,
}

impl Kind {
    fn of(number: u32) -> Option<Kind> {
        match number {
            2 => Some(Kind::Opened),
            3 => Some(Kind::Received),
            4 => Some(Kind::Sealed),
            5 => Some(Kind::Abandoned),
            6 => Some(Kind::Linked),
            7 => Some(Kind::Unlinked),
            13 => Some(Kind::ReceivedNoted),
            14 => Some(Kind::SealedNoted),
            15 => Some(Kind::StoredNoted),
            1 | 8..=12 => Some(Kind::Other),
            _ => None,
        }
    }

    fn has_notes(self) -> bool {
        matches!(self, Kind::ReceivedNoted | Kind::SealedNoted | Kind::StoredNoted)
    }
}

/// A record without its body.
#[derive(Clone, Debug, PartialEq, Eq)]
pub(super) struct Record {
    pub(super) kind: Kind,
    /// The name of a repository or of a tenant.
    pub(super) name: String,
    pub(super) digest: String,
    /// The number of a session.
    pub(super) number: u64,
    /// The number of bytes of content: those of the body, or those that its notes are of.
    pub(super) len: u64,
}

/// Reads records that come in parts.
#[derive(Default)]
pub(super) struct RecordReader {
    /// The bytes of a head and of its texts that came.
    begun: Vec<u8>,
    /// The record whose body is being read, and the number of bytes of it that did not come yet.
    record: Option<Record>,
    left: u64,
    /// The bytes of a note that came.
    note: Vec<u8>,
}

/// Returns the number in bytes.
fn number_in(bytes: &[u8]) -> u64 {
    bytes.iter().rev().fold(0, |number, byte| number << 8 | u64::from(*byte))
}

impl RecordReader {
    /// Reads the next bytes of the records, and gives each record that ends in them.
    ///
    /// # Errors
    ///
    /// Fails if they are not records of this version.
    pub(super) fn read(&mut self, mut bytes: &[u8], give: &mut impl FnMut(Record)) -> Result<(), String> {
        while !bytes.is_empty() {
            let count = match self.record {
                Some(_) => self.read_body(bytes),
                None => self.read_head(bytes)?,
            };
            bytes = &bytes[count..];
            if self.left == 0 {
                self.record.take().map_or((), &mut *give);
            }
        }
        Ok(())
    }

    /// Returns whether no record is cut off.
    pub(super) fn is_at_end(&self) -> bool {
        self.begun.is_empty() && self.record.is_none()
    }

    /// Returns the length of the head that came, with its texts.
    fn head_len(&self) -> usize {
        match self.begun.get(4..8) {
            Some(lens) if self.begun.len() >= HEAD => HEAD + number_in(&lens[..2]) as usize + number_in(&lens[2..]) as usize,
            _ => HEAD,
        }
    }

    /// Reads bytes of a head and of its texts. Returns their number.
    fn read_head(&mut self, bytes: &[u8]) -> Result<usize, String> {
        let count = (self.head_len() - self.begun.len()).min(bytes.len());
        self.begun.extend_from_slice(&bytes[..count]);
        if self.begun.len() < HEAD || self.begun.len() < self.head_len() {
            return Ok(count);
        }
        let (head, texts) = self.begun.split_at(HEAD);
        let kind = number_in(&head[..4]) as u32;
        let kind = Kind::of(kind).ok_or_else(|| format!("a record has the kind {kind}"))?;
        let text = |bytes: &[u8]| String::from_utf8(bytes.to_vec()).map_err(|_| "the text of a record is not UTF-8".to_string());
        let (name, digest) = texts.split_at(number_in(&head[4..6]) as usize);
        let (name, digest, number) = (text(name)?, text(digest)?, number_in(&head[8..16]));
        self.left = number_in(&head[16..]);
        let len = if kind.has_notes() { 0 } else { self.left };
        self.record = Some(Record { kind, name, digest, number, len });
        self.begun.clear();
        Ok(count)
    }

    /// Reads bytes of a body. Returns their number.
    fn read_body(&mut self, bytes: &[u8]) -> usize {
        let count = usize::try_from(self.left).unwrap_or(usize::MAX).min(bytes.len());
        if let Some(record) = self.record.as_mut().filter(|record| record.kind.has_notes()) {
            for byte in &bytes[..count] {
                self.note.push(*byte);
                if self.note.len() == NOTE {
                    record.len = record.len.saturating_add(number_in(&self.note[..8]));
                    self.note.clear();
                }
            }
        }
        self.left -= count as u64;
        count
    }
}

/// Records as a store writes them, for tests.
#[cfg(test)]
pub(super) mod encoding {
    /// Returns a record with a body.
    pub(in crate::folder) fn record(kind: u32, name: &str, digest: &str, number: u64, body: &[u8]) -> Vec<u8> {
        let lens = [name.len(), digest.len()].map(|len| (len as u16).to_le_bytes());
        let numbers = [number, body.len() as u64].map(u64::to_le_bytes);
        [&kind.to_le_bytes()[..], &lens.concat(), &numbers.concat(), name.as_bytes(), digest.as_bytes(), body].concat()
    }

    /// Returns the notes of pieces with these lengths, whose sums are 7.
    pub(in crate::folder) fn notes(lens: &[u64]) -> Vec<u8> {
        lens.iter().flat_map(|len| [len.to_le_bytes(), 7u64.to_le_bytes()].concat()).collect()
    }
}

#[cfg(test)]
mod tests {
    use super::encoding::{notes, record};
    use super::*;

    fn of(kind: Kind, name: &str, digest: &str, number: u64, len: u64) -> Record {
        Record { kind, name: name.to_string(), digest: digest.to_string(), number, len }
    }

    fn all_of(bytes: &[u8], at_once: usize) -> Result<Vec<Record>, String> {
        let (mut reader, mut found) = (RecordReader::default(), Vec::new());
        for part in bytes.chunks(at_once) {
            reader.read(part, &mut |record| found.push(record))?;
        }
        assert!(reader.is_at_end());
        Ok(found)
    }

    /// The example of docs/LOG.md.
    #[test]
    fn the_example_of_the_document_is_a_chunk() {
        let example = "03 00 00 00 04 00 00 00 07 00 00 00 00 00 00 00 03 00 00 00 00 00 00 00 61 63 6d 65 61 62 63";
        let bytes: Vec<u8> = example.split(' ').map(|byte| u8::from_str_radix(byte, 16).unwrap()).collect();
        assert_eq!(all_of(&bytes, 100), Ok(vec![of(Kind::Received, "acme", "", 7, 3)]));
    }

    #[test]
    fn records_come_in_parts_of_any_length() {
        let bytes = [
            record(2, "acme/web", "", 7, b""),
            record(13, "acme", "", 7, &notes(&[1 << 20, 1 << 20, 5])),
            record(14, "acme", "sha256:00", 7, &notes(&[])),
            record(8, "acme/web", "", 0, b"{}"),
            record(15, "acme", "sha256:00", 9, &notes(&[3])),
            record(7, "acme/web", "sha256:00", 0, b""),
        ];
        let wanted = vec![
            of(Kind::Opened, "acme/web", "", 7, 0),
            of(Kind::ReceivedNoted, "acme", "", 7, (2 << 20) + 5),
            of(Kind::SealedNoted, "acme", "sha256:00", 7, 0),
            of(Kind::Other, "acme/web", "", 0, 2),
            of(Kind::StoredNoted, "acme", "sha256:00", 9, 3),
            of(Kind::Unlinked, "acme/web", "sha256:00", 0, 0),
        ];
        for at_once in [1, 2, 7, 23, 24, 25, 1000] {
            assert_eq!(all_of(&bytes.concat(), at_once).as_ref(), Ok(&wanted), "{at_once}");
        }
    }

    #[test]
    fn records_of_a_later_version_are_not_read() {
        let read = |kind| RecordReader::default().read(&record(kind, "", "", 0, b""), &mut |_| {});
        assert_eq!(read(16), Err("a record has the kind 16".to_string()));
        assert!(read(0).is_err() && (1..=15).all(|kind| read(kind).is_ok()));
    }
}
