//! The pieces of a content's file, compared with what the store notes of them. The store keeps the file while the content is leased.
use crate::folder::sums::{sum_of, BASIS};
use crate::operation::locks::guard_of;
use crate::store::reading::read_exactly;
use bytes::Bytes;
use std::collections::VecDeque;
use std::fs::File;
use std::io::{Seek, SeekFrom};
use std::path::PathBuf;
use std::sync::{Arc, Mutex};

/// The length of the longest piece that the store writes.
pub(crate) const MAX_PIECE: u64 = 1 << 20;

/// What the store notes of a piece: its length in bytes, and its sum.
#[derive(Clone, Copy, Debug, PartialEq, Eq)]
pub(crate) struct Note {
    pub(crate) len: u64,
    pub(crate) sum: u64,
}

/// What is read and compared together: pieces that follow each other and have at most `part_len` bytes, or a longer piece, in parts of that
/// length. No byte of a piece is given to anybody before the whole piece was read and had its sum.
struct Block {
    path: PathBuf,
    /// The offset at which it begins, and its length.
    offset: u64,
    len: u64,
    notes: Vec<Note>,
    part_len: u64,
    /// The sums of the parts of a longer piece, after the whole piece was read and had its sum.
    part_sums: Mutex<Vec<u64>>,
}

impl Block {
    fn end(&self) -> u64 {
        self.offset + self.len
    }

    /// Returns the offsets of the first byte of a part and of the byte behind it.
    fn part(&self, index: u64) -> (u64, u64) {
        let start = self.offset + index * self.part_len;
        (start, self.end().min(start + self.part_len))
    }

    /// Reads a part, which nothing is compared with.
    fn read(&self, mut file: &File, index: u64) -> Option<Vec<u8>> {
        let (start, end) = self.part(index);
        file.seek(SeekFrom::Start(start)).ok()?;
        read_exactly(file, end - start).ok()
    }

    /// Returns whether each piece of the bytes has its sum.
    fn are_noted(&self, mut bytes: &[u8]) -> bool {
        self.notes.iter().all(|note| {
            let (piece, others) = bytes.split_at(note.len as usize);
            bytes = others;
            sum_of(BASIS, piece) == note.sum
        })
    }

    /// Reads all parts of a longer piece, and returns their sums if the piece has its own.
    fn read_sums(&self, file: &File) -> Option<Vec<u64>> {
        let count = (self.len + self.part_len - 1) / self.part_len;
        let (mut sums, mut whole) = (Vec::with_capacity(count as usize), BASIS);
        for index in 0..count {
            let part = self.read(file, index)?;
            whole = sum_of(whole, &part);
            sums.push(sum_of(BASIS, &part));
        }
        (self.notes.iter().all(|note| note.sum == whole)).then(|| sums)
    }

    /// Returns the sum of a part of a longer piece. All parts are read first, if none was read yet.
    fn part_sum(&self, file: &File, index: u64) -> Option<u64> {
        let mut sums = guard_of(self.part_sums.lock());
        if sums.is_empty() {
            *sums = self.read_sums(file)?;
        }
        sums.get(index as usize).copied()
    }

    /// Reads a part. Returns `None` if a piece or the part has other bytes, or cannot be read.
    fn checked_part(&self, index: u64) -> Option<Vec<u8>> {
        let file = File::open(&self.path).ok()?;
        if self.len <= self.part_len {
            return self.read(&file, index).filter(|bytes| self.are_noted(bytes));
        }
        let sum = self.part_sum(&file, index)?;
        self.read(&file, index).filter(|part| sum_of(BASIS, part) == sum)
    }
}

/// A read of some bytes.
pub(crate) struct PieceRead {
    block: Arc<Block>,
    /// The number of the part that has the bytes.
    index: u64,
    /// The offsets of the first byte and of the byte behind the last one.
    start: u64,
    pub(crate) end: u64,
}

impl PieceRead {
    /// Reads the bytes. It blocks. Returns `None` if the file has other bytes than those that were stored, or cannot be read.
    pub(crate) fn run(self) -> Option<Bytes> {
        let (begin, _) = self.block.part(self.index);
        let part = Bytes::from(self.block.checked_part(self.index)?);
        Some(part.slice((self.start - begin) as usize..(self.end - begin) as usize))
    }
}

/// Pieces of a content's file that follow each other.
pub(crate) struct ContentPieces {
    path: PathBuf,
    part_len: u64,
    /// The block of the last read.
    block: Option<Arc<Block>>,
    /// The offset at which the pieces that were not read yet begin, and their notes.
    offset: u64,
    notes: VecDeque<Note>,
}

impl ContentPieces {
    /// Makes the list of pieces that begin at an offset of the file. A read gives and holds at most `part_len` bytes, a multiple of eight. A
    /// longer piece is read twice.
    pub(crate) fn new(path: PathBuf, part_len: u64, offset: u64, notes: VecDeque<Note>) -> ContentPieces {
        ContentPieces { path, part_len, block: None, offset, notes }
    }

    /// Takes the next pieces that are read together.
    fn next_block(&mut self) -> Option<Block> {
        let first = self.notes.pop_front()?;
        let (offset, mut len, mut notes) = (self.offset, first.len, vec![first]);
        while let Some(note) = self.notes.front().copied().filter(|note| note.len <= self.part_len.saturating_sub(len)) {
            self.notes.pop_front();
            notes.push(note);
            len += note.len;
        }
        self.offset = offset.checked_add(len)?;
        Some(Block { path: self.path.clone(), offset, len, notes, part_len: self.part_len, part_sums: Mutex::default() })
    }

    /// Goes on to the block that has the byte at an offset.
    fn go_to(&mut self, start: u64) -> Option<Arc<Block>> {
        while self.block.as_ref().map_or(true, |block| block.end() <= start) {
            self.block = Some(Arc::new(self.next_block()?));
        }
        self.block.clone().filter(|block| block.offset <= start)
    }

    /// Returns the read of the bytes from `start` on, of which none is before those of an earlier read, to at most before `end`. Returns
    /// `None` if no piece has the first of them.
    pub(crate) fn next(&mut self, start: u64, end: u64) -> Option<PieceRead> {
        let block = self.go_to(start)?;
        let index = (start - block.offset) / block.part_len;
        let (_, behind) = block.part(index);
        Some(PieceRead { block, index, start, end: end.min(behind) })
    }
}

#[cfg(test)]
mod tests {
    use super::*;
    use std::path::Path;

    /// A file of three pieces, of 40, 24 and 7 bytes, after 5 bytes of another one.
    struct Example {
        path: PathBuf,
        bytes: Vec<u8>,
    }

    impl Example {
        fn new(name: &str) -> Example {
            let path = std::env::temp_dir().join(format!("registryd-pieces-{name}-{}", std::process::id()));
            let bytes: Vec<u8> = (0..76u32).map(|at| (at * at % 251) as u8).collect();
            std::fs::write(&path, &bytes).unwrap();
            Example { path, bytes }
        }

        fn notes(&self) -> VecDeque<Note> {
            [(5, 45), (45, 69), (69, 76)].iter().map(|(start, end)| note_of(&self.bytes[*start..*end])).collect()
        }

        fn pieces(&self, part_len: u64) -> ContentPieces {
            ContentPieces::new(self.path.clone(), part_len, 5, self.notes())
        }

        fn flip(&self, at: usize) {
            let mut bytes = self.bytes.clone();
            bytes[at] ^= 1;
            std::fs::write(&self.path, bytes).unwrap();
        }
    }

    impl Drop for Example {
        fn drop(&mut self) {
            std::fs::remove_file(&self.path).unwrap();
        }
    }

    fn note_of(bytes: &[u8]) -> Note {
        Note { len: bytes.len() as u64, sum: sum_of(BASIS, bytes) }
    }

    /// Reads the bytes from `start` to `end`, and returns those of each read, up to the first that fails.
    fn reads(mut pieces: ContentPieces, mut start: u64, end: u64) -> Vec<Option<Vec<u8>>> {
        let mut all = Vec::new();
        while start < end {
            let next = pieces.next(start, end).map(|read| (read.end, read.run()));
            let bytes = next.as_ref().and_then(|(_, bytes)| bytes.as_ref().map(|bytes| bytes.to_vec()));
            all.push(bytes);
            match next {
                Some((next, Some(_))) => start = next,
                _ => return all,
            }
        }
        all
    }

    fn some(bytes: &[u8]) -> Option<Vec<u8>> {
        Some(bytes.to_vec())
    }

    #[test]
    fn a_read_gives_pieces_or_a_part_of_one() {
        let example = Example::new("reads");
        let of = |start: usize, end: usize| some(&example.bytes[start..end]);
        assert_eq!(reads(example.pieces(40), 5, 76), [of(5, 45), of(45, 76)]);
        assert_eq!(reads(example.pieces(24), 5, 76), [of(5, 29), of(29, 45), of(45, 69), of(69, 76)]);
        assert_eq!(reads(example.pieces(64), 5, 76), [of(5, 69), of(69, 76)]);
        assert_eq!(reads(example.pieces(72), 50, 70), [of(50, 70)]);
        assert_eq!(reads(example.pieces(16), 5, 50), [of(5, 21), of(21, 37), of(37, 45), of(45, 50)]);
        assert_eq!(reads(example.pieces(16), 30, 72), [of(30, 37), of(37, 45), of(45, 61), of(61, 69), of(69, 72)]);
    }

    #[test]
    fn bytes_that_no_piece_has_are_not_read() {
        let example = Example::new("none");
        assert_eq!(reads(example.pieces(64), 4, 10), [None]);
        assert_eq!(reads(example.pieces(64), 70, 80), [some(&example.bytes[70..76]), None]);
        assert_eq!(reads(ContentPieces::new(example.path.clone(), 64, 5, VecDeque::new()), 5, 6), [None]);
        let far = [Note { len: u64::MAX, sum: 0 }].into_iter().collect();
        assert_eq!(reads(ContentPieces::new(example.path.clone(), 64, 5, far), 5, 6), [None]);
    }

    #[test]
    fn no_byte_of_a_damaged_piece_is_given() {
        let example = Example::new("damaged");
        for (part_len, at, given) in
            [(16, 45, 45), (16, 60, 45), (16, 68, 45), (40, 45, 45), (40, 68, 45), (40, 75, 45), (64, 68, 5), (24, 75, 69)]
        {
            example.flip(at);
            let found = reads(example.pieces(part_len), 5, 76);
            assert_eq!(
                found.iter().flatten().flatten().copied().collect::<Vec<u8>>(),
                example.bytes[5..given],
                "{part_len}, {at}"
            );
            assert_eq!(found.last(), Some(&None));
        }
    }

    #[test]
    fn a_part_that_changes_after_its_piece_was_read_is_not_given() {
        let example = Example::new("changed");
        let mut pieces = example.pieces(16);
        assert_eq!(pieces.next(5, 76).unwrap().run().unwrap(), example.bytes[5..21]);
        example.flip(22);
        assert_eq!(pieces.next(21, 76).unwrap().run(), None);
        assert_eq!(pieces.next(37, 76).unwrap().run().unwrap(), example.bytes[37..45]);
    }

    #[test]
    fn a_file_that_is_short_or_missing_is_not_read() {
        let example = Example::new("short");
        std::fs::write(&example.path, &example.bytes[..70]).unwrap();
        assert_eq!(reads(example.pieces(64), 69, 76), [None]);
        let missing = ContentPieces::new(Path::new("/no/such/file").to_path_buf(), 64, 5, example.notes());
        assert_eq!(reads(missing, 5, 76), [None]);
    }
}
