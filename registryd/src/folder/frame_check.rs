//! Reads a file of the store's log, finds out whether it is whole, and gives the payloads of its frames (docs/LOG.md).
use crate::folder::sums::{sum_of, word_of, BASIS};
use std::fmt;
use std::io::{self, Read};

/// The lengths of a header, of a frame's head, and of a sum, in bytes.
const HEADER: u64 = 32;
const HEAD: usize = 32;
const SUM: u64 = 8;

/// The number of bytes that are read at a time. It is a multiple of eight, because a sum is continued over eight bytes.
const PIECE: usize = 1 << 16;

const MAGIC: &[u8; 8] = b"bloblog\0";
const VERSION: u64 = 1;

/// What is wrong with a file, and the byte at which the frame begins that has it.
#[derive(Clone, Debug, PartialEq, Eq)]
pub(super) struct Damage {
    pub(super) byte: u64,
    pub(super) what: String,
}

impl fmt::Display for Damage {
    fn fmt(&self, text: &mut fmt::Formatter) -> fmt::Result {
        write!(text, "byte {}: {}", self.byte, self.what)
    }
}

/// What is done with the payloads of the frames of a file.
pub(super) trait Payloads {
    /// Takes the next bytes of the payload of a frame, of which it is not known yet whether it is whole.
    fn add(&mut self, bytes: &[u8]);

    /// Takes what was added since the last frame: the frame is whole.
    fn end_frame(&mut self);
}

impl Payloads for () {
    fn add(&mut self, _: &[u8]) {}

    fn end_frame(&mut self) {}
}

/// A file that is being checked.
struct Check<R> {
    input: R,
    id: u64,
    /// The offset of the next frame, and the sum in front of it.
    place: u64,
    sum: u64,
    /// Whether the last frame states that all of the file before it was synced.
    is_marked: bool,
}

/// The outcome of a read: whether the file ends before its first byte.
enum Filled {
    All,
    Nothing,
}

impl<R: Read> Check<R> {
    fn damage(&self, what: impl Into<String>) -> Damage {
        Damage { byte: self.place, what: what.into() }
    }

    /// Fills a buffer. Fails if the file ends within it.
    fn fill(&mut self, buffer: &mut [u8]) -> Result<Filled, Damage> {
        let mut count = 0;
        while count < buffer.len() {
            match self.input.read(&mut buffer[count..]) {
                Ok(0) if count == 0 => return Ok(Filled::Nothing),
                Ok(0) => return Err(self.damage("the file is cut off")),
                Ok(more) => count += more,
                Err(error) if error.kind() == io::ErrorKind::Interrupted => {}
                Err(error) => return Err(self.damage(format!("it cannot be read: {error}"))),
            }
        }
        Ok(Filled::All)
    }

    /// Reads the header.
    fn read_header(&mut self) -> Result<(), Damage> {
        let mut header = [0; HEADER as usize];
        if matches!(self.fill(&mut header)?, Filled::Nothing) {
            return Err(self.damage("the file is empty"));
        }
        self.id = word_of(&header[16..24]);
        self.sum = sum_of(BASIS, &header[..24]);
        let is_right = header.starts_with(MAGIC) && word_of(&header[8..16]) == VERSION && word_of(&header[24..]) == self.sum;
        match is_right {
            true => self.place = HEADER,
            false => return Err(self.damage("the header is wrong")),
        }
        Ok(())
    }

    /// Reads a frame. Returns `false` at the end of the file.
    fn read_frame(&mut self, buffer: &mut [u8], payloads: &mut impl Payloads) -> Result<bool, Damage> {
        let mut head = [0; HEAD];
        if matches!(self.fill(&mut head)?, Filled::Nothing) {
            return Ok(false);
        }
        let (synced, length) = (word_of(&head[8..16]), word_of(&head[16..24]));
        if word_of(&head[..8]) != self.place || word_of(&head[24..]) != sum_of(self.id, &head[..24]) {
            return Err(self.damage("no frame begins there"));
        }
        let mut sum = sum_of(self.sum, &head);
        let mut left = length;
        while left > 0 {
            let piece = &mut buffer[..left.min(PIECE as u64) as usize];
            if matches!(self.fill(piece)?, Filled::Nothing) {
                return Err(self.damage("the file is cut off"));
            }
            sum = sum_of(sum, piece);
            left -= piece.len() as u64;
            payloads.add(piece);
        }
        let mut stated = [0; SUM as usize];
        if matches!(self.fill(&mut stated)?, Filled::Nothing) || word_of(&stated) != sum {
            return Err(self.damage("the sum of the frame is wrong"));
        }
        payloads.end_frame();
        self.is_marked = length == 0 && synced == self.place;
        self.sum = sum;
        self.place += HEAD as u64 + length + SUM;
        Ok(true)
    }
}

/// Reads a closed file of a log. Returns the id in its header.
///
/// # Errors
///
/// Fails with the first damage.
pub(super) fn check(input: impl Read, payloads: &mut impl Payloads) -> Result<u64, Damage> {
    let mut check = Check { input, id: 0, place: 0, sum: 0, is_marked: false };
    check.read_header()?;
    let mut buffer = vec![0; PIECE];
    while check.read_frame(&mut buffer, payloads)? {}
    match check.is_marked {
        true => Ok(check.id),
        false => Err(check.damage("the file has no mark at its end")),
    }
}

/// Reads the last file of a log, to which a store may be writing, up to its last whole frame. Returns the id in its header.
///
/// # Errors
///
/// Fails if it has no header.
pub(super) fn read_last(input: impl Read, payloads: &mut impl Payloads) -> Result<u64, Damage> {
    let mut check = Check { input, id: 0, place: 0, sum: 0, is_marked: false };
    check.read_header()?;
    let mut buffer = vec![0; PIECE];
    while let Ok(true) = check.read_frame(&mut buffer, payloads) {}
    Ok(check.id)
}

/// Files of a log as a store writes them, for tests.
#[cfg(test)]
pub(super) mod encoding {
    use super::*;

    /// Returns a file with an id, and a frame for each payload. One without bytes is a mark.
    pub(in crate::folder) fn file(id: u64, payloads: &[&[u8]]) -> Vec<u8> {
        let mut file = [&MAGIC[..], &VERSION.to_le_bytes(), &id.to_le_bytes()].concat();
        let mut sum = sum_of(BASIS, &file);
        file.extend_from_slice(&sum.to_le_bytes());
        for payload in payloads {
            let place = file.len() as u64;
            let mut head = [place, place, payload.len() as u64].map(u64::to_le_bytes).concat();
            head.extend_from_slice(&sum_of(id, &head).to_le_bytes());
            // The payload is summed in pieces of a multiple of eight bytes.
            sum = sum_of(sum_of(sum, &head), payload);
            file.extend_from_slice(&[&head[..], payload, &sum.to_le_bytes()].concat());
        }
        file
    }
}

#[cfg(test)]
mod tests {
    use super::*;

    /// The example of docs/LOG.md without its last two frames: it ends with a mark.
    const EXAMPLE: &str = "62 6c 6f 62 6c 6f 67 00 01 00 00 00 00 00 00 00 ef cd ab 89 67 45 23 01 42 21 10 95 74 ad bf 8c \
        20 00 00 00 00 00 00 00 20 00 00 00 00 00 00 00 0a 00 00 00 00 00 00 00 af 54 3b f6 88 56 98 e3 \
        68 65 6c 6c 6f 2c 20 6c 6f 67 8e a4 d5 f8 40 e6 90 51 \
        52 00 00 00 00 00 00 00 52 00 00 00 00 00 00 00 00 00 00 00 00 00 00 00 23 24 08 49 a0 2c 4c 9c \
        d4 45 a3 3e 1f 49 71 12";

    fn example() -> Vec<u8> {
        EXAMPLE.split_whitespace().map(|byte| u8::from_str_radix(byte, 16).unwrap()).collect()
    }

    #[test]
    fn the_example_of_the_document_is_whole() {
        assert_eq!(check(&*example(), &mut ()), Ok(0x0123_4567_89ab_cdef));
    }

    /// The payloads of whole frames, and the bytes after them.
    #[derive(Default)]
    struct Taken(Vec<String>, String);

    impl Payloads for Taken {
        fn add(&mut self, bytes: &[u8]) {
            self.1.push_str(std::str::from_utf8(bytes).unwrap());
        }

        fn end_frame(&mut self) {
            self.0.push(std::mem::take(&mut self.1));
        }
    }

    #[test]
    fn the_payloads_of_whole_frames_are_taken() {
        let mut taken = Taken::default();
        assert_eq!(check(&*example(), &mut taken), Ok(0x0123_4567_89ab_cdef));
        assert_eq!(taken.0, ["hello, log", ""]);
        assert_eq!(encoding::file(0x0123_4567_89ab_cdef, &[b"hello, log", b""]), example());
        let cut = &encoding::file(9, &[b"first", b"second"])[..];
        for (length, frames) in [(cut.len(), 2), (cut.len() - 1, 1), (32, 0)] {
            let mut taken = Taken::default();
            assert_eq!((read_last(&cut[..length], &mut taken), taken.0.len()), (Ok(9), frames));
        }
        assert!(read_last(&cut[..31], &mut ()).is_err());
    }

    #[test]
    fn each_changed_bit_is_found_at_its_frame() {
        let whole = example();
        for place in 0..whole.len() {
            for bit in 0..8 {
                let mut bytes = whole.clone();
                bytes[place] ^= 1 << bit;
                let found = check(&*bytes, &mut ()).unwrap_err();
                let frame = [0, 32, 82].into_iter().rev().find(|start| *start <= place as u64).unwrap();
                assert_eq!(found.byte, frame, "bit {bit} of byte {place}: {found}");
            }
        }
    }

    #[test]
    fn a_file_that_is_cut_is_found() {
        let whole = example();
        for length in 0..whole.len() {
            assert!(check(&whole[..length], &mut ()).is_err(), "{length}");
        }
    }
}
