//! Reads of many bytes into memory that is not initialized first.
use std::fs::File;
use std::io::{self, ErrorKind};
use std::os::unix::io::AsRawFd;

/// Returns an empty vector with room for `len` bytes, or `None` if allocation fails.
pub(super) fn room_for(len: u64) -> Option<Vec<u8>> {
    let mut room = Vec::new();
    room.try_reserve_exact(usize::try_from(len).ok()?).ok()?;
    Some(room)
}

/// Reads at most `most` bytes and appends them to the vector. Returns their number.
pub(super) fn read_on(file: &File, bytes: &mut Vec<u8>, most: usize) -> io::Result<usize> {
    let room = bytes.spare_capacity_mut();
    let len = room.len().min(most);
    // SAFETY: `room` has at least `len` bytes, the most that the call writes.
    let count = unsafe { libc::read(file.as_raw_fd(), room.as_mut_ptr().cast(), len) };
    if count < 0 {
        return Err(io::Error::last_os_error());
    }
    let count = count as usize;
    // SAFETY: the call has written `count` bytes of the room.
    unsafe { bytes.set_len(bytes.len() + count) };
    Ok(count)
}

/// Reads the next `len` bytes of a file.
///
/// # Errors
///
/// Fails with `OutOfMemory` if allocation fails, with `UnexpectedEof` if the file has fewer bytes, and if a read fails.
pub(crate) fn read_exactly(file: &File, len: u64) -> io::Result<Vec<u8>> {
    let mut bytes = room_for(len).ok_or(ErrorKind::OutOfMemory)?;
    while (bytes.len() as u64) < len {
        let most = len as usize - bytes.len();
        match read_on(file, &mut bytes, most) {
            Ok(0) => return Err(ErrorKind::UnexpectedEof.into()),
            Err(error) if error.kind() != ErrorKind::Interrupted => return Err(error),
            _ => {}
        }
    }
    Ok(bytes)
}
