//! The kind of file system that a folder lies on. What a reply promises rests on it: a sync reaches the disk, and a lock keeps a second
//! program out.
use std::ffi::OsString;
use std::os::unix::ffi::OsStringExt;
use std::path::{Path, PathBuf};

/// The list of the mounts that this process sees (proc(5), "mountinfo").
const MOUNTS: &str = "/proc/self/mountinfo";

/// The kinds that the tests shut down, or whose machines they kill and cut off, while clients push.
const TESTED: [&str; 3] = ["ext4", "fuse.glusterfs", "xfs"];

/// The kinds that keep nothing when the machine ends.
const IN_MEMORY: [&str; 2] = ["ramfs", "tmpfs"];

/// The kinds that were seen to break a promise.
const BROKEN: [&str; 1] = ["fuse.rclone"];

/// What is known of a kind of file system.
#[derive(Clone, Copy, Debug, PartialEq, Eq)]
pub(crate) enum Known {
    /// What was acknowledged was there after the file system lost what it had not written, or a machine was cut off from it.
    Tested,
    Untested,
    /// All is lost when the machine ends.
    InMemory,
    /// Two programs got its lock, or acknowledged changes were on no disk.
    Broken,
}

impl Known {
    /// Returns what is known of a kind.
    pub(crate) fn of(kind: &str) -> Known {
        match kind {
            _ if TESTED.contains(&kind) => Known::Tested,
            _ if IN_MEMORY.contains(&kind) => Known::InMemory,
            _ if BROKEN.contains(&kind) => Known::Broken,
            _ => Known::Untested,
        }
    }
}

/// Returns the kind of file system that a path lies on, such as `ext4`, or `None` if the system does not say.
pub(crate) fn kind_of(path: &Path) -> Option<String> {
    kind_in(&std::fs::read(MOUNTS).ok()?, &path.canonicalize().ok()?)
}

/// Returns the kind of file system that a path without links lies on, by a list of mounts.
fn kind_in(mounts: &[u8], path: &Path) -> Option<String> {
    let mounts = mounts.split(|&byte| byte == b'\n').filter_map(mount_in);
    mounts.filter(|(at, _)| path.starts_with(at)).fold(None, deeper).map(|(_, kind)| kind)
}

/// Returns the deeper of two mounts. Of two at one place the later one hides the other.
fn deeper(found: Option<(PathBuf, String)>, next: (PathBuf, String)) -> Option<(PathBuf, String)> {
    match found {
        Some(found) if found.0.components().count() > next.0.components().count() => Some(found),
        _ => Some(next),
    }
}

/// Returns the place and the kind of the mount in a line of the list: the fifth word, and the first one after a word `-`.
fn mount_in(line: &[u8]) -> Option<(PathBuf, String)> {
    let mut words = line.split(|&byte| byte == b' ');
    let at = PathBuf::from(OsString::from_vec(unescaped(words.nth(4)?)));
    let kind = words.skip_while(|word| *word != b"-").nth(1)?;
    Some((at, String::from_utf8_lossy(kind).into_owned()))
}

/// Returns the bytes of a word in which `\` and three octal digits stand for a space, a tab, a newline or a `\`.
fn unescaped(word: &[u8]) -> Vec<u8> {
    let mut bytes = Vec::with_capacity(word.len());
    let mut rest = word;
    while let Some((&first, after)) = rest.split_first() {
        let code = after.get(..3).and_then(|digits| std::str::from_utf8(digits).ok());
        match code.and_then(|digits| u8::from_str_radix(digits, 8).ok()) {
            Some(byte) if first == b'\\' => {
                bytes.push(byte);
                rest = &after[3..];
            }
            _ => {
                bytes.push(first);
                rest = after;
            }
        }
    }
    bytes
}

#[cfg(test)]
mod tests {
    use super::*;

    const LIST: &str = "27 1 254:0 / / rw,relatime - ext4 /dev/vda rw\n\
        30 27 7:0 / /srv rw - xfs /dev/loop0 rw\n\
        31 30 0:39 / /srv/a\\040b rw,nosuid shared:3 - fuse.rclone /tmp/src rw\n\
        32 30 0:40 / /srv/c rw - tmpfs none rw\n\
        33 32 0:41 / /srv/c rw - btrfs /dev/loop1 rw\n\
        nothing that is a mount\n";

    #[test]
    fn the_deepest_mount_counts() {
        let kinds = [("/var", "ext4"), ("/srv/x", "xfs"), ("/srvx", "ext4"), ("/srv/a b/x", "fuse.rclone"), ("/srv/c", "btrfs")];
        for (path, kind) in kinds {
            assert_eq!(kind_in(LIST.as_bytes(), Path::new(path)).as_deref(), Some(kind), "{path}");
        }
    }

    #[test]
    fn words_are_unescaped() {
        assert_eq!(unescaped(b"a\\040b\\134c\\0"), b"a b\\c\\0");
    }

    #[test]
    fn a_folder_has_a_kind() {
        assert!(kind_of(Path::new("/proc")).map_or(false, |kind| kind == "proc"));
        assert_eq!(kind_of(Path::new("/no/such/folder")), None);
    }

    #[test]
    fn kinds_are_known() {
        let known = ["ext4", "xfs", "fuse.glusterfs", "tmpfs", "fuse.rclone", "btrfs"].map(Known::of);
        let tested = Known::Tested;
        assert_eq!(known, [tested, tested, tested, Known::InMemory, Known::Broken, Known::Untested]);
    }
}
