//! The files of the store's log in a folder, in order, and what their records say about contents.
use crate::folder::frame_check::{check, read_last, Damage, Payloads};
use crate::folder::inventory::Inventory;
use crate::folder::log_end::{is_of_log, number_of};
use crate::folder::page_cache;
use crate::folder::records::{Record, RecordReader};
use std::fs::File;
use std::io::{self, Read};
use std::path::{Path, PathBuf};
use std::time::{Duration, Instant};

/// A reader with a pace.
pub(super) struct Paced<R> {
    input: R,
    bytes_s: u64,
    begun: Instant,
    read: u64,
}

impl<R: Read> Paced<R> {
    /// Makes a reader of at most this number of bytes a second.
    pub(super) fn new(input: R, bytes_s: u64) -> Paced<R> {
        Paced { input, bytes_s, begun: Instant::now(), read: 0 }
    }
}

impl<R: Read> Read for Paced<R> {
    fn read(&mut self, buffer: &mut [u8]) -> io::Result<usize> {
        let count = self.input.read(buffer)?;
        self.read += count as u64;
        let due = Duration::from_secs_f64(self.read as f64 / self.bytes_s as f64);
        std::thread::sleep(due.saturating_sub(self.begun.elapsed()));
        Ok(count)
    }
}

/// The names of the files of a log, in order, also of those that are missing.
#[derive(Debug, PartialEq, Eq)]
pub(super) struct LogFiles {
    /// The last base, and the segments after it up to the one before the last.
    pub(super) closed: Vec<String>,
    /// The segment to which the store writes. A base may have none after it.
    pub(super) last: Option<String>,
}

impl LogFiles {
    /// Returns the files of a log by a list of names.
    fn of(names: &[String]) -> LogFiles {
        let numbers = |kind| names.iter().filter_map(move |name| number_of(name, kind));
        let base = numbers("base").max().unwrap_or(0);
        let last = numbers("log").max().filter(|last| *last > base);
        let base_name = (base > 0).then(|| format!("base.{base}"));
        let segments = base + 1..last.unwrap_or(0);
        let closed = base_name.into_iter().chain(segments.map(|number| format!("log.{number}"))).collect();
        LogFiles { closed, last: last.map(|number| format!("log.{number}")) }
    }

    /// Returns whether there is no log.
    pub(super) fn is_empty(&self) -> bool {
        self.closed.is_empty() && self.last.is_none()
    }

    /// Returns the files of the log in a folder.
    pub(super) fn in_folder(folder: &Path) -> LogFiles {
        let files = std::fs::read_dir(folder).into_iter().flatten().flatten();
        let names: Vec<String> =
            files.filter_map(|file| file.file_name().into_string().ok()).filter(|name| is_of_log(name)).collect();
        LogFiles::of(&names)
    }
}

/// Notes the records of the frames of files, one file after the other.
#[derive(Default)]
pub(super) struct Reading {
    records: RecordReader,
    /// The records of the frame that is being read.
    begun: Vec<Record>,
    inventory: Inventory,
    /// What is wrong with the records.
    fault: Option<String>,
}

impl Payloads for Reading {
    fn add(&mut self, bytes: &[u8]) {
        if self.fault.is_none() {
            let begun = &mut self.begun;
            self.fault = self.records.read(bytes, &mut |record| begun.push(record)).err();
        }
    }

    fn end_frame(&mut self) {
        for record in self.begun.drain(..) {
            self.inventory.add(&record);
        }
    }
}

impl Reading {
    /// Reads a closed file, at most `bytes_s` bytes a second. Returns its id.
    ///
    /// # Errors
    ///
    /// Fails with the first damage of the file.
    pub(super) fn read_closed(&mut self, path: &Path, bytes_s: u64) -> Result<u64, Damage> {
        let input = open(path)?;
        let id = check(Paced::new(&input, bytes_s), self);
        page_cache::forget(&input);
        if self.fault.is_none() && !self.records.is_at_end() {
            self.fault = Some("a record goes over the end of a file".to_string());
        }
        id
    }

    /// Reads the last file up to its last whole frame, and returns the contents that lie in files.
    ///
    /// # Errors
    ///
    /// Fails if the file or a record cannot be read.
    pub(super) fn finish(mut self, last: Option<PathBuf>, bytes_s: u64) -> Result<Inventory, String> {
        if let Some(path) = last {
            let read = open(&path).and_then(|input| read_last(Paced::new(input, bytes_s), &mut self));
            read.map_err(|damage| format!("{}: {damage}", path.display()))?;
        }
        match self.fault {
            Some(fault) => Err(fault),
            None => Ok(self.inventory),
        }
    }
}

/// Opens a file of the log. A page of it that is cached would be read from memory.
fn open(path: &Path) -> Result<File, Damage> {
    let file = File::open(path).map_err(|error| Damage { byte: 0, what: format!("it cannot be opened: {error}") })?;
    page_cache::forget(&file);
    Ok(file)
}

/// Returns the contents that lie in files, by the log in a folder, which is read at most `bytes_s` bytes a second.
///
/// # Errors
///
/// Fails if a file of the log is missing or damaged, also if a store replaced it meanwhile.
pub(super) fn inventory_of(folder: &Path, bytes_s: u64) -> Result<Inventory, String> {
    let LogFiles { closed, last } = LogFiles::in_folder(folder);
    let mut reading = Reading::default();
    for name in closed {
        let path = folder.join(name);
        reading.read_closed(&path, bytes_s).map_err(|damage| format!("{}: {damage}", path.display()))?;
    }
    reading.finish(last.map(|name| folder.join(name)), bytes_s)
}

#[cfg(test)]
mod tests {
    use super::*;
    use crate::database::test_folder::TestFolder;
    use crate::folder::frame_check::encoding::file;
    use crate::folder::records::encoding::{notes, record};

    /// The digest of `abc` by the example of FIPS 180-4.
    const ABC: &str = "sha256:ba7816bf8f01cfea414140de5dae2223b00361a396177a9cb410ff61f20015ad";

    fn files(names: &[&str]) -> LogFiles {
        LogFiles::of(&names.iter().map(|name| name.to_string()).collect::<Vec<_>>())
    }

    #[test]
    fn the_last_file_is_not_closed() {
        let of = |names: &[&str]| (files(names).closed, files(names).last.unwrap_or_default());
        let text =
            |closed: &[&str], last: &str| (closed.iter().map(|name| name.to_string()).collect::<Vec<_>>(), last.to_string());
        assert_eq!(of(&["log.1"]), text(&[], "log.1"));
        assert_eq!(of(&["log.3", "log.1", "log.2"]), text(&["log.1", "log.2"], "log.3"));
        assert_eq!(of(&["base.4", "base.2", "log.7", "log.3"]), text(&["base.4", "log.5", "log.6"], "log.7"));
        assert_eq!((of(&["base.4", "log.4"]), of(&[])), (text(&["base.4"], ""), text(&[], "")));
    }

    #[test]
    fn a_reader_keeps_its_pace() {
        let begun = Instant::now();
        Paced::new(&[0; 3000][..], 10_000).read_to_end(&mut Vec::new()).unwrap();
        assert!(begun.elapsed() >= Duration::from_millis(300));
    }

    #[test]
    fn the_contents_of_all_files_are_found_up_to_the_last_whole_frame() {
        let folder = TestFolder::new();
        let put = |name: &str, bytes: &[u8]| std::fs::write(folder.0.join(name), bytes).unwrap();
        let found = || {
            let inventory = inventory_of(&folder.0, 1 << 30).map_err(|why| why.replace(&*folder.0.to_string_lossy(), ""))?;
            let found = inventory.contents().next().map(|(_, place)| (inventory.path_of(place), place.len));
            Ok::<_, String>(found)
        };
        assert_eq!(found(), Ok(None));
        let (opened, chunk) = (record(2, "acme/web", "", 7, b""), record(3, "acme", "", 7, &[1; 10]));
        let (noted, sealed) = (record(13, "acme", "", 7, &notes(&[1 << 20, 3])), record(14, "acme", ABC, 7, &notes(&[2])));
        // A record goes over the end of a frame.
        put("log.1", &file(70, &[&opened, &chunk[..5], &chunk[5..], b""]));
        let last = file(71, &[&[&noted[..], &sealed].concat()]);
        put("log.2", &last);
        assert_eq!(found(), Ok(Some(("contents/acme/7".to_string(), 10 + (1 << 20) + 3 + 2))));
        put("log.2", &last[..last.len() - 1]);
        assert_eq!(found(), Ok(None));
        put("log.2", &[&last[..], b"a frame that is being written"].concat());
        assert!(found().unwrap().is_some());
        put("log.3", &file(72, &[]));
        assert_eq!(found(), Err("/log.2: byte 247: the file is cut off".to_string()));
        put("log.2", &file(71, &[&record(16, "", "", 0, b""), b""]));
        assert_eq!(found(), Err("a record has the kind 16".to_string()));
        std::fs::remove_file(folder.0.join("log.1")).unwrap();
        assert!(found().unwrap_err().starts_with("/log.1: byte 0: it cannot be opened"));
    }
}
