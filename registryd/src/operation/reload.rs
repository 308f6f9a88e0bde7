//! Values that are read from files at the start and again on SIGHUP.
use crate::operation::locks::guard_of;
use std::fs::OpenOptions;
use std::io::{self, Read as _};
use std::os::unix::fs::OpenOptionsExt;
use std::path::Path;
use std::sync::{Arc, RwLock};
use tokio::signal::unix::{signal, Signal, SignalKind};

/// Reads a value, or returns why it cannot.
type Read<T> = Box<dyn Fn() -> Result<T, String> + Send + Sync>;

/// A value that was read from files.
pub(crate) struct FromFile<T> {
    read: Read<T>,
    current: RwLock<Arc<T>>,
}

impl<T> FromFile<T> {
    /// Reads a value by `read`, which will read it again.
    pub(crate) fn new(read: impl Fn() -> Result<T, String> + Send + Sync + 'static) -> Result<Arc<FromFile<T>>, String> {
        let current = RwLock::new(Arc::new(read()?));
        Ok(Arc::new(FromFile { read: Box::new(read), current }))
    }

    /// Returns the value that was read last.
    pub(crate) fn get(&self) -> Arc<T> {
        guard_of(self.current.read()).clone()
    }
}

/// The maximum length of a file, in bytes. Its content is in memory while it is read.
const MOST_BYTES: u64 = 64 << 20;

/// Reads a regular file. The open of a pipe would wait for a writer, and its content could not be read again.
///
/// # Errors
///
/// - The file cannot be opened or read.
/// - It is not a regular file.
/// - It is longer than 64 MiB.
pub(crate) fn read_file(path: &Path) -> io::Result<Vec<u8>> {
    let file = OpenOptions::new().read(true).custom_flags(libc::O_NONBLOCK).open(path)?;
    if !file.metadata()?.is_file() {
        return Err(io::Error::new(io::ErrorKind::InvalidInput, "not a regular file"));
    }
    let mut bytes = Vec::new();
    file.take(MOST_BYTES + 1).read_to_end(&mut bytes)?;
    match bytes.len() as u64 > MOST_BYTES {
        true => Err(io::Error::new(io::ErrorKind::InvalidInput, format!("longer than {MOST_BYTES} bytes"))),
        false => Ok(bytes),
    }
}

/// Reads a regular file whose content is UTF-8.
pub(crate) fn read_text(path: &Path) -> io::Result<String> {
    String::from_utf8(read_file(path)?).map_err(|_| io::Error::new(io::ErrorKind::InvalidData, "not UTF-8"))
}

/// Returns the lines of a file with their numbers, without those that are empty or begin with `#`, and without spaces at their ends.
fn numbered_lines(text: &str) -> impl Iterator<Item = (usize, &str)> {
    let lines = text.lines().map(str::trim).enumerate().map(|(at, line)| (at + 1, line));
    lines.filter(|(_, line)| !line.is_empty() && !line.starts_with('#'))
}

/// Parses each line of a text by `parse`, which gets its number too.
///
/// # Errors
///
/// Fails at the first line that cannot be parsed, with its number and the reason.
pub(crate) fn parse_lines<'t, T>(text: &'t str, parse: impl Fn(usize, &'t str) -> Result<T, String>) -> Result<Vec<T>, String> {
    let parsed = numbered_lines(text).map(|(number, line)| parse(number, line).map_err(|why| format!("line {number}: {why}")));
    parsed.collect()
}

/// Reads a file of lines, which `parse` makes a value of. `what` names the file in a message.
///
/// # Errors
///
/// - The file cannot be read.
/// - `parse` fails.
pub(crate) fn read_parsed<T>(path: &Path, what: &str, parse: impl Fn(&str) -> Result<T, String>) -> Result<T, String> {
    let text = read_text(path).map_err(|error| error.to_string());
    text.and_then(|text| parse(&text)).map_err(|why| format!("cannot read the {what}: {}: {why}", path.display()))
}

/// A value that can be read again.
pub(crate) trait Reload: Send + Sync {
    /// Reads the value again. If this fails, the value is unchanged.
    fn reload(&self) -> Result<(), String>;

    /// Logs the result for a value of this name.
    fn log(&self, name: &str, reloaded: Result<(), String>) {
        match reloaded {
            Ok(()) => tracing::info!("read the {name} again"),
            Err(why) => tracing::error!("{why}: kept the {name} that were read before"),
        }
    }
}

impl<T: Send + Sync> Reload for FromFile<T> {
    fn reload(&self) -> Result<(), String> {
        let value = Arc::new((self.read)()?);
        *guard_of(self.current.write()) = value;
        Ok(())
    }
}

/// The values that SIGHUP reads again, each with a name for the log.
pub(crate) type Reloads = Vec<(&'static str, Arc<dyn Reload>)>;

/// The signal SIGHUP, which ends the program no more once this is made.
pub(crate) struct Hangup(Signal);

impl Hangup {
    /// Handles the signal from now on.
    pub(crate) fn new() -> io::Result<Hangup> {
        Ok(Hangup(signal(SignalKind::hangup())?))
    }

    /// Reads the values again after each signal. A value that cannot be read stays as it was. It never returns.
    pub(crate) async fn reload(mut self, values: Reloads) {
        let values = Arc::new(values);
        while self.0.recv().await.is_some() {
            let values = values.clone();
            let _ = tokio::task::spawn_blocking(move || reload_each(&values)).await;
        }
    }
}

/// Reads each value again, and logs the results.
fn reload_each(values: &[(&'static str, Arc<dyn Reload>)]) {
    if values.is_empty() {
        tracing::info!("no file to read again");
    }
    for (name, value) in values {
        value.log(name, value.reload());
    }
}

#[cfg(test)]
mod tests {
    use super::*;
    use std::sync::Mutex;

    #[test]
    fn a_file_has_a_greatest_length() {
        let path = std::env::temp_dir().join(format!("registryd-long-{}", std::process::id()));
        let file = std::fs::File::create(&path).unwrap();
        file.set_len(MOST_BYTES).unwrap();
        assert_eq!(read_file(&path).unwrap().len() as u64, MOST_BYTES);
        file.set_len(1 << 40).unwrap();
        assert_eq!(read_file(&path).unwrap_err().to_string(), "longer than 67108864 bytes");
        std::fs::remove_file(path).unwrap();
    }

    #[test]
    fn a_value_that_cannot_be_read_stays() {
        let file = Arc::new(Mutex::new(Ok(1)));
        let source = file.clone();
        let value = FromFile::new(move || source.lock().unwrap().clone()).unwrap();
        let old = value.get();
        *file.lock().unwrap() = Err("broken".to_string());
        assert_eq!((value.reload(), *value.get()), (Err("broken".to_string()), 1));
        *file.lock().unwrap() = Ok(2);
        assert_eq!((value.reload(), *value.get(), *old), (Ok(()), 2, 1));
        assert!(FromFile::<u8>::new(|| Err("broken".to_string())).is_err());
    }
}
