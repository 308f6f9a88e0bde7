//! The process of `blobd`.
use crate::operation::exit::Failure;
use crate::operation::notify::VARIABLES;
use std::io;
use std::process::{ExitStatus, Stdio};
use std::sync::atomic::{AtomicU32, Ordering};
use std::time::Duration;
use tokio::process::{Child, Command};

/// The time that `blobd` has to end after its connections are closed.
const END_TIME: Duration = Duration::from_secs(8);

/// The process id of the `blobd` that was started last, or 0.
static LAST: AtomicU32 = AtomicU32::new(0);

/// Returns the number of bytes that a process has read, in the text of its file `io` (proc(5)).
fn read_in(text: &str) -> Option<u64> {
    text.lines().find_map(|line| line.strip_prefix("rchar: "))?.parse().ok()
}

/// Returns the number of bytes that the `blobd` that was started last has read from files and pipes, or `None` if it is not
/// known.
pub(crate) fn bytes_read() -> Option<u64> {
    match LAST.load(Ordering::Relaxed) {
        0 => None,
        process => read_in(&std::fs::read_to_string(format!("/proc/{process}/io")).ok()?),
    }
}

/// Starts `blobd` in a process group of its own, ignoring the signals that stop this program. So a signal to all processes
/// of a terminal or service does not stop the store before the requests. Closing its connections stops it, and SIGKILL does.
/// Other users of the machine cannot read the files that it makes.
pub(super) fn spawn(mut command: Command) -> io::Result<Child> {
    command.stdin(Stdio::null()).kill_on_drop(true);
    for name in VARIABLES {
        command.env_remove(name);
    }
    // SAFETY: the closure makes only calls that are permitted between `fork` and `exec` (POSIX, 2.4.3).
    unsafe {
        command.pre_exec(|| {
            libc::umask(0o077);
            for number in [libc::SIGINT, libc::SIGTERM] {
                libc::signal(number, libc::SIG_IGN);
            }
            match libc::setpgid(0, 0) {
                0 => Ok(()),
                _ => Err(io::Error::last_os_error()),
            }
        });
    }
    let child = command.spawn()?;
    LAST.store(child.id().unwrap_or(0), Ordering::Relaxed);
    Ok(child)
}

/// Waits until `blobd` has ended, and returns its status. Returns `None` if it does not end in time. Then it is killed.
async fn ended(child: &mut Child) -> io::Result<Option<ExitStatus>> {
    match tokio::time::timeout(END_TIME, child.wait()).await {
        Ok(status) => Ok(Some(status?)),
        Err(_) => {
            child.kill().await?;
            Ok(None)
        }
    }
}

/// Waits until `blobd` has ended. Fails if its status is not 0, or if it does not end in time. Then it is killed.
pub(super) async fn wait_for(mut child: Child) -> Result<(), Failure> {
    match ended(&mut child).await? {
        Some(status) if status.success() => Ok(()),
        Some(status) => Err(Failure::of_blobd("cannot stop the store", status)),
        None => Err(Failure::new(format!("blobd did not end within {} s, and was killed", END_TIME.as_secs()))),
    }
}

/// Returns why `blobd` has closed its connections, after it has ended.
pub(crate) async fn why_gone(child: &mut Child) -> Failure {
    match ended(child).await {
        Ok(Some(status)) => Failure::of_blobd("the store is gone", status),
        Ok(None) => Failure::new("the store is gone: blobd closed a connection, did not end, and was killed"),
        Err(error) => Failure::new(format!("the store is gone: {error}")),
    }
}

#[cfg(test)]
mod tests {
    use super::*;

    #[test]
    fn read_bytes_are_found() {
        assert_eq!(read_in("rchar: 4096\nwchar: 7\n"), Some(4096));
        assert_eq!([read_in(""), read_in("rchar: x\n")], [None; 2]);
        let own = std::fs::read_to_string("/proc/self/io").unwrap();
        assert!(read_in(&own).is_some(), "{own}");
    }
}
