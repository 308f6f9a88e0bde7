//! Notices to the service manager by the protocol of sd_notify(3): datagrams to the socket that NOTIFY_SOCKET names.
use crate::start::start_replies::Progress;
use std::future::Future;
use std::io;
use std::mem::size_of;
use std::os::unix::ffi::OsStrExt;
use std::os::unix::io::AsRawFd;
use std::os::unix::net::UnixDatagram;
use std::time::Duration;

/// The variables of the protocol. They are for this process and not for the store.
pub(crate) const VARIABLES: [&str; 3] = ["NOTIFY_SOCKET", "WATCHDOG_USEC", "WATCHDOG_PID"];

/// The pause between two notices of a start, and the time in which a start has to go on.
const START_REST: Duration = Duration::from_secs(5);
const START_TIME: Duration = Duration::from_secs(300);

/// The number of looks in the time of the watchdog.
const LOOKS: u32 = 4;

/// The time that a notice may wait for the service manager.
const SEND_TIME: Duration = Duration::from_secs(1);

/// The address of a socket, and its length.
type Address = (libc::sockaddr_un, libc::socklen_t);

/// Returns the address of a path, or of an abstract name if it begins with `@`. Returns `None` if it is neither.
fn address_of(name: &[u8]) -> Option<Address> {
    // SAFETY: zeros are a value of the struct, which has only numbers.
    let mut address: libc::sockaddr_un = unsafe { std::mem::zeroed() };
    address.sun_family = libc::AF_UNIX as libc::sa_family_t;
    let is_abstract = name.first() == Some(&b'@');
    let is_path = name.first() == Some(&b'/');
    if !(is_abstract || is_path) || name.len() >= address.sun_path.len() {
        return None;
    }
    for (to, from) in address.sun_path.iter_mut().zip(name) {
        *to = *from as libc::c_char;
    }
    if is_abstract {
        address.sun_path[0] = 0;
    }
    // A path ends with a zero byte.
    let length = size_of::<libc::sa_family_t>() + name.len() + usize::from(is_path);
    Some((address, length as libc::socklen_t))
}

/// Returns the time within which the service manager expects a notice of this process.
fn watchdog_of(time: Option<String>, process: Option<String>) -> Option<Duration> {
    let is_own = process.map_or(true, |process| process.parse() == Ok(std::process::id()));
    let time = time?.parse().ok().filter(|time| *time > 0 && is_own)?;
    Some(Duration::from_micros(time))
}

/// Sends notices to the service manager, if there is one.
pub(crate) struct Notifier {
    socket: Option<(UnixDatagram, Address)>,
    watchdog: Option<Duration>,
}

impl Notifier {
    /// Makes a notifier for the socket and the watchdog of the environment.
    pub(crate) fn of_environment() -> io::Result<Notifier> {
        let watchdog = watchdog_of(std::env::var("WATCHDOG_USEC").ok(), std::env::var("WATCHDOG_PID").ok());
        let socket = match std::env::var_os("NOTIFY_SOCKET").and_then(|name| address_of(name.as_bytes())) {
            Some(address) => {
                let socket = UnixDatagram::unbound()?;
                socket.set_write_timeout(Some(SEND_TIME))?;
                Some((socket, address))
            }
            None => None,
        };
        Ok(Notifier { socket, watchdog })
    }

    /// Sends a notice, which is one or more lines.
    pub(crate) fn send(&self, notice: &str) {
        let (socket, (address, length)) = match &self.socket {
            Some(socket) => (&socket.0, &socket.1),
            None => return,
        };
        let (bytes, to) = (notice.as_bytes(), address as *const libc::sockaddr_un as *const libc::sockaddr);
        // SAFETY: the bytes and the address are valid for their lengths, and the descriptor is open.
        let sent =
            unsafe { libc::sendto(socket.as_raw_fd(), bytes.as_ptr().cast(), bytes.len(), libc::MSG_NOSIGNAL, to, *length) };
        if sent < 0 {
            let error = io::Error::last_os_error();
            tracing::warn!(%error, "cannot notify the service manager");
        }
    }

    /// Sends and logs the status of a start again and again, and gives the start more time each time that it has gone on. It never
    /// returns.
    pub(crate) async fn extend_start<T>(&self, progress: impl Fn() -> Progress) -> T {
        let mut last = None;
        loop {
            let found = progress();
            if last != Some(found.done) {
                last = Some(found.done);
                self.send(&format!("EXTEND_TIMEOUT_USEC={}", START_TIME.as_micros()));
            }
            self.send(&format!("STATUS={found}"));
            // The first one comes when the start begins.
            if found.seconds > 0 {
                tracing::info!("{found}");
            }
            tokio::time::sleep(START_REST).await;
        }
    }

    /// Notifies the watchdog of the service manager several times in its time, each time only if the service is alive. It never
    /// returns.
    pub(crate) async fn keep_alive<T, A: Future<Output = bool>>(&self, is_alive: impl Fn() -> A) -> T {
        let rest = match self.watchdog {
            Some(time) => time / LOOKS,
            None => return std::future::pending().await,
        };
        loop {
            if is_alive().await {
                self.send("WATCHDOG=1");
            }
            tokio::time::sleep(rest).await;
        }
    }
}

#[cfg(test)]
mod tests {
    use super::*;

    #[test]
    fn a_socket_has_a_path_or_an_abstract_name() {
        let family = size_of::<libc::sa_family_t>() as libc::socklen_t;
        let (path, length) = address_of(b"/run/n").unwrap();
        assert_eq!((path.sun_path[0] as u8, length), (b'/', family + 7));
        let (name, length) = address_of(b"@n").unwrap();
        assert_eq!((name.sun_path[0], name.sun_path[1] as u8, length), (0, b'n', family + 2));
        assert!(address_of(b"").is_none() && address_of(b"vsock:1").is_none() && address_of(&[b'/'; 108]).is_none());
    }

    #[test]
    fn the_watchdog_is_for_one_process() {
        let text = |text: &str| Some(text.to_string());
        assert_eq!(watchdog_of(text("5"), None), Some(Duration::from_micros(5)));
        assert_eq!(watchdog_of(text("5"), text(&std::process::id().to_string())), Some(Duration::from_micros(5)));
        assert_eq!([watchdog_of(text("5"), text("0")), watchdog_of(text("x"), None), watchdog_of(None, None)], [None; 3]);
    }
}
