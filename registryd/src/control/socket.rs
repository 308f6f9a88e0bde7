//! The socket of the owner's commands. Its file is the owner's alone, and connections of other users are closed.
use crate::control::server;
use crate::endpoints::registry::Registry;
use crate::operation::background;
use socket2::{Domain, SockAddr, Socket, Type};
use std::fs;
use std::io;
use std::os::unix::fs::{FileTypeExt, MetadataExt};
use std::os::unix::io::AsRawFd;
use std::os::unix::net::{UnixListener, UnixStream};
use std::path::{Path, PathBuf};
use std::sync::Arc;

/// The mode of the file: only its owner may open it.
const MODE: libc::mode_t = 0o600;

/// The maximum number of connections that wait to be accepted.
const BACKLOG: i32 = 128;

/// A socket that listens. Its file is removed when this is dropped.
pub(crate) struct ControlSocket {
    listener: Option<UnixListener>,
    path: PathBuf,
    /// The device and the number of the file.
    file: (u64, u64),
}

/// Returns what identifies a file.
fn identity(path: &Path) -> io::Result<(u64, u64)> {
    fs::symlink_metadata(path).map(|data| (data.dev(), data.ino()))
}

/// Listens on a new socket that only this user may open. A socket that has a mode before it is bound gives it to its file, so no other user can
/// open the file in between. The mask of the process is not changed, since other threads make files meanwhile.
fn listen(path: &Path) -> io::Result<UnixListener> {
    let socket = Socket::new(Domain::UNIX, Type::STREAM, None)?;
    // SAFETY: the call takes the number of a file that is open, and a mode.
    if unsafe { libc::fchmod(socket.as_raw_fd(), MODE) } != 0 {
        return Err(io::Error::last_os_error());
    }
    socket.bind(&SockAddr::unix(path)?)?;
    socket.listen(BACKLOG)?;
    socket.set_nonblocking(true)?;
    Ok(socket.into())
}

/// Removes the file of a socket on which no program listens any more.
fn remove_stale(path: &Path) -> Result<(), String> {
    match fs::symlink_metadata(path) {
        Err(error) if error.kind() == io::ErrorKind::NotFound => return Ok(()),
        Err(error) => return Err(error.to_string()),
        Ok(data) if !data.file_type().is_socket() => return Err("it exists and is not a socket".to_string()),
        Ok(_) => {}
    }
    match UnixStream::connect(path) {
        Ok(_) => Err("another program listens on it".to_string()),
        Err(error) if error.kind() == io::ErrorKind::ConnectionRefused => {
            fs::remove_file(path).map_err(|error| error.to_string())
        }
        Err(error) => Err(error.to_string()),
    }
}

impl ControlSocket {
    /// Listens on a socket with this path. One that a program left that was killed is replaced.
    ///
    /// # Errors
    ///
    /// - There is a file with this path that is no socket, or another program listens on it.
    /// - The socket cannot be made.
    pub(crate) fn bind(path: &Path) -> Result<ControlSocket, String> {
        let fault = |why: String| format!("cannot listen for commands: {}: {why}", path.display());
        remove_stale(path).map_err(fault)?;
        let listener = listen(path).map_err(|error| fault(error.to_string()))?;
        let file = identity(path).map_err(|error| fault(error.to_string()))?;
        Ok(ControlSocket { listener: Some(listener), path: path.to_path_buf(), file })
    }

    /// Serves commands to a registry from now on. Returns what removes the file.
    pub(crate) fn serve(mut self, registry: Arc<Registry>) -> ControlSocket {
        if let Some(listener) = self.listener.take() {
            background::run(server::serve(listener, registry));
        }
        self
    }
}

impl Drop for ControlSocket {
    fn drop(&mut self) {
        if identity(&self.path).map_or(false, |file| file == self.file) {
            let _ = fs::remove_file(&self.path);
        }
    }
}

#[cfg(test)]
mod tests {
    use super::*;

    #[test]
    fn a_socket_is_its_owners_alone() {
        let path = std::env::temp_dir().join(format!("registryd-{}", uuid::Uuid::new_v4()));
        let socket = ControlSocket::bind(&path).unwrap();
        assert_eq!(fs::symlink_metadata(&path).unwrap().mode() & 0o7777, 0o600);
        let why = ControlSocket::bind(&path).err().unwrap();
        assert!(why.ends_with("another program listens on it"), "{why}");
        drop(socket);
        assert!(!path.exists());
    }

    #[test]
    fn a_stale_socket_is_replaced_and_nothing_else() {
        let path = std::env::temp_dir().join(format!("registryd-{}", uuid::Uuid::new_v4()));
        drop(UnixListener::bind(&path).unwrap());
        let socket = ControlSocket::bind(&path).unwrap();
        // The file of another program stays.
        fs::remove_file(&path).unwrap();
        fs::write(&path, "x").unwrap();
        drop(socket);
        let why = ControlSocket::bind(&path).err().unwrap();
        assert!(why.ends_with("it exists and is not a socket"), "{why}");
        assert_eq!(fs::read(&path).unwrap(), b"x");
        fs::remove_file(&path).unwrap();
        assert!(ControlSocket::bind(&path.join("below")).is_err());
    }
}
