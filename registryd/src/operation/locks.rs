//! Locks after a panic. What a lock protects may be half changed if a thread panics while it holds the lock, so no other thread sees it:
//! the program ends, and the next start reads what is on the disk.
use crate::operation::exit::end_at_once;
use std::sync::LockResult;

/// Returns the guard of a lock. Ends the program with status 1 if a thread has panicked while it held the lock.
pub(crate) fn guard_of<G>(locked: LockResult<G>) -> G {
    locked.unwrap_or_else(|_| end_at_once("a bug in this program stopped a thread that held a lock: start again"))
}

#[cfg(test)]
mod tests {
    use super::*;
    use std::process::Command;
    use std::sync::{Arc, Mutex};

    /// The variable with which the test runs in a process of its own, which ends.
    const ENDS: &str = "REGISTRYD_TEST_ENDS";

    /// Takes a lock after a thread has panicked while it held the lock.
    fn take_after_panic() {
        let mutex = Arc::new(Mutex::new(7));
        let other = mutex.clone();
        let panicked = std::thread::spawn(move || {
            let _guard = guard_of(other.lock());
            panic!("a bug");
        });
        assert!(panicked.join().is_err());
        drop(guard_of(mutex.lock()));
    }

    #[test]
    fn a_panic_under_a_lock_ends_the_program_at_the_next_use_of_the_lock() {
        if std::env::var_os(ENDS).is_some() {
            return take_after_panic();
        }
        let name = "operation::locks::tests::a_panic_under_a_lock_ends_the_program_at_the_next_use_of_the_lock";
        let tests = std::env::current_exe().unwrap();
        let ended = Command::new(tests).args(["--exact", name]).env(ENDS, "1").output().unwrap();
        // A test that passes has status 0, and one that fails 101.
        assert_eq!(ended.status.code(), Some(1), "{ended:?}");
    }

    #[test]
    fn a_lock_without_a_panic_is_taken() {
        assert_eq!(*guard_of(Mutex::new(7).lock()), 7);
    }
}
