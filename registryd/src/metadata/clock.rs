//! The time by which the ages of manifests count, in seconds since 1970. It goes on while the program runs, by a clock of the
//! system that does not jump. A start goes on from the last time that was recorded, whatever the time of day is. So a wrong
//! time of day makes no manifest older.
use std::sync::atomic::{AtomicU64, Ordering};
use std::time::{Duration, SystemTime, UNIX_EPOCH};

/// The difference of the time and of the clock that does not jump, in nanoseconds.
static DIFFERENCE: AtomicU64 = AtomicU64::new(0);

/// Returns the time of a clock that does not jump.
fn steady() -> Duration {
    let mut time = libc::timespec { tv_sec: 0, tv_nsec: 0 };
    // SAFETY: `time` has room for the struct that the call writes. The call fails only for an unknown clock.
    unsafe { libc::clock_gettime(libc::CLOCK_MONOTONIC, &mut time) };
    Duration::new(time.tv_sec as u64, time.tv_nsec as u32)
}

/// Returns the time of day since 1970.
fn day() -> Duration {
    SystemTime::now().duration_since(UNIX_EPOCH).unwrap_or_default()
}

/// Returns the difference after which the time goes on from the last recorded one, or from the time of day if there is none.
fn difference(recorded: Option<u64>, time_of_day: Duration, steady: Duration) -> u64 {
    let begun = recorded.map_or(time_of_day, Duration::from_secs);
    (begun.as_nanos() as u64).wrapping_sub(steady.as_nanos() as u64)
}

/// Begins the time, after the last recorded one in seconds since 1970, if there is one.
pub(crate) fn begin(recorded: Option<u64>) {
    DIFFERENCE.store(difference(recorded, day(), steady()), Ordering::SeqCst);
}

/// Returns the time.
fn time() -> Duration {
    Duration::from_nanos((steady().as_nanos() as u64).wrapping_add(DIFFERENCE.load(Ordering::SeqCst)))
}

/// Returns the time in seconds since 1970.
pub(crate) fn now() -> u64 {
    time().as_secs()
}

/// Returns the time of day in seconds since 1970.
pub(crate) fn time_of_day() -> u64 {
    day().as_secs()
}

/// Returns the time of day at which it was this time, if the clock of the day is right and the program ran since then.
pub(crate) fn of_day(past: u64) -> u64 {
    let behind = day().as_nanos() as i128 - time().as_nanos() as i128;
    let seconds = (behind + 500_000_000).div_euclid(1_000_000_000);
    u64::try_from(i128::from(past) + seconds).unwrap_or(0)
}

#[cfg(test)]
mod tests {
    use super::*;

    /// Returns the time after a start, if the clock that does not jump shows `steady` some seconds later.
    fn time_after(recorded: Option<u64>, time_of_day: u64, steady: u64, seconds: u64) -> u64 {
        let begun = difference(recorded, Duration::from_secs(time_of_day), Duration::from_secs(steady));
        Duration::from_nanos(begun.wrapping_add((steady + seconds) * 1_000_000_000)).as_secs()
    }

    #[test]
    fn a_start_goes_on_from_the_recorded_time() {
        let (year, now) = (31_536_000, 1_800_000_000);
        assert_eq!(time_after(None, now, 50, 7), now + 7);
        for time_of_day in [0, now, now + year, now - year] {
            assert_eq!(time_after(Some(now), time_of_day, 50, 7), now + 7, "{time_of_day}");
        }
        // The clock that does not jump may be ahead of the recorded time.
        assert_eq!(time_after(Some(5), now, 1000, 7), 12);
    }
}
