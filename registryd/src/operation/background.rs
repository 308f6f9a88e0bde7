//! Work that goes on for as long as the program runs. Without it the registry would serve and, for example, free nothing. So the
//! program ends if a bug stops such work, and the next start begins it again.
use crate::operation::exit::end_at_once;
use std::future::Future;
use tokio::task::JoinHandle;

/// Begins work in a task of its own. The program ends with status 1 if the work panics.
pub(crate) fn run<F>(work: F)
where
    F: Future + Send + 'static,
    F::Output: Send,
{
    let working = tokio::spawn(work);
    tokio::spawn(async move {
        if has_panicked(working).await {
            end_at_once("a bug in this program stopped work in the background: start again");
        }
    });
}

/// Waits for the end of a task, and returns whether a panic ended it. A task that is cancelled, as at the end of the program, has not panicked.
async fn has_panicked<T>(working: JoinHandle<T>) -> bool {
    matches!(working.await, Err(error) if error.is_panic())
}

#[cfg(test)]
mod tests {
    use super::*;

    #[tokio::test]
    async fn a_panic_is_noticed() {
        assert!(has_panicked(tokio::spawn(async { panic!("a bug") })).await);
        assert!(!has_panicked(tokio::spawn(async {})).await);
        let cancelled = tokio::spawn(std::future::pending::<()>());
        cancelled.abort();
        assert!(!has_panicked(cancelled).await);
    }
}
