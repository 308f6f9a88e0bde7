//! The deliveries: for each receiver a task that sends its events in their order, and tries again until they are accepted.
use crate::events::event::envelope;
use crate::events::queue::{Numbered, Queue};
use crate::events::reporter::Recorder;
use crate::events::sender;
use std::collections::HashMap;
use std::sync::Arc;
use std::time::Duration;
use tokio::task::JoinHandle;

/// The maximum number of events of an envelope.
const MOST: usize = 100;

/// The first and the longest pause after a delivery failed.
const REST: (Duration, Duration) = (Duration::from_millis(500), Duration::from_secs(60));

/// The pause between two looks at the tasks, if the file is not read again. One that a bug has stopped begins anew.
const LOOK_REST: Duration = Duration::from_secs(60);

/// Delivers events to the receivers of the file, also after it was read again. It never returns.
pub(crate) async fn run(recorder: Arc<Recorder>) {
    let mut tasks: HashMap<String, JoinHandle<()>> = HashMap::new();
    loop {
        let receivers = recorder.file.get();
        recorder.queue.set_receivers(&receivers);
        recorder.keep_passed();
        let (stay, gone): (HashMap<_, _>, HashMap<_, _>) =
            tasks.into_iter().partition(|(name, task)| !task.is_finished() && receivers.iter().any(|one| one.name == *name));
        tasks = stay;
        for task in gone.into_values() {
            task.abort();
            let _ = task.await;
        }
        for receiver in receivers.iter() {
            let begin = || tokio::spawn(deliver(recorder.clone(), receiver.name.clone()));
            tasks.entry(receiver.name.clone()).or_insert_with(begin);
        }
        let _ = tokio::time::timeout(LOOK_REST, recorder.file.reloaded.notified()).await;
    }
}

/// Delivers the events of a receiver until it is gone from the file.
async fn deliver(recorder: Arc<Recorder>, name: String) {
    let queue = &recorder.queue;
    let (mut rest, mut most) = (REST.0, MOST);
    while let Some((receiver, events)) = queue.first(&name, most).await {
        let text = envelope(events.iter().map(|(_, event)| &*event.text));
        match sender::send(&receiver, text).await {
            Ok(()) => {
                accept(queue, &name, &events);
                recorder.keep_passed();
                (rest, most) = (REST.0, (2 * most).min(MOST));
            }
            Err(why) => {
                if queue.failed(&name) || rest == REST.1 {
                    tracing::warn!(receiver = %name, %why, "cannot deliver events: trying again");
                }
                tokio::time::sleep(rest).await;
                // A receiver that is slow may accept fewer.
                (rest, most) = ((2 * rest).min(REST.1), (most / 2).max(1));
            }
        }
    }
}

/// Notes that a receiver has accepted events.
fn accept(queue: &Queue, name: &str, events: &[Numbered]) {
    let last = events.last().map_or(0, |(number, _)| *number);
    if queue.accepted(name, last, events.len()) {
        tracing::info!(receiver = %name, "delivers events again");
    }
}
