//! Serves until a signal arrives or something fails, and ends the program in order.
use crate::database::writer::{Writer, WriterThread};
use crate::endpoints::registry::Registry;
use crate::folder::watcher;
use crate::folder::watcher::Watcher;
use crate::operation::exit::Failure;
use crate::operation::notify::Notifier;
use crate::operation::signals::Signals;
use crate::start::launch::Started;
use crate::start::listening::Serving;
use crate::store::process;
use std::path::PathBuf;
use std::sync::Arc;
use std::time::Duration;

/// The time that open requests have to finish during shutdown. Together with the store's time it is less than 30 s.
const END_TIME: Duration = Duration::from_secs(20);

/// Waits until a change could not be made in the database, and returns why.
async fn failed(database: &Option<(Arc<Writer>, WriterThread)>) -> Failure {
    match database {
        Some((writer, _)) => writer.failure().await.into(),
        None => std::future::pending().await,
    }
}

/// Looks at the folder until something is wrong with it, and returns what. It never returns without a folder.
async fn watch_folder(registry: &Registry, database: &Option<(Arc<Writer>, WriterThread)>, synced: &Option<PathBuf>) -> Failure {
    let folder = match &registry.folder {
        Some(folder) => folder,
        None => return std::future::pending().await,
    };
    let writer = database.as_ref().filter(|_| synced.is_some()).map(|(writer, _)| writer.clone());
    Watcher::new(folder.path().to_path_buf(), folder.room.clone(), writer).run().await
}

/// Waits for a signal, and then for the time in which a balancer finds out that the registry is about to stop, or for another signal.
async fn asked_to_stop(registry: &Registry, signals: &mut Signals, notifier: &Notifier, drain: Duration) {
    signals.recv().await;
    notifier.send("STOPPING=1");
    registry.draining.begin();
    if !drain.is_zero() {
        tracing::info!(seconds = drain.as_secs(), "draining");
        let _ = tokio::time::timeout(drain, signals.recv()).await;
    }
}

/// Serves requests until a signal arrives and the time to drain is over, and then lets open requests finish.
pub(crate) async fn serve(
    started: Started,
    serving: Serving,
    mut signals: Signals,
    notifier: &Notifier,
    drain: Duration,
) -> Result<(), Failure> {
    let Started { registry, mut child, database, synced, control } = started;
    // The file of the socket is removed when this is dropped.
    let _control = control.map(|control| control.serve(registry.clone()));
    let Serving { connections, server, stop } = serving;
    tokio::select! {
        ended = server => return Err(Failure::new(format!("cannot accept connections: {ended:?}"))),
        () = registry.store.ended() => return Err(process::why_gone(&mut child).await),
        status = child.wait() => return Err(Failure::of_blobd("the store is gone", status?)),
        failure = failed(&database) => return Err(failure),
        failure = watch_folder(&registry, &database, &synced) => return Err(failure),
        () = asked_to_stop(&registry, &mut signals, notifier, drain) => {}
    }
    tracing::info!("stopping");
    drop(stop);
    let is_ended = tokio::select! {
        () = connections.emptied() => true,
        () = tokio::time::sleep(END_TIME) => false,
        () = signals.recv() => false,
    };
    if !is_ended {
        tracing::warn!(connections = connections.len(), "closing connections whose requests did not finish in time");
        connections.close_all();
    }
    if let (Some(events), None) = (&registry.events, &database) {
        events.queue.log_lost();
    }
    if let Some(folder) = &registry.folder {
        // The last changes of the database and the end of the log need little.
        folder.room.make();
    }
    registry.record_last_pulls();
    // The database ends first: the store's lock on the folder protects it.
    let mut ended = Ok(());
    if let Some((writer, thread)) = database {
        if let Some(folder) = synced {
            ended = watcher::keep_last_end(folder, writer.clone()).await;
        }
        ended = ended.and(writer.end(thread).await.map_err(Failure::from));
    }
    registry.store.end(child).await.and(ended)?;
    if let Some(folder) = &registry.folder {
        folder.room.end();
    }
    tracing::info!("stopped");
    Ok(())
}
