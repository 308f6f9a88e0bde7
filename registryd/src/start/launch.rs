//! Starts the store, reads the database if there is one, and makes the registry over both.
use crate::auth::access::Access;
use crate::auth::robots::Robots;
use crate::browse::pages::Pages;
use crate::control::socket::ControlSocket;
use crate::database::writer::{Writer, WriterThread};
use crate::endpoints::registry::Registry;
use crate::events::delivery;
use crate::events::queue::Queue;
use crate::events::receivers::ReceiversFile;
use crate::events::reporter::Recorder;
use crate::folder::damaged::DamagedContents;
use crate::folder::disk_probe::DiskProbe;
use crate::folder::disk_room::DiskRoom;
use crate::folder::files::Folder;
use crate::folder::scrub::Scrub;
use crate::http::in_flight::Memory;
use crate::metadata::cached::CachedContents;
use crate::metadata::clock;
use crate::metadata::limits::Limits;
use crate::metadata::loose_blobs::LooseBlobs;
use crate::metadata::manifests::Manifests;
use crate::metadata::open_uploads::OpenUploads;
use crate::metadata::repositories::Repositories;
use crate::metadata::upload_names::Secret;
use crate::mirror::mirrors::Mirrors;
use crate::mirror::spool;
use crate::moving::moves::Moves;
use crate::moving::stage::MoveRow;
use crate::operation::exit::Failure;
use crate::operation::metrics::Metrics;
use crate::operation::reload::Reload;
use crate::operation::{background, memory_reserve};
use crate::start::credentials::Files;
use crate::start::opening::Opened;
use crate::start::options::Options;
use crate::start::provenance::Provenance;
use crate::start::recovery::Recovered;
use crate::start::{capacity, default_shares, opening, recovery};
use crate::store::client::Store;
use crate::store::process;
use crate::tenants::bounds::TenantBounds;
use crate::tenants::reload::TenantFile;
use crate::tenants::served::ServedTenants;
use std::net::SocketAddr;
use std::path::PathBuf;
use std::sync::Arc;
use std::time::Duration;
use tokio::process::Child;

/// A registry, and what runs for it.
pub(crate) struct Started {
    pub(crate) registry: Arc<Registry>,
    /// The process of `blobd`.
    pub(crate) child: Child,
    /// The writer of the database and its thread, if there is a database.
    pub(crate) database: Option<(Arc<Writer>, WriterThread)>,
    /// The folder, if each change is on the disk before its reply.
    pub(crate) synced: Option<PathBuf>,
    /// The socket of the owner's commands, if there is one.
    pub(crate) control: Option<ControlSocket>,
}

/// Returns the bounds on the manifests and tags of each tenant.
fn bounds(options: &Options, manifests: &Manifests) -> TenantBounds {
    let bounds = TenantBounds::new(options.bounds());
    bounds.set(options.tenants_with_bounds().iter().map(|(tenant, own)| (tenant, *own)), manifests);
    bounds
}

/// Returns the file of tenants as a value that SIGHUP reads again, if there is one.
pub(crate) fn tenant_file(options: &Options, registry: &Arc<Registry>) -> Option<(&'static str, Arc<dyn Reload>)> {
    let (path, lines) = (options.tenants_file.clone()?, options.tenant_lines.clone());
    Some(("tenants", Arc::new(TenantFile::new(path, options.argument_names(), lines, registry.clone()))))
}

/// Opens the folder and its database, if there is a folder.
async fn open_folder(options: &Options, room: &Option<Arc<DiskRoom>>) -> Result<Option<Opened>, Failure> {
    match (options.data.clone(), room.clone()) {
        (Some(folder), Some(room)) => {
            let options = options.clone();
            recovery::blocking(move || opening::open(&options, folder, &room)).await.map(Some)
        }
        _ => Ok(None),
    }
}

/// Compares the database with the store, if there is one. The store ends if this fails.
async fn recover(store: &Store, mut child: Child, opened: Option<Opened>) -> Result<(Child, Option<Recovered>), Failure> {
    let opened = match opened {
        Some(opened) => opened,
        None => return Ok((child, None)),
    };
    match recovery::recover(store, opened).await {
        Ok(recovered) => Ok((child, Some(recovered))),
        Err(_) if store.has_ended() => Err(process::why_gone(&mut child).await),
        Err(failure) => {
            let _ = store.end(child).await;
            Err(failure)
        }
    }
}

/// What a registry has of the time before its start, or nothing.
struct Tables {
    uploads: OpenUploads,
    repositories: Repositories,
    manifests: Manifests,
    loose_blobs: Vec<(String, String)>,
    robots: Robots,
    pulls_since: Option<u64>,
    cached: CachedContents,
    moves: Vec<MoveRow>,
    database: Option<(Arc<Writer>, WriterThread)>,
}

impl Tables {
    /// Makes the tables of this process with what was recovered, and starts the thread of the database.
    fn new(
        recovered: Option<Recovered>,
        writer: &Option<Arc<Writer>>,
        queue: &Option<Arc<Queue>>,
        limits: Limits,
    ) -> Result<Tables, Failure> {
        let secret = recovered.as_ref().map_or_else(Secret::random, |recovered| Ok(recovered.secret))?;
        let uploads = OpenUploads::new(secret, writer.clone(), limits.lasting_uploads());
        let repositories = Repositories::recorded_by(writer.clone());
        let (recovered, writer) = match (recovered, writer) {
            (Some(recovered), Some(writer)) => (recovered, writer),
            _ => {
                clock::begin(None);
                let (manifests, loose_blobs) = (Manifests::in_memory(queue.clone()), Vec::new());
                let (robots, cached) = (Robots::default(), CachedContents::default());
                let (pulls_since, moves, database) = (Some(clock::now()), Vec::new(), None);
                return Ok(Tables {
                    uploads,
                    repositories,
                    manifests,
                    loose_blobs,
                    robots,
                    pulls_since,
                    cached,
                    moves,
                    database,
                });
            }
        };
        for upload in &recovered.uploads {
            uploads.add_known(&upload.repo, upload.number, upload.received);
        }
        recovered.repositories.iter().for_each(|repo| repositories.add(repo));
        recovered.recorded.keys().for_each(|tenant| repositories.set_numbered(tenant));
        if let Some(queue) = queue {
            queue.restore(recovered.events);
        }
        let table = Arc::new(recovered.manifests);
        let manifests = Manifests::over(table.clone(), writer.clone(), queue.clone());
        let thread = writer.start(recovered.database, table, recovered.recorded)?;
        let database = Some((writer.clone(), thread));
        let robots = Robots::new(Some(writer.clone()), recovered.robots, &recovered.moves);
        let cached = CachedContents::new(Some(writer.clone()), recovered.cached);
        let (loose_blobs, pulls_since, moves) = (recovered.loose_blobs, recovered.pulls_since, recovered.moves);
        Ok(Tables { uploads, repositories, manifests, loose_blobs, robots, pulls_since, cached, moves, database })
    }
}

/// Starts the store, reads the database if there is one, and makes the registry over both, which listens on an address.
pub(crate) async fn start(options: &Options, files: Files, address: SocketAddr) -> Result<Started, Failure> {
    let Files { access, immutable_tags, signed_tags, retention, receivers, audit_log, upstreams } = files;
    let provenance = Provenance::of(&options.blobd);
    provenance.log();
    let metrics = Metrics::new();
    metrics.set_verified(provenance.is_proved());
    if let Some(log) = audit_log {
        metrics.add(Box::new(log.lost.clone()));
    }
    if let Some(oidc) = &access.oidc {
        oidc.count_in(&metrics);
    }
    if let Some(tags) = &immutable_tags {
        metrics.add(Box::new(tags.refusals.clone()));
    }
    if let Some(tags) = &signed_tags {
        metrics.add(Box::new(tags.refusals.clone()));
    }
    if let Some(retention) = &retention {
        metrics.add(Box::new(retention.removed.clone()));
    }
    let queue =
        receivers.as_ref().map(|file| Arc::new(Queue::new(options.event_queue(), &file.get(), &metrics, options.data.is_some())));
    let limit = Duration::from_secs(options.call_s);
    let room = options.data.clone().map(|path| Arc::new(DiskRoom::new(path, options.min_free(), options.reserve())));
    let writer = room.clone().map(|room| Writer::new(metrics.add_folder(options.is_durable()), limit, room, queue.clone()));
    let opened = open_folder(options, &room).await?;
    // It may lie in the folder.
    let control = options.control.as_deref().map(ControlSocket::bind).transpose()?;
    capacity::warn_of_sums(&options.tenants(), options.slots, options.data.as_deref());
    let served = ServedTenants::of(options.tenant_names());
    let (store, child) = default_shares::start_store(options, &served, writer.clone()).await?;
    let (child, recovered) = recover(&store, child, opened).await?;
    let Tables { uploads, repositories, manifests, loose_blobs, robots, pulls_since, cached, moves, database } =
        Tables::new(recovered, &writer, &queue, options.limits())?;
    let is_tls = options.tls_cert.is_some();
    let damaged = Arc::<DamagedContents>::default();
    let recorder =
        |(file, queue): (Arc<ReceiversFile>, &Arc<Queue>)| Recorder::new(file, queue.clone(), address, is_tls, writer.clone());
    let registry = Arc::new(Registry {
        memory: Memory::new(options.memory_in_flight, options.data.is_some()),
        store,
        access: Access { robots, ..access },
        uploads,
        repositories,
        loose: options.keep_untagged.map_or_else(LooseBlobs::default, |_| LooseBlobs::new(writer.clone(), loose_blobs)),
        mirrors: upstreams.map_or_else(Mirrors::default, |upstreams| upstreams.mirrors(options, &metrics)),
        cached,
        moves: Moves::new(served.clone(), writer.clone(), moves),
        folder: options.data.clone().zip(room).map(|(path, room)| Folder::new(path, room, served.clone())),
        disk_probe: options.data.as_deref().map(|path| Arc::new(DiskProbe::new(path))),
        scrub: options.data.clone().and_then(|path| Some(Scrub::new(path, options.scrub_pace()?, damaged.clone(), &metrics))),
        damaged,
        turns: Default::default(),
        metrics,
        sweep_requests: Default::default(),
        sweeps: Default::default(),
        provenance,
        metrics_access: options.metrics_access(),
        pages: options.browse.then(|| Pages::new(is_tls).map(Arc::new)).transpose()?,
        tenants: served,
        slots: options.slots,
        max_blob: options.max_blob,
        hashes_once: options.data.is_some() && !options.sha512,
        limits: options.limits(),
        bounds: bounds(options, &manifests),
        asked_removal: options.asked_removal(),
        immutable_tags,
        signed_tags,
        pulls_since: pulls_since.filter(|_| retention.is_some()),
        retention,
        keeps_untagged: options.keep_untagged,
        events: receivers.zip(queue.as_ref()).map(recorder),
        manifests,
        debug: options.debug_scope(),
        draining: Default::default(),
        started: clock::time_of_day(),
    });
    work_in_background(&registry, options)?;
    Ok(Started { registry, child, database, synced: options.data.clone().filter(|_| options.is_durable()), control })
}

/// Starts the garbage collector, the expiry of uploads, tags and manifests without tags, the deliveries of events, the reserve of memory,
/// the work of mirrors, the probes of the disk, and the reads of the log.
fn work_in_background(registry: &Arc<Registry>, options: &Options) -> Result<(), Failure> {
    let rest = Duration::from_millis(options.sweep_ms);
    let sweeper = registry.clone();
    background::run(async move { sweeper.sweep(rest).await });
    let expirer = registry.clone();
    let patience = options.patience();
    background::run(async move { expirer.expire(patience).await });
    if let Some(time) = options.keep_untagged {
        let keeper = registry.clone();
        background::run(async move { keeper.keep_untagged(time).await });
    }
    if registry.retention.is_some() {
        let remover = registry.clone();
        background::run(async move { remover.apply_rules().await });
    }
    if registry.retention.is_some() || options.keep_untagged.is_some() {
        let recorder = registry.clone();
        background::run(async move { recorder.record_ages().await });
    }
    if let Some(events) = &registry.events {
        background::run(delivery::run(events.clone()));
    }
    background::run(memory_reserve::keep_reserve());
    if let Some(folder) = &registry.folder {
        spool::remove_left(folder.path());
    }
    for mirror in registry.mirrors.all() {
        // Nothing is pushed into a mirror, so fetches opened them.
        let left = registry.uploads.names_of(&mirror.tenant);
        background::run(mirror.clone().run(registry.clone(), left));
    }
    if let Some(probe) = &registry.disk_probe {
        background::run(probe.clone().run());
    }
    if let Some(scrub) = &registry.scrub {
        scrub.start()?;
    }
    Ok(())
}
