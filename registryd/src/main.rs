//! A container registry (OCI Distribution Specification 1.1). A `blobd` stores the blobs and manifests. Tags, facts of manifests
//! and open uploads are in this process, and with `--data` in a database too. Without `--data` all data is in memory.
mod auth;
mod browse;
mod control;
mod database;
mod endpoints;
mod events;
mod folder;
mod http;
mod metadata;
mod mirror;
mod moving;
mod operation;
mod signatures;
mod start;
mod store;
mod tenants;

use crate::http::connections::Connections;
use crate::operation::exit::Failure;
use crate::operation::notify::Notifier;
use crate::operation::reload::{Hangup, Reloads};
use crate::operation::signals::Signals;
use crate::operation::{audit, background, log, memory_reserve, rewriting, shutdown};
use crate::start::listening::Listening;
use crate::start::option_values::LogFormat;
use crate::start::options::Options;
use crate::start::{capacity, credentials, launch, listening, provenance};
use clap::{CommandFactory, FromArgMatches};
use std::process::ExitCode;
use std::time::Duration;
use tokio::signal::unix::{signal, SignalKind};

#[global_allocator]
static ALLOCATOR: memory_reserve::Reserving = memory_reserve::Reserving;

/// The time that uncancellable work has at the very end.
const REST_TIME: Duration = Duration::from_secs(1);

fn main() -> ExitCode {
    let mut options = options();
    if let Some(command) = &options.command {
        return control::client::run(command);
    }
    log::begin(options.log_level.filter(), options.log_format == LogFormat::Json);
    if let Some(wrong) = options.read_tenants().err().or_else(|| options.conflict()) {
        tracing::error!("{wrong}");
        return ExitCode::from(2);
    }
    memory_reserve::share_heap();
    let runtime = tokio::runtime::Builder::new_multi_thread().enable_all().build();
    let ended = runtime.map_err(Failure::from).and_then(|runtime| {
        let ended = runtime.block_on(run(options));
        audit::end();
        runtime.shutdown_timeout(REST_TIME);
        ended
    });
    match ended {
        Ok(()) => ExitCode::SUCCESS,
        Err(failure) => {
            tracing::error!("{failure}");
            ExitCode::from(failure.status)
        }
    }
}

/// Reads the command line. Ends the program if it asks for help or is wrong.
fn options() -> Options {
    let version = Box::leak(provenance::version(std::env::args_os()).into_boxed_str());
    let mut command = Options::command().long_version(&*version);
    let matches = command.get_matches_mut();
    Options::from_arg_matches(&matches).unwrap_or_else(|error| error.format(&mut command).exit())
}

/// Serves until a signal arrives or the store ends, and shuts down.
async fn run(options: Options) -> Result<(), Failure> {
    let mut signals = Signals::new()?;
    let hangup = Hangup::new()?;
    let rewrite = signal(SignalKind::user_defined1())?;
    let connections = Connections::new(listening::limits(&options)?);
    let mut reloads = Reloads::new();
    let files = credentials::files(&options, &mut reloads)?;
    let tls = credentials::tls(&options, &mut reloads)?;
    let notifier = Notifier::of_environment()?;
    let Listening { service, serving, address, metrics_address } = listening::listen(&options, tls, connections).await?;
    tracing::info!(%address, log_bytes = service.log_bytes(), "starting");
    capacity::warn_of_log(service.log_bytes(), options.data.as_deref());
    let started = tokio::select! {
        started = launch::start(&options, files, address) => started?,
        () = signals.recv() => {
            notifier.send("STOPPING=1");
            tracing::info!("stopped while starting");
            return Ok(());
        }
        never = notifier.extend_start(|| service.progress()) => never,
    };
    service.end_start(started.registry.clone());
    tracing::info!(%address, "listening");
    if let Some(address) = metrics_address {
        tracing::info!(%address, "serving metrics");
    }
    reloads.extend(launch::tenant_file(&options, &started.registry));
    background::run(hangup.reload(reloads));
    background::run(rewriting::rewrite_on_signal(rewrite, started.registry.clone()));
    notifier.send("READY=1\nSTATUS=serving");
    let registry = started.registry.clone();
    tokio::select! {
        ended = shutdown::serve(started, serving, signals, &notifier, Duration::from_secs(options.drain_s)) => ended,
        never = notifier.keep_alive(|| registry.store.replies()) => never,
    }
}
