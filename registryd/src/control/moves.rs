//! The commands for tenants that move to other registries.
use crate::auth::moved_robots::MovedRobot;
use crate::control::robots::reply;
use crate::control::server::invalid;
use crate::endpoints::registry::Registry;
use crate::http::fault::Fault;
use crate::http::responses::HandlerResult;
use crate::moving::moves::{MoveFault, Shown};
use crate::moving::stage::Stage;
use crate::operation::audit;
use crate::store::calls::SlotUse;
use crate::store::frames::{Reason, Refusal};
use hyper::StatusCode;
use serde::{Deserialize, Serialize};
use std::collections::BTreeMap;
use std::time::Duration;
use tokio::time::sleep;

/// The number of attempts to abandon an upload to which a request is appending, and the pause between two.
const ATTEMPTS: (usize, Duration) = (50, Duration::from_millis(20));

/// The next step of a move, at one of both registries.
#[derive(Debug, Serialize, Deserialize)]
#[serde(tag = "step", rename_all = "lowercase", deny_unknown_fields)]
pub(crate) enum Step {
    /// Begins or continues a move to another registry.
    Copy { other: String },
    /// Begins or continues the arrival from another registry. `replace` allows it to delete what the tenant has here. The robots wait for
    /// the tenant, in place of those that wait; without them these stay.
    Receive {
        other: String,
        replace: bool,
        #[serde(default, skip_serializing_if = "Option::is_none")]
        robots: Option<Vec<MovedRobot>>,
    },
    /// Lets robots wait for the tenant that arrives, in place of those that wait.
    Robots { secret: String, robots: Vec<MovedRobot> },
    /// Ends the writes of clients, if no request is open. `cut` abandons the open uploads before.
    Close { secret: String, cut: bool },
    /// Lets clients write again that attempts to close the tenant refuse.
    Resume { secret: String },
    /// Notes that the other registry is about to get the tenant.
    Leave { secret: String },
    /// Lets clients write, and makes the robots that wait for the tenant.
    Open { secret: String },
}

impl Step {
    fn word(&self) -> &'static str {
        match self {
            Step::Copy { .. } => "move-copy",
            Step::Receive { .. } => "move-receive",
            Step::Robots { .. } => "move-robots",
            Step::Close { .. } => "move-close",
            Step::Resume { .. } => "move-resume",
            Step::Leave { .. } => "move-leave",
            Step::Open { .. } => "move-open",
        }
    }

    fn secret(&self) -> Option<&str> {
        match self {
            Step::Copy { .. } | Step::Receive { .. } => None,
            Step::Robots { secret, .. }
            | Step::Close { secret, .. }
            | Step::Resume { secret }
            | Step::Leave { secret }
            | Step::Open { secret } => Some(secret),
        }
    }
}

impl From<MoveFault> for Fault {
    fn from(fault: MoveFault) -> Fault {
        match fault {
            MoveFault::NoTenant(tenant) => Fault::tenant_unknown(&tenant),
            MoveFault::Stage(why) => Fault::new(StatusCode::CONFLICT, "DENIED", why),
            MoveFault::Busy { requests, uploads } => {
                Fault::unavailable(&format!("the tenant has {requests} open requests and {uploads} open uploads"))
            }
            MoveFault::Robot(fault) => fault.into(),
            MoveFault::Write(failure) => failure.into(),
            MoveFault::NoSecret(error) => Fault::unavailable(&format!("cannot make a secret: {error}")),
        }
    }
}

/// The state of a tenant's move at one registry, and of the tenant there.
#[derive(Clone, Debug, Serialize, Deserialize)]
pub(crate) struct State {
    pub(crate) stage: Option<Stage>,
    /// The URL of the other registry.
    pub(crate) other: String,
    /// The numbers of requests that are changing the tenant, and of open uploads.
    pub(crate) requests: usize,
    pub(crate) uploads: usize,
    /// Whether more blobs were named to clients than are remembered.
    pub(crate) has_forgotten: bool,
    /// The bytes that the tenant uses, and its quota.
    pub(crate) used: u64,
    pub(crate) quota: u64,
    /// The different blobs that the tenant has, and its share.
    pub(crate) blobs: u64,
    pub(crate) share: Option<u64>,
    pub(crate) manifests: u64,
    pub(crate) manifest_bytes: u64,
    pub(crate) tags: u64,
    pub(crate) most_manifests: Option<u64>,
    pub(crate) most_manifest_bytes: Option<u64>,
    pub(crate) most_tags: Option<u64>,
    /// The maximum length of a blob.
    pub(crate) max_blob: u64,
    /// The secret of the command, if the step made it.
    pub(crate) secret: Option<String>,
    /// The robots that move with the tenant. Missing after a step, and in the reply of an earlier version.
    #[serde(default)]
    pub(crate) robots: Option<Vec<MovedRobot>>,
    /// The lines of the files of rules that may cover tags of the tenant, by the option of the file. Missing as the robots are.
    #[serde(default)]
    pub(crate) rules: Option<BTreeMap<String, Vec<String>>>,
}

/// Returns the state of a tenant's move.
async fn state(registry: &Registry, tenant: &str) -> Result<State, Fault> {
    let Shown { stage, other, requests, has_forgotten } = registry.moves.show(tenant)?;
    let (used, quota) = registry.store.usage(tenant).await??;
    let SlotUse { blobs, share } = registry.store.slot_use(tenant).await??;
    let totals = registry.manifests.totals(tenant);
    let bounds = registry.bounds_of(tenant);
    Ok(State {
        stage,
        other,
        requests,
        uploads: registry.uploads.names_of(tenant).len(),
        has_forgotten,
        used,
        quota,
        blobs,
        share,
        manifests: totals.manifests,
        manifest_bytes: totals.manifest_bytes,
        tags: totals.tags,
        most_manifests: bounds.manifests,
        most_manifest_bytes: bounds.manifest_bytes,
        most_tags: bounds.tags,
        max_blob: registry.max_blob,
        secret: None,
        robots: None,
        rules: None,
    })
}

/// Returns the reply with a state.
fn reply_with(state: &State) -> HandlerResult {
    reply(StatusCode::OK, serde_json::to_value(state).map_err(|_| Fault::internal())?)
}

/// Returns the state of a tenant's move.
pub(super) async fn show(registry: &Registry, tenant: &str) -> HandlerResult {
    let robots = Some(registry.access.robots.moving_with(tenant));
    reply_with(&State { robots, rules: Some(registry.rules_for(tenant)), ..state(registry, tenant).await? })
}

/// Makes a step of a move, and returns the state after it, which is that before it if requests are open that it waits for.
pub(super) async fn step(registry: &Registry, tenant: &str, content: &[u8]) -> HandlerResult {
    let step: Step = serde_json::from_slice(content).map_err(|error| invalid(&error.to_string()))?;
    if step.secret().map_or(false, |secret| !registry.access.robots.moves(tenant, secret)) {
        return Err(MoveFault::Stage(format!("another command moves {tenant}, or the registry was restarted")).into());
    }
    if let Step::Close { cut: true, .. } = step {
        abandon_uploads(registry, tenant).await?;
    }
    let secret = match make(registry, tenant, &step).await {
        Ok(secret) => secret,
        Err(MoveFault::Busy { .. }) => return reply_with(&state(registry, tenant).await?),
        Err(fault) => return Err(fault.into()),
    };
    tracing::info!(tenant, step = step.word(), "a move of the tenant");
    audit::write_move(step.word(), tenant);
    reply_with(&State { secret, ..state(registry, tenant).await? })
}

/// Makes a step of a move. Returns the secret of the command if the step begins a move.
async fn make(registry: &Registry, tenant: &str, step: &Step) -> Result<Option<String>, MoveFault> {
    let Registry { moves, access, .. } = registry;
    match step {
        Step::Copy { .. } | Step::Receive { .. } if registry.mirrors.of(tenant).is_some() => {
            Err(MoveFault::Stage(format!("{tenant} is a mirror: start the registry without --mirror-of")))
        }
        Step::Copy { other } => moves.begin_source(tenant, other, &access.robots).await.map(Some),
        Step::Receive { robots: Some(robots), .. } | Step::Robots { robots, .. }
            if !robots.is_empty() && !access.wants_credentials() =>
        {
            let why = "has robots, and requests need no credentials here: give --htpasswd, --oidc or --token-key to the registry";
            Err(MoveFault::Stage(format!("{tenant} {why}")))
        }
        Step::Receive { other, replace, robots } => {
            let may_replace = *replace || registry.manifests.totals(tenant).manifests == 0;
            moves.begin_target(tenant, other, may_replace, robots.clone(), &access.robots).await.map(Some)
        }
        Step::Robots { robots, .. } => moves.expect_robots(tenant, robots.clone(), &access.robots).await.map(|()| None),
        Step::Close { cut, .. } => {
            moves.close(tenant, *cut, || registry.uploads.names_of(tenant).len()).await?;
            Ok(None)
        }
        Step::Resume { .. } => moves.resume(tenant).map(|()| None),
        Step::Leave { .. } => moves.leave(tenant).await.map(|()| None),
        Step::Open { .. } => {
            for robot in moves.open(tenant, &access.robots).await? {
                tracing::info!(%robot, tenant, "a robot arrived with the tenant");
                audit::write_robot("robot-arrive", &robot);
            }
            Ok(None)
        }
    }
}

/// Abandons all open uploads of a tenant, also those to which requests append: these fail.
async fn abandon_uploads(registry: &Registry, tenant: &str) -> Result<(), Fault> {
    for (name, upload) in registry.uploads.all_of(tenant) {
        for attempt in 0..ATTEMPTS.0 {
            match registry.abandon_session(&upload.repo, upload.session).await? {
                Err(Refusal { reason: Reason::Busy, .. }) if attempt + 1 < ATTEMPTS.0 => sleep(ATTEMPTS.1).await,
                Ok(()) | Err(Refusal { reason: Reason::UploadUnknown, .. }) => break,
                Err(refusal) => return Err(refusal.into()),
            }
        }
        registry.uploads.remove(&name);
    }
    Ok(())
}
