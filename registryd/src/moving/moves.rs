//! The moves of a registry's tenants: their stages, and which changes of a tenant are in progress. A tenant is closed only when no request
//! is changing it and no upload of it is open. So what was acknowledged before is all there, and nothing is acknowledged afterwards.
use crate::auth::moved_robots::{Arrival, MovedRobot};
use crate::auth::robots::{RobotFault, Robots};
use crate::database::change::Change;
use crate::database::writer::{WriteFailure, Writer};
use crate::http::fault::Fault;
use crate::metadata::names::tenant_of;
use crate::moving::stage::{MoveRow, Stage};
use crate::operation::locks::guard_of;
use crate::tenants::served::ServedTenants;
use std::collections::{HashMap, HashSet};
use std::sync::{Arc, Mutex};
use std::time::{Duration, Instant};

/// The time for which an attempt to close a tenant lets no new change begin. The command makes the next attempt sooner.
const CLOSING: Duration = Duration::from_millis(250);

/// The maximum number of blobs that are remembered for a tenant.
const MOST_NAMED: usize = 200_000;

/// How a request changes a tenant.
#[derive(Clone, Copy, Debug, PartialEq, Eq)]
pub(crate) enum Kind {
    /// It continues an open upload.
    Upload,
    Other,
}

/// The move of one tenant at this registry.
#[derive(Default)]
struct State {
    stage: Option<Stage>,
    /// The URL of the other registry.
    other: String,
    /// The time until which nothing but open uploads goes on, while the command tries to close the tenant.
    closing_until: Option<Instant>,
    /// The numbers of requests that continue uploads, and of other changes.
    uploads: usize,
    others: usize,
    /// The repositories and digests of blobs that replies named since the copy began. A client may be about to push a manifest of them.
    named: HashSet<(String, String)>,
}

/// The moves of the tenants of a registry.
#[derive(Default)]
pub(crate) struct Moves {
    tenants: Arc<ServedTenants>,
    /// The states of tenants that a request changed, or that a command or the database named.
    by_tenant: Mutex<HashMap<String, Arc<Mutex<State>>>>,
    writer: Option<Arc<Writer>>,
    /// Held while a stage changes.
    changing: tokio::sync::Mutex<()>,
}

/// A change of a tenant, until this is dropped.
pub(crate) struct Changing {
    state: Arc<Mutex<State>>,
    kind: Kind,
}

/// The public part of a tenant's move.
#[derive(Debug, Default, PartialEq, Eq)]
pub(crate) struct Shown {
    pub(crate) stage: Option<Stage>,
    pub(crate) other: String,
    /// The number of requests that are changing the tenant.
    pub(crate) requests: usize,
    /// Whether more blobs were named than are remembered.
    pub(crate) has_forgotten: bool,
}

/// The reason why a stage was not changed.
#[derive(Debug)]
pub(crate) enum MoveFault {
    NoTenant(String),
    /// The stage does not allow it.
    Stage(String),
    /// Requests or uploads are open.
    Busy {
        requests: usize,
        uploads: usize,
    },
    /// A robot cannot arrive with the tenant.
    Robot(RobotFault),
    Write(WriteFailure),
    NoSecret(std::io::Error),
}

impl State {
    /// Returns whether a change may begin.
    fn admits(&self, kind: Kind, is_mover: bool) -> bool {
        match self.stage {
            None => true,
            Some(Stage::Copying) => kind == Kind::Upload || self.closing_until.map_or(true, |until| until <= Instant::now()),
            Some(Stage::Closed) => false,
            Some(Stage::Left | Stage::Arriving) => is_mover,
        }
    }

    /// Returns the failure of a change that may not begin.
    fn refusal(&self, tenant: &str) -> Fault {
        Fault::moving(&match self.stage {
            Some(Stage::Left) => format!("tenant {tenant} has moved to {}", self.other),
            _ => format!("tenant {tenant} is being moved: retry"),
        })
    }
}

impl Drop for Changing {
    fn drop(&mut self) {
        let mut state = guard_of(self.state.lock());
        match self.kind {
            Kind::Upload => state.uploads -= 1,
            Kind::Other => state.others -= 1,
        }
    }
}

impl Moves {
    /// Makes the table for these tenants, with the stages of a database.
    pub(crate) fn new(tenants: Arc<ServedTenants>, writer: Option<Arc<Writer>>, rows: Vec<MoveRow>) -> Moves {
        let mut by_tenant = HashMap::new();
        for MoveRow { tenant, stage, other, .. } in rows {
            tracing::warn!(%tenant, stage = stage.word(), %other, "the tenant is being moved, or was: clients do not write");
            by_tenant.insert(tenant, Arc::new(Mutex::new(State { stage: Some(stage), other, ..State::default() })));
        }
        Moves { tenants, by_tenant: Mutex::new(by_tenant), writer, changing: Default::default() }
    }

    /// Returns the state of a tenant, if it is served or was moved.
    fn find(&self, tenant: &str) -> Option<Arc<Mutex<State>>> {
        let mut by_tenant = guard_of(self.by_tenant.lock());
        match by_tenant.get(tenant) {
            Some(found) => Some(found.clone()),
            // Clients choose names.
            None if !self.tenants.has(tenant) => None,
            None => Some(by_tenant.entry(tenant.to_string()).or_default().clone()),
        }
    }

    /// Calls `change` with the state of a tenant.
    fn with_state<T>(&self, tenant: &str, change: impl FnOnce(&mut State) -> T) -> Result<T, MoveFault> {
        let found = self.find(tenant).ok_or_else(|| MoveFault::NoTenant(tenant.to_string()))?;
        let mut state = guard_of(found.lock());
        Ok(change(&mut state))
    }

    /// Begins a change of a repository by a request. `is_mover` is whether the command sends it that moves the tenant. The store
    /// refuses a tenant that is unknown.
    pub(crate) fn begin(&self, repo: &str, kind: Kind, is_mover: bool) -> Result<Option<Changing>, Fault> {
        let found = match self.find(tenant_of(repo)) {
            Some(found) => found,
            None => return Ok(None),
        };
        let mut state = guard_of(found.lock());
        if !state.admits(kind, is_mover) {
            return Err(state.refusal(tenant_of(repo)));
        }
        match kind {
            Kind::Upload => state.uploads += 1,
            Kind::Other => state.others += 1,
        }
        drop(state);
        Ok(Some(Changing { state: found, kind }))
    }

    /// Begins a change of a repository by the registry itself. It may not begin if clients may not write.
    pub(crate) fn begin_own(&self, repo: &str) -> Result<Option<Changing>, Fault> {
        self.begin(repo, Kind::Other, false)
    }

    /// Notes that a reply named a blob of a repository.
    pub(crate) fn note_blob(&self, repo: &str, digest: &str) {
        let _ = self.with_state(tenant_of(repo), |state| {
            if state.stage == Some(Stage::Copying) && state.named.len() < MOST_NAMED {
                state.named.insert((repo.to_string(), digest.to_string()));
            }
        });
    }

    /// Returns the blobs that replies named since the copy began.
    pub(crate) fn named(&self, tenant: &str) -> Vec<(String, String)> {
        self.with_state(tenant, |state| state.named.iter().cloned().collect()).unwrap_or_default()
    }

    pub(crate) fn show(&self, tenant: &str) -> Result<Shown, MoveFault> {
        self.with_state(tenant, |state| Shown {
            stage: state.stage,
            other: state.other.clone(),
            requests: state.uploads + state.others,
            has_forgotten: state.named.len() >= MOST_NAMED,
        })
    }

    /// Writes a stage into the database, if there is one, with what becomes of the robots that arrive with the tenant.
    async fn record(
        &self,
        tenant: &str,
        stage: Option<Stage>,
        other: &str,
        arrival: Option<&Arrival<'_>>,
    ) -> Result<(), MoveFault> {
        let kept = stage.filter(|stage| stage.is_kept());
        let waiting = arrival.map_or_else(Vec::new, |arrival| arrival.waiting.clone());
        let row = kept.map(|stage| MoveRow { tenant: tenant.to_string(), stage, other: other.to_string(), robots: waiting });
        if let Some(writer) = &self.writer {
            let robots = arrival.map_or_else(Vec::new, Arrival::rows);
            let change = Change::SetMove { tenant: tenant.to_string(), row, robots };
            writer.write(change).await.map_err(MoveFault::Write)?;
        }
        Ok(())
    }

    /// Writes a stage into the database, and then sets it.
    async fn set(&self, tenant: &str, stage: Option<Stage>, other: &str) -> Result<(), MoveFault> {
        self.set_with(tenant, stage, other, None).await.map(|_| ())
    }

    /// Writes a stage into the database with what becomes of robots, and then sets it. Returns the names of the robots that arrived.
    async fn set_with(
        &self,
        tenant: &str,
        stage: Option<Stage>,
        other: &str,
        arrival: Option<Arrival<'_>>,
    ) -> Result<Vec<String>, MoveFault> {
        self.record(tenant, stage, other, arrival.as_ref()).await?;
        // A robot is accepted before a client writes.
        let arrived = arrival.map_or_else(Vec::new, Arrival::end);
        self.with_state(tenant, |state| {
            (state.stage, state.other, state.closing_until) = (stage, other.to_string(), None);
            if stage.is_none() {
                state.named.clear();
            }
        })?;
        Ok(arrived)
    }

    /// Begins or continues a move of a tenant to another registry. Returns the secret of the command, which is the only one from now on.
    pub(crate) async fn begin_source(&self, tenant: &str, target: &str, robots: &Robots) -> Result<String, MoveFault> {
        let _changing = self.changing.lock().await;
        let shown = self.show(tenant)?;
        match shown.stage {
            Some(Stage::Arriving) => {
                return Err(MoveFault::Stage(format!("{tenant} is arriving here from {}: end that move first", shown.other)))
            }
            Some(Stage::Left) if shown.other != target => {
                return Err(MoveFault::Stage(format!("{tenant} has moved to {}", shown.other)))
            }
            Some(stage @ (Stage::Closed | Stage::Left)) => self.set(tenant, Some(stage), target).await?,
            None | Some(Stage::Copying) => self.set(tenant, Some(Stage::Copying), target).await?,
        }
        robots.begin_move(tenant).map_err(MoveFault::NoSecret)
    }

    /// Begins or continues the arrival of a tenant from another registry. `may_have_content` is whether it may replace what is here. These
    /// robots wait for the tenant, or those that wait already.
    pub(crate) async fn begin_target(
        &self,
        tenant: &str,
        source: &str,
        may_have_content: bool,
        moved: Option<Vec<MovedRobot>>,
        robots: &Robots,
    ) -> Result<String, MoveFault> {
        let _changing = self.changing.lock().await;
        match self.show(tenant)?.stage {
            Some(Stage::Copying | Stage::Closed) => {
                return Err(MoveFault::Stage(format!("{tenant} is being moved away from here")));
            }
            None if !may_have_content => {
                let why = "already has content of its own here: delete it, or give --replace to let the move delete it";
                return Err(MoveFault::Stage(format!("{tenant} {why}")));
            }
            None | Some(Stage::Left | Stage::Arriving) => {}
        }
        let arrival = robots.expect(tenant, moved).await.map_err(MoveFault::Robot)?;
        self.set_with(tenant, Some(Stage::Arriving), source, Some(arrival)).await?;
        robots.begin_move(tenant).map_err(MoveFault::NoSecret)
    }

    /// Lets robots wait for a tenant that arrives, in place of those that wait for it.
    pub(crate) async fn expect_robots(&self, tenant: &str, moved: Vec<MovedRobot>, robots: &Robots) -> Result<(), MoveFault> {
        let _changing = self.changing.lock().await;
        let Shown { stage, other, .. } = self.show(tenant)?;
        if stage != Some(Stage::Arriving) {
            return Err(MoveFault::Stage(format!("{tenant} is not arriving here")));
        }
        let arrival = robots.expect(tenant, Some(moved)).await.map_err(MoveFault::Robot)?;
        self.set_with(tenant, stage, &other, Some(arrival)).await.map(|_| ())
    }

    /// Lets nobody write a tenant any more, if no request is changing it and no upload is open. `ignores_uploads` is whether requests
    /// may be in progress that continue uploads: those that were abandoned meanwhile add nothing.
    pub(crate) async fn close(
        &self,
        tenant: &str,
        ignores_uploads: bool,
        open_uploads: impl Fn() -> usize,
    ) -> Result<(), MoveFault> {
        let _changing = self.changing.lock().await;
        let closed = self.with_state(tenant, |state| {
            match state.stage {
                Some(Stage::Copying) => {}
                Some(Stage::Closed | Stage::Left) => return Ok(None),
                None | Some(Stage::Arriving) => return Err(MoveFault::Stage(format!("no move of {tenant} has begun here"))),
            }
            state.closing_until = Some(Instant::now() + CLOSING);
            let uploads = open_uploads();
            if state.others > 0 || uploads > 0 || (state.uploads > 0 && !ignores_uploads) {
                return Err(MoveFault::Busy { requests: state.others + state.uploads, uploads });
            }
            state.stage = Some(Stage::Closed);
            Ok(Some(state.other.clone()))
        });
        let other = match closed?? {
            Some(other) => other,
            None => return Ok(()),
        };
        let recorded = self.record(tenant, Some(Stage::Closed), &other, None).await;
        if let Err(MoveFault::Write(WriteFailure::NoRoom)) = recorded {
            self.with_state(tenant, |state| state.stage = Some(Stage::Copying))?;
        }
        recorded
    }

    /// Lets changes begin again after attempts to close a tenant.
    pub(crate) fn resume(&self, tenant: &str) -> Result<(), MoveFault> {
        self.with_state(tenant, |state| state.closing_until = None)
    }

    /// Notes that the target is about to get the tenant for good.
    pub(crate) async fn leave(&self, tenant: &str) -> Result<(), MoveFault> {
        let _changing = self.changing.lock().await;
        let Shown { stage, other, .. } = self.show(tenant)?;
        match stage {
            Some(Stage::Closed) => self.set(tenant, Some(Stage::Left), &other).await,
            Some(Stage::Left) => Ok(()),
            None | Some(Stage::Copying | Stage::Arriving) => Err(MoveFault::Stage(format!("{tenant} is not closed here"))),
        }
    }

    /// Lets clients write a tenant: one that has arrived, or whose move away is given up before its end. Makes the robots that wait for it,
    /// and returns their names.
    pub(crate) async fn open(&self, tenant: &str, robots: &Robots) -> Result<Vec<String>, MoveFault> {
        let _changing = self.changing.lock().await;
        let Shown { stage, other, requests, .. } = self.show(tenant)?;
        match stage {
            Some(Stage::Left) => return Err(MoveFault::Stage(format!("{tenant} has moved to {other}"))),
            Some(Stage::Arriving) if requests > 0 => return Err(MoveFault::Busy { requests, uploads: 0 }),
            None | Some(Stage::Copying | Stage::Closed | Stage::Arriving) => {}
        }
        let arrival = robots.arrive(tenant).await.map_err(MoveFault::Robot)?;
        let arrived = self.set_with(tenant, None, "", Some(arrival)).await?;
        robots.end_move(tenant);
        Ok(arrived)
    }
}

#[cfg(test)]
mod tests {
    use super::*;

    fn moves() -> (Moves, Robots) {
        (Moves::new(ServedTenants::of(["acme", "other"].map(str::to_string)), None, Vec::new()), Robots::default())
    }

    /// Returns whether a client and the command may change the tenant.
    fn admits(moves: &Moves) -> (bool, bool) {
        let may = |is_mover| moves.begin("acme/web", Kind::Other, is_mover).is_ok();
        (may(false), may(true))
    }

    #[tokio::test]
    async fn a_tenant_is_writable_at_one_registry_at_most() {
        let (source, robots) = moves();
        let (target, others) = moves();
        assert_eq!((admits(&source), admits(&target)), ((true, true), (true, true)));
        source.begin_source("acme", "http://two", &robots).await.unwrap();
        target.begin_target("acme", "http://one", true, None, &others).await.unwrap();
        assert_eq!((admits(&source), admits(&target)), ((true, true), (false, true)));
        assert!(source.leave("acme").await.is_err(), "it is not closed");
        source.close("acme", false, || 0).await.unwrap();
        assert_eq!((admits(&source), admits(&target)), ((false, false), (false, true)));
        source.leave("acme").await.unwrap();
        assert!(source.open("acme", &robots).await.is_err(), "it has left");
        target.open("acme", &others).await.unwrap();
        assert_eq!((admits(&source), admits(&target)), ((false, true), (true, true)));
        assert!(source.begin("other/x", Kind::Other, false).is_ok());
        assert!(source.begin_source("acme", "http://three", &robots).await.is_err());
        // Back again.
        target.begin_source("acme", "http://one", &others).await.unwrap();
        source.begin_target("acme", "http://two", false, None, &robots).await.unwrap();
        assert_eq!((admits(&source), admits(&target)), ((false, true), (true, true)));
    }

    #[tokio::test]
    async fn a_tenant_is_closed_when_nothing_changes_it() {
        let (moves, robots) = moves();
        assert!(moves.close("acme", false, || 0).await.is_err());
        moves.begin_source("acme", "x", &robots).await.unwrap();
        let change = moves.begin("acme/web", Kind::Other, false).ok().unwrap();
        let upload = moves.begin("acme/web", Kind::Upload, false).ok().unwrap();
        assert!(matches!(moves.close("acme", true, || 0).await, Err(MoveFault::Busy { requests: 2, uploads: 0 })));
        drop(change);
        assert!(matches!(moves.close("acme", false, || 0).await, Err(MoveFault::Busy { requests: 1, uploads: 0 })));
        assert!(matches!(moves.close("acme", true, || 3).await, Err(MoveFault::Busy { requests: 1, uploads: 3 })));
        assert_eq!(moves.show("acme").unwrap().stage, Some(Stage::Copying));
        // For a short time, open uploads may end, and nothing begins.
        assert_eq!(admits(&moves), (false, false));
        drop(moves.begin("acme/web", Kind::Upload, false).ok().unwrap());
        std::thread::sleep(CLOSING);
        assert_eq!(admits(&moves), (true, true));
        assert!(moves.close("acme", false, || 1).await.is_err() && admits(&moves) == (false, false));
        moves.resume("acme").unwrap();
        assert_eq!(admits(&moves), (true, true));
        moves.close("acme", true, || 0).await.unwrap();
        drop(upload);
        assert_eq!(moves.show("acme").unwrap(), Shown { stage: Some(Stage::Closed), other: "x".to_string(), ..Shown::default() });
        moves.open("acme", &robots).await.unwrap();
        assert_eq!(admits(&moves), (true, true));
    }

    #[tokio::test]
    async fn a_target_with_content_of_its_own_is_not_overwritten() {
        let (moves, robots) = moves();
        assert!(moves.begin_target("acme", "x", false, None, &robots).await.is_err());
        moves.begin_target("acme", "x", true, None, &robots).await.unwrap();
        // The copies of an interrupted move are no content of its own.
        moves.begin_target("acme", "x", false, None, &robots).await.unwrap();
        assert!(moves.begin_source("acme", "y", &robots).await.is_err());
        let change = moves.begin("acme/web", Kind::Other, true).ok().unwrap();
        assert!(matches!(moves.open("acme", &robots).await, Err(MoveFault::Busy { .. })));
        drop(change);
        moves.open("acme", &robots).await.unwrap();
        assert!(matches!(moves.begin_target("none", "x", true, None, &robots).await, Err(MoveFault::NoTenant(_))));
    }

    #[tokio::test]
    async fn blobs_are_noted_while_a_tenant_is_copied() {
        let (moves, robots) = moves();
        moves.note_blob("acme/web", "sha256:a");
        moves.begin_source("acme", "x", &robots).await.unwrap();
        moves.note_blob("acme/web", "sha256:b");
        moves.note_blob("acme/web", "sha256:b");
        moves.note_blob("other/web", "sha256:c");
        assert_eq!(moves.named("acme"), [("acme/web".to_string(), "sha256:b".to_string())]);
        moves.close("acme", false, || 0).await.unwrap();
        assert_eq!(moves.named("acme").len(), 1);
    }

    #[test]
    fn a_restart_keeps_who_may_write() {
        let row = |stage| MoveRow { tenant: "acme".to_string(), stage, other: "x".to_string(), robots: Vec::new() };
        for (stage, expected) in [(Stage::Closed, (false, false)), (Stage::Left, (false, true)), (Stage::Arriving, (false, true))]
        {
            let served = ServedTenants::of(["acme".to_string()]);
            assert_eq!(admits(&Moves::new(served, None, vec![row(stage)])), expected, "{stage:?}");
        }
    }
}
