//! The command that moves a tenant. It copies while clients push, lets their writes wait for the rest, and then switches the route.
//!
//! Clients write at one registry at most at any time, also if the command is killed. The target refuses them until it has all. The source
//! refuses them before the rest is copied, and notes that it will never take them again before the target takes them. Both keep this over
//! restarts. So a command that is started again goes on with what it finds.
use crate::auth::moved_robots::MovedRobot;
use crate::control::client::print;
use crate::control::commands::{MoveCommand, Side};
use crate::control::moves::{State, Step};
use crate::http::client::http_client;
use crate::moving::balancer::Balancer;
use crate::moving::copying::{Copier, Tally};
use crate::moving::deleting::delete_tenant;
use crate::moving::peer::{Peer, LIMIT};
use crate::moving::stage::Stage;
use std::sync::Arc;
use std::time::{Duration, Instant};
use tokio::signal::ctrl_c;
use tokio::time::sleep;

/// The time of a round that is short, so that the rest is little, and the maximum number of rounds before writes wait.
const SHORT: Duration = Duration::from_secs(1);
const MOST_ROUNDS: usize = 20;

/// The least time of the copy: pushes that began before it are mostly complete then.
const LEAST_COPY: Duration = Duration::from_secs(5);

/// The time for which writes wait for open requests and uploads, the least and the greatest pause until the next attempt, and the pause
/// between two looks.
const HOLD: Duration = Duration::from_millis(1000);
const REST: (Duration, Duration) = (Duration::from_secs(3), Duration::from_secs(30));
const LOOK: Duration = Duration::from_millis(10);

/// A move of a tenant.
struct Move {
    options: MoveCommand,
    copier: Arc<Copier>,
    balancer: Option<Balancer>,
    /// The robots that were sent when the move began, if both registries have such.
    robots: Option<Vec<MovedRobot>>,
    /// Since when clients cannot write.
    held: Option<Instant>,
}

/// Makes a move, or gives one up.
pub(crate) async fn run(options: &MoveCommand) -> Result<(), String> {
    let MoveCommand { tenant, from, to, from_control, to_control, .. } = options;
    let client = http_client(LIMIT, from.starts_with("https:") || to.starts_with("https:"))?;
    let mut source = Peer::new(from, from_control.clone(), client.clone(), tenant);
    let mut target = Peer::new(to, to_control.clone(), client, tenant);
    let balancer = match (&options.server, &options.haproxy, &options.routes) {
        (Some(server), Some(socket), Some(routes)) => Some(Balancer::new(socket.clone(), routes.clone(), tenant, server).await?),
        _ => None,
    };
    if let Some(side) = options.keep {
        return give_up(options, &mut source, &mut target, balancer.as_ref(), side).await;
    }
    if let Some(balancer) = &balancer {
        check_route(balancer, options, &source).await?;
    }
    let (stage, robots) = begin(options, &mut source, &mut target).await?;
    let copier = Arc::new(Copier::new(source, target));
    let mut moving = Move { options: options.clone(), copier, balancer, robots, held: None };
    if stage != Some(Stage::Left) {
        moving.copy_or_undo().await?;
    }
    moving.switch().await?;
    moving.end().await
}

/// Lets clients write at one side after an interrupted move.
async fn give_up(
    options: &MoveCommand,
    source: &mut Peer,
    target: &mut Peer,
    balancer: Option<&Balancer>,
    side: Side,
) -> Result<(), String> {
    let MoveCommand { tenant, from, to, .. } = options;
    match side {
        Side::From => {
            source.begin(&Step::Copy { other: to.clone() }).await?;
            source.open().await?;
            if let Some(balancer) = balancer {
                balancer.release().await?;
            }
            print(&format!("clients write {tenant} at {from} again; {to} refuses them"));
        }
        Side::To => {
            if let Ok(State { stage, .. }) = source.state().await {
                if stage != Some(Stage::Left) {
                    return Err(format!("{from} replies and has not given {tenant} away: move it again without --keep"));
                }
            }
            target.begin(&Step::Receive { other: from.clone(), replace: false, robots: None }).await?;
            target.open().await?;
            if let Some(balancer) = balancer {
                balancer.switch().await?;
            }
            print(&format!("clients write {tenant} at {to} from now on, with what was copied"));
        }
    }
    Ok(())
}

/// Fails if clients reach the target although the source has not given the tenant away: they would lose what they wrote there.
async fn check_route(balancer: &Balancer, options: &MoveCommand, source: &Peer) -> Result<(), String> {
    let MoveCommand { tenant, from, server, .. } = options;
    let route = balancer.route().await?;
    if server.as_ref() == Some(&route) && source.state().await?.stage != Some(Stage::Left) {
        return Err(format!("HAProxy sends {tenant} to {route} already, and {from} has not given it away"));
    }
    Ok(())
}

/// Fails if the target cannot have what the source has.
fn check_room(source: &State, target: &State) -> Result<(), String> {
    let check = |what: &str, used: u64, most: Option<u64>| match most {
        Some(most) if most < used => Err(format!("--to may have at most {most} {what} of the tenant, and --from has {used}")),
        _ => Ok(()),
    };
    check("bytes", source.used, Some(target.quota))?;
    check("different blobs", source.blobs, target.share)?;
    check("manifests", source.manifests, target.most_manifests)?;
    check("bytes of manifests", source.manifest_bytes, target.most_manifest_bytes)?;
    check("tags", source.tags, target.most_tags)
}

/// Prints the settings of the target that differ from those of the source, so that the tenant may be served in another way there.
fn warn_of_settings(options: &MoveCommand, source: &State, target: &State) {
    let MoveCommand { tenant, from, to, .. } = options;
    if target.max_blob < source.max_blob {
        print(&format!("warning: {to} takes blobs of at most {} bytes, and {from} of {}", target.max_blob, source.max_blob));
    }
    if let (Some(rules), Some(others)) = (&source.rules, &target.rules) {
        for (option, _) in rules.iter().filter(|(option, lines)| others.get(*option) != Some(*lines)) {
            print(&format!("warning: the lines of {option} for {tenant} differ at {from} and {to}"));
        }
    }
}

/// Begins or continues the move at both registries. Returns the stage at the source, and the robots that wait at the target.
async fn begin(
    options: &MoveCommand,
    source: &mut Peer,
    target: &mut Peer,
) -> Result<(Option<Stage>, Option<Vec<MovedRobot>>), String> {
    let MoveCommand { tenant, from, to, replace, .. } = options;
    let (before, room) = (source.state().await?, target.state().await?);
    check_room(&before, &room)?;
    warn_of_settings(options, &before, &room);
    if before.stage == Some(Stage::Left) && room.stage != Some(Stage::Arriving) {
        // The target was opened. Only the route and the delete may be left.
        let state = source.begin(&Step::Copy { other: to.clone() }).await?;
        return match room.stage {
            None => Ok((state.stage, None)),
            Some(_) => Err(format!("{tenant} has moved from {from} to {to}, and on to {}", room.other)),
        };
    }
    // An earlier version sends none, and expects none.
    let robots = before.robots.filter(|_| room.robots.is_some());
    target.begin(&Step::Receive { other: from.clone(), replace: *replace, robots: robots.clone() }).await?;
    let state = source.begin(&Step::Copy { other: to.clone() }).await?;
    Ok((state.stage, robots))
}

impl Move {
    /// Prints the robots that are at one side alone after the move.
    async fn warn_of_robots(&self) -> Result<(), String> {
        let MoveCommand { tenant, from, to, .. } = &self.options;
        let Copier { source, target, .. } = &*self.copier;
        let moved = self.robots.as_deref().unwrap_or_default();
        let (at_source, at_target) = (source.robots(true).await?, target.robots(true).await?);
        let moves = |name: &String| moved.iter().any(|robot| robot.name == *name);
        for robot in at_source.iter().filter(|name| !at_target.contains(name) && !moves(name)) {
            print(&format!("warning: {robot} has rights in {tenant} at {from}, and does not exist at {to}"));
        }
        for robot in target.robots(false).await?.iter().filter(|name| !at_source.contains(name)) {
            print(&format!("warning: {robot} has rights in {tenant} at {to}, and does not exist at {from}"));
        }
        Ok(())
    }

    /// Copies everything. If it fails, clients write at the source again.
    async fn copy_or_undo(&mut self) -> Result<(), String> {
        let copied = tokio::select! {
            copied = self.copy() => copied,
            _ = ctrl_c() => Err("interrupted".to_string()),
        };
        if let Err(why) = copied {
            let opened = self.copier.source.open().await;
            let released = self.release().await;
            let then = match opened.and(released) {
                Ok(_) => format!("clients write at {} as before", self.options.from),
                Err(error) => format!("and the tenant may be read only until the next move or --keep: {error}"),
            };
            return Err(format!("{why}; {then}"));
        }
        Ok(())
    }

    /// Copies everything, the rest of it while writes wait.
    async fn copy(&mut self) -> Result<(), String> {
        self.warn_of_robots().await?;
        let begun = Instant::now();
        let tally = self.copy_most(begun).await?;
        print(&format!("copied {} in {:.1} s", text(&tally), begun.elapsed().as_secs_f64()));
        self.close().await?;
        if self.copier.source.state().await?.has_forgotten {
            print("warning: more blobs were pushed meanwhile than are remembered: a push that is in progress may have to be repeated");
        }
        let begun = Instant::now();
        let tally = self.copier.finish().await?;
        print(&format!("copied {} and compared in {:.2} s", text(&tally), begun.elapsed().as_secs_f64()));
        self.send_robots().await
    }

    /// Sends the robots again if some were made or revoked during the copy.
    async fn send_robots(&self) -> Result<(), String> {
        let Copier { source, target, .. } = &*self.copier;
        if let (Some(sent), Some(robots)) = (&self.robots, source.state().await?.robots) {
            for robot in &robots {
                print(&format!("{} moves with the tenant", robot.name));
            }
            if robots != *sent {
                target.expect_robots(robots).await?;
            }
        }
        Ok(())
    }

    /// Copies in rounds while clients write, until little is left, or as much as in the round before.
    async fn copy_most(&self, begun: Instant) -> Result<Tally, String> {
        let (mut tally, mut last) = (Tally::default(), usize::MAX);
        for _ in 0..MOST_ROUNDS {
            let round = Instant::now();
            let done = self.copier.round().await?;
            tally.add(done);
            if round.elapsed() <= SHORT || done.sum() > last / 2 {
                match LEAST_COPY.checked_sub(begun.elapsed()) {
                    Some(rest) => sleep(rest).await,
                    None => break,
                }
            }
            last = done.sum();
        }
        Ok(tally)
    }

    async fn release(&mut self) -> Result<(), String> {
        self.held = None;
        match &self.balancer {
            Some(balancer) => balancer.release().await,
            None => Ok(()),
        }
    }

    /// Closes the source when no request and no upload is open. Writes wait for a short time, and again later, until that is so. After the
    /// given time, open uploads are abandoned.
    async fn close(&mut self) -> Result<(), String> {
        let (begun, mut rest) = (Instant::now(), REST.0);
        loop {
            let is_late = begun.elapsed() >= Duration::from_secs(self.options.uploads_s);
            let State { requests, uploads, .. } = match self.try_close(is_late).await? {
                Some(state) => state,
                None => return Ok(()),
            };
            self.copier.source.resume().await?;
            self.release().await?;
            if is_late {
                return Err(format!("{requests} requests and {uploads} uploads are open for too long"));
            }
            print(&format!("waiting for {requests} open requests and {uploads} open uploads"));
            sleep(rest).await;
            rest = (2 * rest).min(REST.1);
            self.copier.round().await?;
        }
    }

    /// Lets writes wait, and closes the source. Returns its state if requests or uploads stay open for too long.
    async fn try_close(&mut self, cuts: bool) -> Result<Option<State>, String> {
        self.held = Some(Instant::now());
        if let Some(balancer) = &self.balancer {
            balancer.hold().await?;
        }
        let begun = Instant::now();
        loop {
            let state = self.copier.source.close(cuts).await?;
            match state.stage {
                Some(Stage::Closed | Stage::Left) => return Ok(None),
                _ if begun.elapsed() >= HOLD => return Ok(Some(state)),
                _ => sleep(LOOK).await,
            }
        }
    }

    /// Gives the tenant to the target for good, and switches the route.
    async fn switch(&self) -> Result<(), String> {
        self.copier.source.leave().await?;
        if self.copier.target.state().await?.stage == Some(Stage::Arriving) {
            self.open_target().await?;
        }
        if let Some(balancer) = &self.balancer {
            balancer.switch().await?;
        }
        let MoveCommand { tenant, to, .. } = &self.options;
        print(&match self.held {
            Some(held) => format!("{tenant} is at {to}; it was not writable for {:.2} s", held.elapsed().as_secs_f64()),
            None => format!("{tenant} is at {to}"),
        });
        Ok(())
    }

    /// Opens the target, after the requests of an earlier command have ended there.
    async fn open_target(&self) -> Result<(), String> {
        let begun = Instant::now();
        loop {
            let state = self.copier.target.open().await?;
            if state.stage.is_none() {
                return Ok(());
            }
            if begun.elapsed() >= LIMIT {
                return Err(format!("{} requests of an earlier command are open at {}", state.requests, self.options.to));
            }
            sleep(LOOK).await;
        }
    }

    /// Deletes what the source has, if that is wanted.
    async fn end(&self) -> Result<(), String> {
        let MoveCommand { tenant, from, delete, .. } = &self.options;
        if *delete {
            let count = delete_tenant(&self.copier.source).await?;
            print(&format!("deleted {count} manifests of {tenant} at {from}"));
        }
        Ok(())
    }
}

/// Returns the numbers of a copy.
fn text(tally: &Tally) -> String {
    let Tally { manifests, tags, blobs, deleted } = tally;
    format!("{manifests} manifests, {tags} tags and {blobs} blobs, deleted {deleted}")
}

#[cfg(test)]
mod tests {
    use super::*;

    fn state(used: u64, quota: u64, tags: u64, most_tags: Option<u64>) -> State {
        let value = serde_json::json!({
            "stage": null, "other": "", "requests": 0, "uploads": 0, "has_forgotten": false, "used": used, "quota": quota,
            "blobs": 5, "share": 5, "manifests": 3, "manifest_bytes": 300, "tags": tags, "most_manifests": null,
            "most_manifest_bytes": 300, "most_tags": most_tags, "max_blob": 9, "secret": null,
        });
        serde_json::from_value(value).unwrap()
    }

    #[test]
    fn a_target_needs_room_for_all() {
        let source = state(100, 1000, 7, None);
        assert_eq!(check_room(&source, &state(0, 100, 0, Some(7))), Ok(()));
        let why = check_room(&source, &state(0, 99, 0, None)).unwrap_err();
        assert_eq!(why, "--to may have at most 99 bytes of the tenant, and --from has 100");
        assert!(check_room(&source, &state(0, 100, 0, Some(6))).unwrap_err().contains("6 tags"));
        let small = State { share: Some(4), ..state(0, 100, 0, None) };
        assert!(check_room(&source, &small).unwrap_err().contains("4 different blobs"));
        assert_eq!(check_room(&source, &State { share: None, ..small }), Ok(()));
    }
}
