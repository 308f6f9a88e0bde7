//! Accounts of machines. Each has a secret that is shown once, rights of its own, and an end. The database has a hash of the secret.
use crate::auth::moved_robots::MovedRobot;
use crate::auth::reserved::{mover_of, MOVER, ROBOT};
use crate::auth::rights::{Grant, Right};
use crate::auth::same::is_same;
use crate::database::change::Change;
use crate::database::writer::{WriteFailure, Writer};
use crate::metadata::clock::time_of_day;
use crate::metadata::names::is_component;
use crate::metadata::upload_names::Secret;
use crate::moving::stage::MoveRow;
use crate::operation::locks::guard_of;
use serde::Deserialize;
use serde_json::{json, Value};
use sha2::{Digest, Sha256};
use std::collections::BTreeMap;
use std::io;
use std::sync::{Arc, RwLock, RwLockReadGuard, RwLockWriteGuard};

/// What secrets begin with, so that programs that search for secrets find them.
const SECRET_PREFIX: &str = "regd_";

/// The maximum length of a name without its prefix, and the maximum numbers of robots, and of the rights of one.
const MAX_NAME: usize = 64;
pub(super) const MOST_ROBOTS: usize = 10_000;
pub(super) const MOST_GRANTS: usize = 100;

/// The length of a hash, in bytes.
pub(super) const HASH_LEN: usize = 32;

/// A robot.
#[derive(Debug)]
pub(crate) struct Robot {
    /// The name with its prefix, which a client sends.
    pub(crate) name: String,
    pub(super) hash: [u8; HASH_LEN],
    pub(super) grants: Vec<Grant>,
    /// The times of its making and of its end, by the time of day, in seconds since 1970.
    pub(super) made: u64,
    pub(super) ends: u64,
    /// Whether it was revoked, although the database may still have it.
    pub(super) is_revoked: bool,
}

/// A robot as the database has it.
#[derive(Clone, Debug, PartialEq, Eq)]
pub(crate) struct RobotRow {
    pub(crate) name: String,
    pub(crate) hash: Vec<u8>,
    /// A line `RIGHTS PREFIX` for each of its rights.
    pub(crate) rights: String,
    pub(crate) made: u64,
    pub(crate) ends: u64,
}

/// What the owner asks for.
#[derive(Debug, Deserialize)]
#[serde(deny_unknown_fields)]
pub(crate) struct NewRobot {
    /// The name, with or without its prefix.
    name: String,
    /// A text `RIGHTS PREFIX` for each of its rights.
    rights: Vec<String>,
    /// The time of its end, in seconds since 1970.
    ends: u64,
}

/// The reason why a robot was not made or revoked.
#[derive(Debug)]
pub(crate) enum RobotFault {
    Exists(String),
    /// A robot of this name arrives with this tenant.
    Arrives(String, String),
    /// A robot arrives with a tenant, and there is another one of its name.
    Differs(String),
    Unknown(String),
    Invalid(String),
    Full,
    /// It is revoked until the end of the program.
    NotRecorded(String),
    Write(WriteFailure),
    NoSecret(io::Error),
}

/// The robots of a registry. Without a database they last as long as the program.
#[derive(Default)]
pub(crate) struct Robots {
    by_name: RwLock<BTreeMap<String, Arc<Robot>>>,
    /// The accounts of commands that move tenants, which last as long as the program.
    movers: RwLock<BTreeMap<String, Arc<Robot>>>,
    /// The robots that wait for tenants that arrive here, by the tenant.
    pub(super) waiting: RwLock<BTreeMap<String, Vec<MovedRobot>>>,
    writer: Option<Arc<Writer>>,
    /// Held while a robot is made or revoked.
    pub(super) changing: tokio::sync::Mutex<()>,
}

/// Returns the whole name of a robot whose name may lack its prefix.
fn whole(name: &str) -> String {
    format!("{ROBOT}{}", name.strip_prefix(ROBOT).unwrap_or(name))
}

/// Returns whether a text is the name of a robot without its prefix.
pub(super) fn is_name(text: &str) -> bool {
    is_component(text) && text.len() <= MAX_NAME
}

/// Returns the hash of a secret. It is fast: nobody guesses a secret of 256 random bits, however fast the guesses are checked.
fn hash_of(secret: &str) -> [u8; HASH_LEN] {
    Sha256::digest(secret).into()
}

/// Makes a secret with 256 random bits.
fn new_secret() -> io::Result<String> {
    let digits = Secret::random()?.0.iter().map(|byte| format!("{byte:02x}")).collect::<String>();
    Ok(format!("{SECRET_PREFIX}{digits}"))
}

impl NewRobot {
    /// Returns the robot with a secret.
    fn robot(&self, secret: &str, now: u64) -> Result<Robot, RobotFault> {
        let name = self.name.strip_prefix(ROBOT).unwrap_or(&self.name);
        let invalid = |why: String| Err(RobotFault::Invalid(why));
        if !is_name(name) {
            return invalid(format!(
                "not a name of a robot: `{name}`: write small letters, digits and . _ -, at most {MAX_NAME}"
            ));
        }
        if self.ends <= now {
            return invalid("the robot would end in the past".to_string());
        }
        if self.rights.is_empty() || self.rights.len() > MOST_GRANTS {
            return invalid(format!("a robot has 1 to {MOST_GRANTS} rights"));
        }
        let grants = self.rights.iter().map(|text| Grant::parse(text)).collect::<Result<_, _>>().map_err(RobotFault::Invalid)?;
        Ok(Robot { name: whole(name), hash: hash_of(secret), grants, made: now, ends: self.ends, is_revoked: false })
    }
}

impl Robot {
    /// Returns the robot of a row. One whose hash or rights are not understood has none.
    fn of(row: RobotRow) -> Option<Robot> {
        let RobotRow { name, hash, rights, made, ends } = row;
        let grants: Result<Vec<Grant>, String> = rights.lines().map(Grant::parse).collect();
        match (hash.try_into(), grants) {
            (Ok(hash), Ok(grants)) => Some(Robot { name, hash, grants, made, ends, is_revoked: false }),
            _ => {
                tracing::error!(robot = %name, "dropped a robot whose row in the database is damaged");
                None
            }
        }
    }

    /// Returns the rights, a line for each.
    fn rights(&self) -> Vec<String> {
        self.grants.iter().map(Grant::to_string).collect()
    }

    pub(super) fn row(&self) -> RobotRow {
        let (name, hash, rights) = (self.name.clone(), self.hash.to_vec(), self.rights().join("\n"));
        RobotRow { name, hash, rights, made: self.made, ends: self.ends }
    }

    /// Returns whether it has a right in a repository.
    pub(super) fn allows(&self, right: Right, repo: &str) -> bool {
        self.grants.iter().any(|grant| grant.allows(right, repo))
    }

    /// Returns whether it may read something of a tenant.
    pub(super) fn reaches(&self, tenant: &str) -> bool {
        self.grants.iter().any(|grant| grant.reaches(tenant))
    }

    /// Returns whether it is the account of the command that moves a tenant.
    pub(super) fn is_mover_of(&self, tenant: &str) -> bool {
        mover_of(&self.name) == Some(tenant)
    }

    /// Returns whether it is neither revoked nor at its end.
    fn is_active(&self) -> bool {
        let has_ended = self.ends <= time_of_day();
        if has_ended {
            tracing::info!(robot = %self.name, "refused a robot whose time has ended");
        }
        !self.is_revoked && !has_ended
    }

    /// Returns what is shown of it.
    pub(crate) fn json(&self) -> Value {
        let state = match self.is_revoked {
            true => "revoked",
            false if self.ends <= time_of_day() => "ended",
            false => "active",
        };
        json!({ "name": self.name, "rights": self.rights(), "made": self.made, "ends": self.ends, "state": state })
    }
}

impl Robots {
    /// Makes the table with the robots of a database, and with those that wait for the tenants of these moves.
    pub(crate) fn new(writer: Option<Arc<Writer>>, rows: Vec<RobotRow>, moves: &[MoveRow]) -> Robots {
        let robots = rows.into_iter().filter_map(Robot::of);
        let by_name = robots.map(|robot| (robot.name.clone(), Arc::new(robot))).collect();
        let waiting = moves.iter().filter(|row| !row.robots.is_empty()).map(|row| (row.tenant.clone(), row.robots.clone()));
        Robots { by_name: RwLock::new(by_name), waiting: RwLock::new(waiting.collect()), writer, ..Robots::default() }
    }

    pub(super) fn read(&self) -> RwLockReadGuard<'_, BTreeMap<String, Arc<Robot>>> {
        guard_of(self.by_name.read())
    }

    pub(super) fn write(&self) -> RwLockWriteGuard<'_, BTreeMap<String, Arc<Robot>>> {
        guard_of(self.by_name.write())
    }

    /// Returns all robots in the order of their names.
    pub(crate) fn list(&self) -> Vec<Arc<Robot>> {
        self.read().values().cloned().collect()
    }

    /// Returns the robot of a name if the secret is its own, and it is neither revoked nor at its end. The time does not depend on how
    /// much of the secret is right.
    pub(super) fn accept(&self, name: &str, secret: &str) -> Option<Arc<Robot>> {
        let found = match mover_of(name) {
            Some(_) => guard_of(self.movers.read()).get(name).cloned(),
            None => self.read().get(name).cloned(),
        };
        let is_right = is_same(&hash_of(secret), found.as_ref().map_or(&[0; HASH_LEN], |robot| &robot.hash));
        found.filter(|_| is_right).filter(|robot| robot.is_active())
    }

    /// Returns the robot that was accepted earlier, if it is still there.
    pub(super) fn still(&self, accepted: &Robot) -> Option<Arc<Robot>> {
        let found = self.read().get(&accepted.name).cloned();
        found.filter(|robot| robot.hash == accepted.hash && robot.is_active())
    }

    /// Makes the account of a command that moves a tenant, with all rights there, and returns its secret. An earlier one is replaced.
    pub(crate) fn begin_move(&self, tenant: &str) -> io::Result<String> {
        let (name, secret) = (format!("{MOVER}{tenant}"), new_secret()?);
        let grants = Grant::of("read,write,delete", tenant).map_err(|why| io::Error::new(io::ErrorKind::InvalidInput, why))?;
        let (hash, made, ends) = (hash_of(&secret), time_of_day(), u64::MAX);
        let robot = Robot { name: name.clone(), hash, grants: vec![grants], made, ends, is_revoked: false };
        guard_of(self.movers.write()).insert(name, Arc::new(robot));
        Ok(secret)
    }

    /// Returns whether a secret is that of the command that moves a tenant.
    pub(crate) fn moves(&self, tenant: &str, secret: &str) -> bool {
        self.accept(&format!("{MOVER}{tenant}"), secret).is_some()
    }

    /// Removes the account of a command that moves a tenant.
    pub(crate) fn end_move(&self, tenant: &str) {
        guard_of(self.movers.write()).remove(&format!("{MOVER}{tenant}"));
    }

    /// Makes a robot, and returns it with its secret, which is not kept.
    pub(crate) async fn add(&self, new: NewRobot) -> Result<(Arc<Robot>, String), RobotFault> {
        let _changing = self.changing.lock().await;
        let secret = new_secret().map_err(RobotFault::NoSecret)?;
        let robot = Arc::new(new.robot(&secret, time_of_day())?);
        self.check_room(&robot.name)?;
        if let Some(writer) = &self.writer {
            writer.write(Change::AddRobot { row: robot.row() }).await.map_err(RobotFault::Write)?;
        }
        self.write().insert(robot.name.clone(), robot.clone());
        Ok((robot, secret))
    }

    /// Fails if there is a robot with a name or one arrives, or if there are too many.
    fn check_room(&self, name: &str) -> Result<(), RobotFault> {
        if let Some(tenant) = self.arrives_with(name) {
            return Err(RobotFault::Arrives(name.to_string(), tenant));
        }
        let robots = self.read();
        match robots.contains_key(name) {
            true => Err(RobotFault::Exists(name.to_string())),
            false if robots.len() >= MOST_ROBOTS => Err(RobotFault::Full),
            false => Ok(()),
        }
    }

    /// Revokes a robot, and returns its whole name. It is refused from the begin of this call on, also if the database cannot be written.
    pub(crate) async fn revoke(&self, name: &str) -> Result<String, RobotFault> {
        let name = whole(name);
        self.refuse(&name)?;
        let _changing = self.changing.lock().await;
        if let Some(writer) = &self.writer {
            let removed = writer.write(Change::RemoveRobot { name: name.clone() }).await;
            removed.map_err(|_| RobotFault::NotRecorded(name.clone()))?;
        }
        self.write().remove(&name);
        Ok(name)
    }

    /// Refuses the requests of a robot from now on.
    fn refuse(&self, name: &str) -> Result<(), RobotFault> {
        match self.write().get_mut(name) {
            Some(robot) => {
                *robot = Arc::new(Robot { is_revoked: true, grants: robot.grants.clone(), name: robot.name.clone(), ..**robot });
                Ok(())
            }
            None => Err(RobotFault::Unknown(name.to_string())),
        }
    }
}

#[cfg(test)]
pub(super) mod tests {
    use super::*;

    pub(in crate::auth) fn new(name: &str, rights: &[&str], ends: u64) -> NewRobot {
        NewRobot { name: name.to_string(), rights: rights.iter().map(|text| text.to_string()).collect(), ends }
    }

    pub(in crate::auth) fn soon() -> u64 {
        time_of_day() + 1000
    }

    #[test]
    fn the_command_that_began_last_moves_a_tenant() {
        let robots = Robots::default();
        let name = "robot+move+acme";
        let (first, second) = (robots.begin_move("acme").unwrap(), robots.begin_move("acme").unwrap());
        let robot = robots.accept(name, &second).unwrap();
        assert!(robots.accept(name, &first).is_none() && robots.accept("robot+move+other", &second).is_none());
        assert!(robot.is_mover_of("acme") && !robot.is_mover_of("other"));
        for (right, repo, expected) in
            [(Right::Write, "acme/app/web", true), (Right::Delete, "acme", true), (Right::Read, "acme2/x", false)]
        {
            assert_eq!(robot.allows(right, repo), expected, "{right:?} {repo}");
        }
        assert!(robots.list().is_empty());
        robots.end_move("acme");
        assert!(robots.accept(name, &second).is_none());
    }

    #[tokio::test]
    async fn a_robot_has_its_secret_and_its_rights() {
        let robots = Robots::default();
        let (made, secret) = robots.add(new("ci", &["read,write acme/app", "read *"], soon())).await.unwrap();
        assert!(secret.len() == SECRET_PREFIX.len() + 64 && made.name == "robot+ci");
        let robot = robots.accept("robot+ci", &secret).unwrap();
        for (right, repo, expected) in [
            (Right::Write, "acme/app/web", true),
            (Right::Delete, "acme/app", false),
            (Right::Write, "acme/apple", false),
            (Right::Read, "other/x", true),
        ] {
            assert_eq!(robot.allows(right, repo), expected, "{right:?} {repo}");
        }
        let (_, other) = robots.add(new("robot+other", &["read acme"], soon())).await.unwrap();
        assert_ne!(secret, other);
        for (name, secret) in
            [("robot+ci", &other), ("ci", &secret), ("robot+cd", &secret), ("robot+ci", &secret[1..].to_string())]
        {
            assert!(robots.accept(name, secret).is_none(), "{name}");
        }
        // Neither the hash nor nothing is the secret.
        let hash = made.hash.iter().map(|byte| format!("{byte:02x}")).collect::<String>();
        assert!(robots.accept("robot+ci", &hash).is_none() && robots.accept("robot+ci", "").is_none());
    }

    #[tokio::test]
    async fn a_robot_that_is_revoked_or_at_its_end_is_refused() {
        let robots = Robots::default();
        let (_, secret) = robots.add(new("ci", &["read acme"], soon())).await.unwrap();
        assert!(matches!(robots.add(new("ci", &["read acme"], soon())).await, Err(RobotFault::Exists(_))));
        assert_eq!(robots.revoke("ci").await.unwrap(), "robot+ci");
        assert!(robots.accept("robot+ci", &secret).is_none() && robots.list().is_empty());
        assert!(matches!(robots.revoke("robot+ci").await, Err(RobotFault::Unknown(_))));
        let (_, other) = robots.add(new("ci", &["read acme"], soon())).await.unwrap();
        assert!(robots.accept("robot+ci", &secret).is_none() && robots.accept("robot+ci", &other).is_some());
        // The time of its end is none of its time.
        let row = RobotRow { ends: time_of_day(), ..robots.list()[0].row() };
        let ended = Robots::new(None, vec![row.clone()], &[]);
        assert!(ended.accept("robot+ci", &other).is_none() && ended.list()[0].json()["state"] == "ended");
        let active = Robots::new(None, vec![RobotRow { ends: soon(), ..row.clone() }], &[]);
        assert!(active.accept("robot+ci", &other).is_some());
        active.refuse("robot+ci").unwrap();
        assert!(active.accept("robot+ci", &other).is_none() && active.list()[0].json()["state"] == "revoked");
        let damaged = [RobotRow { hash: vec![0; 31], ..row.clone() }, RobotRow { rights: "read".to_string(), ..row }];
        assert!(Robots::new(None, damaged.to_vec(), &[]).list().is_empty());
    }

    #[tokio::test]
    async fn what_is_no_robot_is_refused() {
        let robots = Robots::default();
        let long = "a".repeat(MAX_NAME + 1);
        for name in ["", "robot+", "Ci", "c i", "ci:", "../ci", "robot+robot+ci", "ci\n", &long] {
            assert!(matches!(robots.add(new(name, &["read acme"], soon())).await, Err(RobotFault::Invalid(_))), "{name}");
        }
        for rights in
            [&[][..], &["read"], &["reed acme"], &["read acme\nwrite acme"], &["read acme/"], &["read acme"; MOST_GRANTS + 1]]
        {
            assert!(matches!(robots.add(new("ci", rights, soon())).await, Err(RobotFault::Invalid(_))), "{rights:?}");
        }
        assert!(matches!(robots.add(new("ci", &["read acme"], time_of_day())).await, Err(RobotFault::Invalid(_))));
        assert!(robots.list().is_empty());
    }
}
