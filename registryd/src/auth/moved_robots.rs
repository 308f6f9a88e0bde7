//! The robots that move with a tenant. The source sends each with the hash of its secret and with its rights in the tenant alone. At the
//! target they wait for the tenant: the step that opens it makes them, in one transaction of the database.
use crate::auth::reserved::ROBOT;
use crate::auth::rights::Grant;
use crate::auth::robots::{is_name, Robot, RobotFault, RobotRow, Robots, HASH_LEN, MOST_GRANTS, MOST_ROBOTS};
use crate::metadata::clock::time_of_day;
use crate::operation::locks::guard_of;
use serde::{Deserialize, Serialize};
use std::collections::BTreeSet;
use std::sync::Arc;
use tokio::sync::MutexGuard;

/// A robot that moves with a tenant.
#[derive(Clone, Debug, PartialEq, Eq, Serialize, Deserialize)]
#[serde(deny_unknown_fields)]
pub(crate) struct MovedRobot {
    pub(crate) name: String,
    /// The SHA-256 of its secret, in hexadecimal digits.
    hash: String,
    /// A text `RIGHTS PREFIX` for each of its rights in the tenant.
    rights: Vec<String>,
    made: u64,
    ends: u64,
}

/// Returns the bytes of a hash.
fn bytes_of(digits: &str) -> Option<[u8; HASH_LEN]> {
    let byte = |at: usize| u8::from_str_radix(digits.get(at..at + 2)?, 16).ok();
    let is_hash = digits.len() == 2 * HASH_LEN && digits.bytes().all(|digit| digit.is_ascii_hexdigit());
    let bytes: Option<Vec<u8>> = is_hash.then(|| (0..HASH_LEN).map(|at| byte(2 * at)).collect())?;
    bytes?.try_into().ok()
}

impl MovedRobot {
    /// Returns the part of a robot that moves with a tenant. A robot without rights there, one that is revoked, and one at its end have none.
    fn of(robot: &Robot, tenant: &str) -> Option<MovedRobot> {
        let mut rights: Vec<String> = Vec::new();
        for text in robot.grants.iter().filter_map(|grant| grant.within(tenant)).map(|grant| grant.to_string()) {
            if !rights.contains(&text) {
                rights.push(text);
            }
        }
        let moves = !rights.is_empty() && !robot.is_revoked && robot.ends > time_of_day();
        let hash = robot.hash.iter().map(|byte| format!("{byte:02x}")).collect();
        moves.then(|| MovedRobot { name: robot.name.clone(), hash, rights, made: robot.made, ends: robot.ends })
    }

    /// Returns the robot that arrives with a tenant.
    fn robot(&self, tenant: &str) -> Result<Robot, RobotFault> {
        let invalid = |why: &str| RobotFault::Invalid(format!("{}: {why}", self.name));
        let grants: Vec<Grant> =
            self.rights.iter().map(|text| Grant::parse(text)).collect::<Result<_, _>>().map_err(RobotFault::Invalid)?;
        let is_there = grants.iter().all(|grant| grant.within(tenant).as_ref() == Some(grant));
        match bytes_of(&self.hash) {
            _ if !self.name.strip_prefix(ROBOT).map_or(false, is_name) => Err(invalid("not a name of a robot")),
            _ if grants.is_empty() || !is_there => Err(invalid("its rights are not those of one tenant")),
            Some(hash) => {
                Ok(Robot { name: self.name.clone(), hash, grants, made: self.made, ends: self.ends, is_revoked: false })
            }
            None => Err(invalid("its hash is not understood")),
        }
    }
}

/// Returns the robot after an arrival with a tenant. The rights that it has there already in other tenants stay.
fn merged(arriving: Robot, known: Option<&Robot>, tenant: &str) -> Result<Robot, RobotFault> {
    let known = match known {
        None => return Ok(arriving),
        Some(known) if known.hash != arriving.hash || known.is_revoked => return Err(RobotFault::Differs(arriving.name)),
        Some(known) => known,
    };
    let mut grants: Vec<Grant> = known.grants.iter().filter(|grant| !grant.is_within(tenant)).cloned().collect();
    grants.extend(arriving.grants);
    match grants.len() > MOST_GRANTS {
        true => Err(RobotFault::Invalid(format!("{}: a robot has at most {MOST_GRANTS} rights", arriving.name))),
        false => Ok(Robot { grants, ..arriving }),
    }
}

/// A change of the robots that a tenant's move makes, until it is recorded. No other robot is made or revoked meanwhile.
pub(crate) struct Arrival<'r> {
    robots: &'r Robots,
    tenant: String,
    /// The robots that wait after the change, and those that it makes.
    pub(crate) waiting: Vec<MovedRobot>,
    made: Vec<Robot>,
    _changing: MutexGuard<'r, ()>,
}

impl Arrival<'_> {
    /// Returns the rows of the robots that the change makes.
    pub(crate) fn rows(&self) -> Vec<RobotRow> {
        self.made.iter().map(Robot::row).collect()
    }

    /// Makes the change in memory. Returns the names of the robots that it made.
    pub(crate) fn end(self) -> Vec<String> {
        let names = self.made.iter().map(|robot| robot.name.clone()).collect();
        let mut by_name = self.robots.write();
        for robot in self.made {
            by_name.insert(robot.name.clone(), Arc::new(robot));
        }
        let mut waiting = guard_of(self.robots.waiting.write());
        match self.waiting.is_empty() {
            true => waiting.remove(&self.tenant),
            false => waiting.insert(self.tenant, self.waiting),
        };
        names
    }
}

impl Robots {
    /// Returns the robots that move with a tenant.
    pub(crate) fn moving_with(&self, tenant: &str) -> Vec<MovedRobot> {
        self.read().values().filter_map(|robot| MovedRobot::of(robot, tenant)).collect()
    }

    /// Returns the robots that wait for a tenant.
    fn waiting_for(&self, tenant: &str) -> Vec<MovedRobot> {
        guard_of(self.waiting.read()).get(tenant).cloned().unwrap_or_default()
    }

    /// Returns the tenant with which a robot of this name arrives.
    pub(super) fn arrives_with(&self, name: &str) -> Option<String> {
        let waiting = guard_of(self.waiting.read());
        let found = waiting.iter().find(|(_, robots)| robots.iter().any(|robot| robot.name == name));
        found.map(|(tenant, _)| tenant.clone())
    }

    /// Returns the robots that an arrival with a tenant makes.
    ///
    /// # Errors
    ///
    /// - One of them is not well-formed, or would have too many rights.
    /// - There is a robot of its name with another secret, or one that arrives with another tenant.
    /// - There would be too many robots.
    fn arriving(&self, tenant: &str, moved: &[MovedRobot]) -> Result<Vec<Robot>, RobotFault> {
        let by_name = self.read();
        let waiting = guard_of(self.waiting.read());
        let others = || waiting.iter().filter(|(other, _)| *other != tenant).flat_map(|(_, robots)| robots);
        let mut names: BTreeSet<&str> =
            by_name.keys().map(String::as_str).chain(others().map(|robot| robot.name.as_str())).collect();
        let mut made = Vec::new();
        for robot in moved {
            if others().any(|other| other.name == robot.name && other.hash != robot.hash) {
                return Err(RobotFault::Differs(robot.name.clone()));
            }
            made.push(merged(robot.robot(tenant)?, by_name.get(&robot.name).map(Arc::as_ref), tenant)?);
            names.insert(&robot.name);
        }
        match names.len() > MOST_ROBOTS && !moved.is_empty() {
            true => Err(RobotFault::Full),
            false => Ok(made),
        }
    }

    /// Begins to let robots wait for a tenant, in place of those that wait for it.
    pub(crate) async fn expect(&self, tenant: &str, moved: Option<Vec<MovedRobot>>) -> Result<Arrival<'_>, RobotFault> {
        let _changing = self.changing.lock().await;
        let waiting = moved.unwrap_or_else(|| self.waiting_for(tenant));
        self.arriving(tenant, &waiting)?;
        Ok(Arrival { robots: self, tenant: tenant.to_string(), waiting, made: Vec::new(), _changing })
    }

    /// Begins to make the robots that wait for a tenant.
    pub(crate) async fn arrive(&self, tenant: &str) -> Result<Arrival<'_>, RobotFault> {
        let _changing = self.changing.lock().await;
        let made = self.arriving(tenant, &self.waiting_for(tenant))?;
        Ok(Arrival { robots: self, tenant: tenant.to_string(), waiting: Vec::new(), made, _changing })
    }
}

#[cfg(test)]
mod tests {
    use super::*;
    use crate::auth::rights::Right;
    use crate::auth::robots::tests::{new, soon};

    /// Returns the robots of a source: the secret of each by its name.
    async fn source(robots: &[(&str, &[&str])]) -> (Robots, Vec<String>) {
        let (made, mut secrets) = (Robots::default(), Vec::new());
        for (name, rights) in robots {
            secrets.push(made.add(new(name, rights, soon())).await.unwrap().1);
        }
        (made, secrets)
    }

    async fn moved(source: &Robots, target: &Robots, tenant: &str) -> Vec<String> {
        target.expect(tenant, Some(source.moving_with(tenant))).await.unwrap().end();
        target.arrive(tenant).await.unwrap().end()
    }

    #[tokio::test]
    async fn a_robot_has_its_secret_and_its_rights_in_the_tenant() {
        let rights: [(&str, &[&str]); 4] = [
            ("ci", &["read,write acme/app", "read other"]),
            ("all", &["read *", "read acme"]),
            ("other", &["read other"]),
            ("x", &["read acmes"]),
        ];
        let (source, secrets) = source(&rights).await;
        let target = Robots::default();
        assert_eq!(moved(&source, &target, "acme").await, ["robot+all", "robot+ci"]);
        let (ci, all) = (target.accept("robot+ci", &secrets[0]).unwrap(), target.accept("robot+all", &secrets[1]).unwrap());
        for (robot, right, repo, expected) in [
            (&ci, Right::Write, "acme/app", true),
            (&ci, Right::Read, "other/x", false),
            (&ci, Right::Delete, "acme/app", false),
            (&all, Right::Read, "acme/x", true),
            (&all, Right::Read, "other/x", false),
        ] {
            assert_eq!(robot.allows(right, repo), expected, "{} {right:?} {repo}", robot.name);
        }
        assert!(target.accept("robot+ci", &secrets[1]).is_none() && target.accept("robot+other", &secrets[2]).is_none());
        // A second tenant adds its rights, and a second move of the first one changes nothing.
        assert_eq!(moved(&source, &target, "other").await, ["robot+all", "robot+ci", "robot+other"]);
        assert_eq!(moved(&source, &target, "acme").await, ["robot+all", "robot+ci"]);
        assert_eq!(target.moving_with("acme"), source.moving_with("acme"));
        assert_eq!(target.moving_with("other"), source.moving_with("other"));
        assert!(target.moving_with("acmes").is_empty() && !source.moving_with("acmes").is_empty());
    }

    #[tokio::test]
    async fn a_robot_waits_for_the_opening() {
        let (source, secrets) = source(&[("ci", &["read acme"]), ("late", &["read acme"])]).await;
        let target = Robots::default();
        target.expect("acme", Some(source.moving_with("acme"))).await.unwrap().end();
        assert!(target.accept("robot+ci", &secrets[0]).is_none() && target.list().is_empty());
        assert!(matches!(target.add(new("ci", &["read acme"], soon())).await, Err(RobotFault::Arrives(..))));
        // A robot that is revoked meanwhile does not arrive, and without a list those that wait stay.
        source.revoke("late").await.unwrap();
        target.expect("acme", Some(source.moving_with("acme"))).await.unwrap().end();
        target.expect("acme", None).await.unwrap().end();
        assert_eq!(target.arrive("acme").await.unwrap().end(), ["robot+ci"]);
        assert!(target.accept("robot+ci", &secrets[0]).is_some() && target.accept("robot+late", &secrets[1]).is_none());
        assert!(target.add(new("late", &["read acme"], soon())).await.is_ok());
    }

    #[tokio::test]
    async fn a_robot_of_the_same_name_with_another_secret_is_refused() {
        let (source, _) = source(&[("ci", &["read acme", "read other"])]).await;
        let target = Robots::default();
        let (_, own) = target.add(new("ci", &["read third"], soon())).await.unwrap();
        assert!(matches!(target.expect("acme", Some(source.moving_with("acme"))).await, Err(RobotFault::Differs(_))));
        assert!(target.waiting_for("acme").is_empty() && target.accept("robot+ci", &own).is_some());
        target.revoke("ci").await.unwrap();
        target.expect("acme", Some(source.moving_with("acme"))).await.unwrap().end();
        // One arrives with another tenant, from another registry.
        let (third, _) = self::source(&[("ci", &["read third"])]).await;
        assert!(matches!(target.expect("third", Some(third.moving_with("third"))).await, Err(RobotFault::Differs(_))));
        target.expect("other", Some(source.moving_with("other"))).await.unwrap().end();
    }

    #[tokio::test]
    async fn a_robot_of_a_request_is_checked() {
        let (source, _) = source(&[("ci", &["read acme"])]).await;
        let robot = source.moving_with("acme").remove(0);
        let target = Robots::default();
        let with = |change: &dyn Fn(&mut MovedRobot)| {
            let mut changed = robot.clone();
            change(&mut changed);
            changed
        };
        let wrong = [
            with(&|robot| robot.name = "ci".to_string()),
            with(&|robot| robot.name = "robot+move+acme".to_string()),
            with(&|robot| robot.rights = vec!["write other".to_string()]),
            with(&|robot| robot.rights = vec!["read *".to_string()]),
            with(&|robot| robot.rights = Vec::new()),
            with(&|robot| robot.hash = "00".to_string()),
            with(&|robot| robot.hash = "+1".repeat(HASH_LEN)),
        ];
        for robot in wrong {
            let found = target.expect("acme", Some(vec![robot.clone()])).await;
            assert!(matches!(found, Err(RobotFault::Invalid(_))), "{robot:?}");
        }
        assert!(target.expect("acme", Some(vec![robot])).await.is_ok());
    }
}
