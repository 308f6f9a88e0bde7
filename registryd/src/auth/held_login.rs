//! Logins that last longer than a request: who logged in, and what has to be the same for the login to hold.
use crate::auth::access::{Access, Caller, Identity};
use crate::auth::robots::Robot;
use crate::http::fault::Fault;
use std::net::IpAddr;
use std::sync::Arc;

/// A user or a machine whose password or secret was right.
#[derive(Debug)]
pub(crate) enum HeldLogin {
    /// A user with the hash that the password had.
    User {
        name: String,
        hash: String,
    },
    Robot(Arc<Robot>),
}

impl HeldLogin {
    /// Returns the name.
    pub(crate) fn name(&self) -> &str {
        match self {
            HeldLogin::User { name, .. } => name,
            HeldLogin::Robot(robot) => &robot.name,
        }
    }
}

impl Access {
    /// Checks a password or a secret, in the queue of all checks. Returns `None` if it is wrong.
    ///
    /// # Errors
    ///
    /// Fails if too many checks wait.
    pub(crate) async fn log_in(&self, name: &str, password: &str, client: Option<IpAddr>) -> Result<Option<HeldLogin>, Fault> {
        // It is read first: if the file is read again meanwhile, the login ends with the next request.
        let hash = self.users.as_ref().and_then(|users| users.get().hash_of(name).cloned());
        Ok(match (self.identify(name.to_string(), password, client).await?, hash) {
            (Some(Identity::User(name)), Some(hash)) => Some(HeldLogin::User { name, hash }),
            (Some(Identity::Robot(robot)), _) => Some(HeldLogin::Robot(robot)),
            _ => None,
        })
    }

    /// Returns the sender of a request of someone who logged in, or `None` if the user was removed or has another password, or the robot
    /// was revoked or has ended.
    pub(crate) fn caller_of(&self, login: &HeldLogin) -> Option<Caller> {
        let identity = match login {
            HeldLogin::User { name, hash } => {
                let users = self.users.as_ref()?.get();
                users.hash_of(name).filter(|now| *now == hash)?;
                Identity::User(name.clone())
            }
            HeldLogin::Robot(robot) => Identity::Robot(self.robots.still(robot)?),
        };
        Some(self.caller_with(identity))
    }

    /// Returns the sender of a request without a login.
    pub(crate) fn unknown_caller(&self) -> Caller {
        self.caller_with(if self.wants_credentials() { Identity::Anonymous } else { Identity::Anybody })
    }
}
