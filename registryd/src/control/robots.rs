//! The commands for the accounts of machines.
use crate::auth::robots::{NewRobot, RobotFault};
use crate::control::server::invalid;
use crate::endpoints::registry::Registry;
use crate::http::fault::Fault;
use crate::http::responses::{with_body, HandlerResult};
use crate::operation::audit;
use hyper::StatusCode;
use serde_json::{json, Value};

/// Returns a reply with an object of JSON.
pub(super) fn reply(status: StatusCode, value: Value) -> HandlerResult {
    with_body(status, &[("Content-Type", "application/json"), ("Cache-Control", "no-store")], format!("{value}\n").into())
}

impl From<RobotFault> for Fault {
    fn from(fault: RobotFault) -> Fault {
        match fault {
            RobotFault::Exists(name) => {
                Fault::new(StatusCode::CONFLICT, "DENIED", format!("there is a robot {name}: revoke it first"))
            }
            RobotFault::Arrives(name, tenant) => {
                Fault::new(StatusCode::CONFLICT, "DENIED", format!("the robot {name} arrives with the tenant {tenant}"))
            }
            RobotFault::Differs(name) => {
                let text = format!("{name} arrives with the tenant, and there is another robot {name}: revoke one of the two");
                Fault::new(StatusCode::CONFLICT, "DENIED", text)
            }
            RobotFault::Unknown(name) => Fault::new(StatusCode::NOT_FOUND, "NAME_UNKNOWN", format!("there is no robot {name}")),
            RobotFault::Invalid(why) => invalid(&why),
            RobotFault::Full => Fault::new(StatusCode::FORBIDDEN, "DENIED", "there are too many robots: revoke some"),
            RobotFault::NotRecorded(name) => {
                let text =
                    format!("{name} is refused from now on, but the disk is full: revoke it again, or a restart accepts it");
                Fault::new(StatusCode::INSUFFICIENT_STORAGE, "DENIED", text)
            }
            RobotFault::Write(failure) => failure.into(),
            RobotFault::NoSecret(error) => Fault::unavailable(&format!("cannot make a secret: {error}")),
        }
    }
}

/// Lists the robots, without their secrets.
pub(super) fn list(registry: &Registry) -> HandlerResult {
    let robots: Vec<Value> = registry.access.robots.list().iter().map(|robot| robot.json()).collect();
    reply(StatusCode::OK, json!({ "robots": robots }))
}

/// Makes a robot, and returns its secret.
pub(super) async fn add(registry: &Registry, content: &[u8]) -> HandlerResult {
    if !registry.access.wants_credentials() {
        return Err(invalid("requests need no credentials here: give --htpasswd, --oidc or --token-key to the registry"));
    }
    let new: NewRobot = serde_json::from_slice(content).map_err(|error| invalid(&error.to_string()))?;
    let (robot, secret) = registry.access.robots.add(new).await?;
    tracing::info!(robot = %robot.name, "made a robot");
    audit::write_robot("robot-add", &robot.name);
    let mut value = robot.json();
    value["secret"] = secret.into();
    reply(StatusCode::CREATED, value)
}

/// Revokes a robot.
pub(super) async fn revoke(registry: &Registry, name: &str) -> HandlerResult {
    let name = registry.access.robots.revoke(name).await?;
    tracing::info!(robot = %name, "revoked a robot");
    audit::write_robot("robot-revoke", &name);
    reply(StatusCode::OK, json!({ "name": name }))
}
