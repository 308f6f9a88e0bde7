//! The stages of a move, at the registry that has the tenant (the source) and at the one that gets it (the target).
use crate::auth::moved_robots::MovedRobot;
use serde::{Deserialize, Serialize};

/// The stage of a move at one registry.
#[derive(Clone, Copy, Debug, Serialize, Deserialize, PartialEq, Eq)]
#[serde(rename_all = "lowercase")]
pub(crate) enum Stage {
    /// At the source: clients write as always. A restart forgets this stage.
    Copying,
    /// At the source: nobody writes.
    Closed,
    /// At the source: the target has the tenant. Clients never write here again, unless the tenant moves back.
    Left,
    /// At the target: the command alone writes.
    Arriving,
}

/// A stage that a restart keeps.
#[derive(Clone, Debug, PartialEq, Eq)]
pub(crate) struct MoveRow {
    pub(crate) tenant: String,
    pub(crate) stage: Stage,
    /// The URL of the other registry.
    pub(crate) other: String,
    /// The robots that wait for the opening of the tenant here.
    pub(crate) robots: Vec<MovedRobot>,
}

impl Stage {
    /// The stages that a restart keeps.
    const KEPT: [Stage; 3] = [Stage::Closed, Stage::Left, Stage::Arriving];

    /// Returns the name of the stage.
    pub(crate) fn word(self) -> &'static str {
        match self {
            Stage::Copying => "copying",
            Stage::Closed => "closed",
            Stage::Left => "left",
            Stage::Arriving => "arriving",
        }
    }

    /// Returns whether a restart keeps the stage.
    pub(crate) fn is_kept(self) -> bool {
        Stage::KEPT.contains(&self)
    }
}

impl MoveRow {
    /// Returns the text of the stage and of the other registry, for the database. A second line has the robots, if there are any.
    pub(crate) fn text(&self) -> String {
        let robots = match self.robots.is_empty() {
            true => String::new(),
            false => serde_json::to_string(&self.robots).map_or_else(|_| String::new(), |text| format!("\n{text}")),
        };
        format!("{} {}{robots}", self.stage.word(), self.other)
    }

    /// Returns the row of a text of the database, if it is understood.
    pub(crate) fn of(tenant: &str, text: &str) -> Option<MoveRow> {
        let (line, robots) = text.split_once('\n').unwrap_or((text, "[]"));
        let (word, other) = line.split_once(' ')?;
        let stage = Stage::KEPT.into_iter().find(|stage| stage.word() == word)?;
        let robots = serde_json::from_str(robots).unwrap_or_else(|error| {
            tracing::error!(%tenant, %error, "dropped robots that wait for a tenant: their row in the database is damaged");
            Vec::new()
        });
        Some(MoveRow { tenant: tenant.to_string(), stage, other: other.to_string(), robots })
    }
}

#[cfg(test)]
mod tests {
    use super::*;

    #[test]
    fn a_row_has_the_stages_that_a_restart_keeps() {
        for (text, stage) in
            [("closed http://two", Stage::Closed), ("left http://two", Stage::Left), ("arriving x", Stage::Arriving)]
        {
            let row = MoveRow::of("acme", text).unwrap();
            assert_eq!((row.stage, row.text().as_str(), row.stage.is_kept()), (stage, text, true));
        }
        let robot = r#"{"name":"robot+ci","hash":"00","rights":["read acme"],"made":1,"ends":2}"#;
        let text = format!("arriving x\n[{robot},{robot}]");
        let row = MoveRow::of("acme", &text).unwrap();
        assert_eq!((row.other.as_str(), row.robots.len(), row.text()), ("x", 2, text));
        assert!(MoveRow::of("acme", "arriving x\n[{}]").unwrap().robots.is_empty());
        assert!(!Stage::Copying.is_kept());
        for text in ["", "closed", "copying http://two", "Closed x"] {
            assert_eq!(MoveRow::of("acme", text), None, "{text}");
        }
    }
}
