//! The form of an event, which is that of Distribution (`application/vnd.docker.distribution.events.v1+json`).
use crate::metadata::clock;
use serde::{Deserialize, Serialize};
use std::sync::Arc;
use std::time::SystemTime;
use uuid::Uuid;

/// The media type of an envelope of events.
pub(super) const MEDIA_TYPE: &str = "application/vnd.docker.distribution.events.v1+json";

/// What happened.
#[derive(Clone, Copy, Debug, PartialEq, Eq, Serialize, Deserialize)]
#[serde(rename_all = "lowercase")]
pub(crate) enum Action {
    Pull,
    Push,
    Mount,
    Delete,
}

/// What it happened to.
#[derive(Clone, Debug, Default, Serialize)]
#[serde(rename_all = "camelCase")]
pub(crate) struct Target {
    #[serde(skip_serializing_if = "Option::is_none")]
    pub(super) media_type: Option<String>,
    #[serde(skip_serializing_if = "Option::is_none")]
    pub(super) size: Option<u64>,
    #[serde(skip_serializing_if = "Option::is_none")]
    pub(super) digest: Option<String>,
    /// The same as `size`.
    #[serde(skip_serializing_if = "Option::is_none")]
    pub(super) length: Option<u64>,
    pub(super) repository: String,
    #[serde(skip_serializing_if = "Option::is_none")]
    pub(super) from_repository: Option<String>,
    #[serde(skip_serializing_if = "Option::is_none")]
    pub(super) url: Option<String>,
    #[serde(skip_serializing_if = "Option::is_none")]
    pub(super) tag: Option<String>,
}

/// The request that an event comes from. That of the registry's own work has no address and empty texts.
#[derive(Clone, Debug, Default, Serialize)]
pub(crate) struct RequestRecord {
    pub(super) id: String,
    #[serde(skip_serializing_if = "Option::is_none")]
    pub(super) addr: Option<String>,
    #[serde(skip_serializing_if = "Option::is_none")]
    pub(super) host: Option<String>,
    pub(super) method: String,
    pub(super) useragent: String,
}

/// The sender of the request.
#[derive(Clone, Debug, Default, Serialize)]
pub(super) struct Actor {
    #[serde(skip_serializing_if = "Option::is_none")]
    pub(super) name: Option<String>,
}

/// The registry that makes the events.
#[derive(Clone, Debug, Serialize)]
pub(crate) struct Source {
    pub(super) addr: String,
    #[serde(rename = "instanceID")]
    pub(super) instance_id: String,
}

/// Where an event comes from.
#[derive(Debug)]
pub(crate) struct Origin {
    pub(super) request: RequestRecord,
    pub(super) actor: Actor,
    pub(super) source: Arc<Source>,
}

#[derive(Serialize)]
struct Form<'f> {
    id: String,
    timestamp: String,
    action: Action,
    target: &'f Target,
    request: &'f RequestRecord,
    actor: &'f Actor,
    source: &'f Source,
}

/// An event that is recorded if its change is made. It gets its id and its time then.
#[derive(Clone, Debug)]
pub(crate) struct Draft {
    pub(super) action: Action,
    pub(super) target: Target,
    pub(super) origin: Arc<Origin>,
}

impl Draft {
    /// Makes the event.
    fn finish(&self) -> Event {
        let Draft { action, target, origin } = self;
        let form = Form {
            id: Uuid::new_v4().to_string(),
            timestamp: humantime::format_rfc3339_micros(SystemTime::now()).to_string(),
            action: *action,
            target,
            request: &origin.request,
            actor: &origin.actor,
            source: &origin.source,
        };
        let text = serde_json::to_string(&form).expect("texts and numbers have a form");
        Event { action: *action, media_type: target.media_type.clone(), time: clock::time_of_day(), text }
    }

    /// Makes the event of one tag.
    fn finish_tag(&self, tag: String) -> Event {
        let target = Target { tag: Some(tag), ..self.target.clone() };
        Draft { target, ..self.clone() }.finish()
    }
}

/// What a change did to the tags of a repository.
#[derive(Clone, Debug, PartialEq, Eq)]
pub(crate) enum Effect {
    /// It changed nothing.
    Nothing,
    /// It was made.
    Made,
    /// It was made, and removed or restored these tags.
    Tags(Vec<String>),
}

/// The events of a change.
#[derive(Clone, Debug)]
pub(crate) struct Report {
    pub(super) event: Option<Draft>,
    /// The event of each tag that the change removes or restores.
    pub(super) each_tag: Option<Draft>,
}

impl Report {
    /// Returns the events of a change after it was made.
    pub(crate) fn events(&self, effect: Effect) -> Vec<Event> {
        let tags = match effect {
            Effect::Nothing => return Vec::new(),
            Effect::Made => Vec::new(),
            Effect::Tags(tags) => tags,
        };
        let mut events: Vec<Event> = self.event.iter().map(Draft::finish).collect();
        if let Some(draft) = &self.each_tag {
            events.extend(tags.into_iter().map(|tag| draft.finish_tag(tag)));
        }
        events
    }
}

/// An event, and what decides who gets it.
#[derive(Debug, PartialEq, Eq)]
pub(crate) struct Event {
    pub(super) action: Action,
    pub(super) media_type: Option<String>,
    /// Its time, in seconds since 1970.
    pub(crate) time: u64,
    /// Its JSON.
    pub(crate) text: String,
}

#[derive(Deserialize)]
struct StoredTarget {
    #[serde(rename = "mediaType")]
    media_type: Option<String>,
}

#[derive(Deserialize)]
struct Stored {
    action: Action,
    target: StoredTarget,
}

impl Event {
    /// Reads an event of a database. Returns `None` if the text is no event.
    pub(crate) fn of_text(time: u64, text: String) -> Option<Event> {
        let stored: Stored = serde_json::from_str(&text).ok()?;
        Some(Event { action: stored.action, media_type: stored.target.media_type, time, text })
    }
}

/// Returns the envelope of events.
pub(super) fn envelope<'e>(texts: impl Iterator<Item = &'e str>) -> String {
    let texts: Vec<&str> = texts.collect();
    format!("{{\"events\":[{}]}}", texts.join(","))
}

#[cfg(test)]
pub(crate) mod tests {
    use super::*;
    use serde_json::{json, Value};

    /// Returns the events of a manifest that is deleted, and of its tags.
    pub(crate) fn report() -> Report {
        let deleted = draft(Action::Delete, Target { repository: "acme/web".to_string(), ..Target::default() });
        Report { event: Some(deleted.clone()), each_tag: Some(deleted) }
    }

    fn draft(action: Action, target: Target) -> Draft {
        let source = Arc::new(Source { addr: "host:5000".to_string(), instance_id: "i".to_string() });
        let actor = Actor { name: Some("acme".to_string()) };
        Draft { action, target, origin: Arc::new(Origin { request: RequestRecord::default(), actor, source }) }
    }

    fn parsed(event: &Event) -> Value {
        serde_json::from_str(&event.text).unwrap()
    }

    #[test]
    fn an_event_has_the_fields_that_are_known() {
        let target = Target { repository: "acme/a".to_string(), digest: Some("sha256:a".to_string()), ..Target::default() };
        let report = Report { event: Some(draft(Action::Delete, target)), each_tag: None };
        let mut form = parsed(&report.events(Effect::Made)[0]);
        assert!(Uuid::parse_str(form["id"].as_str().unwrap()).is_ok());
        let time = form["timestamp"].as_str().unwrap();
        assert!(humantime::parse_rfc3339(time).is_ok() && time.ends_with('Z'), "{time}");
        form["id"].take();
        form["timestamp"].take();
        let expected = json!({
            "id": null,
            "timestamp": null,
            "action": "delete",
            "target": { "repository": "acme/a", "digest": "sha256:a" },
            "request": { "id": "", "method": "", "useragent": "" },
            "actor": { "name": "acme" },
            "source": { "addr": "host:5000", "instanceID": "i" },
        });
        assert_eq!(form, expected);
        assert!(report.events(Effect::Nothing).is_empty());
    }

    #[test]
    fn each_tag_has_an_event_of_its_own() {
        let events = report().events(Effect::Tags(vec!["v1".to_string(), "v2".to_string()]));
        let tags: Vec<Value> = events.iter().map(|event| parsed(event)["target"]["tag"].clone()).collect();
        assert_eq!(tags, [Value::Null, json!("v1"), json!("v2")]);
    }

    #[test]
    fn a_stored_event_is_read() {
        let target = Target { media_type: Some("a/b".to_string()), ..Target::default() };
        let event = draft(Action::Pull, target).finish();
        assert_eq!(Event::of_text(event.time, event.text.clone()), Some(event));
        assert_eq!(Event::of_text(1, "{}".to_string()), None);
    }

    #[test]
    fn an_envelope_has_several() {
        let form: Value = serde_json::from_str(&envelope(["{\"id\":\"1\"}", "{\"id\":\"2\"}"].into_iter())).unwrap();
        assert_eq!(form, json!({ "events": [{ "id": "1" }, { "id": "2" }] }));
    }
}
