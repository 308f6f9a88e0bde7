//! What a person calls: asks a registry that runs over its socket, and prints its reply, or reads a folder.
use crate::control::commands::{Command, NewAccount, Reaching, RetentionCommand, RobotCommand};
use crate::control::server::{PREVIEW, ROBOTS};
use crate::folder::contents_list;
use crate::metadata::clock::time_of_day;
use crate::moving;
use crate::operation::reload::read_text;
use hyper::body::HttpBody;
use hyper::header::HOST;
use hyper::{Body, Method, Request, Response};
use serde_json::{json, Value};
use std::io::Write;
use std::path::Path;
use std::process::ExitCode;
use std::time::Duration;
use time::OffsetDateTime;
use tokio::net::UnixStream;
use tokio::time::timeout;

/// The time limit of a part of the reply.
const PART_TIME: Duration = Duration::from_secs(60);

/// Makes a command, and returns the exit status.
pub(crate) fn run(command: &Command) -> ExitCode {
    let runtime = tokio::runtime::Builder::new_current_thread().enable_all().build();
    let made = runtime.map_err(|error| error.to_string()).and_then(|runtime| runtime.block_on(make(command)));
    match made {
        Ok(()) => ExitCode::SUCCESS,
        Err(why) => {
            eprintln!("registryd: {why}");
            ExitCode::FAILURE
        }
    }
}

async fn make(command: &Command) -> Result<(), String> {
    match command {
        Command::Contents(command) => contents_list::print_all(command),
        Command::Move(command) => moving::command::run(command).await,
        Command::Retention(command) => retention(command).await,
        Command::Robot(RobotCommand::Add(account)) => add(account).await,
        Command::Robot(RobotCommand::List(reaching)) => list(reaching).await,
        Command::Robot(RobotCommand::Revoke { name, reaching }) => revoke(name, reaching).await,
    }
}

/// Prints a line. Returns false if nobody reads any more.
pub(crate) fn print(text: &str) -> bool {
    writeln!(std::io::stdout(), "{text}").is_ok()
}

/// Sends a request, and returns the reply.
pub(crate) async fn send(socket: &Path, method: Method, path: &str, content: Vec<u8>) -> Result<Response<Body>, String> {
    let fault = |why: String| format!("cannot reach the registry: {}: {why}", socket.display());
    let request = Request::builder().method(method).uri(path).header(HOST, "localhost").body(Body::from(content));
    let request = request.map_err(|error| fault(error.to_string()))?;
    let asked = async {
        let stream = UnixStream::connect(socket).await.map_err(|error| error.to_string())?;
        let (mut sender, connection) = hyper::client::conn::handshake(stream).await.map_err(|error| error.to_string())?;
        tokio::spawn(connection);
        sender.send_request(request).await.map_err(|error| error.to_string())
    };
    let response = timeout(PART_TIME, asked).await.unwrap_or_else(|_| Err("no reply in time".to_string())).map_err(fault)?;
    match response.status().is_success() {
        true => Ok(response),
        false => Err(message(response).await),
    }
}

/// Returns the next part of a reply.
pub(crate) async fn next_part(body: &mut Body) -> Result<Option<bytes::Bytes>, String> {
    let part = timeout(PART_TIME, body.data()).await.map_err(|_| "the reply does not end in time".to_string())?;
    part.transpose().map_err(|error| format!("the reply is incomplete: {error}"))
}

/// Returns the whole reply as JSON.
pub(crate) async fn value_of(response: Response<Body>) -> Result<Value, String> {
    let (mut body, mut bytes) = (response.into_body(), Vec::new());
    while let Some(part) = next_part(&mut body).await? {
        bytes.extend_from_slice(&part);
    }
    serde_json::from_slice(&bytes).map_err(|error| format!("the reply is not understood: {error}"))
}

/// Returns the message of a failure.
pub(crate) async fn message(response: Response<Body>) -> String {
    let status = response.status();
    match value_of(response).await {
        Ok(value) => value["errors"][0]["message"].as_str().map_or_else(|| status.to_string(), str::to_string),
        Err(_) => status.to_string(),
    }
}

/// Returns a text of a reply.
fn text<'v>(value: &'v Value, name: &str) -> &'v str {
    value[name].as_str().unwrap_or("-")
}

/// Returns the day and time of a number of a reply, in UTC.
fn time_text(value: &Value, name: &str) -> String {
    let time = value[name].as_i64().and_then(|time| OffsetDateTime::from_unix_timestamp(time).ok());
    time.map_or_else(|| "-".to_string(), |time| format!("{} {:02}:{:02}Z", time.date(), time.hour(), time.minute()))
}

/// Prints the tags that rules would remove.
async fn retention(command: &RetentionCommand) -> Result<(), String> {
    if !command.dry_run {
        return Err("a registry applies its rules itself: give --dry-run".to_string());
    }
    let rules = match &command.rules {
        Some(path) => read_text(path).map_err(|error| format!("cannot read the rules: {}: {error}", path.display()))? + "\n",
        None => String::new(),
    };
    let response = send(&command.reaching.control, Method::POST, PREVIEW, rules.into_bytes()).await?;
    let (mut body, mut left, mut last) = (response.into_body(), Vec::new(), None);
    while let Some(part) = next_part(&mut body).await? {
        left.extend_from_slice(&part);
        while let Some(end) = left.iter().position(|byte| *byte == b'\n') {
            let line: Vec<u8> = left.drain(..=end).collect();
            let value: Value = serde_json::from_slice(&line).map_err(|error| format!("the reply is not understood: {error}"))?;
            let shown = if command.reaching.json { value.to_string() } else { tag_text(&value) };
            if !print(&shown) {
                return Ok(());
            }
            last = Some(value);
        }
    }
    match last.filter(|value| value["tags"].is_u64()) {
        Some(_) => Ok(()),
        None => Err("the reply is incomplete".to_string()),
    }
}

/// Returns what is shown of a line: a tag, or the numbers of the last line.
fn tag_text(value: &Value) -> String {
    if let (Some(tags), Some(leaving)) = (value["tags"].as_u64(), value["leaving"].as_u64()) {
        let uncounted = "\npulls are not counted, because --retention is not given: pulled= keeps all tags";
        return format!("{leaving} of {tags} tags would go{}", if value["pulls"].is_null() { uncounted } else { "" });
    }
    let why: Vec<&str> = value["why"].as_array().into_iter().flatten().filter_map(Value::as_str).collect();
    let manifest = match (value["held_by_tag"].as_str(), value["held_by_manifest"].as_str()) {
        (Some(tag), _) => format!("stays: the tag {tag} names it"),
        (_, Some(digest)) => format!("stays: {digest} holds it"),
        _ if value["manifest_goes"] == json!(true) => "goes later, by --keep-untagged".to_string(),
        _ => "stays: --keep-untagged is not given".to_string(),
    };
    let head = format!("{}:{} {}", text(value, "repository"), text(value, "tag"), text(value, "digest"));
    format!("{head}\n    {}\n    the manifest {manifest}", why.join("\n    "))
}

/// Makes an account, and prints its name and its secret.
async fn add(account: &NewAccount) -> Result<(), String> {
    let NewAccount { name, allow, reaching, .. } = account;
    let content = json!({ "name": name, "rights": allow, "ends": account.ends(time_of_day()) }).to_string();
    let value = value_of(send(&reaching.control, Method::POST, ROBOTS, content.into_bytes()).await?).await?;
    match reaching.json {
        true => print(&value.to_string()),
        false => print(&format!("{}\n{}", text(&value, "name"), text(&value, "secret"))),
    };
    Ok(())
}

/// Prints the accounts.
async fn list(reaching: &Reaching) -> Result<(), String> {
    let value = value_of(send(&reaching.control, Method::GET, ROBOTS, Vec::new()).await?).await?;
    if reaching.json {
        print(&value.to_string());
        return Ok(());
    }
    for robot in value["robots"].as_array().into_iter().flatten() {
        let rights: Vec<&str> = robot["rights"].as_array().into_iter().flatten().filter_map(Value::as_str).collect();
        let (name, state, ends) = (text(robot, "name"), text(robot, "state"), time_text(robot, "ends"));
        if !print(&format!("{name}\t{state}\tends {ends}\t{}", rights.join("; "))) {
            break;
        }
    }
    Ok(())
}

/// Revokes an account.
async fn revoke(name: &str, reaching: &Reaching) -> Result<(), String> {
    let path = format!("{ROBOTS}/{}", percent_encoding::utf8_percent_encode(name, percent_encoding::NON_ALPHANUMERIC));
    let value = value_of(send(&reaching.control, Method::DELETE, &path, Vec::new()).await?).await?;
    match reaching.json {
        true => print(&value.to_string()),
        false => print(&format!("revoked {}", text(&value, "name"))),
    };
    Ok(())
}
