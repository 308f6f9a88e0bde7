//! HAProxy with docs/haproxy.cfg: the file of its routes, and its commands at run time.
use std::collections::HashSet;
use std::io::{self, Read, Write};
use std::os::unix::net::UnixStream;
use std::path::{Path, PathBuf};
use std::time::{Duration, Instant};
use tokio::task::spawn_blocking;
use tokio::time::sleep;

/// The end of a route whose writes wait.
const HOLD: &str = "/hold";

/// The time for which requests that passed before a hold are waited for, and the pause between two looks.
const PASSING: Duration = Duration::from_millis(700);
const LOOK: Duration = Duration::from_millis(10);

/// The time limit of a command.
const LIMIT: Duration = Duration::from_secs(5);

/// The balancer in front of both registries.
pub(super) struct Balancer {
    socket: PathBuf,
    /// The file of the routes, one `TENANT SERVER` a line.
    routes: PathBuf,
    /// The name of the routes in commands.
    map: String,
    tenant: String,
    /// The server that gets the tenant.
    server: String,
}

/// Returns the names of the streams to a server in the reply of `show sess`.
fn streams(reply: &str, server: &str) -> HashSet<String> {
    let backend = format!("be={server}");
    let own = reply.lines().filter(|line| line.split_whitespace().any(|word| word == backend));
    own.filter_map(|line| line.split_whitespace().next()).map(str::to_string).collect()
}

/// Returns the lines of the routes with the server of a tenant replaced.
fn with_route(text: &str, tenant: &str, server: &str) -> String {
    let is_other = |line: &&str| line.split_whitespace().next() != Some(tenant);
    let mut lines: Vec<&str> = text.lines().filter(is_other).collect();
    let own = format!("{tenant} {server}");
    lines.push(&own);
    lines.join("\n") + "\n"
}

/// Returns the server of a tenant in the reply of `show map`, whose lines are an address, the tenant, and the server.
fn route_of(reply: &str, tenant: &str) -> Option<String> {
    let lines = reply.lines().map(|line| line.split_whitespace().collect::<Vec<_>>());
    lines.into_iter().find_map(|words| match words[..] {
        [_, name, server] if name == tenant => Some(server.trim_end_matches(HOLD).to_string()),
        _ => None,
    })
}

/// Writes a file in the place of another, so that a reader gets either.
fn replace(path: &Path, text: &str) -> io::Result<()> {
    let permissions = std::fs::metadata(path)?.permissions();
    let mut name = path.as_os_str().to_owned();
    name.push(".new");
    std::fs::write(&name, text)?;
    std::fs::set_permissions(&name, permissions)?;
    std::fs::File::open(&name)?.sync_all()?;
    std::fs::rename(&name, path)
}

/// Sends a line to a socket, and returns all that comes.
fn ask(socket: &Path, line: &str) -> io::Result<String> {
    let mut stream = UnixStream::connect(socket)?;
    stream.set_read_timeout(Some(LIMIT))?;
    stream.set_write_timeout(Some(LIMIT))?;
    stream.write_all(line.as_bytes())?;
    let mut reply = String::new();
    stream.read_to_string(&mut reply)?;
    Ok(reply)
}

impl Balancer {
    /// Reaches a balancer whose routes are in a file.
    ///
    /// # Errors
    ///
    /// - The balancer does not reply, or its routes are not those of the file.
    /// - The tenant has no route, or the server does not exist.
    pub(super) async fn new(socket: PathBuf, routes: PathBuf, tenant: &str, server: &str) -> Result<Balancer, String> {
        let map = routes.file_name().and_then(|name| name.to_str()).unwrap_or_default().to_string();
        let (tenant, server) = (tenant.to_string(), server.to_string());
        let balancer = Balancer { socket, routes, map, tenant, server };
        balancer.route().await?;
        let servers = balancer.ask(&format!("show servers state {}", balancer.server)).await?;
        if !servers.lines().any(|line| line.split_whitespace().nth(3) == Some(&balancer.server)) {
            return Err(format!("HAProxy has no server {}", balancer.server));
        }
        std::fs::read_to_string(&balancer.routes).map_err(|error| balancer.file_fault(&error))?;
        Ok(balancer)
    }

    fn file_fault(&self, error: &io::Error) -> String {
        format!("cannot change the routes: {}: {error}", self.routes.display())
    }

    /// Sends a command, and returns the reply.
    async fn ask(&self, command: &str) -> Result<String, String> {
        let (socket, line) = (self.socket.clone(), format!("{command}\n"));
        let asked = spawn_blocking(move || ask(&socket, &line)).await;
        let reply = asked.map_err(|error| error.to_string())?;
        reply.map_err(|error| format!("cannot command HAProxy: {}: {error}", self.socket.display()))
    }

    /// Returns the server that has the tenant.
    pub(super) async fn route(&self) -> Result<String, String> {
        let reply = self.ask(&format!("show map {}", self.map)).await?;
        route_of(&reply, &self.tenant)
            .ok_or_else(|| format!("HAProxy has no route of {}: give it a line in {}", self.tenant, self.routes.display()))
    }

    /// Sets the route of the balancer that runs.
    async fn set(&self, server: &str) -> Result<(), String> {
        let reply = self.ask(&format!("set map {} {} {server}", self.map, self.tenant)).await?;
        match reply.trim() {
            "" => Ok(()),
            why => Err(format!("HAProxy does not set the route of {}: {why}", self.tenant)),
        }
    }

    /// Lets the tenant's writes wait, but for those that continue an open upload. Then waits for the requests to the server that has it which
    /// passed before, for a short time: they may be slow pulls.
    pub(super) async fn hold(&self) -> Result<(), String> {
        let server = self.route().await?;
        self.set(&format!("{server}{HOLD}")).await?;
        let begun = Instant::now();
        let passed = streams(&self.ask("show sess").await?, &server);
        while begun.elapsed() < PASSING && !streams(&self.ask("show sess").await?, &server).is_disjoint(&passed) {
            sleep(LOOK).await;
        }
        Ok(())
    }

    /// Lets the tenant's writes go on to the server that has it.
    pub(super) async fn release(&self) -> Result<(), String> {
        let server = self.route().await?;
        self.set(&server).await
    }

    /// Sends the tenant's requests to its new server, also after a restart of the balancer.
    pub(super) async fn switch(&self) -> Result<(), String> {
        let text = std::fs::read_to_string(&self.routes).map_err(|error| self.file_fault(&error))?;
        let text = with_route(&text, &self.tenant, &self.server);
        replace(&self.routes, &text).map_err(|error| self.file_fault(&error))?;
        self.set(&self.server).await
    }
}

#[cfg(test)]
mod tests {
    use super::*;

    #[test]
    fn a_route_is_replaced() {
        let text = "# routes\nacme one\nother one\n\nacme-2  one\n";
        assert_eq!(with_route(text, "acme", "two"), "# routes\nother one\n\nacme-2  one\nacme two\n");
        assert_eq!(with_route("", "acme", "two"), "acme two\n");
    }

    #[test]
    fn a_reply_has_the_streams_of_a_server() {
        let reply = "0x1: proto=tcpv4 src=127.0.0.1:1 fe=registry be=one srv=one ts=00 age=0s\n0x2: proto=unix_stream fe=GLOBAL be=<NONE>\n\
                     0x3: proto=tcpv4 fe=registry be=two srv=two\n0x4: proto=tcpv4 fe=registry be=one srv=<none>\n\n";
        assert_eq!(streams(reply, "one"), ["0x1:", "0x4:"].map(str::to_string).into());
        assert!(streams(reply, "three").is_empty() && streams("", "one").is_empty());
    }

    #[test]
    fn a_reply_has_the_route() {
        let reply = "0x55d0 acme-2 two\n0x55d1 acme one/hold\n0x55d2 other one\n\n";
        let of = |tenant: &str| route_of(reply, tenant);
        assert_eq!((of("acme").as_deref(), of("other").as_deref(), of("none")), (Some("one"), Some("one"), None));
        assert_eq!(route_of("Unknown map identifier. Please use #<id> or <file>.\n", "acme"), None);
    }
}
