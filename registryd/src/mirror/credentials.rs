//! The users and passwords with which mirrors ask their upstreams, one `TENANT USER:PASSWORD` a line of a file.
use crate::metadata::names::is_component;
use crate::operation::reload::{parse_lines, read_parsed};
use std::collections::HashMap;
use std::path::Path;

/// For each tenant, the text `USER:PASSWORD`.
#[derive(Default, PartialEq, Eq)]
pub(crate) struct Credentials(HashMap<String, String>);

/// Parses a line. The message of a failure does not quote it.
fn parse_line(line: &str) -> Result<(String, String), &'static str> {
    let (tenant, login) = line.split_once(char::is_whitespace).ok_or("not TENANT USER:PASSWORD")?;
    let login = login.trim_start();
    match login.split_once(':') {
        Some((user, password)) if is_component(tenant) && !user.is_empty() && !password.is_empty() => {
            Ok((tenant.to_string(), login.to_string()))
        }
        _ => Err("not TENANT USER:PASSWORD"),
    }
}

impl Credentials {
    /// Reads the lines of a file.
    ///
    /// # Errors
    ///
    /// - The file cannot be read.
    /// - A line is not `TENANT USER:PASSWORD`, or its tenant has another line. The message has its number.
    pub(crate) fn read(path: &Path) -> Result<Credentials, String> {
        read_parsed(path, "credentials of mirrors", Credentials::parse)
    }

    fn parse(text: &str) -> Result<Credentials, String> {
        let mut by_tenant = HashMap::new();
        for (number, (tenant, login)) in parse_lines(text, |number, line| Ok((number, parse_line(line)?)))? {
            if by_tenant.insert(tenant, login).is_some() {
                return Err(format!("line {number}: the tenant has another line"));
            }
        }
        Ok(Credentials(by_tenant))
    }

    /// Returns the value of a header `Authorization` for the upstream of a tenant (RFC 7617, 2).
    pub(super) fn basic(&self, tenant: &str) -> Option<String> {
        self.0.get(tenant).map(|login| format!("Basic {}", base64::encode(login)))
    }
}

#[cfg(test)]
mod tests {
    use super::*;

    #[test]
    fn a_line_has_a_tenant_and_a_login() {
        let read = Credentials::parse("# comment\nhub  Aladdin:open sesame \nacme a:b:c\n").ok().unwrap();
        // The example of RFC 7617, 2.
        assert_eq!(read.basic("hub").as_deref(), Some("Basic QWxhZGRpbjpvcGVuIHNlc2FtZQ=="));
        assert_eq!((read.0["acme"].as_str(), read.basic("other")), ("a:b:c", None));
    }

    #[test]
    fn a_message_has_no_password() {
        for line in ["hub", "hub secret", "hub :secret", "hub user:", "Hub user:secret", "acme a:secret"] {
            let why = Credentials::parse(&format!("acme a:b\n{line}\n")).err().unwrap();
            assert!(why.starts_with("line 2: ") && !why.contains("secret"), "{why}");
        }
    }
}
