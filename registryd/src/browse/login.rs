//! The login and the logout.
use crate::browse::forms::Form;
use crate::browse::html::{html, Html};
use crate::browse::layout::{failure, go_to, respond, Document};
use crate::browse::places::{is_page, Place};
use crate::browse::visit::{unseen, Visit};
use crate::http::fault::Fault;
use crate::http::responses::HandlerResult;
use hyper::StatusCode;
use std::time::Instant;

/// Returns the page to show after the login: one of this registry.
fn target(path: &str) -> String {
    let is_plain = path.bytes().all(|byte| byte.is_ascii_graphic() && byte != b'\\');
    match is_page(path) && is_plain && !path.contains("//") && !path.starts_with(&Place::Login.to_string()) {
        true => path.to_string(),
        false => Place::Tenants.to_string(),
    }
}

/// Returns the page with the form.
fn form(target: &str, user: &str, notice: Option<Html>) -> Document {
    let body = html!(
        "{}<form class=\"login\" method=\"post\" action=\"{}\"><input type=\"hidden\" name=\"to\" value=\"{}\">\
         <label for=\"user\">User</label><input id=\"user\" name=\"user\" value=\"{}\" required autocomplete=\"username\" \
         autocapitalize=\"off\" spellcheck=\"false\">\
         <label for=\"password\">Password</label><input id=\"password\" name=\"password\" type=\"password\" required \
         autocomplete=\"current-password\"><button class=\"main\">Log in</button></form>",
        notice,
        Place::Login.to_string(),
        target,
        user
    );
    Document { title: "Log in".to_string(), trail: vec![("Tenants".to_string(), Place::Tenants.to_string())], body }
}

fn check_needed(visit: &Visit) -> Result<(), Fault> {
    match visit.registry.access.wants_credentials() {
        true => Ok(()),
        false => Err(unseen()),
    }
}

/// Makes the page of the login.
pub(super) fn page(visit: &Visit) -> Result<Document, Fault> {
    check_needed(visit)?;
    Ok(form(&target(&visit.query("to")), "", None))
}

/// Begins a session if the password is right. An older session of the browser ends.
async fn begin(visit: &Visit, sent: &Form) -> HandlerResult {
    check_needed(visit)?;
    let (user, to) = (sent.value("user"), target(sent.value("to")));
    match visit.registry.access.log_in(user, sent.value("password"), visit.client()).await? {
        Some(login) => {
            visit.note_user(user);
            end(visit);
            let cookie = visit.pages.sessions.begin(login, Instant::now()).map_err(|error| {
                tracing::error!(%error, "cannot begin a session");
                Fault::internal()
            })?;
            go_to(&to, Some(&visit.set_cookie(&cookie)))
        }
        None => {
            let notice = html!("<p class=\"notice\" role=\"alert\">The user or the password is wrong.</p>");
            respond(visit, StatusCode::FORBIDDEN, &form(&to, user, Some(notice)))
        }
    }
}

/// Logs a user in.
pub(super) async fn log_in(visit: &Visit, sent: &Form) -> HandlerResult {
    begin(visit, sent).await.or_else(|fault| failure(visit, &fault))
}

/// Ends the session of a request, if there is one.
fn end(visit: &Visit) {
    if let Some(cookie) = visit.cookie() {
        visit.pages.sessions.end(&cookie);
    }
}

/// Logs a user out.
pub(super) fn log_out(visit: &Visit, sent: &Form) -> HandlerResult {
    if let Err(fault) = visit.check_token(sent) {
        return failure(visit, &fault);
    }
    end(visit);
    go_to(&Place::Tenants.to_string(), Some(&visit.set_cookie("")))
}

#[cfg(test)]
mod tests {
    use super::*;

    #[test]
    fn a_login_leads_to_a_page_of_this_registry() {
        for path in ["/ui/", "/ui/images/acme/web:v1", "/ui/tenants/acme?prefix=a%26b&last=x"] {
            assert_eq!(target(path), path);
        }
        for path in [
            "",
            "/",
            "//evil.example/ui/",
            "https://evil.example",
            "/ui//evil",
            "/ui/\\evil",
            "/ui/\r\nX: y",
            "/v2/",
            "/ui/login?to=x",
        ] {
            assert_eq!(target(path), "/ui/", "{path}");
        }
    }
}
