//! The frame of each page, the parts that pages share, and the headers of their responses.
use crate::browse::html::{html, Html};
use crate::browse::places::Place;
use crate::browse::visit::Visit;
use crate::http::fault::Fault;
use crate::http::responses::{with_body, HandlerResult};
use crate::metadata::names::tenant_of;
use hyper::{Body, StatusCode};

/// What a browser may do with a page: it loads the style, the script and the icon of this registry, sends forms to it, and runs no
/// script that is in a page (Content Security Policy Level 3).
const POLICY: &str =
    "default-src 'none'; style-src 'self'; script-src 'self'; img-src 'self'; form-action 'self'; base-uri 'none'; \
                      frame-ancestors 'none'";

/// The headers of each page. With `same-origin` a browser sends the origin with a form, but no path to other sites.
const HEADERS: [(&str, &str); 6] = [
    ("Content-Type", "text/html; charset=utf-8"),
    ("Content-Security-Policy", POLICY),
    ("X-Frame-Options", "DENY"),
    ("Referrer-Policy", "same-origin"),
    ("Cross-Origin-Opener-Policy", "same-origin"),
    ("Cache-Control", "no-store"),
];

/// A page without its frame.
pub(super) struct Document {
    pub(super) title: String,
    /// The pages above it, from the first, each with its name and its path.
    pub(super) trail: Vec<(String, String)>,
    pub(super) body: Html,
}

/// Returns the trail to a repository, with it if `has_repo`.
pub(super) fn trail(repo: &str, has_repo: bool) -> Vec<(String, String)> {
    let tenant = tenant_of(repo);
    let mut trail =
        vec![("Tenants".to_string(), Place::Tenants.to_string()), (tenant.to_string(), Place::Tenant(tenant).to_string())];
    if has_repo {
        trail.push((repo.to_string(), Place::Repository(repo).to_string()));
    }
    trail
}

/// Returns a link.
pub(super) fn link(path: impl ToString, text: Html) -> Html {
    html!("<a href=\"{}\">{}</a>", path.to_string(), text)
}

/// Returns a table. The first cell of a row is its header. The roles are written because the style changes how the parts are displayed,
/// which would take them away.
pub(super) fn table(caption: &str, columns: &[&str], rows: impl IntoIterator<Item = Vec<Html>>) -> Html {
    let head: Html = columns.iter().map(|name| html!("<th role=\"columnheader\" scope=\"col\">{}</th>", name)).sum();
    let row = |cells: Vec<Html>| {
        let cell = |(at, cell): (usize, Html)| match at {
            0 => html!("<th role=\"rowheader\" scope=\"row\">{}</th>", cell),
            at => html!("<td role=\"cell\"><span class=\"label\" aria-hidden=\"true\">{}</span>{}</td>", columns[at], cell),
        };
        html!("<tr role=\"row\">{}</tr>", cells.into_iter().enumerate().map(cell).sum::<Html>())
    };
    let rows: Html = rows.into_iter().map(row).sum();
    html!(
        "<table role=\"table\"><caption>{}</caption><thead role=\"rowgroup\"><tr role=\"row\">{}</tr></thead>\
         <tbody role=\"rowgroup\">{}</tbody></table>",
        caption,
        head,
        rows
    )
}

/// Returns links to the first page of a list and to the next one, as far as they are of use.
pub(super) fn pager(is_first: bool, first: &str, next: Option<String>) -> Html {
    let back = if is_first { None } else { Some(link(first, html!("First page"))) };
    let next = next.map(|next| html!("<a rel=\"next\" href=\"{}\">Next page</a>", next));
    match back.is_some() || next.is_some() {
        true => html!("<nav class=\"pager\" aria-label=\"Pages\">{}{}</nav>", back, next),
        false => Html::default(),
    }
}

/// Returns a form that asks for a list of the names that begin with a text.
pub(super) fn filter(path: &Place<'_>, label: &str, value: &str) -> Html {
    html!(
        "<form class=\"filter\" action=\"{}\" role=\"search\"><label for=\"prefix\">{}</label>\
         <input id=\"prefix\" name=\"prefix\" value=\"{}\" autocomplete=\"off\" autocapitalize=\"off\" spellcheck=\"false\">\
         <button>Filter</button></form>",
        path.to_string(),
        label,
        value
    )
}

/// Returns a command that can be copied.
pub(super) fn command(text: &str) -> Html {
    html!("<div class=\"command\"><code>{}</code></div>", text)
}

/// Returns the part of the frame that is about the sender: the name and a button, or a link to the login.
fn account(visit: &Visit) -> Html {
    match &visit.session {
        Some(session) => html!(
            "<form method=\"post\" action=\"{}\"><span>Logged in as <strong>{}</strong></span>\
             <input type=\"hidden\" name=\"token\" value=\"{}\"><button>Log out</button></form>",
            Place::Logout.to_string(),
            session.login.name(),
            visit.token()
        ),
        None if visit.registry.access.wants_credentials() && !visit.is_at(Place::Login) => {
            link(Place::Login.with(&[("to", visit.path())]), html!("Log in"))
        }
        None => Html::default(),
    }
}

fn breadcrumb(trail: &[(String, String)]) -> Html {
    if trail.is_empty() {
        return Html::default();
    }
    let items: Html = trail.iter().map(|(name, path)| html!("<li>{}</li>", link(path, html!("{}", name)))).sum();
    html!("<nav class=\"trail\" aria-label=\"Pages above this one\"><ol>{}</ol></nav>", items)
}

/// Returns the response with a page.
pub(super) fn respond(visit: &Visit, status: StatusCode, document: &Document) -> HandlerResult {
    let Document { title, trail, body } = document;
    let page = html!(
        "<!DOCTYPE html>\n<html lang=\"en\"><head><meta charset=\"utf-8\">\
         <meta name=\"viewport\" content=\"width=device-width, initial-scale=1\"><meta name=\"color-scheme\" content=\"light dark\">\
         <title>{} – {}</title><link rel=\"stylesheet\" href=\"{}\"><link rel=\"icon\" type=\"image/svg+xml\" href=\"{}\">\
         <script src=\"{}\" defer></script></head>\n\
         <body><a class=\"skip\" href=\"#content\">Skip to the content</a>\
         <header><div><a class=\"home\" href=\"{}\">{}</a><nav aria-label=\"Account\">{}</nav></div></header>\n\
         <main id=\"content\" tabindex=\"-1\">{}<h1>{}</h1>\n{}</main></body></html>\n",
        title,
        visit.host(),
        Place::Style.to_string(),
        Place::Icon.to_string(),
        Place::Script.to_string(),
        Place::Tenants.to_string(),
        visit.host(),
        account(visit),
        breadcrumb(trail),
        title,
        body
    );
    with_body(status, &HEADERS, Body::from(page.into_text()))
}

/// Returns the response to a form after which a browser asks for another page.
pub(super) fn go_to(path: &str, cookie: Option<&str>) -> HandlerResult {
    let mut headers = vec![("Location", path), ("Cache-Control", "no-store")];
    headers.extend(cookie.map(|cookie| ("Set-Cookie", cookie)));
    with_body(StatusCode::SEE_OTHER, &headers, Body::empty())
}

/// Returns a message as a sentence.
fn sentence(message: &str) -> String {
    let mut letters = message.chars();
    let first = letters.next().map_or(String::new(), |letter| letter.to_uppercase().collect());
    let end = if message.ends_with('.') { "" } else { "." };
    format!("{first}{}{end}", letters.as_str())
}

/// Returns the response for a failure. A browser would ask for a password itself after a 401.
pub(super) fn failure(visit: &Visit, fault: &Fault) -> HandlerResult {
    let status = match fault.status() {
        StatusCode::UNAUTHORIZED => StatusCode::FORBIDDEN,
        status => status,
    };
    let title = match status {
        StatusCode::NOT_FOUND => "Not found",
        StatusCode::FORBIDDEN | StatusCode::CONFLICT => "Refused",
        StatusCode::SERVICE_UNAVAILABLE | StatusCode::TOO_MANY_REQUESTS => "Not now",
        _ => "Failed",
    };
    let may_log_in = visit.session.is_none() && visit.registry.access.wants_credentials();
    let hint = may_log_in.then(|| html!("<p>You may see more after a login.</p>"));
    let body = html!("<p class=\"notice\">{}</p>{}", sentence(fault.message()), hint);
    let trail = vec![("Tenants".to_string(), Place::Tenants.to_string())];
    respond(visit, status, &Document { title: title.to_string(), trail, body })
}

/// Returns a file that all pages use.
pub(super) fn asset(kind: &str, text: &'static str) -> HandlerResult {
    with_body(StatusCode::OK, &[("Content-Type", kind), ("Cache-Control", "max-age=300")], Body::from(text))
}

#[cfg(test)]
mod tests {
    use super::*;

    #[test]
    fn a_message_becomes_a_sentence() {
        assert_eq!(sentence("the tag is gone"), "The tag is gone.");
        assert_eq!((sentence("There is none."), sentence("")), ("There is none.".to_string(), ".".to_string()));
    }

    #[test]
    fn a_table_names_its_cells() {
        let shown = table("Tags", &["Tag", "Size"], [vec![html!("v1"), html!("{}", "<1 B")]]).into_text();
        for part in ["<caption>Tags</caption>", "<th role=\"rowheader\" scope=\"row\">v1</th>", ">Size</span>&lt;1 B</td>"] {
            assert!(shown.contains(part), "{shown}");
        }
    }

    #[test]
    fn a_short_list_has_no_pager() {
        assert!(pager(true, "/ui/", None).is_empty());
        let both = pager(false, "/ui/", Some("/ui/?last=a&b".to_string())).into_text();
        assert!(both.contains("First page") && both.contains("href=\"/ui/?last=a&amp;b\""), "{both}");
    }
}
