//! Forms: where they come from, and what they have.
use crate::http::fault::Fault;
use hyper::header::{CONTENT_TYPE, HOST, ORIGIN};
use hyper::{HeaderMap, StatusCode};

/// The header by which a browser says what sent a request (Fetch Metadata Request Headers, 2.4). No page can set it.
const SENT_BY: &str = "sec-fetch-site";

const FORM_TYPE: &str = "application/x-www-form-urlencoded";

/// What a form has.
pub(super) struct Form(Vec<(String, String)>);

impl Form {
    /// Reads the content of a form that a page of this registry sent.
    ///
    /// # Errors
    ///
    /// - The content is no form.
    /// - Another site sent it.
    pub(super) fn of(headers: &HeaderMap, content: &str) -> Result<Form, Fault> {
        let kind = text_of(headers, CONTENT_TYPE.as_str()).unwrap_or_default();
        if kind.split(';').next().map(str::trim) != Some(FORM_TYPE) {
            let message = format!("a form has the type {FORM_TYPE}");
            return Err(Fault::new(StatusCode::UNSUPPORTED_MEDIA_TYPE, "UNSUPPORTED", message));
        }
        match is_of_this_site(headers) {
            true => Ok(Form(form_urlencoded::parse(content.as_bytes()).into_owned().collect())),
            false => Err(Fault::new(StatusCode::FORBIDDEN, "DENIED", "the form was not sent by a page of this registry")),
        }
    }

    /// Returns the first value of a name, or nothing.
    pub(super) fn value(&self, name: &str) -> &str {
        self.0.iter().find(|(key, _)| key == name).map_or("", |(_, value)| value)
    }
}

fn text_of<'h>(headers: &'h HeaderMap, name: &str) -> Option<&'h str> {
    headers.get(name)?.to_str().ok()
}

/// Returns whether a page of this registry sent a request: the browser says so, or its origin has the host of the request. A browser
/// sends at least the origin (Fetch, 3.2). The scheme may differ, because a proxy may end TLS.
fn is_of_this_site(headers: &HeaderMap) -> bool {
    if let Some(sender) = headers.get(SENT_BY) {
        return sender == "same-origin";
    }
    let host = text_of(headers, HOST.as_str()).filter(|host| !host.is_empty());
    let origin = text_of(headers, ORIGIN.as_str()).and_then(|origin| origin.split_once("://")).map(|(_, host)| host);
    matches!((host, origin), (Some(host), Some(origin)) if host.eq_ignore_ascii_case(origin))
}

#[cfg(test)]
mod tests {
    use super::*;
    use hyper::header::{HeaderName, HeaderValue};

    fn is_own(headers: &[(&str, &str)]) -> bool {
        let of = |(name, value): &(&str, &str)| {
            (HeaderName::from_bytes(name.as_bytes()).unwrap(), HeaderValue::from_str(value).unwrap())
        };
        is_of_this_site(&headers.iter().map(of).collect())
    }

    #[test]
    fn a_form_of_another_site_is_refused() {
        let host = ("host", "registry.example:5000");
        for (headers, expected) in [
            (vec![host, ("sec-fetch-site", "same-origin")], true),
            (vec![host, ("origin", "https://registry.example:5000")], true),
            (vec![host, ("origin", "http://REGISTRY.example:5000")], true),
            (vec![host, ("origin", "http://registry.example")], false),
            (vec![host, ("origin", "http://evil.example")], false),
            (vec![host, ("origin", "http://registry.example:5000.evil.example")], false),
            (vec![host, ("origin", "null")], false),
            (vec![host, ("origin", "://")], false),
            (vec![host], false),
            (vec![host, ("referer", "http://registry.example:5000/ui/")], false),
            (vec![("host", ""), ("origin", "http://")], false),
            (vec![host, ("sec-fetch-site", "cross-site"), ("origin", "http://registry.example:5000")], false),
            (vec![host, ("sec-fetch-site", "same-site"), ("origin", "http://registry.example:5000")], false),
            (vec![host, ("sec-fetch-site", "none"), ("origin", "http://registry.example:5000")], false),
        ] {
            assert_eq!(is_own(&headers), expected, "{headers:?}");
        }
    }

    #[test]
    fn a_form_has_the_first_value_of_a_name() {
        let form = Form(form_urlencoded::parse(b"user=a%26b&password=c+d&user=x").into_owned().collect());
        assert_eq!((form.value("user"), form.value("password"), form.value("to")), ("a&b", "c d", ""));
    }
}
