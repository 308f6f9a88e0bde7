//! The header `WWW-Authenticate` of an upstream (RFC 9110, 11.6.1; RFC 6750, 3).
use hyper::header::{HeaderMap, WWW_AUTHENTICATE};

/// How an upstream wants requests to be authenticated.
#[derive(Clone, Debug, PartialEq, Eq)]
pub(super) enum Challenge {
    Basic,
    /// By a token of the server at `realm`.
    Bearer {
        realm: String,
        service: Option<String>,
        scope: Option<String>,
    },
}

impl Challenge {
    /// Returns the first challenge of a response that is known, a token first.
    pub(super) fn of(headers: &HeaderMap) -> Option<Challenge> {
        let texts = headers.get_all(WWW_AUTHENTICATE).iter().filter_map(|value| value.to_str().ok());
        let mut found: Vec<Challenge> = texts.flat_map(parse).collect();
        found.sort_by_key(|challenge| *challenge == Challenge::Basic);
        found.into_iter().next()
    }
}

/// The part of a header that was not read yet.
struct Rest<'t>(&'t str);

impl<'t> Rest<'t> {
    fn skip(&mut self, which: &[char]) {
        self.0 = self.0.trim_start_matches(which);
    }

    /// Takes a token (RFC 9110, 5.6.2), which may be empty.
    fn token(&mut self) -> &'t str {
        let is_in = |byte: u8| byte.is_ascii_alphanumeric() || b"!#$%&'*+-.^_`|~/".contains(&byte);
        let end = self.0.bytes().position(|byte| !is_in(byte)).unwrap_or(self.0.len());
        let (token, rest) = self.0.split_at(end);
        self.0 = rest;
        token
    }

    /// Takes a token or a quoted string (RFC 9110, 5.6.4).
    fn value(&mut self) -> Option<String> {
        let quoted = match self.0.strip_prefix('"') {
            Some(quoted) => quoted,
            None => return Some(self.token().to_string()),
        };
        let mut text = String::new();
        let mut letters = quoted.char_indices();
        while let Some((at, letter)) = letters.next() {
            match letter {
                '"' => {
                    self.0 = &quoted[at + 1..];
                    return Some(text);
                }
                '\\' => text.push(letters.next()?.1),
                _ => text.push(letter),
            }
        }
        None
    }
}

/// Returns the challenges of a header that are known. What follows a malformed part is dropped.
fn parse(text: &str) -> Vec<Challenge> {
    let mut rest = Rest(text);
    let mut schemes: Vec<(String, Vec<(String, String)>)> = Vec::new();
    loop {
        rest.skip(&[' ', ',', '\t']);
        let word = rest.token();
        if word.is_empty() {
            break;
        }
        rest.skip(&[' ', '\t']);
        match (rest.0.strip_prefix('='), schemes.last_mut()) {
            (Some(after), Some((_, parameters))) => {
                rest = Rest(after.trim_start());
                match rest.value() {
                    Some(value) => parameters.push((word.to_ascii_lowercase(), value)),
                    None => break,
                }
            }
            (Some(_), None) => break,
            (None, _) => schemes.push((word.to_ascii_lowercase(), Vec::new())),
        }
    }
    schemes.into_iter().filter_map(|(scheme, parameters)| known(&scheme, &parameters)).collect()
}

/// Returns the challenge of a scheme with parameters, if it is known.
fn known(scheme: &str, parameters: &[(String, String)]) -> Option<Challenge> {
    let value = |name: &str| parameters.iter().find(|(own, _)| own == name).map(|(_, value)| value.clone());
    match scheme {
        "basic" => Some(Challenge::Basic),
        "bearer" => Some(Challenge::Bearer { realm: value("realm")?, service: value("service"), scope: value("scope") }),
        _ => None,
    }
}

#[cfg(test)]
mod tests {
    use super::*;

    fn of(texts: &[&str]) -> Option<Challenge> {
        let mut headers = HeaderMap::new();
        for text in texts {
            headers.append(WWW_AUTHENTICATE, text.parse().unwrap());
        }
        Challenge::of(&headers)
    }

    #[test]
    fn a_challenge_names_where_tokens_are() {
        let bearer = |realm: &str, service: Option<&str>, scope: Option<&str>| {
            let text = |text: Option<&str>| text.map(str::to_string);
            Some(Challenge::Bearer { realm: realm.to_string(), service: text(service), scope: text(scope) })
        };
        let hub = "Bearer realm=\"https://auth.docker.io/token\",service=\"registry.docker.io\",scope=\"repository:library/debian:pull\"";
        let expected = bearer("https://auth.docker.io/token", Some("registry.docker.io"), Some("repository:library/debian:pull"));
        assert_eq!(of(&[hub]), expected);
        assert_eq!(of(&["bearer Realm = \"a \\\"b\\\\\" , scope=x"]), bearer("a \"b\\", None, Some("x")));
        assert_eq!(of(&["Basic realm=\"x, y\", Bearer realm=\"z\""]), bearer("z", None, None));
        assert_eq!(of(&["Basic realm=\"x\"", "Bearer realm=\"z\""]), bearer("z", None, None));
    }

    #[test]
    fn what_is_unknown_or_malformed_is_no_challenge() {
        assert_eq!(of(&["Basic"]), Some(Challenge::Basic));
        assert_eq!(of(&["Digest realm=\"x\", Basic realm=\"y\""]), Some(Challenge::Basic));
        for texts in [
            &[][..],
            &[""],
            &["Bearer"],
            &["Bearer service=\"x\""],
            &["Bearer realm=\"x"],
            &["=x"],
            &["Negotiate abc"],
            &["\"\""],
        ] {
            assert_eq!(of(texts), None, "{texts:?}");
        }
    }
}
