//! The file of issuers, and of the rights that claims of their tokens give.
use crate::auth::issuer_keys::{server_url, IssuerKeys};
use crate::auth::rights::Grant;
use crate::metadata::names::is_component;
use crate::metadata::wildcards::is_matched;
use crate::operation::reload::parse_lines;
use serde_json::Value;
use std::sync::Arc;

/// The maximum length of an issuer's name.
const MAX_NAME: usize = 64;

/// The word of a rule that holds for every token of its issuer.
const ANY_TOKEN: &str = "any-token";

/// A claim that a token must have.
#[derive(Debug, PartialEq, Eq)]
struct Condition {
    /// The name of a claim, or a pointer to a part of one (RFC 6901).
    claim: String,
    pattern: String,
}

/// Rights for tokens whose claims meet all conditions.
#[derive(Debug)]
struct Rule {
    line: usize,
    grant: Grant,
    conditions: Vec<Condition>,
}

/// An issuer of tokens for machines.
pub(super) struct Issuer {
    pub(super) keys: Arc<IssuerKeys>,
    /// The audience that its tokens must have.
    pub(super) audience: String,
    rules: Vec<Rule>,
}

/// A line of the file.
enum Line<'t> {
    Issuer { name: &'t str, url: &'t str, audience: &'t str },
    Rule { issuer: &'t str, rule: Rule },
}

/// Returns whether a value is a text, number or boolean that a pattern matches, or a list with such a one.
fn is_value(value: &Value, pattern: &str) -> bool {
    match value {
        Value::String(text) => is_matched(pattern, text),
        Value::Bool(_) | Value::Number(_) => is_matched(pattern, &value.to_string()),
        Value::Array(elements) => elements.iter().any(|element| !element.is_array() && is_value(element, pattern)),
        Value::Null | Value::Object(_) => false,
    }
}

impl Condition {
    /// Parses a word `CLAIM=PATTERN`.
    fn parse(word: &str) -> Result<Condition, String> {
        match word.split_once('=') {
            Some((claim, pattern)) if !claim.is_empty() && claim != "/" && !pattern.is_empty() => {
                Ok(Condition { claim: claim.to_string(), pattern: pattern.to_string() })
            }
            _ => Err(format!("not CLAIM=PATTERN: `{word}`")),
        }
    }

    /// Returns whether the claims of a token meet it.
    fn is_met(&self, claims: &Value) -> bool {
        let found = if self.claim.starts_with('/') { claims.pointer(&self.claim) } else { claims.get(&self.claim) };
        found.map_or(false, |value| is_value(value, &self.pattern))
    }

    /// Returns whether it demands more than that there is such a claim.
    fn restricts(&self) -> bool {
        self.pattern.bytes().any(|byte| !matches!(byte, b'*' | b'?'))
    }
}

/// Parses the conditions of a rule.
///
/// # Errors
///
/// - A word is not `CLAIM=PATTERN`.
/// - There is no condition that restricts, and the only word is not `any-token`.
fn conditions(words: &[&str]) -> Result<Vec<Condition>, String> {
    if words == [ANY_TOKEN] {
        return Ok(Vec::new());
    }
    let conditions = words.iter().map(|word| Condition::parse(word)).collect::<Result<Vec<Condition>, String>>()?;
    match conditions.iter().any(Condition::restricts) {
        true => Ok(conditions),
        false => Err(format!("every token of the issuer would have these rights: write CLAIM=PATTERN, or {ANY_TOKEN}")),
    }
}

/// Checks the name and the URL of an issuer.
fn check_issuer(name: &str, url: &str) -> Result<(), String> {
    if !is_component(name) || name.len() > MAX_NAME {
        return Err(format!("not the name of an issuer: `{name}`: write small letters, digits and . _ -, at most {MAX_NAME}"));
    }
    let fault = |why: &str| format!("the URL of issuer {name}: {why}");
    let parsed = server_url(url).map_err(fault)?;
    match parsed.query() {
        Some(_) => Err(fault("it has a query")),
        None => Ok(()),
    }
}

impl Line<'_> {
    fn parse(number: usize, line: &str) -> Result<Line<'_>, String> {
        let words: Vec<&str> = line.split_whitespace().collect();
        match words[..] {
            ["issuer", name, url, audience] => {
                check_issuer(name, url)?;
                Ok(Line::Issuer { name, url, audience })
            }
            ["allow", issuer, rights, prefix, ref others @ ..] => {
                let (grant, conditions) = (Grant::of(rights, prefix)?, conditions(others)?);
                Ok(Line::Rule { issuer, rule: Rule { line: number, grant, conditions } })
            }
            _ => Err("not `issuer NAME URL AUDIENCE` or `allow NAME RIGHTS PREFIX CLAIM=PATTERN..`".to_string()),
        }
    }
}

impl Issuer {
    /// Returns the rights that a token with these claims has. If no rule is for it, there are none.
    pub(super) fn grants(&self, claims: &Value) -> Vec<Grant> {
        let is_met = |rule: &&Rule| rule.conditions.iter().all(|condition| condition.is_met(claims));
        self.rules.iter().filter(is_met).map(|rule| rule.grant.clone()).collect()
    }

    /// Returns the lines of the rules that hold for every token.
    pub(super) fn open_lines(&self) -> impl Iterator<Item = usize> + '_ {
        self.rules.iter().filter(|rule| rule.conditions.is_empty()).map(|rule| rule.line)
    }
}

/// Adds a line to the issuers before it.
fn add(issuers: &mut Vec<Issuer>, line: Line<'_>, keys: &impl Fn(&str, &str) -> Arc<IssuerKeys>) -> Result<(), String> {
    match line {
        Line::Issuer { name, url, .. } if issuers.iter().any(|other| other.keys.name == name || other.keys.url == url) => {
            Err(format!("there are two issuers of this name or URL: {name}"))
        }
        Line::Issuer { name, url, audience } => {
            issuers.push(Issuer { keys: keys(name, url), audience: audience.to_string(), rules: Vec::new() });
            Ok(())
        }
        Line::Rule { issuer, rule } => match issuers.iter_mut().find(|other| other.keys.name == issuer) {
            Some(found) => {
                found.rules.push(rule);
                Ok(())
            }
            None => Err(format!("no line above has the issuer `{issuer}`")),
        },
    }
}

/// Parses the text of a file. `keys` returns the keys of an issuer with a name and a URL.
///
/// # Errors
///
/// Fails at the first line that is wrong, with its number and the reason. A rule is below the line of its issuer, and has a condition that
/// restricts or the word `any-token`. No two issuers have the same name or URL.
pub(super) fn parse(text: &str, keys: impl Fn(&str, &str) -> Arc<IssuerKeys>) -> Result<Vec<Issuer>, String> {
    let mut issuers = Vec::new();
    for (number, line) in parse_lines(text, |number, line| Ok((number, Line::parse(number, line)?)))? {
        add(&mut issuers, line, &keys).map_err(|why| format!("line {number}: {why}"))?;
    }
    Ok(issuers)
}

#[cfg(test)]
pub(super) mod tests {
    use super::*;
    use crate::auth::rights::Right;
    use prometheus::{IntCounterVec, Opts};
    use serde_json::json;

    /// Parses a text, with keys that no one fetches.
    pub(in crate::auth) fn parsed(text: &str) -> Result<Vec<Issuer>, String> {
        let fetches = IntCounterVec::new(Opts::new("fetches", "Fetches."), &["issuer", "result"]).unwrap();
        parse(text, |name, url| IssuerKeys::new(name, url, &fetches))
    }

    const FILE: &str = "# issuers\n\
        issuer github https://token.example registry.example\n\
        allow github read,write acme/app repository=org/app ref=refs/heads/main\n\
        allow github read acme repository_owner=org\n\
        allow github read acme/public any-token\n\
        \n\
        issuer cluster https://cluster.example/a registry.example\n\
        allow cluster read,write other /kubernetes.io/namespace=builds /kubernetes.io/serviceaccount/name=builder-?\n\
        allow cluster read * groups=dev* level=40 is_ci=true\n\
        allow cluster delete x/y sub=repo:org/app:*\n";

    #[test]
    fn claims_give_rights() {
        let issuers = parsed(FILE).unwrap();
        assert_eq!((issuers.len(), &*issuers[0].keys.name, &*issuers[1].keys.url), (2, "github", "https://cluster.example/a"));
        assert_eq!((issuers[0].open_lines().collect::<Vec<_>>(), issuers[1].open_lines().count()), (vec![5], 0));
        let kubernetes = |namespace: &str, name: &str| json!({ "kubernetes.io": { "namespace": namespace, "serviceaccount": { "name": name } } });
        for (issuer, claims, right, repo, expected) in [
            (0, json!({ "repository": "org/app", "ref": "refs/heads/main" }), Right::Write, "acme/app/x", true),
            (0, json!({ "repository": "org/app", "ref": "refs/heads/other" }), Right::Write, "acme/app", false),
            (0, json!({ "repository": "org/app" }), Right::Write, "acme/app", false),
            (0, json!({ "repository": "org/application", "ref": "refs/heads/main" }), Right::Write, "acme/app", false),
            (0, json!({ "repository_owner": "org" }), Right::Read, "acme/x", true),
            (0, json!({ "repository_owner": "Org" }), Right::Read, "acme/x", false),
            (0, json!({}), Right::Read, "acme/public", true),
            (0, json!({}), Right::Write, "acme/public", false),
            (1, kubernetes("builds", "builder-1"), Right::Write, "other/x", true),
            (1, kubernetes("builds", "builder-10"), Right::Write, "other/x", false),
            (1, kubernetes("build", "builder-1"), Right::Write, "other/x", false),
            (1, json!({ "/kubernetes.io/namespace": "builds" }), Right::Write, "other/x", false),
            (1, json!({ "groups": ["ops", "dev-1"], "level": 40, "is_ci": true }), Right::Read, "a", true),
            (1, json!({ "groups": "dev", "level": "40", "is_ci": "true" }), Right::Read, "a", true),
            (1, json!({ "groups": [["dev"]], "level": 40, "is_ci": true }), Right::Read, "a", false),
            (1, json!({ "groups": { "dev": 1 }, "level": 40, "is_ci": true }), Right::Read, "a", false),
            (1, json!({ "groups": ["dev"], "level": 400, "is_ci": true }), Right::Read, "a", false),
            (1, json!({ "groups": ["dev"], "level": 40, "is_ci": null }), Right::Read, "a", false),
            (1, json!({ "sub": "repo:org/app:ref:refs/heads/x" }), Right::Delete, "x/y", true),
            (1, json!({ "sub": "repo:org/apple:ref" }), Right::Delete, "x/y", false),
            (1, json!([]), Right::Read, "a", false),
        ] {
            let text = format!("{claims} {right:?} {repo}");
            let grants = issuers[issuer].grants(&claims);
            assert_eq!(grants.iter().any(|grant| grant.allows(right, repo)), expected, "{text}");
        }
        assert!(issuers[1].grants(&json!({ "sub": "x" })).is_empty() && parsed("").unwrap().is_empty());
    }

    #[test]
    fn bad_lines_are_errors() {
        for (line, why) in [
            ("issuer", "not `issuer"),
            ("issuer a https://a", "not `issuer"),
            ("issuer a https://a b c", "not `issuer"),
            ("grant a read acme x=y", "not `issuer"),
            ("issuer A https://a b", "not the name of an issuer"),
            ("issuer a/b https://a b", "not the name of an issuer"),
            ("issuer a http://a b", "the URL of issuer a: http is for loopback"),
            ("issuer a https://10.0.0.1 b", "the URL of issuer a: https needs the name"),
            ("issuer a https://a?b c", "the URL of issuer a: it has a query"),
            ("issuer a https://a#b c", "the URL of issuer a: a URL with"),
            ("issuer one https://b c", "there are two issuers"),
            ("issuer b https://one c", "there are two issuers"),
            ("allow one read acme", "every token of the issuer"),
            ("allow one read acme x=*", "every token of the issuer"),
            ("allow one read acme x=** y=?*", "every token of the issuer"),
            ("allow one read acme any-token x=y", "not CLAIM=PATTERN: `any-token`"),
            ("allow one read acme x", "not CLAIM=PATTERN: `x`"),
            ("allow one read acme =y", "not CLAIM=PATTERN"),
            ("allow one read acme x=", "not CLAIM=PATTERN"),
            ("allow one read acme /=y", "not CLAIM=PATTERN"),
            ("allow one reed acme x=y", "no such right"),
            ("allow one read Acme x=y", "not the name of a repository"),
            ("allow one read acme/* x=y", "not the name of a repository"),
            ("allow two read acme x=y", "no line above has the issuer `two`"),
        ] {
            let text = format!("issuer one https://one registry\n# rules\n{line}\n");
            let found = parsed(&text).err().unwrap();
            assert!(found.starts_with(&format!("line 3: {why}")), "{line}: {found}");
        }
        assert!(parsed(&format!("issuer {} https://a b", "a".repeat(MAX_NAME + 1))).is_err());
        assert!(parsed("issuer a http://127.0.0.1:1/x b\n").is_ok());
    }
}
