//! Tags that name one manifest for ever, and the file that lists them.
use crate::metadata::tag_pattern::TagPattern;
use crate::operation::reload::{parse_lines, read_parsed, FromFile};
use prometheus::IntCounter;
use std::path::Path;
use std::sync::Arc;

/// The rules of a file, one for each line.
#[derive(Debug, Default, PartialEq, Eq)]
pub(crate) struct Rules(Vec<TagPattern>);

/// The rules that hold now, and how many requests they refused.
pub(crate) struct ImmutableTags {
    rules: Arc<FromFile<Rules>>,
    pub(crate) refusals: IntCounter,
}

/// Parses a line `PREFIX PATTERN`.
fn parse_line(line: &str) -> Result<TagPattern, String> {
    let words: Vec<&str> = line.split_whitespace().collect();
    match words[..] {
        [prefix, pattern] => TagPattern::parse(prefix, pattern),
        _ => Err("not PREFIX PATTERN".to_string()),
    }
}

impl Rules {
    /// Reads the lines of a file.
    ///
    /// # Errors
    ///
    /// - The file cannot be read.
    /// - A line is not `PREFIX PATTERN`. The message has the number of the first such line.
    pub(crate) fn read(path: &Path) -> Result<Rules, String> {
        read_parsed(path, "immutable tags", Rules::parse)
    }

    /// Parses the text of a file.
    pub(super) fn parse(text: &str) -> Result<Rules, String> {
        parse_lines(text, |_, line| parse_line(line)).map(Rules)
    }

    /// Returns the lines that may cover tags of a tenant.
    pub(crate) fn lines_for(&self, tenant: &str) -> Vec<String> {
        self.0.iter().filter(|rule| rule.reaches(tenant)).map(TagPattern::to_string).collect()
    }

    /// Returns whether a line covers a tag of a repository.
    pub(crate) fn cover(&self, repo: &str, tag: &str) -> bool {
        self.0.iter().any(|rule| rule.covers(repo, tag))
    }
}

impl ImmutableTags {
    pub(crate) fn new(rules: Arc<FromFile<Rules>>) -> ImmutableTags {
        let help = "Pushes and deletes that were refused because of an immutable tag.";
        let refusals = IntCounter::new("registryd_immutable_refusals_total", help).expect("a counter's name");
        ImmutableTags { rules, refusals }
    }

    /// Returns whether a tag of a repository is immutable now.
    pub(crate) fn cover(&self, repo: &str, tag: &str) -> bool {
        self.rules.get().cover(repo, tag)
    }

    /// Returns the rules that hold now.
    pub(crate) fn current(&self) -> Arc<Rules> {
        self.rules.get()
    }

    /// Returns the number of rules.
    pub(crate) fn rules(&self) -> usize {
        self.rules.get().0.len()
    }
}

#[cfg(test)]
mod tests {
    use super::*;

    #[test]
    fn a_line_covers_tags_of_repositories() {
        let rules = Rules::parse("# comment\n\nacme/app v*\n\t* release-?  \n   # acme *\n").unwrap();
        assert_eq!(rules.0.len(), 2);
        for (repo, tag, expected) in [
            ("acme/app", "v1", true),
            ("acme/app/web", "v1", true),
            ("acme/app", "latest", false),
            ("acme/apple", "v1", false),
            ("acme", "v1", false),
            ("other/app", "release-1", true),
            ("other/app", "release-10", false),
        ] {
            assert_eq!(rules.cover(repo, tag), expected, "{repo} {tag}");
        }
        assert_eq!(Rules::parse("").unwrap(), Rules::default());
        assert_eq!(rules.lines_for("acme"), ["acme/app v*", "* release-?"]);
        assert_eq!(
            (rules.lines_for("acm"), rules.lines_for("app")),
            (vec!["* release-?".to_string()], vec!["* release-?".to_string()])
        );
    }

    #[test]
    fn bad_lines_are_errors() {
        let lines = [
            "acme",
            "acme v1 v2",
            "acme v1 # comment",
            "acme/ v1",
            "acme/* v1",
            "Acme v1",
            ".. v1",
            "acme -v1",
            "acme .*",
            "acme v1/x",
            "acme v[12]",
            "acme v1,v2",
            "acme sha256:*",
            &format!("acme {}", "v".repeat(129)),
        ];
        for line in lines {
            let why = Rules::parse(&format!("# tags\nacme v1\n{line}\n")).unwrap_err();
            assert!(why.starts_with("line 3: "), "{line}: {why}");
        }
    }
}
