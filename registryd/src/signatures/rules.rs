//! The file of tags that need a signature, and the keys that its lines name.
use crate::metadata::tag::digest_in;
use crate::metadata::tag_pattern::TagPattern;
use crate::operation::reload::{parse_lines, read_parsed};
use crate::signatures::keys::PublicKey;
use std::fmt;
use std::path::Path;

/// The maximum number of keys of a line. Each signature of an image may be compared with each of them.
const MOST_KEYS: usize = 20;

/// A line: the image of a tag that it covers needs a signature by one of its keys.
#[derive(Debug, PartialEq, Eq)]
pub(crate) struct Rule {
    tags: TagPattern,
    pub(super) keys: Vec<PublicKey>,
}

/// The lines of a file. The image of a tag needs a signature for each line that covers the tag.
#[derive(Debug, Default, PartialEq, Eq)]
pub(crate) struct SigningRules(Vec<Rule>);

impl Rule {
    /// Parses a line `PREFIX PATTERN KEY..`, and reads the files of the keys. Their paths may be relative to a folder.
    fn parse(line: &str, folder: &Path) -> Result<Rule, String> {
        let words: Vec<&str> = line.split_whitespace().collect();
        let (tags, files) = match words[..] {
            [prefix, pattern, ref files @ ..] if !files.is_empty() => (TagPattern::parse(prefix, pattern)?, files),
            _ => return Err("not PREFIX PATTERN KEY..".to_string()),
        };
        let mut keys = Vec::new();
        for file in files {
            keys.append(&mut PublicKey::read(&folder.join(file))?);
        }
        match keys.len() <= MOST_KEYS {
            true => Ok(Rule { tags, keys }),
            false => Err(format!("{} keys, of which a line may have {MOST_KEYS}", keys.len())),
        }
    }
}

impl fmt::Display for Rule {
    fn fmt(&self, text: &mut fmt::Formatter) -> fmt::Result {
        self.tags.fmt(text)
    }
}

impl SigningRules {
    /// Reads the lines of a file, and the keys that they name. A relative path of a key begins in the folder of the file.
    ///
    /// # Errors
    ///
    /// - The file cannot be read.
    /// - A line is not `PREFIX PATTERN KEY..`, or a key cannot be read. The message has the number of the first such line.
    pub(crate) fn read(path: &Path) -> Result<SigningRules, String> {
        let folder = path.parent().unwrap_or_else(|| Path::new(""));
        read_parsed(path, "signed tags", |text| SigningRules::parse(text, folder))
    }

    /// Parses the text of a file that lies in a folder.
    fn parse(text: &str, folder: &Path) -> Result<SigningRules, String> {
        parse_lines(text, |_, line| Rule::parse(line, folder)).map(SigningRules)
    }

    /// Returns the lines that cover a tag of a repository, each with its place. A tag whose name says that it belongs to a manifest is not
    /// covered: signatures have such tags, and are not signed themselves.
    pub(crate) fn covering<'r>(&'r self, repo: &'r str, tag: &'r str) -> impl Iterator<Item = (usize, &'r Rule)> {
        let is_covered = move |(_, rule): &(usize, &Rule)| rule.tags.covers(repo, tag) && digest_in(tag).is_none();
        self.0.iter().enumerate().filter(is_covered)
    }

    /// Returns the lines that may cover tags of a tenant, each with its keys.
    pub(crate) fn lines_for(&self, tenant: &str) -> Vec<String> {
        let line = |Rule { tags, keys }: &Rule| {
            let mut keys: Vec<String> = keys.iter().map(|key| base64::encode(&key.point)).collect();
            keys.sort();
            format!("{tags} {}", keys.join(" "))
        };
        self.0.iter().filter(|rule| rule.tags.reaches(tenant)).map(line).collect()
    }

    /// Returns the number of lines.
    pub(crate) fn len(&self) -> usize {
        self.0.len()
    }
}

#[cfg(test)]
mod tests {
    use super::*;
    use crate::database::test_folder::TestFolder;
    use crate::signatures::keys::tests::KEY;
    use std::fs;

    /// Makes a folder with files of keys.
    fn folder() -> TestFolder {
        let folder = TestFolder::new();
        fs::create_dir(folder.0.join("keys")).unwrap();
        for (file, text) in [
            ("one.pub", KEY.to_string()),
            ("keys/two.pub", KEY.repeat(2)),
            ("empty.pub", String::new()),
            ("many.pub", KEY.repeat(MOST_KEYS)),
            ("private.pub", KEY.replace("PUBLIC", "PRIVATE")),
        ] {
            fs::write(folder.0.join(file), text).unwrap();
        }
        folder
    }

    #[test]
    fn a_line_covers_tags_and_has_keys() {
        let folder = folder();
        let absolute = folder.0.join("one.pub");
        let text = format!("# tags\n\nacme/app v* one.pub keys/two.pub\n  * release-?\t{}\n", absolute.display());
        let rules = SigningRules::parse(&text, &folder.0).unwrap();
        assert_eq!((rules.len(), rules.0[0].keys.len(), rules.0[1].keys.len()), (2, 3, 1));
        let covering = |repo: &str, tag: &str| rules.covering(repo, tag).map(|(at, _)| at).collect::<Vec<_>>();
        assert_eq!((covering("acme/app", "v1"), covering("acme/app/web", "release-1")), (vec![0], vec![1]));
        assert_eq!((covering("acme/apple", "v1"), covering("acme/app", "latest")), (vec![], vec![]));
        assert_eq!(rules.0[0].to_string(), "acme/app v*");
        let lines = rules.lines_for("acme");
        assert!(lines.len() == 2 && lines[0].starts_with("acme/app v* ") && lines[0].split(' ').count() == 5, "{lines:?}");
        assert_eq!(rules.lines_for("other"), lines[1..]);
        assert_eq!(SigningRules::parse("", &folder.0).unwrap(), SigningRules::default());
    }

    #[test]
    fn tags_of_signatures_are_not_covered() {
        let folder = folder();
        let rules = SigningRules::parse("* * one.pub", &folder.0).unwrap();
        let hex = "0".repeat(64);
        let is_covered = |tag: &str| rules.covering("acme/app", tag).count() == 1;
        for tag in [format!("sha256-{hex}"), format!("sha256-{hex}.sig"), format!("sha256-{hex}.att")] {
            assert!(!is_covered(&tag), "{tag}");
        }
        for tag in ["latest".to_string(), format!("sha256-{hex}0"), format!("sha512-{hex}"), format!("x-sha256-{hex}.sig")] {
            assert!(is_covered(&tag), "{tag}");
        }
    }

    #[test]
    fn bad_lines_are_errors() {
        let folder = folder();
        for (line, why) in [
            ("acme", "not PREFIX PATTERN KEY.."),
            ("acme v1", "not PREFIX PATTERN KEY.."),
            ("acme/ v1 one.pub", "not the name of a repository: `acme/`"),
            ("acme v[1] one.pub", "not a pattern of tags: `v[1]`"),
            ("acme v1 none.pub", "cannot read a public key: "),
            ("acme v1 one.pub none.pub", "cannot read a public key: "),
            ("acme v1 keys", "cannot read a public key: "),
            ("acme v1 empty.pub", "cannot read a public key: "),
            ("acme v1 private.pub", "cannot read a public key: "),
            ("acme v1 many.pub one.pub", "21 keys, of which a line may have 20"),
            ("acme v1 one.pub # comment", "cannot read a public key: "),
        ] {
            let read = SigningRules::parse(&format!("# tags\nacme v1 one.pub\n{line}\n"), &folder.0);
            let (read, expected) = (read.unwrap_err(), format!("line 3: {why}"));
            assert!(read.starts_with(&expected), "{line}: {read}");
        }
        assert!(SigningRules::parse("acme v1 many.pub", &folder.0).is_ok());
    }
}
