//! Rules that say which tags stay, and the file that lists them. A tag goes if a rule covers it and none of those that cover it keeps it.
use crate::metadata::tag::TagTimes;
use crate::metadata::tag_pattern::TagPattern;
use crate::operation::reload::{parse_lines, read_parsed};
use std::fmt;
use std::path::Path;

/// The maximum number of tags that a rule keeps as the last ones.
const MOST_LAST: usize = 1_000_000;

/// The maximum time of a rule, in seconds: 100 years.
const MOST_TIME: u64 = 36_525 * 86_400;

/// The units of times, with their seconds.
const UNITS: [(char, u64); 4] = [('s', 1), ('m', 60), ('h', 3600), ('d', 86_400)];

/// A line of the file. A tag that it covers stays if one of its conditions holds.
#[derive(Debug, PartialEq, Eq)]
pub(crate) struct Rule {
    /// The number of the line.
    line: usize,
    tags: TagPattern,
    /// The tag is one of this number that were pushed last.
    last: Option<usize>,
    /// It was pushed within this time, in seconds.
    pushed: Option<u64>,
    /// It was pushed or pulled within this time, in seconds.
    pulled: Option<u64>,
}

/// The rules of a file.
#[derive(Debug, Default, PartialEq, Eq)]
pub(crate) struct RetentionRules(Vec<Rule>);

/// The time at which rules are applied, in seconds since 1970.
#[derive(Clone, Copy, Debug, PartialEq, Eq)]
pub(crate) struct Moment {
    pub(crate) now: u64,
    /// The time since which all pulls are known, if they are recorded.
    pub(crate) pulls_since: Option<u64>,
}

/// Parses a time such as `30d`, in seconds.
fn parse_time(text: &str) -> Option<u64> {
    let (unit, seconds) = UNITS.into_iter().find(|(unit, _)| text.ends_with(*unit))?;
    let digits = text.strip_suffix(unit)?;
    if !digits.bytes().all(|byte| byte.is_ascii_digit()) {
        return None;
    }
    let time = digits.parse::<u64>().ok()?.checked_mul(seconds)?;
    (1..=MOST_TIME).contains(&time).then_some(time)
}

/// A time as a line has it, in the greatest unit of which it is a multiple.
struct Time(u64);

impl fmt::Display for Time {
    fn fmt(&self, text: &mut fmt::Formatter) -> fmt::Result {
        let exact = UNITS.into_iter().rev().find(|(_, seconds)| self.0 % seconds == 0 && self.0 >= *seconds);
        let (unit, seconds) = exact.unwrap_or(UNITS[0]);
        write!(text, "{}{unit}", self.0 / seconds)
    }
}

/// The age of something, in the greatest unit of which it has two or more.
struct Age(u64);

impl fmt::Display for Age {
    fn fmt(&self, text: &mut fmt::Formatter) -> fmt::Result {
        let (unit, seconds) = UNITS.into_iter().rev().find(|(_, seconds)| self.0 >= 2 * seconds).unwrap_or(UNITS[0]);
        write!(text, "{}{unit} ago", self.0 / seconds)
    }
}

/// Sets a condition that is not set yet.
fn set<T>(condition: &mut Option<T>, value: Option<T>, word: &str, example: &str) -> Result<(), String> {
    if value.is_none() {
        return Err(format!("not a condition: `{word}`: write {example}"));
    }
    match std::mem::replace(condition, value) {
        None => Ok(()),
        Some(_) => Err(format!("a condition is there twice: `{word}`")),
    }
}

impl Rule {
    /// Parses a line `PREFIX PATTERN CONDITION..`.
    fn parse(line: usize, text: &str) -> Result<Rule, String> {
        let mut words = text.split_whitespace();
        let (prefix, pattern) = match (words.next(), words.next()) {
            (Some(prefix), Some(pattern)) => (prefix, pattern),
            _ => return Err("not PREFIX PATTERN CONDITION..".to_string()),
        };
        let mut rule = Rule { line, tags: TagPattern::parse(prefix, pattern)?, last: None, pushed: None, pulled: None };
        for word in words {
            let (name, value) = word.split_once('=').unwrap_or((word, ""));
            let number =
                || value.parse::<usize>().ok().filter(|number| (1..=MOST_LAST).contains(number) && !value.starts_with('+'));
            match name {
                "last" => set(&mut rule.last, number(), word, "last=10")?,
                "pushed" => set(&mut rule.pushed, parse_time(value), word, "pushed=30d, with a unit of s, m, h or d")?,
                "pulled" => set(&mut rule.pulled, parse_time(value), word, "pulled=14d, with a unit of s, m, h or d")?,
                _ => return Err(format!("not a condition: `{word}`: write last=10, pushed=30d or pulled=14d")),
            }
        }
        match rule {
            Rule { last: None, pushed: None, pulled: None, .. } => {
                Err("no condition: write what stays: last=10, pushed=30d or pulled=14d".to_string())
            }
            rule => Ok(rule),
        }
    }

    /// Returns whether it covers tags of a repository.
    pub(super) fn is_of(&self, repo: &str) -> bool {
        self.tags.is_of(repo)
    }

    /// Returns whether it covers a tag of each repository that it is of.
    pub(super) fn matches(&self, tag: &str) -> bool {
        self.tags.matches(tag)
    }

    /// Returns the earliest time of a push by which a tag is one of the last, in seconds since 1970. `pushed` has the pushes of all tags
    /// of a repository that it covers. Tags that were pushed in the same second stay or go together.
    pub(super) fn oldest_of_last(&self, mut pushed: Vec<u64>) -> u64 {
        match self.last {
            Some(last) if last >= pushed.len() => 0,
            Some(last) => *pushed.select_nth_unstable_by(last - 1, |one, other| other.cmp(one)).1,
            None => u64::MAX,
        }
    }

    /// Returns whether it keeps a tag that it covers.
    pub(super) fn keeps(&self, times: TagTimes, oldest_of_last: u64, moment: Moment) -> bool {
        let Moment { now, pulls_since } = moment;
        // A difference of whole seconds may be a second more than the time between.
        let is_within = |time: u64, limit: Option<u64>| limit.map_or(false, |limit| now.saturating_sub(time) <= limit);
        // A pull that is not known may have been at any time before.
        let used = times.pushed.max(times.pulled).max(pulls_since.unwrap_or(now));
        times.pushed >= oldest_of_last || is_within(times.pushed, self.pushed) || is_within(used, self.pulled)
    }

    /// Returns why it does not keep a tag.
    pub(super) fn why(&self, times: TagTimes, now: u64) -> String {
        let age = |time: u64| Age(now.saturating_sub(time));
        let last = self.last.map(|last| format!("{last} or more tags are newer"));
        let pushed = Some(format!("pushed {}", age(times.pushed)));
        let pulled = self.pulled.map(|_| match times.pulled {
            0 => "not pulled since".to_string(),
            pulled => format!("pulled {}", age(pulled)),
        });
        let parts: Vec<String> = [last, pushed, pulled].into_iter().flatten().collect();
        format!("line {} ({self}): {}", self.line, parts.join(", "))
    }
}

impl fmt::Display for Rule {
    fn fmt(&self, text: &mut fmt::Formatter) -> fmt::Result {
        write!(text, "{}", self.tags)?;
        self.last.map_or(Ok(()), |last| write!(text, " last={last}"))?;
        self.pushed.map_or(Ok(()), |time| write!(text, " pushed={}", Time(time)))?;
        self.pulled.map_or(Ok(()), |time| write!(text, " pulled={}", Time(time)))
    }
}

impl RetentionRules {
    /// Reads the lines of a file.
    ///
    /// # Errors
    ///
    /// - The file cannot be read.
    /// - A line is not `PREFIX PATTERN CONDITION..`. The message has the number of the first such line.
    pub(crate) fn read(path: &Path) -> Result<RetentionRules, String> {
        read_parsed(path, "retention rules", RetentionRules::parse)
    }

    /// Parses the text of a file.
    ///
    /// # Errors
    ///
    /// Fails at the first line that is not `PREFIX PATTERN CONDITION..`, with its number.
    pub(crate) fn parse(text: &str) -> Result<RetentionRules, String> {
        parse_lines(text, Rule::parse).map(RetentionRules)
    }

    /// Returns the lines that may cover tags of a tenant.
    pub(crate) fn lines_for(&self, tenant: &str) -> Vec<String> {
        self.0.iter().filter(|rule| rule.tags.reaches(tenant)).map(Rule::to_string).collect()
    }

    /// Returns the rules that cover tags of a repository.
    pub(super) fn of(&self, repo: &str) -> Vec<&Rule> {
        self.0.iter().filter(|rule| rule.is_of(repo)).collect()
    }

    /// Returns the number of rules.
    pub(crate) fn len(&self) -> usize {
        self.0.len()
    }

    /// Returns the least time of a condition, in seconds.
    pub(crate) fn least_time(&self) -> Option<u64> {
        self.0.iter().flat_map(|rule| [rule.pushed, rule.pulled]).flatten().min()
    }
}

#[cfg(test)]
mod tests {
    use super::*;

    const DAY: u64 = 86_400;

    fn rule(text: &str) -> Rule {
        RetentionRules::parse(text).unwrap().0.remove(0)
    }

    #[test]
    fn lines_have_conditions() {
        let text = "# comment\n\nacme/app v* last=10 pushed=30d\n  * pr-?\tpulled=48h  \nacme * pulled=2d pushed=90s last=1\n";
        let rules = RetentionRules::parse(text).unwrap();
        let of = |at: usize| (rules.0[at].line, rules.0[at].last, rules.0[at].pushed, rules.0[at].pulled);
        assert_eq!(of(0), (3, Some(10), Some(30 * DAY), None));
        assert_eq!(of(1), (4, None, None, Some(2 * DAY)));
        assert_eq!(of(2), (5, Some(1), Some(90), Some(2 * DAY)));
        let texts: Vec<String> = rules.0.iter().map(Rule::to_string).collect();
        assert_eq!(texts, ["acme/app v* last=10 pushed=30d", "* pr-? pulled=2d", "acme * last=1 pushed=90s pulled=2d"]);
        assert_eq!((rules.len(), rules.least_time()), (3, Some(90)));
        assert_eq!(RetentionRules::parse("* * last=1").unwrap().least_time(), None);
        let rules = RetentionRules::parse("acme/x v* last=2 pushed=1d\nother * pulled=2d\n* a last=3").unwrap();
        assert_eq!(rules.lines_for("acme"), ["acme/x v* last=2 pushed=1d", "* a last=3"]);
        assert_eq!(RetentionRules::parse("").unwrap(), RetentionRules::default());
    }

    #[test]
    fn bad_lines_are_errors() {
        let lines = [
            "acme",
            "acme v1",
            "* *",
            "acme/ v1 last=1",
            "acme v[1] last=1",
            "acme v1 last",
            "acme v1 last=",
            "acme v1 last=0",
            "acme v1 last=-1",
            "acme v1 last=+1",
            "acme v1 last=1.5",
            "acme v1 last=1000001",
            "acme v1 last=1 last=2",
            "acme v1 pushed=30",
            "acme v1 pushed=d",
            "acme v1 pushed=0d",
            "acme v1 pushed=-1d",
            "acme v1 pushed=1.5d",
            "acme v1 pushed=30D",
            "acme v1 pushed=1w",
            "acme v1 pushed=36526d",
            "acme v1 pushed=99999999999999999999d",
            "acme v1 pushed=9999999999999999999d",
            "acme v1 pulled=1h pulled=1h",
            "acme v1 keep=1",
            "acme v1 last=1 # comment",
        ];
        for line in lines {
            let why = RetentionRules::parse(&format!("# rules\nacme v1 last=1\n{line}\n")).unwrap_err();
            assert!(why.starts_with("line 3: "), "{line}: {why}");
        }
    }

    #[test]
    fn each_condition_keeps() {
        let moment = Moment { now: 100 * DAY, pulls_since: Some(0) };
        let times = |pushed: u64, pulled: u64| TagTimes { pushed: pushed * DAY, pulled: pulled * DAY };
        let keeps = |text: &str, times| rule(text).keeps(times, u64::MAX, moment);
        assert!(keeps("* * pushed=30d", times(70, 0)) && !keeps("* * pushed=30d", times(69, 99)));
        assert!(keeps("* * pulled=30d", times(70, 0)) && keeps("* * pulled=30d", times(1, 70)));
        assert!(!keeps("* * pulled=30d", times(1, 69)) && keeps("* * pushed=10d pulled=30d", times(1, 70)));
        // A time in the future, and a push now.
        assert!(keeps("* * pushed=1s", times(101, 0)) && keeps("* * pushed=1s", times(100, 0)));
    }

    #[test]
    fn unknown_pulls_keep() {
        let (rule, times) = (rule("* * pulled=30d"), TagTimes { pushed: DAY, pulled: 0 });
        let keeps = |pulls_since| rule.keeps(times, u64::MAX, Moment { now: 100 * DAY, pulls_since });
        assert!(keeps(None) && keeps(Some(70 * DAY)) && !keeps(Some(69 * DAY)));
    }

    #[test]
    fn the_last_tags_are_those_that_were_pushed_last() {
        let oldest = |last: usize, pushed: &[u64]| rule(&format!("* * last={last}")).oldest_of_last(pushed.to_vec());
        assert_eq!([1, 2, 3, 4, 5].map(|last| oldest(last, &[3, 9, 5, 7])), [9, 7, 5, 0, 0]);
        // Those of the same second stay together.
        assert_eq!([1, 2, 3].map(|last| oldest(last, &[5, 5, 9, 5, 1])), [9, 5, 5]);
        assert_eq!((oldest(1, &[]), rule("* * pushed=1d").oldest_of_last(vec![1, 2])), (0, u64::MAX));
    }

    #[test]
    fn reasons_are_whole() {
        let times = TagTimes { pushed: 10 * DAY, pulled: 50 * DAY };
        let why = |text: &str, times| rule(text).why(times, 51 * DAY);
        assert_eq!(why("* v* last=3", times), "line 1 (* v* last=3): 3 or more tags are newer, pushed 41d ago");
        assert_eq!(why("* v* pushed=1d pulled=60s", times), "line 1 (* v* pushed=1d pulled=1m): pushed 41d ago, pulled 24h ago");
        let never = TagTimes { pushed: 51 * DAY - 5, pulled: 0 };
        assert_eq!(why("a v* pulled=1s", never), "line 1 (a v* pulled=1s): pushed 5s ago, not pulled since");
    }
}
