//! How sizes, times and digests are shown.
use crate::browse::html::{html, Html};
use crate::metadata::clock;
use std::time::{Duration, UNIX_EPOCH};

/// The maximum number of letters of a text of a client in a list.
const MOST_LETTERS: usize = 300;

/// The end of the last year that a time can have, in seconds since 1970.
const LAST_TIME: u64 = 253_402_300_799;

/// Returns a number of bytes as text.
pub(super) fn size(bytes: u64) -> String {
    let units = ["kB", "MB", "GB", "TB", "PB", "EB"];
    if bytes < 1000 {
        return format!("{bytes} B");
    }
    let mut value = bytes as f64 / 1000.0;
    let mut unit = 0;
    while value >= 999.95 && unit + 1 < units.len() {
        value /= 1000.0;
        unit += 1;
    }
    format!("{value:.1} {}", units[unit])
}

/// Returns a number with a noun.
pub(super) fn count(number: usize, noun: &str) -> String {
    format!("{number} {noun}{}", if number == 1 { "" } else { "s" })
}

/// Returns a duration in its greatest unit.
fn duration(seconds: u64) -> String {
    let units = [(31_557_600, "year"), (2_629_800, "month"), (86_400, "day"), (3600, "hour"), (60, "minute")];
    let unit = units.into_iter().find(|(len, _)| seconds >= *len);
    unit.map_or("less than a minute".to_string(), |(len, noun)| count((seconds / len) as usize, noun))
}

/// Returns the time since a push, by the clock of the metadata.
pub(super) fn age(pushed: u64) -> Html {
    let when = UNIX_EPOCH + Duration::from_secs(clock::of_day(pushed).min(LAST_TIME));
    let when = humantime::format_rfc3339_seconds(when).to_string();
    html!("<time datetime=\"{}\" title=\"{}\">{} ago</time>", when, when, duration(clock::now().saturating_sub(pushed)))
}

/// Returns the part of a digest that people compare.
pub(super) fn short(digest: &str) -> &str {
    let encoded = digest.split_once(':').map_or(digest, |(_, encoded)| encoded);
    encoded.get(..12).unwrap_or(encoded)
}

/// Returns the short form of a digest, with all of it as its title.
pub(super) fn digest(digest: &str) -> Html {
    html!("<code title=\"{}\">{}</code>", digest, short(digest))
}

/// Returns a text of a client, or its beginning if it is long.
pub(super) fn brief(text: &str) -> String {
    match text.char_indices().nth(MOST_LETTERS) {
        Some((end, _)) => format!("{}…", &text[..end]),
        None => text.to_string(),
    }
}

/// Returns a list of names with their values, but for those without one.
pub(super) fn facts(pairs: impl IntoIterator<Item = (Html, Html)>) -> Html {
    let shown = pairs.into_iter().filter(|(_, value)| !value.is_empty());
    let rows: Html = shown.map(|(name, value)| html!("<div><dt>{}</dt><dd>{}</dd></div>", name, value)).sum();
    html!("<dl>{}</dl>", rows)
}

#[cfg(test)]
mod tests {
    use super::*;

    #[test]
    fn sizes_have_a_unit() {
        for (bytes, text) in [
            (0, "0 B"),
            (999, "999 B"),
            (1000, "1.0 kB"),
            (1_549, "1.5 kB"),
            (999_949, "999.9 kB"),
            (999_999, "1.0 MB"),
            (45_600_000_000, "45.6 GB"),
            (u64::MAX, "18.4 EB"),
        ] {
            assert_eq!(size(bytes), text);
        }
    }

    #[test]
    fn durations_have_the_greatest_unit() {
        for (seconds, text) in [
            (0, "less than a minute"),
            (60, "1 minute"),
            (7199, "1 hour"),
            (172_800, "2 days"),
            (31_557_600, "1 year"),
            (u64::MAX, "584542046090 years"),
        ] {
            assert_eq!(duration(seconds), text);
        }
        assert!(age(u64::MAX).into_text().contains("less than a minute ago"));
    }

    #[test]
    fn long_texts_are_cut() {
        assert_eq!((short("sha256:0123456789abcdef"), short("x"), short("a:é")), ("0123456789ab", "x", "é"));
        assert_eq!(brief(&"ä".repeat(MOST_LETTERS)), "ä".repeat(MOST_LETTERS));
        assert_eq!(brief(&"ä".repeat(MOST_LETTERS + 1)), "ä".repeat(MOST_LETTERS) + "…");
    }
}
