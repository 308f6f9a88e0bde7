//! The values of options: their enumerations, and the checks of texts.
use crate::metadata::names::check_prefix;
use clap::ValueEnum;
use std::time::Duration;
use tracing::level_filters::LevelFilter;

/// The form of the log.
#[derive(Clone, Copy, Debug, PartialEq, Eq, ValueEnum)]
pub(crate) enum LogFormat {
    /// Lines of text
    Text,
    /// An object of JSON in each line
    Json,
}

/// The messages that are logged.
#[derive(Clone, Copy, Debug, PartialEq, Eq, ValueEnum)]
pub(crate) enum LogLevel {
    /// What ends the registry or fails in it
    Error,
    /// What an operator should look at too
    Warn,
    /// Each request too
    Info,
    /// Details of requests too
    Debug,
}

impl LogLevel {
    /// Returns the level of the messages.
    pub(crate) fn filter(self) -> LevelFilter {
        match self {
            LogLevel::Error => LevelFilter::ERROR,
            LogLevel::Warn => LevelFilter::WARN,
            LogLevel::Info => LevelFilter::INFO,
            LogLevel::Debug => LevelFilter::DEBUG,
        }
    }
}

/// When changes are on the disk.
#[derive(Clone, Copy, Debug, PartialEq, Eq, ValueEnum)]
pub(super) enum SyncPolicy {
    /// Each change but a chunk is on the disk before its reply
    Closes,
    /// Chunks too
    Each,
    /// The system writes changes when it likes
    Never,
}

/// Returns the time that an argument in hours means.
///
/// # Errors
///
/// Fails if it is not a positive number, or more than 100 years.
pub(super) fn hours(text: &str) -> Result<Duration, String> {
    match text.parse::<f64>() {
        Ok(hours) if hours > 0.0 && hours <= 876_600.0 => Ok(Duration::from_secs_f64(3600.0 * hours)),
        _ => Err("write a number of hours such as 48 or 0.5".to_string()),
    }
}

/// Checks a text that is quoted in the header of a challenge, and returns it.
pub(super) fn quotable(text: &str) -> Result<String, String> {
    let is_plain = |byte: u8| byte.is_ascii_graphic() && byte != b'"' && byte != b'\\';
    match !text.is_empty() && text.bytes().all(is_plain) {
        true => Ok(text.to_string()),
        false => Err("write ASCII letters without spaces, quotes and backslashes".to_string()),
    }
}

/// Checks the name of a tenant or a repository, and returns it.
pub(super) fn prefix(text: &str) -> Result<String, String> {
    check_prefix(text).map(|()| text.to_string())
}

#[cfg(test)]
mod tests {
    use super::*;

    #[test]
    fn hours_are_a_positive_number() {
        assert_eq!(hours("48"), Ok(Duration::from_secs(172_800)));
        assert_eq!(hours("0.5"), Ok(Duration::from_secs(1800)));
        for text in ["", "0", "-1", "x", "inf", "NaN", "1e9"] {
            assert!(hours(text).is_err(), "{text}");
        }
    }

    #[test]
    fn quoted_texts_are_plain() {
        assert_eq!(quotable("https://a/token"), Ok("https://a/token".to_string()));
        for text in ["", "a b", "a\"", "a\\", "a\n", "ä"] {
            assert!(quotable(text).is_err(), "{text}");
        }
    }
}
