//! The words `TENANT=QUOTA` and `TENANT=QUOTA,BLOBS` of the command line and of the file of tenants, by the rules of the store.
use crate::http::exchange::shortened;
use crate::metadata::names::is_component;
use std::collections::HashSet;

/// The maximum number of tenants.
pub(super) const MAX_TENANTS: usize = 4096;

/// The maximum quota, in bytes.
const MAX_QUOTA: u64 = 1 << 50;

/// The maximum share, in distinct blobs.
const MAX_SHARE: u64 = u32::MAX as u64;

/// The maximum number of bytes of a word in a message.
const SHOWN: usize = 512;

/// A tenant with what the store grants it.
#[derive(Clone, Debug, PartialEq, Eq)]
pub(crate) struct Tenant {
    pub(crate) name: String,
    /// The maximum number of bytes.
    pub(crate) quota: u64,
    /// The maximum number of distinct blobs, if it is given.
    pub(crate) share: Option<u64>,
}

impl Tenant {
    /// Reads a word that `tenant_word` accepts.
    pub(crate) fn of(word: &str) -> Option<Tenant> {
        let (name, limits) = word.split_once('=')?;
        let (quota, share) = limits.split_once(',').map_or((limits, None), |(quota, share)| (quota, Some(share)));
        let share = share.map(str::parse).transpose().ok()?;
        Some(Tenant { name: name.to_string(), quota: quota.parse().ok()?, share })
    }
}

/// Returns a word as a message quotes it: on one line of visible characters, and only the beginning of a long one.
pub(super) fn shown(word: &str) -> String {
    let visible = |letter| if char::is_control(letter) { char::REPLACEMENT_CHARACTER } else { letter };
    shortened(word, SHOWN).chars().map(visible).collect()
}

/// Checks a word of the form `TENANT=QUOTA` or `TENANT=QUOTA,BLOBS`, and returns it.
///
/// # Errors
///
/// Fails with a message that quotes the word.
pub(crate) fn tenant_word(word: &str) -> Result<String, String> {
    let quoted = shown(word);
    let (name, limits) = word.split_once('=').ok_or_else(|| format!("`{quoted}` is not TENANT=QUOTA[,BLOBS]"))?;
    if !is_component(name) {
        return Err(format!("invalid tenant `{}` in `{quoted}`: write a name such as acme or acme-2", shown(name)));
    }
    let (quota, share) = limits.split_once(',').map_or((limits, None), |(quota, share)| (quota, Some(share)));
    if !is_number_within(quota, MAX_QUOTA) {
        return Err(format!("invalid quota `{}` in `{quoted}`: write a number of bytes from 0 to {MAX_QUOTA}", shown(quota)));
    }
    match share {
        Some(share) if !is_number_within(share, MAX_SHARE) => {
            Err(format!("invalid share `{}` in `{quoted}`: write a number of blobs from 0 to {MAX_SHARE}", shown(share)))
        }
        _ => Ok(word.to_string()),
    }
}

/// Returns whether a text is a number in decimal digits that is at most `most`.
pub(super) fn is_number_within(text: &str, most: u64) -> bool {
    !text.is_empty()
        && text.bytes().all(|byte| byte.is_ascii_digit())
        && text.parse::<u64>().map_or(false, |number| number <= most)
}

/// Returns why a store cannot have these tenants, if it cannot.
pub(crate) fn conflict(words: &[String]) -> Option<String> {
    if words.len() > MAX_TENANTS {
        return Some(format!("too many tenants: {}: the maximum is {MAX_TENANTS}", words.len()));
    }
    let mut names = HashSet::new();
    let twice = words.iter().find(|word| !names.insert(word.split('=').next()))?;
    Some(format!("duplicate tenant: `{twice}`"))
}

#[cfg(test)]
mod tests {
    use super::*;

    #[test]
    fn a_message_names_the_word() {
        assert_eq!(tenant_word("acme=0"), Ok("acme=0".to_string()));
        assert_eq!(tenant_word("acme=1125899906842624"), Ok("acme=1125899906842624".to_string()));
        for word in ["acme=5,0", "acme=5,500", "acme=5,4294967295"] {
            assert_eq!(tenant_word(word), Ok(word.to_string()));
        }
        for word in ["acme", "acme=", "=1", "acme=-1", "acme=+1", "acme=x", "acme=1125899906842625", "A=1", "a/b=1"] {
            assert!(tenant_word(word).unwrap_err().contains(&format!("`{word}`")), "{word}");
        }
        for word in ["acme=5,", "acme=,5", "acme=5,-1", "acme=5,1,1", "acme=5,4294967296"] {
            assert!(tenant_word(word).unwrap_err().contains(&format!("`{word}`")), "{word}");
        }
    }

    #[test]
    fn a_word_has_a_quota_and_may_have_a_share() {
        let tenant = |quota, share| Some(Tenant { name: "acme".to_string(), quota, share });
        assert_eq!(Tenant::of("acme=5"), tenant(5, None));
        assert_eq!(Tenant::of("acme=1125899906842624,4294967295"), tenant(1 << 50, Some(u64::from(u32::MAX))));
        assert_eq!(Tenant::of("acme=5,x"), None);
    }

    #[test]
    fn tenants_differ_and_are_bounded() {
        let words = |count: usize| (0..count).map(|number| format!("t{number}=1")).collect::<Vec<_>>();
        assert_eq!(conflict(&words(MAX_TENANTS)), None);
        assert!(conflict(&words(MAX_TENANTS + 1)).is_some());
        let twice = ["a=1".to_string(), "b=1".to_string(), "a=2".to_string()];
        assert_eq!(conflict(&twice), Some("duplicate tenant: `a=2`".to_string()));
    }
}
