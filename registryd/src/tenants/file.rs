//! The file of tenants: one a line, as on the command line, with bounds on its manifests and tags.
use crate::metadata::bounds::Bounds;
use crate::operation::reload::{parse_lines, read_parsed};
use crate::tenants::words::{is_number_within, shown, tenant_word, Tenant, MAX_TENANTS};
use std::collections::hash_map::Entry;
use std::collections::{HashMap, HashSet};
use std::path::Path;

/// A line of the file.
#[derive(Clone, Debug, PartialEq, Eq)]
pub(crate) struct TenantLine {
    /// The number of the line.
    pub(crate) number: usize,
    pub(crate) tenant: Tenant,
    /// The bounds on its manifests and tags, as far as the line has them.
    pub(crate) bounds: Bounds,
}

/// Sets the bound of a word `NAME=N`, which is not set yet.
fn set_bound(bounds: &mut Bounds, word: &str) -> Result<(), String> {
    let (name, number) = word.split_once('=').unwrap_or((word, ""));
    let bound = match name {
        "manifests" => &mut bounds.manifests,
        "manifest-bytes" => &mut bounds.manifest_bytes,
        "tags" => &mut bounds.tags,
        _ => return Err(format!("not a setting: `{}`: write manifests=N, manifest-bytes=N or tags=N", shown(word))),
    };
    if !is_number_within(number, u64::MAX) {
        return Err(format!("invalid number in `{}`: write a number from 0 to {}", shown(word), u64::MAX));
    }
    match std::mem::replace(bound, number.parse().ok()) {
        None => Ok(()),
        Some(_) => Err(format!("a setting is there twice: `{}`", shown(word))),
    }
}

/// Parses a line `TENANT=QUOTA[,BLOBS] SETTING..`.
fn parse_line(number: usize, line: &str) -> Result<TenantLine, String> {
    let mut words = line.split_whitespace();
    let word = words.next().unwrap_or_default();
    let tenant = Tenant::of(&tenant_word(word)?).ok_or_else(|| format!("`{}` is not TENANT=QUOTA[,BLOBS]", shown(word)))?;
    let mut bounds = Bounds::default();
    for word in words {
        set_bound(&mut bounds, word)?;
    }
    Ok(TenantLine { number, tenant, bounds })
}

/// Parses the text of a file. `arguments` are the names of the tenants of the command line.
///
/// # Errors
///
/// Fails at the first line that is wrong, with its number and the reason. No tenant has two lines, or a line and an argument. Both together
/// are at most as many as a store has.
fn parse(text: &str, arguments: &[String]) -> Result<Vec<TenantLine>, String> {
    let lines = parse_lines(text, parse_line)?;
    let arguments: HashSet<&str> = arguments.iter().map(String::as_str).collect();
    let mut found = HashMap::new();
    for TenantLine { number, tenant, .. } in &lines {
        let name = tenant.name.as_str();
        let fault = |why: String| Err(format!("line {number}: {why}"));
        if arguments.contains(name) {
            return fault(format!("duplicate tenant: {name}: it is an argument too"));
        }
        match found.entry(name) {
            Entry::Occupied(first) => return fault(format!("duplicate tenant: {name}: line {} has it too", first.get())),
            Entry::Vacant(place) => place.insert(number),
        };
        if arguments.len() + found.len() > MAX_TENANTS {
            return fault(format!("too many tenants: the maximum is {MAX_TENANTS}, with those that are arguments"));
        }
    }
    Ok(lines)
}

/// Reads the lines of a file. `arguments` are the names of the tenants of the command line.
///
/// # Errors
///
/// - The file cannot be read.
/// - A line is wrong. The message has the number of the first such line.
pub(crate) fn read(path: &Path, arguments: &[String]) -> Result<Vec<TenantLine>, String> {
    read_parsed(path, "tenants", |text| parse(text, arguments))
}

#[cfg(test)]
pub(super) mod tests {
    use super::*;

    /// Parses a text next to a command line without tenants.
    pub(in crate::tenants) fn parsed(text: &str) -> Result<Vec<TenantLine>, String> {
        parse(text, &[])
    }

    #[test]
    fn a_line_has_a_tenant_and_bounds() {
        let lines =
            parsed("# tenants\nacme=5,7\n\n  other=6 tags=2\tmanifests=0 \n\t# a=1\nx=1 manifest-bytes=18446744073709551615\r\n")
                .unwrap();
        let tenant = |name: &str, quota, share| Tenant { name: name.to_string(), quota, share };
        let bounds = |manifests, manifest_bytes, tags| Bounds { manifests, manifest_bytes, tags };
        let expected = [
            TenantLine { number: 2, tenant: tenant("acme", 5, Some(7)), bounds: Bounds::default() },
            TenantLine { number: 4, tenant: tenant("other", 6, None), bounds: bounds(Some(0), None, Some(2)) },
            TenantLine { number: 6, tenant: tenant("x", 1, None), bounds: bounds(None, Some(u64::MAX), None) },
        ];
        assert_eq!(lines, expected);
        assert_eq!((parsed(""), parsed("\n#acme=1\n")), (Ok(Vec::new()), Ok(Vec::new())));
    }

    #[test]
    fn bad_lines_are_errors() {
        for (line, why) in [
            ("acme", "`acme` is not TENANT=QUOTA[,BLOBS]"),
            ("acme = 5", "`acme` is not TENANT=QUOTA[,BLOBS]"),
            ("acme=", "invalid quota `` in `acme=`"),
            ("acme=x", "invalid quota `x` in `acme=x`: write a number of bytes from 0 to 1125899906842624"),
            ("acme=1125899906842625", "invalid quota"),
            ("acme=5,x", "invalid share `x`"),
            ("acme=5, 7", "invalid share ``"),
            ("Acme=5", "invalid tenant `Acme`"),
            ("<script>alert(1)</script>=5", "invalid tenant `<script>alert(1)</script>`"),
            ("a\u{1b}[31m=5", "invalid tenant `a\u{fffd}[31m` in `a\u{fffd}[31m=5`"),
            ("acme=5 # comment", "not a setting: `#`"),
            ("acme=5 other=6", "not a setting: `other=6`"),
            ("acme=5 tags", "invalid number in `tags`: write a number from 0 to 18446744073709551615"),
            ("acme=5 tags=", "invalid number in `tags=`"),
            ("acme=5 tags=-1", "invalid number in `tags=-1`"),
            ("acme=5 tags=18446744073709551616", "invalid number"),
            ("acme=5 tags=1 tags=2", "a setting is there twice: `tags=2`"),
            ("acme=5 repositories=1", "not a setting: `repositories=1`: write manifests=N, manifest-bytes=N or tags=N"),
            ("one=5", "duplicate tenant: one: line 1 has it too"),
        ] {
            let found = parsed(&format!("one=1\n# tenants\n{line}\n")).unwrap_err();
            assert!(found.starts_with(&format!("line 3: {why}")), "{line}: {found}");
        }
    }

    #[test]
    fn a_long_line_has_a_short_message() {
        for line in ["a".repeat(1 << 20), format!("{}=5", "a".repeat(1 << 20)), format!("a=5 {}", "x".repeat(1 << 20))] {
            let why = parsed(&line).unwrap_err();
            assert!(why.starts_with("line 1: ") && why.contains("bytes)") && why.len() < 2000, "{} bytes", why.len());
        }
    }

    #[test]
    fn tenants_are_those_of_the_command_line_too() {
        let arguments: Vec<String> = (0..MAX_TENANTS - 1).map(|number| format!("t{number}")).collect();
        assert!(parse("a=1\n", &arguments).is_ok());
        let why = parse("a=1\nb=2\n", &arguments).unwrap_err();
        assert!(why.starts_with("line 2: too many tenants: the maximum is 4096"), "{why}");
        let why = parse("a=1\nt7=2\n", &arguments).unwrap_err();
        assert_eq!(why, "line 2: duplicate tenant: t7: it is an argument too");
    }
}
