//! The differences between two readings of the file of tenants.
use crate::tenants::file::TenantLine;
use std::collections::HashMap;

/// A tenant of which two readings of the file differ. Its number of the line does not count.
#[derive(Clone, Debug, PartialEq, Eq)]
pub(crate) enum TenantChange<'l> {
    /// The tenant had this line, and has none.
    Removed(&'l TenantLine),
    /// The tenant had another line.
    Changed { from: &'l TenantLine, to: &'l TenantLine },
    /// The tenant had no line.
    Added(&'l TenantLine),
}

impl TenantChange<'_> {
    /// Returns why the change takes a restart, with the line if there is one. Returns `None` if it does not: the store does not know the
    /// bounds on manifests and tags.
    pub(super) fn why_restart(&self) -> Option<String> {
        match self {
            TenantChange::Removed(from) => {
                Some(format!("no line of tenant {}: the removal of a tenant takes a restart", from.tenant.name))
            }
            TenantChange::Changed { from, to } => {
                let what = match (from.tenant.quota != to.tenant.quota, from.tenant.share != to.tenant.share) {
                    (true, true) => "quota and a new share take",
                    (true, false) => "quota takes",
                    (false, true) => "share takes",
                    (false, false) => return None,
                };
                Some(format!("line {}: a new {what} a restart: tenant {}", to.number, to.tenant.name))
            }
            TenantChange::Added(to) => Some(format!("line {}: a new tenant takes a restart: {}", to.number, to.tenant.name)),
        }
    }
}

/// Returns the differences between two readings of the file: removals in the old order, and then the others in the new one.
pub(super) fn between<'l>(old: &'l [TenantLine], new: &'l [TenantLine]) -> Vec<TenantChange<'l>> {
    fn by_name(lines: &[TenantLine]) -> HashMap<&str, &TenantLine> {
        lines.iter().map(|line| (line.tenant.name.as_str(), line)).collect()
    }
    let (before, after) = (by_name(old), by_name(new));
    let removed = old.iter().filter(|line| !after.contains_key(line.tenant.name.as_str())).map(TenantChange::Removed);
    let others = new.iter().filter_map(|to| match before.get(to.tenant.name.as_str()) {
        Some(from) if (&from.tenant, from.bounds) == (&to.tenant, to.bounds) => None,
        Some(from) => Some(TenantChange::Changed { from, to }),
        None => Some(TenantChange::Added(to)),
    });
    removed.chain(others).collect()
}

#[cfg(test)]
mod tests {
    use super::*;
    use crate::tenants::file::tests::parsed;

    #[test]
    fn differences_are_by_tenant() {
        let old = parsed("a=1\nb=1 tags=1\nc=1\nd=1,2\ne=1\n").unwrap();
        let new = parsed("f=1\nc=1\n# moved\nb=1 tags=2\ng=1\nd=2,2\na=1\n").unwrap();
        let changes = between(&old, &new);
        let expected = [
            TenantChange::Removed(&old[4]),
            TenantChange::Added(&new[0]),
            TenantChange::Changed { from: &old[1], to: &new[2] },
            TenantChange::Added(&new[3]),
            TenantChange::Changed { from: &old[3], to: &new[4] },
        ];
        assert_eq!(changes, expected);
        assert_eq!((between(&old, &old), between(&[], &[])), (Vec::new(), Vec::new()));
    }

    #[test]
    fn bounds_take_no_restart() {
        let old = parsed("acme=1,2 tags=1\n").unwrap();
        for (text, why) in [
            ("acme=1,2", None),
            ("acme=1,2 tags=9 manifests=1 manifest-bytes=7", None),
            ("acme=2,2 tags=1", Some("line 1: a new quota takes a restart: tenant acme")),
            ("acme=1,3 tags=2", Some("line 1: a new share takes a restart: tenant acme")),
            ("acme=1 tags=1", Some("line 1: a new share takes a restart: tenant acme")),
            ("acme=2 tags=1", Some("line 1: a new quota and a new share take a restart: tenant acme")),
            ("# acme=1,2 tags=1", Some("no line of tenant acme: the removal of a tenant takes a restart")),
            ("acme=1,2 tags=1\nother=3", Some("line 2: a new tenant takes a restart: other")),
        ] {
            let new = parsed(text).unwrap();
            let reasons: Vec<Option<String>> = between(&old, &new).iter().map(TenantChange::why_restart).collect();
            assert_eq!(reasons, [why.map(str::to_string)], "{text}");
        }
    }
}
