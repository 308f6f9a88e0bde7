//! The bounds on the manifests and tags of each tenant: those of its line in the file, else those of the options, else the defaults.
use crate::metadata::bounds::Bounds;
use crate::metadata::manifest_table::ManifestTable;
use crate::metadata::names::tenant_of;
use crate::operation::locks::guard_of;
use crate::tenants::words::Tenant;
use std::collections::HashMap;
use std::sync::RwLock;

/// The bounds that hold now.
pub(crate) struct TenantBounds {
    /// The bounds of each tenant, as far as options give them.
    pub(crate) given: Bounds,
    by_tenant: RwLock<HashMap<String, Bounds>>,
}

/// Returns the bounds of a tenant with the default. If it has more than that, the default is not for it, and it is not limited.
fn with_default(tenant: &Tenant, given: Bounds, manifests: &ManifestTable) -> Bounds {
    let bounds = given.with_quota(tenant.quota);
    let used = manifests.totals(&tenant.name).manifest_bytes;
    match bounds.manifest_bytes.filter(|most| used > *most && given.manifest_bytes.is_none()) {
        Some(default) => {
            tracing::warn!(
                tenant = %tenant.name,
                used,
                default,
                "the tenant has more bytes of manifests than the default, and is not limited: give --manifest-bytes, or manifest-bytes=N in its line"
            );
            Bounds { manifest_bytes: None, ..bounds }
        }
        None => bounds,
    }
}

impl TenantBounds {
    /// Makes the bounds of no tenant yet, with those that options give.
    pub(crate) fn new(given: Bounds) -> TenantBounds {
        TenantBounds { given, by_tenant: RwLock::default() }
    }

    /// Returns the bounds of a repository's tenant.
    pub(crate) fn of(&self, repo: &str) -> Bounds {
        guard_of(self.by_tenant.read()).get(tenant_of(repo)).copied().unwrap_or(self.given)
    }

    /// Sets the bounds of tenants, all at once. Each is with those that its line has. `manifests` has what they use.
    pub(crate) fn set<'t>(&self, tenants: impl IntoIterator<Item = (&'t Tenant, Bounds)>, manifests: &ManifestTable) {
        let of = |(tenant, own): (&Tenant, Bounds)| (tenant.name.clone(), with_default(tenant, own.or(self.given), manifests));
        let set: Vec<(String, Bounds)> = tenants.into_iter().map(of).collect();
        guard_of(self.by_tenant.write()).extend(set);
    }
}

#[cfg(test)]
mod tests {
    use super::*;
    use crate::metadata::memory_table::MemoryTable;
    use crate::tenants::file::tests::parsed;

    #[test]
    fn a_line_precedes_the_options_and_the_default() {
        let bounds = TenantBounds::new(Bounds { manifests: Some(5), ..Bounds::default() });
        let lines = parsed("acme=1000000000\nother=5 manifests=9 tags=2\n").unwrap();
        bounds.set(lines.iter().map(|line| (&line.tenant, line.bounds)), &MemoryTable::default());
        let tenth = Bounds { manifests: Some(5), manifest_bytes: Some(100_000_000), tags: None };
        assert_eq!((bounds.of("acme/web"), bounds.of("acme")), (tenth, tenth));
        assert_eq!(bounds.of("other/x"), Bounds { manifests: Some(9), manifest_bytes: Some(16 << 20), tags: Some(2) });
        assert_eq!(bounds.of("nobody"), bounds.given);
        let again = parsed("other=5 manifest-bytes=7").unwrap();
        bounds.set(again.iter().map(|line| (&line.tenant, line.bounds)), &MemoryTable::default());
        assert_eq!(bounds.of("other/x"), Bounds { manifests: Some(5), manifest_bytes: Some(7), tags: None });
        assert_eq!(bounds.of("acme/web"), tenth);
    }
}
