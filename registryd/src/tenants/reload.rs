//! SIGHUP and the file of tenants: the one place that applies its changes while the registry runs.
use crate::endpoints::registry::Registry;
use crate::operation::locks::guard_of;
use crate::operation::reload::Reload;
use crate::tenants::changes::{between, TenantChange};
use crate::tenants::file::{self, TenantLine};
use std::path::PathBuf;
use std::sync::{Arc, Mutex};

/// The file of tenants of a registry.
pub(crate) struct TenantFile {
    path: PathBuf,
    /// The names of the tenants of the command line.
    arguments: Vec<String>,
    /// The lines that hold.
    lines: Mutex<Arc<Vec<TenantLine>>>,
    registry: Arc<Registry>,
}

impl TenantFile {
    /// Makes the file of a registry that was started with these lines.
    pub(crate) fn new(path: PathBuf, arguments: Vec<String>, lines: Vec<TenantLine>, registry: Arc<Registry>) -> TenantFile {
        TenantFile { path, arguments, lines: Mutex::new(Arc::new(lines)), registry }
    }

    /// Applies all changes of the file, or none.
    ///
    /// # Errors
    ///
    /// Fails at the first change that takes a restart. Nothing is changed then.
    fn apply(&self, changes: &[TenantChange<'_>]) -> Result<(), String> {
        if let Some(why) = changes.iter().find_map(TenantChange::why_restart) {
            return Err(format!("cannot change the tenants: {}: {why}", self.path.display()));
        }
        let changed = changes.iter().filter_map(|change| match change {
            TenantChange::Changed { to, .. } => Some(*to),
            TenantChange::Removed(_) | TenantChange::Added(_) => None,
        });
        let changed: Vec<&TenantLine> = changed.collect();
        let Registry { bounds, manifests, .. } = &*self.registry;
        bounds.set(changed.iter().map(|line| (&line.tenant, line.bounds)), manifests);
        for TenantLine { tenant, .. } in changed {
            let new = bounds.of(&tenant.name);
            tracing::info!(
                tenant = %tenant.name,
                manifests = new.manifests,
                manifest_bytes = new.manifest_bytes,
                tags = new.tags,
                "the bounds of a tenant changed"
            );
        }
        Ok(())
    }
}

impl Reload for TenantFile {
    fn reload(&self) -> Result<(), String> {
        let old = guard_of(self.lines.lock()).clone();
        let new = file::read(&self.path, &self.arguments)?;
        self.apply(&between(&old, &new))?;
        *guard_of(self.lines.lock()) = Arc::new(new);
        Ok(())
    }
}
