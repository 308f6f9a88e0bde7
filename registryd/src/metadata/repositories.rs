//! The repositories of the store, and the requests in progress that may create or remove one.
use crate::database::change::Change;
use crate::database::writer::{WriteFailure, Writer};
use crate::metadata::limits::Limit;
use crate::metadata::names::tenant_of;
use crate::operation::locks::guard_of;
use std::collections::{BTreeMap, HashMap, HashSet};
use std::ops::Bound;
use std::sync::{Arc, Mutex};

/// The repositories of the store, by tenant. The store bounds their number.
///
/// With a database, a repository is recorded there before an upload is opened in it, so that the upload is found after a
/// crash. The record is removed after the repository, when no request that may create it again is in progress.
///
/// A repository that the store has is here, unless a request that creates it is in progress. One that the store has
/// not may stay here after a crash, a late reply, or a delete during the mount that created it. It is removed here
/// after the next delete in it, or at the next start.
#[derive(Default)]
pub(crate) struct Repositories {
    table: Mutex<Table>,
    writer: Option<Arc<Writer>>,
    /// The repositories that requests in progress may create or remove.
    changing: Mutex<HashMap<String, Changing>>,
    /// The tenants for which the database has a number up to which all uploads are recorded.
    numbered: Mutex<HashSet<String>>,
}

/// The repositories of each tenant, each with the number of its last addition.
#[derive(Default)]
struct Table {
    by_tenant: HashMap<String, BTreeMap<String, u64>>,
    /// The number of the last addition of any repository.
    last: u64,
}

/// The requests in progress that may create or remove a repository.
#[derive(Default)]
struct Changing {
    requests: usize,
    /// Whether the database may have a record of the repository.
    is_recorded: bool,
}

/// A request that may create or remove a repository. After the last one the record of the repository is removed, if the
/// repository is not there.
pub(crate) struct ChangingRequest<'r> {
    repositories: &'r Repositories,
    repo: &'r str,
    is_recorded: bool,
}

/// A request that may open an upload, and so create a repository. The repository is added if the outcome is unknown.
pub(crate) struct Entering<'r> {
    request: ChangingRequest<'r>,
    is_settled: bool,
}

/// A request that may remove a repository.
pub(crate) struct Removing<'r> {
    request: ChangingRequest<'r>,
    /// The number of the repository's last addition before the store is asked.
    addition: Option<u64>,
}

impl Repositories {
    /// Makes the table of a registry with a database.
    pub(crate) fn recorded_by(writer: Option<Arc<Writer>>) -> Repositories {
        Repositories { writer, ..Repositories::default() }
    }

    /// Begins a request that may create or remove a repository.
    pub(crate) fn begin_change<'r>(&'r self, repo: &'r str) -> ChangingRequest<'r> {
        guard_of(self.changing.lock()).entry(repo.to_string()).or_default().requests += 1;
        // A repository that is here after the request is counted keeps its record until the request ends.
        ChangingRequest { repositories: self, repo, is_recorded: self.has(repo) }
    }

    /// Begins a request that may open an upload. With a database, the repository is recorded when this returns.
    pub(crate) async fn enter<'r>(&'r self, repo: &'r str) -> Result<Entering<'r>, WriteFailure> {
        let mut entering = Entering { request: self.begin_change(repo), is_settled: false };
        if let Some(writer) = self.writer.as_ref().filter(|_| !entering.request.is_recorded) {
            entering.request.is_recorded = true;
            if let Err(error) = writer.write(Change::AddRepository { repo: repo.to_string() }).await {
                entering.is_settled = true;
                return Err(error);
            }
        }
        Ok(entering)
    }

    /// Begins a request that may remove a repository, before the store is asked.
    pub(crate) fn begin_removal<'r>(&'r self, repo: &'r str) -> Removing<'r> {
        Removing { request: self.begin_change(repo), addition: self.addition(repo) }
    }

    /// Returns whether the numbers of a tenant's uploads have to be found before one is opened.
    pub(crate) fn wants_number(&self, tenant: &str) -> bool {
        self.writer.is_some() && !guard_of(self.numbered.lock()).contains(tenant)
    }

    /// Records that the store used all numbers of a repository's tenant up to this one.
    pub(crate) async fn begin_numbers(&self, repo: &str, number: u32) -> Result<(), WriteFailure> {
        if let Some(writer) = &self.writer {
            writer.write(Change::BeginUploads { repo: repo.to_string(), number }).await?;
            self.set_numbered(tenant_of(repo));
        }
        Ok(())
    }

    /// Notes that the database has a number of a tenant.
    pub(crate) fn set_numbered(&self, tenant: &str) {
        guard_of(self.numbered.lock()).insert(tenant.to_string());
    }

    /// Returns whether repositories are recorded in a database.
    pub(crate) fn are_recorded(&self) -> bool {
        self.writer.is_some()
    }

    /// Returns the number of a repository's last addition, if it is here.
    fn addition(&self, repo: &str) -> Option<u64> {
        guard_of(self.table.lock()).by_tenant.get(tenant_of(repo))?.get(repo).copied()
    }

    /// Returns whether a repository is here.
    fn has(&self, repo: &str) -> bool {
        self.addition(repo).is_some()
    }

    /// Returns the number of repositories of a tenant.
    pub(crate) fn count(&self, tenant: &str) -> usize {
        guard_of(self.table.lock()).by_tenant.get(tenant).map_or(0, BTreeMap::len)
    }

    /// Returns the first repositories of a tenant after `last` in order, at most `most`, and whether more follow.
    pub(crate) fn page(&self, tenant: &str, last: &str, most: usize) -> (Vec<String>, bool) {
        let table = guard_of(self.table.lock());
        let after = (Bound::Excluded(last), Bound::Unbounded);
        let mut names =
            table.by_tenant.get(tenant).into_iter().flat_map(|repos| repos.range::<str, _>(after).map(|(name, _)| name));
        let first = names.by_ref().take(most).cloned().collect();
        (first, names.next().is_some())
    }

    /// Adds a repository after the store accepted a call that may have created it. With a database, it has to be recorded.
    pub(crate) fn add(&self, repo: &str) {
        let mut table = guard_of(self.table.lock());
        table.last += 1;
        let number = table.last;
        let repos = table.by_tenant.entry(tenant_of(repo).to_string()).or_default();
        match repos.get_mut(repo) {
            Some(last) => *last = number,
            None => {
                repos.insert(repo.to_string(), number);
            }
        }
    }

    /// Returns the limit that a call on a repository has reached. This is `Repositories` if the repository is new and its
    /// tenant has `most`, the maximum number, and `own` otherwise.
    pub(crate) fn reached(&self, repo: &str, most: usize, own: Limit) -> Limit {
        match guard_of(self.table.lock()).by_tenant.get(tenant_of(repo)) {
            Some(repos) if repos.len() >= most && !repos.contains_key(repo) => Limit::Repositories,
            _ => own,
        }
    }
}

impl Entering<'_> {
    /// Notes that the outcome is known: the store refused the request, or the repository is added.
    pub(crate) fn settle(&mut self) {
        self.is_settled = true;
    }
}

impl Drop for Entering<'_> {
    fn drop(&mut self) {
        if !self.is_settled {
            self.request.repositories.add(self.request.repo);
        }
    }
}

impl Removing<'_> {
    /// Removes the repository here after the store replied that it no longer has it. It stays if it was added since the
    /// store was asked: it may have been created again.
    pub(crate) fn removed(self) {
        let ChangingRequest { repositories, repo, .. } = self.request;
        let mut table = guard_of(repositories.table.lock());
        if let Some(repos) = table.by_tenant.get_mut(tenant_of(repo)) {
            if repos.get(repo).copied() == self.addition {
                repos.remove(repo);
            }
        }
    }
}

impl Drop for ChangingRequest<'_> {
    fn drop(&mut self) {
        let ChangingRequest { repositories, repo, is_recorded } = *self;
        let mut changing = guard_of(repositories.changing.lock());
        let is_last_recorded = match changing.get_mut(repo) {
            Some(one) if one.requests > 1 => {
                one.requests -= 1;
                one.is_recorded |= is_recorded;
                return;
            }
            one => is_recorded || one.map_or(false, |one| one.is_recorded),
        };
        changing.remove(repo);
        // The lock is held until the change is noted, so that no later request is recorded before it.
        if let Some(writer) = repositories.writer.as_ref().filter(|_| is_last_recorded && !repositories.has(repo)) {
            writer.note(Change::RemoveRepository { repo: repo.to_string() });
        }
    }
}

#[cfg(test)]
mod tests {
    use super::*;

    #[test]
    fn a_limit_is_the_call_s_own_unless_its_repository_is_one_too_many() {
        let repositories = Repositories::default();
        for number in 0..3 {
            assert_eq!(repositories.reached("acme/new", 3, Limit::Uploads), Limit::Uploads);
            repositories.add(&format!("acme/r{number}"));
            repositories.add("acme/r0");
        }
        assert_eq!(repositories.reached("acme/new", 3, Limit::Uploads), Limit::Repositories);
        assert_eq!(repositories.reached("acme/new", 3, Limit::Manifests), Limit::Repositories);
        assert_eq!(repositories.reached("acme/r1", 3, Limit::Manifests), Limit::Manifests);
        assert_eq!(repositories.reached("other/new", 3, Limit::Uploads), Limit::Uploads);
    }

    #[test]
    fn a_removed_repository_stays_if_it_was_added_meanwhile() {
        let repositories = Repositories::default();
        for repo in ["acme/a", "acme/b"] {
            repositories.add(repo);
            repositories.begin_removal(repo).removed();
            repositories.begin_removal(repo).removed();
        }
        assert_eq!(repositories.count("acme"), 0);
        repositories.add("acme/a");
        let (early, in_use) = (repositories.begin_removal("acme/a"), repositories.begin_removal("acme/a"));
        drop(in_use);
        repositories.add("acme/a");
        let late = repositories.begin_removal("acme/a");
        early.removed();
        assert_eq!(repositories.count("acme"), 1);
        late.removed();
        assert_eq!(repositories.count("acme"), 0);
        assert!(repositories.changing.lock().unwrap().is_empty());
    }

    #[tokio::test]
    async fn a_repository_is_added_if_the_outcome_is_unknown() {
        let repositories = Repositories::default();
        repositories.enter("acme/refused").await.unwrap().settle();
        assert_eq!(repositories.count("acme"), 0);
        drop(repositories.enter("acme/late").await.unwrap());
        assert_eq!(repositories.page("acme", "", 9), (vec!["acme/late".to_string()], false));
    }

    #[test]
    fn repositories_have_pages() {
        let repositories = Repositories::default();
        for name in ["acme/c", "acme/a", "other/x", "acme/b"] {
            repositories.add(name);
        }
        let names = |names: &[&str]| names.iter().map(|name| name.to_string()).collect::<Vec<_>>();
        assert_eq!(repositories.page("acme", "", 2), (names(&["acme/a", "acme/b"]), true));
        assert_eq!(repositories.page("acme", "acme/b", 2), (names(&["acme/c"]), false));
        assert_eq!(repositories.page("nobody", "", 2), (names(&[]), false));
        assert_eq!((repositories.count("acme"), repositories.count("nobody")), (3, 0));
    }
}
