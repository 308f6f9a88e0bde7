//! Calls that may create a repository, of requests and of mirrors.
use crate::endpoints::registry::Registry;
use crate::http::fault::Fault;
use crate::metadata::limits::Limit;
use crate::metadata::names::{is_repository, tenant_of};
use crate::metadata::repositories::Entering;
use crate::store::frames::{Reason, Refusal};

impl Registry {
    /// Returns the result of a call that has a limit. A limit that the call has reached is named in the failure.
    pub(crate) fn check_limit<T>(&self, repo: &str, answer: Result<T, Refusal>, own: Limit) -> Result<T, Fault> {
        match answer {
            Ok(answer) => Ok(answer),
            Err(Refusal { reason: Reason::LimitReached, .. }) => Err(self.reached_limit(repo, own)),
            Err(refusal) => Err(refusal.into()),
        }
    }

    /// Returns the fault of a call on a repository that has reached a limit: that of repositories, or `own`.
    pub(crate) fn reached_limit(&self, repo: &str, own: Limit) -> Fault {
        let limit = self.repositories.reached(repo, self.limits.repositories, own);
        Fault::limit(limit, self.limits.most(limit), repo)
    }

    /// Begins a call that may create a repository. If no tenant can have it, the store refuses the call.
    pub(crate) async fn enter_repository<'r>(&'r self, repo: &'r str) -> Result<Option<Entering<'r>>, Fault> {
        let Registry { repositories, store, .. } = self;
        if !repositories.are_recorded() || !is_repository(repo) || !store.has_tenant(repo) {
            return Ok(None);
        }
        let entering = repositories.enter(repo).await?;
        if repositories.wants_number(tenant_of(repo)) {
            self.find_number(repo).await?;
        }
        Ok(Some(entering))
    }

    /// Finds and records the next number of the tenant's uploads before the first one is opened, by an upload that is
    /// abandoned.
    async fn find_number(&self, repo: &str) -> Result<(), Fault> {
        let Registry { repositories, store, uploads, turns, .. } = self;
        let tenant = tenant_of(repo);
        let _turn = turns.take(tenant, "").await;
        if !repositories.wants_number(tenant) {
            return Ok(());
        }
        if let Ok(number) = store.start_upload(repo).await? {
            let name = uploads.add(repo, number);
            repositories.begin_numbers(repo, number.saturating_sub(1)).await?;
            if self.abandon_session(repo, number).await?.is_ok() {
                uploads.remove(&name);
            }
        }
        Ok(())
    }

    /// Returns the result of a call that opens an upload and that `enter_repository` began.
    pub(crate) fn check_entered<T>(
        &self,
        repo: &str,
        answer: Result<T, Refusal>,
        entering: &mut Option<Entering<'_>>,
        own: Limit,
    ) -> Result<T, Fault> {
        if answer.is_ok() {
            self.repositories.add(repo);
        }
        if let Some(entering) = entering {
            entering.settle();
        }
        self.check_limit(repo, answer, own)
    }
}
