//! The limits of a tenant and of a repository in the store, which reports all of them with one status.

/// The number of a tenant's uploads that requests may open and end while all others stay open.
const PASSING: usize = 4;

/// The limits of each tenant.
#[derive(Clone, Copy, Debug, PartialEq, Eq)]
pub(crate) struct Limits {
    /// The maximum number of repositories.
    pub(crate) repositories: usize,
    /// The maximum number of manifests of each of them.
    pub(crate) manifests: usize,
    /// The maximum number of open uploads.
    pub(crate) uploads: usize,
}

/// A limit that a call has reached.
#[derive(Clone, Copy, Debug, PartialEq, Eq)]
pub(crate) enum Limit {
    /// The uploads of the store.
    Uploads,
    /// The uploads that stay open for a later request.
    LastingUploads,
    Repositories,
    Manifests,
}

impl Limits {
    /// Returns the maximum number of uploads that stay open for a later request. The others of the store are for requests that open an
    /// upload and end it.
    pub(crate) fn lasting_uploads(&self) -> usize {
        self.uploads.saturating_sub(PASSING).max(1)
    }

    /// Returns the number of a limit.
    pub(crate) fn most(&self, limit: Limit) -> usize {
        match limit {
            Limit::Uploads => self.uploads,
            Limit::LastingUploads => self.lasting_uploads(),
            Limit::Repositories => self.repositories,
            Limit::Manifests => self.manifests,
        }
    }
}

#[cfg(test)]
mod tests {
    use super::*;

    #[test]
    fn some_uploads_do_not_last() {
        let limits = |uploads| Limits { repositories: 5, manifests: 6, uploads };
        assert_eq!([64, 6, 4, 1].map(|uploads| limits(uploads).lasting_uploads()), [60, 2, 1, 1]);
        let most =
            [Limit::Uploads, Limit::LastingUploads, Limit::Repositories, Limit::Manifests].map(|limit| limits(64).most(limit));
        assert_eq!(most, [64, 60, 5, 6]);
    }
}
