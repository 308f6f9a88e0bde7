//! The bounds on the manifests and tags of a tenant. The store does not charge them to the quota.

use std::ops::{Add, Sub};

/// The manifests of a tenant or of a repository, their bytes, and its tags.
#[derive(Clone, Copy, Debug, Default, PartialEq, Eq)]
pub(crate) struct Totals {
    pub(crate) manifests: u64,
    pub(crate) manifest_bytes: u64,
    pub(crate) tags: u64,
}

impl Totals {
    /// Returns the totals with a function applied to each number and the number of another.
    fn with(self, other: Totals, change: impl Fn(u64, u64) -> u64) -> Totals {
        Totals {
            manifests: change(self.manifests, other.manifests),
            manifest_bytes: change(self.manifest_bytes, other.manifest_bytes),
            tags: change(self.tags, other.tags),
        }
    }
}

impl Add for Totals {
    type Output = Totals;

    fn add(self, other: Totals) -> Totals {
        self.with(other, |number, other| number + other)
    }
}

impl Sub for Totals {
    type Output = Totals;

    fn sub(self, other: Totals) -> Totals {
        self.with(other, |number, other| number - other)
    }
}

/// The least default of the bound on the bytes of a tenant's manifests.
const LEAST_MANIFEST_BYTES: u64 = 16 << 20;

/// The maximum totals of each tenant. A missing number is not limited.
#[derive(Clone, Copy, Debug, Default, PartialEq, Eq)]
pub(crate) struct Bounds {
    pub(crate) manifests: Option<u64>,
    pub(crate) manifest_bytes: Option<u64>,
    pub(crate) tags: Option<u64>,
}

/// A bound that a push would exceed.
#[derive(Clone, Copy, Debug, PartialEq, Eq)]
pub(crate) enum Excess {
    /// The number of manifests.
    Manifests { most: u64 },
    /// The bytes of the manifests.
    ManifestBytes { used: u64, added: u64, most: u64 },
    /// The number of tags.
    Tags { most: u64 },
}

impl Bounds {
    /// Returns these bounds, with those of another in place of missing ones.
    pub(crate) fn or(self, other: Bounds) -> Bounds {
        Bounds {
            manifests: self.manifests.or(other.manifests),
            manifest_bytes: self.manifest_bytes.or(other.manifest_bytes),
            tags: self.tags.or(other.tags),
        }
    }

    /// Returns the bounds of a tenant with a quota. The bytes of its manifests have a default: a tenth of the quota, and at
    /// least 16 MiB.
    pub(crate) fn with_quota(self, quota: u64) -> Bounds {
        let most = self.manifest_bytes.unwrap_or_else(|| (quota / 10).max(LEAST_MANIFEST_BYTES));
        Bounds { manifest_bytes: Some(most), ..self }
    }

    /// Checks that a tenant with totals `used` may add others. A number that does not grow is not checked, since it may be above
    /// the bound of a later start.
    ///
    /// # Errors
    ///
    /// Fails with the first bound that would be exceeded: manifests, their bytes, tags.
    pub(super) fn check(&self, used: Totals, added: Totals) -> Result<(), Excess> {
        let exceeded =
            |most: Option<u64>, used: u64, added: u64| most.filter(|most| added > 0 && added > most.saturating_sub(used));
        if let Some(most) = exceeded(self.manifests, used.manifests, added.manifests) {
            return Err(Excess::Manifests { most });
        }
        if let Some(most) = exceeded(self.manifest_bytes, used.manifest_bytes, added.manifest_bytes) {
            let (used, added) = (used.manifest_bytes, added.manifest_bytes);
            return Err(Excess::ManifestBytes { used, added, most });
        }
        match exceeded(self.tags, used.tags, added.tags) {
            Some(most) => Err(Excess::Tags { most }),
            None => Ok(()),
        }
    }
}

#[cfg(test)]
mod tests {
    use super::*;

    fn totals(manifests: u64, manifest_bytes: u64, tags: u64) -> Totals {
        Totals { manifests, manifest_bytes, tags }
    }

    #[test]
    fn a_bound_is_reached_and_not_exceeded() {
        let bounds = Bounds { manifests: Some(2), manifest_bytes: Some(100), tags: Some(3) };
        assert_eq!(bounds.check(totals(1, 60, 2), totals(1, 40, 1)), Ok(()));
        assert_eq!(bounds.check(totals(2, 60, 2), totals(1, 40, 1)), Err(Excess::Manifests { most: 2 }));
        let excess = Excess::ManifestBytes { used: 60, added: 41, most: 100 };
        assert_eq!(bounds.check(totals(1, 60, 3), totals(1, 41, 1)), Err(excess));
        assert_eq!(bounds.check(totals(1, 60, 3), totals(1, 40, 1)), Err(Excess::Tags { most: 3 }));
        assert!(bounds.check(totals(1, 0, 0), totals(1, u64::MAX, 0)).is_err());
    }

    #[test]
    fn a_number_that_does_not_grow_is_not_checked() {
        let bounds = Bounds { manifests: Some(2), manifest_bytes: Some(100), tags: Some(0) };
        assert_eq!(bounds.check(totals(9, 900, 9), totals(0, 0, 0)), Ok(()));
        assert_eq!(bounds.check(totals(9, 900, 9), totals(0, 0, 1)), Err(Excess::Tags { most: 0 }));
        assert_eq!(Bounds::default().check(totals(9, 900, 9), totals(1, 4_194_304, 1)), Ok(()));
    }

    #[test]
    fn the_bytes_of_manifests_have_a_default() {
        let most = |given, quota| Bounds { manifest_bytes: given, ..Bounds::default() }.with_quota(quota).manifest_bytes;
        assert_eq!((most(None, 1 << 30), most(None, 100)), (Some((1 << 30) / 10), Some(16 << 20)));
        assert_eq!((most(Some(7), 1 << 30), most(Some(u64::MAX), 100)), (Some(7), Some(u64::MAX)));
    }

    #[test]
    fn missing_bounds_are_those_of_another() {
        let own = Bounds { manifests: Some(1), manifest_bytes: None, tags: Some(0) };
        let other = Bounds { manifests: Some(5), manifest_bytes: Some(6), tags: None };
        assert_eq!(own.or(other), Bounds { manifests: Some(1), manifest_bytes: Some(6), tags: Some(0) });
        assert_eq!((own.or(Bounds::default()), Bounds::default().or(other)), (own, other));
    }

    #[test]
    fn totals_are_added_and_subtracted() {
        let sum = totals(1, 10, 2) + totals(2, 20, 0);
        assert_eq!((sum, sum - totals(1, 10, 2)), (totals(3, 30, 2), totals(2, 20, 0)));
    }
}
