//! The shares of the tenants for which the command line has none: each gets an equal part of the slots.
use crate::database::writer::Writer;
use crate::folder::files;
use crate::metadata::limits::Limits;
use crate::operation::exit::{Failure, OTHER_SETTINGS};
use crate::start::options::Options;
use crate::store::calls::UNLIMITED;
use crate::store::client::{Setup, Store};
use crate::tenants::served::ServedTenants;
use crate::tenants::words::Tenant;
use std::collections::HashSet;
use std::sync::Arc;
use std::time::Duration;
use tokio::process::Child;

/// Returns the share of each tenant that has none of its own, or `None` if there is one tenant, which may take all slots.
pub(super) fn default_share(slots: u32, tenants: usize) -> Option<u64> {
    (tenants > 1).then(|| (u64::from(slots) / tenants as u64).max(1))
}

/// Returns the arguments for the store: those of the command line, each with a share and the limits. The default share is not for the
/// tenants of `exempt`.
fn arguments(tenants: &[Tenant], default: Option<u64>, exempt: &HashSet<String>, limits: Limits) -> Vec<String> {
    let share_of = |tenant: &Tenant| tenant.share.or_else(|| default.filter(|_| !exempt.contains(&tenant.name)));
    let Limits { repositories, manifests, uploads } = limits;
    let argument = |tenant: &Tenant| {
        let share = share_of(tenant).unwrap_or(UNLIMITED);
        format!("{}={},{share},{repositories},{manifests},{uploads}", tenant.name, tenant.quota)
    };
    tenants.iter().map(argument).collect()
}

/// Starts the store with these arguments for its tenants.
async fn start_with(
    options: &Options,
    served: &Arc<ServedTenants>,
    writer: &Option<Arc<Writer>>,
    tenants: &[String],
) -> Result<(Store, Child), Failure> {
    let setup = Setup {
        blobd: &options.blobd,
        words: options.store_options(),
        writer: writer.clone(),
        slots: options.slots,
        max_blob: options.max_blob,
        tenants,
        served: served.clone(),
        connections: options.lines.into(),
        call: Duration::from_secs(options.call_s),
    };
    if let Some(data) = options.data.as_ref().filter(|_| options.accept_loss) {
        files::accept_damage(data).map_err(|error| Failure::of_folder("cannot accept a loss", data, &error))?;
    }
    Store::start(setup).await
}

/// Starts the store with a share for each tenant. If a tenant of the folder has more blobs than the default share, it has no
/// share, so that a folder of an earlier version needs no other settings and takes pushes as before. To find these tenants,
/// the store is started without default shares first.
pub(super) async fn start_store(
    options: &Options,
    served: &Arc<ServedTenants>,
    writer: Option<Arc<Writer>>,
) -> Result<(Store, Child), Failure> {
    let tenants = options.tenants();
    let default = default_share(options.slots, tenants.len());
    let with_exempt = |exempt: &HashSet<String>| arguments(&tenants, default, exempt, options.limits());
    let failure = match start_with(options, served, &writer, &with_exempt(&HashSet::new())).await {
        Err(failure) if failure.status == OTHER_SETTINGS && has_defaults(&tenants, default) => failure,
        started => return started,
    };
    tracing::warn!("looking for tenants that have more blobs than the default share: the start takes longer");
    let all = tenants.iter().map(|tenant| tenant.name.clone()).collect();
    let (store, child) = start_with(options, served, &writer, &with_exempt(&all)).await?;
    let exempt = larger_tenants(&store, &tenants, default).await;
    store.end(child).await?;
    let exempt = exempt.ok_or_else(|| Failure::new("the store did not reply while the registry started"))?;
    if exempt.is_empty() {
        return Err(failure);
    }
    start_with(options, served, &writer, &with_exempt(&exempt)).await
}

/// Returns whether a tenant has the default share.
fn has_defaults(tenants: &[Tenant], default: Option<u64>) -> bool {
    default.is_some() && tenants.iter().any(|tenant| tenant.share.is_none())
}

/// Returns the tenants that have more blobs than the default share. Returns `None` if the store does not reply.
async fn larger_tenants(store: &Store, tenants: &[Tenant], default: Option<u64>) -> Option<HashSet<String>> {
    let mut larger = HashSet::new();
    for Tenant { name, quota, .. } in tenants.iter().filter(|tenant| tenant.share.is_none()) {
        let blobs = store.slot_use(name).await.ok()?.ok()?.blobs;
        if let Some(default) = default.filter(|default| blobs > *default) {
            tracing::warn!(
                tenant = %name,
                blobs,
                default,
                "the tenant has more blobs than the default share, and is not limited: give {name}={quota},BLOBS"
            );
            larger.insert(name.clone());
        }
    }
    Some(larger)
}

#[cfg(test)]
mod tests {
    use super::*;

    fn tenant(name: &str, share: Option<u64>) -> Tenant {
        Tenant { name: name.to_string(), quota: 7, share }
    }

    #[test]
    fn slots_are_divided_by_the_number_of_tenants() {
        let shares = [(4096, 1), (4096, 3), (2, 3)].map(|(slots, tenants)| default_share(slots, tenants));
        assert_eq!(shares, [None, Some(1365), Some(1)]);
    }

    #[test]
    fn a_share_that_is_given_stays() {
        let tenants = [tenant("a", Some(9)), tenant("b", None), tenant("c", None)];
        let exempt = HashSet::from(["c".to_string(), "a".to_string()]);
        let limits = Limits { repositories: 1, manifests: 2, uploads: 3 };
        let given = ["a=7,9,1,2,3", "b=7,4,1,2,3", "c=7,4294967295,1,2,3"];
        assert_eq!(arguments(&tenants, Some(4), &exempt, limits), given);
        assert_eq!(arguments(&tenants[1..2], None, &HashSet::new(), limits), ["b=7,4294967295,1,2,3"]);
        assert_eq!(
            [has_defaults(&tenants, Some(4)), has_defaults(&tenants, None), has_defaults(&tenants[..1], Some(4))],
            [true, false, false]
        );
    }
}
