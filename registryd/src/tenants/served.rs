//! The tenants that are served: the one list that all parts of the registry read.
use crate::operation::locks::guard_of;
use std::collections::HashMap;
use std::sync::{Arc, RwLock};

/// The numbers of those who share connections and memory and are no tenants: the program itself, and all unknown tenants together.
pub(crate) const OWN_SHARER: usize = 0;
const UNKNOWN_SHARER: usize = 1;
const FIRST_TENANT: usize = 2;

/// The tenants that are served.
#[derive(Default)]
pub(crate) struct ServedTenants(RwLock<Table>);

#[derive(Default)]
struct Table {
    /// The names in the order in which they were added.
    names: Arc<Vec<String>>,
    /// The names in the order of their bytes, by which the store numbers them.
    sorted: Vec<String>,
    /// The number of each among those who share connections and memory.
    sharers: HashMap<String, usize>,
}

impl Table {
    /// Adds a tenant, unless it is there.
    fn add(&mut self, name: String) {
        if let Err(place) = self.sorted.binary_search(&name) {
            self.sorted.insert(place, name.clone());
            self.sharers.insert(name.clone(), FIRST_TENANT + self.names.len());
            Arc::make_mut(&mut self.names).push(name);
        }
    }
}

impl ServedTenants {
    /// Makes the list of these tenants.
    pub(crate) fn of(names: impl IntoIterator<Item = String>) -> Arc<ServedTenants> {
        let mut table = Table::default();
        names.into_iter().for_each(|name| table.add(name));
        Arc::new(ServedTenants(RwLock::new(table)))
    }

    /// Returns the names, in the order of the command line and then of the file.
    pub(crate) fn names(&self) -> Arc<Vec<String>> {
        guard_of(self.0.read()).names.clone()
    }

    /// Returns whether a tenant is served.
    pub(crate) fn has(&self, name: &str) -> bool {
        guard_of(self.0.read()).sharers.contains_key(name)
    }

    /// Returns the number of a tenant among those who share connections and memory.
    pub(crate) fn sharer(&self, name: &str) -> usize {
        guard_of(self.0.read()).sharers.get(name).copied().unwrap_or(UNKNOWN_SHARER)
    }

    /// Returns the name at a position in the order of the names' bytes.
    pub(crate) fn at(&self, position: usize) -> Option<String> {
        guard_of(self.0.read()).sorted.get(position).cloned()
    }
}

#[cfg(test)]
mod tests {
    use super::*;

    #[test]
    fn tenants_have_two_orders_and_numbers() {
        let served = ServedTenants::of(["zeta", "acme-2", "acme", "zeta"].map(str::to_string));
        assert_eq!(*served.names(), ["zeta", "acme-2", "acme"]);
        let at = [0, 1, 2, 3].map(|position| served.at(position));
        assert_eq!(at, [Some("acme"), Some("acme-2"), Some("zeta"), None].map(|name| name.map(str::to_string)));
        assert_eq!(["zeta", "acme-2", "acme", "nobody"].map(|name| served.has(name)), [true, true, true, false]);
        assert_eq!(["zeta", "acme-2", "acme", "nobody", ""].map(|name| served.sharer(name)), [2, 3, 4, 1, 1]);
        assert_eq!(OWN_SHARER, 0);
    }
}
