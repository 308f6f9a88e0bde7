//! The numbers of a tenant's uploads that are recorded in the database.
use std::collections::BTreeSet;

/// The numbers that were seen. A tenant's numbers count up, but their replies may arrive in another order.
#[derive(Debug, Default, PartialEq, Eq)]
pub(super) struct UploadNumbers {
    /// All numbers up to this one were seen.
    upto: u32,
    /// The greater numbers that were seen.
    later: BTreeSet<u32>,
}

impl UploadNumbers {
    /// Begins after a number.
    pub(super) fn after(upto: u32) -> UploadNumbers {
        UploadNumbers { upto, later: BTreeSet::new() }
    }

    /// Notes that all numbers up to this one were seen.
    pub(super) fn see_all(&mut self, upto: u32) {
        self.upto = self.upto.max(upto);
        self.later.retain(|number| *number > upto);
        self.see(0);
    }

    /// Notes that a number was seen. Returns whether all numbers up to a greater one than before were seen now.
    pub(super) fn see(&mut self, number: u32) -> bool {
        if number > self.upto {
            self.later.insert(number);
        }
        let before = self.upto;
        while let Some(next) = self.upto.checked_add(1).filter(|next| self.later.remove(next)) {
            self.upto = next;
        }
        self.upto > before
    }

    /// Returns the number up to which all were seen.
    pub(super) fn upto(&self) -> u32 {
        self.upto
    }
}

#[cfg(test)]
mod tests {
    use super::*;

    #[test]
    fn numbers_are_seen_in_any_order() {
        let mut numbers = UploadNumbers::after(4);
        assert!(!numbers.see(7) && !numbers.see(6) && !numbers.see(3));
        assert_eq!(numbers.upto(), 4);
        assert!(numbers.see(5));
        assert_eq!(numbers, UploadNumbers::after(7));
        assert!(!numbers.see(7));
        let mut begun = UploadNumbers::default();
        assert!(!begun.see(7) && !begun.see(9));
        begun.see_all(6);
        assert_eq!((begun.upto(), begun.see(8), begun.upto()), (7, true, 9));
        let mut last = UploadNumbers::after(u32::MAX - 1);
        assert!(last.see(u32::MAX) && !last.see(u32::MAX));
    }
}
