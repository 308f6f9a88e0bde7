//! The pulls of tags that are to be recorded in the database. They are recorded in batches, so that many pulls at once do not make one
//! transaction long.
use crate::metadata::tag::Pull;
use crate::operation::locks::guard_of;
use std::collections::BTreeMap;
use std::sync::Mutex;

/// The repositories and tags whose last pull is to be recorded, each with its time.
#[derive(Default)]
pub(super) struct UnrecordedPulls(Mutex<BTreeMap<(String, String), u64>>);

impl UnrecordedPulls {
    /// Adds a pull.
    pub(super) fn add(&self, Pull { repo, tag, time }: Pull) {
        let mut pulls = guard_of(self.0.lock());
        let last = pulls.entry((repo, tag)).or_default();
        *last = time.max(*last);
    }

    /// Takes at most `most` pulls away.
    pub(super) fn take(&self, most: usize) -> Vec<Pull> {
        let mut pulls = guard_of(self.0.lock());
        let left = pulls.keys().nth(most).cloned().map_or_else(BTreeMap::new, |next| pulls.split_off(&next));
        let taken = std::mem::replace(&mut *pulls, left);
        taken.into_iter().map(|((repo, tag), time)| Pull { repo, tag, time }).collect()
    }
}

#[cfg(test)]
mod tests {
    use super::*;

    #[test]
    fn batches_are_bounded() {
        let pulls = UnrecordedPulls::default();
        for number in [3, 1, 2, 1, 0] {
            pulls.add(Pull { repo: "acme/web".to_string(), tag: format!("v{number}"), time: 7 });
        }
        let take = |most| pulls.take(most).into_iter().map(|pull| pull.tag).collect::<Vec<_>>();
        assert_eq!([take(3), take(3), take(3)], [vec!["v0", "v1", "v2"], vec!["v3"], vec![]]);
    }

    #[test]
    fn the_last_of_several_pulls_is_recorded() {
        let pulls = UnrecordedPulls::default();
        for time in [7, 9, 8] {
            pulls.add(Pull { repo: "acme/web".to_string(), tag: "v1".to_string(), time });
        }
        assert_eq!(pulls.take(9).into_iter().map(|pull| pull.time).collect::<Vec<_>>(), [9]);
    }
}
