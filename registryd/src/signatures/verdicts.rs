//! What was found out about images, so that a signature is verified once and not for each pull.
use crate::operation::locks::guard_of;
use crate::signatures::rules::SigningRules;
use std::collections::HashMap;
use std::sync::{Arc, Mutex};

/// The maximum number of images that are remembered, of all repositories and rules.
const MOST: usize = 10_000;

/// Whether an image has a signature by a key of a rule.
#[derive(Clone, Copy, Debug, PartialEq, Eq)]
pub(crate) enum Verdict {
    Signed,
    /// None of the manifests and signatures that were tried is one.
    Unsigned {
        /// Whether there are more than were tried.
        has_more: bool,
    },
}

/// A repository, the digest of an image, and the place of a rule.
pub(super) type Question = (String, String, usize);

/// The hash of the digests of the manifests that were tried.
pub(super) type Tried = [u8; 32];

/// The verdicts by the rules that were read last.
#[derive(Default)]
pub(super) struct Verdicts {
    table: Mutex<Table>,
}

#[derive(Default)]
struct Table {
    rules: Arc<SigningRules>,
    by_question: HashMap<Question, (Tried, Verdict)>,
}

impl Table {
    /// Forgets what was found by other rules.
    fn turn_to(&mut self, rules: &Arc<SigningRules>) {
        if !Arc::ptr_eq(&self.rules, rules) {
            *self = Table { rules: rules.clone(), by_question: HashMap::new() };
        }
    }
}

impl Verdicts {
    /// Returns the verdict about an image by these rules, if the same manifests were tried.
    pub(super) fn find(&self, rules: &Arc<SigningRules>, question: &Question, tried: &Tried) -> Option<Verdict> {
        let mut table = guard_of(self.table.lock());
        table.turn_to(rules);
        table.by_question.get(question).filter(|(then, _)| then == tried).map(|(_, verdict)| *verdict)
    }

    /// Remembers a verdict by these rules. If there are too many, the others are forgotten.
    pub(super) fn put(&self, rules: &Arc<SigningRules>, question: Question, tried: Tried, verdict: Verdict) {
        let mut table = guard_of(self.table.lock());
        table.turn_to(rules);
        if table.by_question.len() >= MOST {
            table.by_question.clear();
        }
        table.by_question.insert(question, (tried, verdict));
    }
}

#[cfg(test)]
mod tests {
    use super::*;

    fn question(number: usize) -> Question {
        ("acme/app".to_string(), format!("sha256:{number}"), 0)
    }

    #[test]
    fn a_verdict_is_of_its_rules_and_manifests() {
        let (verdicts, rules, unsigned) = (Verdicts::default(), Arc::default(), Verdict::Unsigned { has_more: false });
        verdicts.put(&rules, question(1), [1; 32], Verdict::Signed);
        verdicts.put(&rules, question(2), [1; 32], unsigned);
        let find = |rules, number, tried| verdicts.find(rules, &question(number), &[tried; 32]);
        assert_eq!((find(&rules, 1, 1), find(&rules, 2, 1), find(&rules, 3, 1)), (Some(Verdict::Signed), Some(unsigned), None));
        assert_eq!((find(&rules, 1, 2), verdicts.find(&rules, &(question(1).0, question(1).1, 1), &[1; 32])), (None, None));
        verdicts.put(&rules, question(1), [2; 32], unsigned);
        assert_eq!((find(&rules, 1, 1), find(&rules, 1, 2)), (None, Some(unsigned)));
        // The rules are read again, and are the same.
        let again = Arc::default();
        assert_eq!((find(&again, 1, 2), find(&rules, 1, 2)), (None, None));
    }

    #[test]
    fn verdicts_are_bounded() {
        let (verdicts, rules) = (Verdicts::default(), Arc::default());
        for number in 0..3 * MOST {
            verdicts.put(&rules, question(number), [0; 32], Verdict::Signed);
            assert!(verdicts.table.lock().unwrap().by_question.len() <= MOST);
        }
        assert_eq!(verdicts.find(&rules, &question(3 * MOST - 1), &[0; 32]), Some(Verdict::Signed));
    }
}
