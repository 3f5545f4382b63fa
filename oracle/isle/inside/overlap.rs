//! The report over given sets.

use super::*;

pub fn report(terms: &[(TermId, trie_again::RuleSet)], env: &TermEnv) -> Vec<Error> {
    check_overlaps(terms, env).report()
}
