//! The terms in cycles.

use super::*;

pub fn cyclic(terms: &[(TermId, RuleSet)]) -> HashSet<TermId> {
    terms_in_cycles(terms)
}
