//! The builder of rule sets, fed item by item.

use super::*;
use crate::sema::PatternVisitor;

/// How many ids a builder has in all.
pub const IDS: usize = 1 << 16;

#[derive(Default)]
pub struct Builder(RuleSetBuilder);

impl Builder {
    /// A builder with only `left` ids left: the lower ones are taken by sites that nothing finds.
    pub fn with_ids(left: usize) -> Builder {
        let mut builder = Builder::default();
        let taken = Binding::ConstBool { val: false, ty: sema::TypeId(usize::MAX) };
        builder.0.rules.bindings.resize(IDS - left.min(IDS), taken);
        builder
    }

    pub fn site(&mut self, binding: Binding) -> BindingId {
        self.0.dedup_binding(binding)
    }

    pub fn constrain(&mut self, site: BindingId, constraint: Constraint) {
        self.0.set_constraint(site, constraint);
    }

    pub fn equal(&mut self, a: BindingId, b: BindingId) {
        self.0.add_match_equal(a, b, sema::TypeId(0));
    }

    /// Normalises the rule whose items came before; says whether it is kept.
    pub fn end(&mut self, rule: &sema::Rule, env: &TermEnv) -> bool {
        let mut errors = Vec::new();
        self.0.add_rule(rule, env, &mut errors);
        errors.is_empty()
    }

    /// After the ids ran out: as it was with `rules` rules, `sites` sites and no rule begun.
    pub fn go_back(&mut self, rules: usize, sites: usize) {
        self.0.current_rule = Rule::default();
        self.0.unreachable.clear();
        self.0.rules.rules.truncate(rules);
        self.0.rules.bindings.truncate(sites);
        self.0.rules.binding_map.retain(|_, id| id.index() < sites);
    }

    pub fn rules(&self) -> &RuleSet {
        &self.0.rules
    }

    pub fn into_rules(self) -> RuleSet {
        self.0.rules
    }
}

pub fn constraints(rule: &Rule) -> Vec<(BindingId, Constraint)> {
    rule.constraints.iter().map(|(&site, &constraint)| (site, constraint)).collect()
}
