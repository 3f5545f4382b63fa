//! The Rust crate's answers. Sites and rules go in through the crate's own calls; what comes out is written as text.

use crate::spec01::domain;
use crate::spec01::loading::{Item, Rule};
use crate::spec01::sheets::{hex, Event, Reading};
use crate::spec01::sites::{self, Site, Table};
use crate::spec01::terms;
use crate::spec01::UNFOLDING;
use isle::disjointsets::inside::items;
use isle::error::Error;
use isle::lexer::Pos;
use isle::sema::{self, Sym, Term, TermEnv, TermFlags, TermId, TermKind, TypeId, VariantId};
use isle::trie_again::inside::{constraints, Builder, IDS};
use isle::trie_again::{self, Binding, BindingId, Constraint, Overlap, RuleSet};
use std::cell::{Cell, RefCell};
use std::collections::{BTreeMap, BTreeSet, HashMap};
use std::panic::{catch_unwind, AssertUnwindSafe};

thread_local!(static QUIET: Cell<bool> = const { Cell::new(false) });

/// A panic that `caught` waits for is not written; every other one is.
pub fn hush() {
    let loud = std::panic::take_hook();
    std::panic::set_hook(Box::new(move |info| {
        if !QUIET.with(|q| q.get()) {
            loud(info)
        }
    }));
}

/// `None` where the Rust gave up by a panic.
fn caught<T>(work: impl FnOnce() -> T) -> Option<T> {
    QUIET.with(|q| q.set(true));
    let result = catch_unwind(AssertUnwindSafe(work));
    QUIET.with(|q| q.set(false));
    result.ok()
}

/// What the Rust does with a rule.
#[derive(Clone, Copy, Debug, PartialEq, Eq, PartialOrd, Ord)]
pub enum Fate {
    Kept,
    Refused,
    Diverges,
}

impl Fate {
    pub fn word(self) -> &'static str {
        match self {
            Fate::Kept => "kept",
            Fate::Refused => "refused",
            Fate::Diverges => "diverges",
        }
    }
}

/// Sites of a table as the builder numbers them.
struct Feed<'a> {
    table: &'a Table,
    ids: HashMap<usize, BindingId>,
}

impl Feed<'_> {
    fn new(table: &Table) -> Feed<'_> {
        Feed { table, ids: HashMap::new() }
    }

    fn site(&mut self, builder: &mut Builder, number: usize) -> BindingId {
        if let Some(&id) = self.ids.get(&number) {
            return id;
        }
        let site = &self.table.0[number];
        let sources: Vec<BindingId> = site.sources().iter().map(|&s| self.site(builder, s)).collect();
        let id = builder.site(binding(site, &sources));
        self.ids.insert(number, id);
        id
    }

    fn rule(&mut self, builder: &mut Builder, rule: &Rule, env: &TermEnv) -> bool {
        for item in &rule.items {
            match item {
                Item::Is(site, shape) => {
                    let id = self.site(builder, *site);
                    builder.constrain(id, constraint(shape));
                }
                Item::Equal(a, b) => {
                    let (a, b) = (self.site(builder, *a), self.site(builder, *b));
                    builder.equal(a, b);
                }
            }
        }
        let pos = Pos { file: 0, offset: rule.place as usize };
        builder.end(&sema::Rule { pos, prio: rule.priority, ..Default::default() }, env)
    }
}

fn field(n: u8) -> trie_again::TupleIndex {
    usize::from(n).try_into().unwrap()
}

fn binding(site: &Site, sources: &[BindingId]) -> Binding {
    let ty = |t: &u16| TypeId(*t as usize);
    let source = || sources[0];
    match site {
        Site::ConstBool { ty: t, val } => Binding::ConstBool { val: *val == 1, ty: ty(t) },
        Site::ConstInt { ty: t, val } => Binding::ConstInt { val: *val as i128, ty: ty(t) },
        Site::ConstPrim { val } => Binding::ConstPrim { val: Sym(*val as usize) },
        Site::Argument { index } => Binding::Argument { index: field(*index) },
        Site::Extractor { term, .. } => {
            Binding::Extractor { term: TermId(*term as usize), parameter: source() }
        }
        Site::Constructor { term, instance, .. } => Binding::Constructor {
            term: TermId(*term as usize),
            parameters: sources.into(),
            instance: *instance,
        },
        Site::Iterator { .. } => Binding::Iterator { source: source() },
        Site::MakeVariant { ty: t, variant, .. } => {
            Binding::MakeVariant { ty: ty(t), variant: VariantId(*variant as usize), fields: sources.into() }
        }
        Site::MatchVariant { variant, field: f, .. } => Binding::MatchVariant {
            source: source(),
            variant: VariantId(*variant as usize),
            field: field(*f),
        },
        Site::MakeStruct { ty: t, .. } => Binding::MakeStruct { ty: ty(t), fields: sources.into() },
        Site::ExtractStruct { field: f, .. } => Binding::ExtractStruct { source: source(), field: field(*f) },
        Site::MakeSome { .. } => Binding::MakeSome { inner: source() },
        Site::MatchSome { .. } => Binding::MatchSome { source: source() },
        Site::MatchTuple { field: f, .. } => Binding::MatchTuple { source: source(), field: field(*f) },
    }
}

fn constraint(c: &sites::Constraint) -> Constraint {
    let ty = |t: &u16| TypeId(*t as usize);
    match c {
        sites::Constraint::Variant { ty: t, variant, fields } => {
            Constraint::Variant { ty: ty(t), variant: VariantId(*variant as usize), fields: field(*fields) }
        }
        sites::Constraint::Struct { ty: t, fields } => {
            Constraint::Struct { ty: ty(t), fields: field(*fields) }
        }
        sites::Constraint::ConstBool { ty: t, val } => Constraint::ConstBool { val: *val == 1, ty: ty(t) },
        sites::Constraint::ConstInt { ty: t, val } => Constraint::ConstInt { val: *val as i128, ty: ty(t) },
        sites::Constraint::ConstPrim { val } => Constraint::ConstPrim { val: Sym(*val as usize) },
        sites::Constraint::Some => Constraint::Some,
    }
}

fn two(out: &mut Vec<u8>, n: usize) {
    out.extend(u16::try_from(n).unwrap().to_be_bytes());
}

/// The unfolding of a binding; `None` over 4,096 bytes.
fn unfold(out: &mut Vec<u8>, bindings: &[Binding], id: BindingId) -> Option<()> {
    if out.len() > UNFOLDING {
        return None;
    }
    let below = |out: &mut Vec<u8>, ids: &[BindingId]| -> Option<()> {
        ids.iter().try_for_each(|&id| unfold(out, bindings, id))
    };
    let site = &bindings[id.index()];
    match site {
        Binding::ConstBool { val, ty } => {
            out.push(0);
            two(out, ty.0);
            out.push(*val as u8);
        }
        Binding::ConstInt { val, ty } => {
            out.push(1);
            two(out, ty.0);
            out.extend(val.to_be_bytes());
        }
        Binding::ConstPrim { val } => {
            out.push(2);
            two(out, val.0);
        }
        Binding::Argument { index } => out.extend([3, index.index() as u8]),
        Binding::Extractor { term, parameter } => {
            out.push(4);
            two(out, term.0);
            below(out, &[*parameter])?;
        }
        Binding::Constructor { term, parameters, instance } => {
            out.push(5);
            two(out, term.0);
            out.extend(instance.to_be_bytes());
            out.push(parameters.len() as u8);
            below(out, parameters)?;
        }
        Binding::Iterator { source } => {
            out.push(6);
            below(out, &[*source])?;
        }
        Binding::MakeVariant { ty, variant, fields } => {
            out.push(7);
            two(out, ty.0);
            two(out, variant.0);
            out.push(fields.len() as u8);
            below(out, fields)?;
        }
        Binding::MatchVariant { source, variant, field } => {
            out.push(8);
            below(out, &[*source])?;
            two(out, variant.0);
            out.push(field.index() as u8);
        }
        Binding::MakeStruct { ty, fields } => {
            out.push(9);
            two(out, ty.0);
            out.push(fields.len() as u8);
            below(out, fields)?;
        }
        Binding::ExtractStruct { source, field } => {
            out.push(10);
            below(out, &[*source])?;
            out.push(field.index() as u8);
        }
        Binding::MakeSome { inner } => {
            out.push(11);
            below(out, &[*inner])?;
        }
        Binding::MatchSome { source } => {
            out.push(12);
            below(out, &[*source])?;
        }
        Binding::MatchTuple { source, field } => {
            out.push(13);
            below(out, &[*source])?;
            out.push(field.index() as u8);
        }
    }
    (out.len() <= UNFOLDING).then_some(())
}

fn unfolding(rules: &RuleSet, id: BindingId) -> String {
    let mut out = Vec::new();
    match unfold(&mut out, &rules.bindings, id) {
        Some(()) => hex(&out),
        None => "OVER".to_string(),
    }
}

fn shape(c: &Constraint) -> String {
    let mut out = Vec::new();
    match c {
        Constraint::Variant { ty, variant, fields } => {
            out.push(0);
            two(&mut out, ty.0);
            two(&mut out, variant.0);
            out.push(fields.index() as u8);
        }
        Constraint::Struct { ty, fields } => {
            out.push(1);
            two(&mut out, ty.0);
            out.push(fields.index() as u8);
        }
        Constraint::ConstBool { val, ty } => {
            out.push(2);
            two(&mut out, ty.0);
            out.push(*val as u8);
        }
        Constraint::ConstInt { val, ty } => {
            out.push(3);
            two(&mut out, ty.0);
            out.extend(val.to_be_bytes());
        }
        Constraint::ConstPrim { val } => {
            out.push(4);
            two(&mut out, val.0);
        }
        Constraint::Some => out.push(5),
    }
    hex(&out)
}

/// The lines of a kept rule, each kind sorted by its text, since the Rust's numbers follow hash order.
fn rule_lines(rules: &RuleSet, rule: &trie_again::Rule) -> Vec<String> {
    let mut shapes: Vec<String> = constraints(rule)
        .iter()
        .map(|(site, c)| format!(" c {} {}", unfolding(rules, *site), shape(c)))
        .collect();
    shapes.sort();
    let mut classes: BTreeMap<BindingId, Vec<String>> = BTreeMap::new();
    for site in items(&rule.equals) {
        let root = rule.equals.find(site).expect("a joined site");
        classes.entry(root).or_default().push(unfolding(rules, site));
    }
    let mut lines: Vec<String> = classes
        .into_values()
        .map(|mut members| {
            members.sort();
            format!(" e {}", members.join(" "))
        })
        .collect();
    lines.sort();
    shapes.append(&mut lines);
    shapes.push(format!(" total {}", rule.total_constraints()));
    shapes
}

fn env(flags: &BTreeMap<u16, u8>) -> TermEnv {
    let mut env = TermEnv::default();
    for term in 0..=u8::MAX as u16 {
        let f = flags.get(&term).copied().unwrap_or(0);
        let flags = TermFlags { multi: f & 1 == 1, rec: f & 2 == 2 };
        env.terms.push(Term { decl_pos: Pos::default(), kind: TermKind::Decl { flags } });
    }
    env
}

fn report(set: &[(TermId, RuleSet)], env: &TermEnv) -> Vec<String> {
    let place = |p: Pos| format!("{:08X}", p.offset);
    isle::overlap::inside::report(set, env)
        .iter()
        .map(|error| match error {
            Error::OverlapError { rules, .. } => {
                let mut others: Vec<Pos> = rules[1..].iter().map(|s| s.from).collect();
                others.sort();
                let list: String = others.into_iter().map(place).collect();
                format!("12{:04X}{}{list}", rules.len(), place(rules[0].from))
            }
            Error::ShadowedError { shadowed, mask } => {
                let list: String = shadowed.iter().map(|s| place(s.from)).collect();
                format!("13{}{:04X}{list}", place(mask.from), shadowed.len())
            }
            other => panic!("not of a report: {other:?}"),
        })
        .collect()
}

thread_local!(static ALONE: RefCell<(usize, Builder)> = RefCell::new((IDS, Builder::default())));

/// What the Rust does with a rule alone, in a builder of its own with `ids` ids.
fn alone(rule: &Rule, sites: &Table, env: &TermEnv, ids: usize) -> Fate {
    ALONE.with(|alone| {
        let (left, builder) = &mut *alone.borrow_mut();
        if *left != ids {
            (*left, *builder) = (ids, Builder::with_ids(ids));
        }
        let before = builder.rules().bindings.len();
        let kept = caught(|| Feed::new(sites).rule(builder, rule, env));
        builder.go_back(0, before);
        match kept {
            Some(true) => Fate::Kept,
            Some(false) => Fate::Refused,
            None => Fate::Diverges,
        }
    })
}

/// The Rust's text for a sheet: that of `lintelmoth kept` with the lines of a kept rule sorted, but for
///
///     rule PLACE PRIORITY refused 4       nothing told: the Rust tells constraints, not sites
///     rule PLACE PRIORITY left N WORD     outside the domain: 01's number, and what the Rust does with the rule
///                                         (kept, refused, diverges; - where it can't be handed over; `grew` after
///                                         it where no walk back exists, but more sites than the Rust has ids)
///     rule PLACE PRIORITY diverges        in the domain, and the Rust gave up
///
/// `ids` bounds the search outside the domain; inside it the Rust has all its ids.
pub fn kept(reading: &Reading, ids: usize) -> String {
    let env = env(&reading.flags);
    let mut out = String::new();
    let mut builder = Builder::default();
    let mut term = 0;
    let mut table = Table::default();
    let mut sets: Vec<(TermId, RuleSet)> = vec![];
    for event in &reading.events {
        match event {
            Event::Begin { term: t, flags } => {
                term = *t as usize;
                builder = Builder::default();
                table = Table::default();
                out += &format!("set {t:04X} {flags:02X}\n");
            }
            Event::Site(site) => {
                table.0.push(site.clone());
                Feed::new(&table).site(&mut builder, table.0.len() - 1);
            }
            Event::Rule { rule, result, sites } => {
                let number = result.as_ref().err().map_or(0, |refusal| refusal.number);
                let fate = one_rule(&mut builder, rule, number, sites, &env, ids);
                out += &format!("rule {:08X} {:016X} {fate}\n", rule.place, rule.priority);
                if fate == "kept" {
                    let rules = builder.rules();
                    for line in rule_lines(rules, rules.rules.last().unwrap()) {
                        out += &(line + "\n");
                    }
                }
            }
            Event::End(_) => {
                let rules = std::mem::take(&mut builder).into_rules();
                for (i, a) in rules.rules.iter().enumerate() {
                    for b in &rules.rules[i + 1..] {
                        let answer = match a.may_overlap(b) {
                            Overlap::No => "no",
                            Overlap::Yes { subset: false } => "yes",
                            Overlap::Yes { subset: true } => "subset",
                        };
                        out += &format!("pair {:08X} {:08X} {answer}\n", a.pos.offset, b.pos.offset);
                    }
                }
                sets.push((TermId(term), rules));
                for frame in report(&sets[sets.len() - 1..], &env) {
                    out += &(frame + "\n");
                }
            }
        }
    }
    match reading.stopped {
        Some((line, number)) => out += &format!("1F{line:08X}{number:02X}\n"),
        None => out += &terms::line(&cyclic(&sets, 4)),
    }
    out
}

fn one_rule(
    builder: &mut Builder,
    rule: &Rule,
    number: u8,
    sites: &Table,
    env: &TermEnv,
    ids: usize,
) -> String {
    if !domain::resolves(rule, sites) {
        return format!("left {number} -");
    }
    if !(number == 0 || number == 4) || !domain::no_walk_back(rule, sites) {
        return format!("left {number} {}", alone(rule, sites, env, ids).word());
    }
    if number == 4 && domain::growth(rule, sites, IDS) > IDS {
        return format!("left 4 {} grew", alone(rule, sites, env, ids).word());
    }
    let before = (builder.rules().rules.len(), builder.rules().bindings.len());
    match caught(|| Feed::new(sites).rule(builder, rule, env)) {
        Some(true) => "kept".to_string(),
        Some(false) => "refused 4".to_string(),
        None => {
            builder.go_back(before.0, before.1);
            "diverges".to_string()
        }
    }
}

/// What the Rust finds under `seeds` hash seeds, each map having its own.
fn cyclic(sets: &[(TermId, RuleSet)], seeds: usize) -> Vec<usize> {
    let mut found = BTreeSet::new();
    for _ in 0..seeds {
        found.extend(isle::recursion::inside::cyclic(sets).iter().map(|t| t.0));
    }
    found.into_iter().collect()
}

/// What the Rust finds in a graph of terms: each distinct answer under `seeds` hash seeds.
pub fn graph(edges: &BTreeSet<(usize, usize)>, seeds: usize) -> BTreeSet<Vec<usize>> {
    let mut builders: BTreeMap<usize, Builder> = BTreeMap::new();
    for &(from, to) in edges {
        let builder = builders.entry(from).or_default();
        let parameter = builder.site(Binding::Argument { index: field(0) });
        builder.site(Binding::Extractor { term: TermId(to), parameter });
    }
    let sets: Vec<(TermId, RuleSet)> =
        builders.into_iter().map(|(term, builder)| (TermId(term), builder.into_rules())).collect();
    (0..seeds).map(|_| cyclic(&sets, 1)).collect()
}

pub mod scripts {
    //! Class calls on the Rust's disjoint sets. Refusals 2 and 3 and the links are added here.

    use crate::spec01::classes::{refused, Call};
    use isle::disjointsets::inside::{items, parent};
    use isle::disjointsets::DisjointSets;
    use std::collections::{BTreeSet, HashMap};

    #[derive(Default)]
    pub struct Sets {
        sets: DisjointSets<usize>,
        /// Representatives of the classes whose links a removal left to hash order.
        blurred: BTreeSet<usize>,
    }

    impl Sets {
        fn links(&self, mut x: usize) -> usize {
            let mut links = 0;
            while let Some(up) = parent(&self.sets, x).filter(|&up| up != x) {
                x = up;
                links += 1;
            }
            links
        }

        /// Removing calls the updating find on every joined site, in hash order. Where no site of another class is
        /// three links or more from its representative, every order leaves the same links.
        fn blur(&mut self, removed: usize) {
            let mut depth: HashMap<usize, usize> = HashMap::new();
            for x in items(&self.sets) {
                let root = self.sets.find(x).unwrap();
                let most = depth.entry(root).or_default();
                *most = (*most).max(self.links(x));
            }
            self.blurred.extend(depth.into_iter().filter(|&(_, d)| d >= 3).map(|(root, _)| root));
            self.blurred.remove(&removed);
        }

        /// True where the Rust's links from this site may vary from run to run.
        pub fn varies(&self, x: usize) -> bool {
            self.sets.find(x).is_some_and(|root| self.blurred.contains(&root))
        }

        /// The answer; `?` stands for links that vary.
        pub fn answer(&mut self, call: &Call) -> String {
            if let Err(refusal) = call.check() {
                return refused(&refusal);
            }
            let or_none = |x: Option<String>| x.unwrap_or("none".to_string());
            match *call {
                Call::Merge(x, y) => {
                    let blurred = self.varies(x) || self.varies(y);
                    self.blurred
                        .retain(|&root| Some(root) != self.sets.find(x) && Some(root) != self.sets.find(y));
                    self.sets.merge(x, y);
                    if blurred {
                        self.blurred.extend(self.sets.find(x));
                    }
                    "ok".to_string()
                }
                Call::Find(x) => {
                    let links = if self.varies(x) { "?".to_string() } else { self.links(x).to_string() };
                    or_none(self.sets.find(x).map(|site| format!("{site} {links}")))
                }
                Call::FindMut(x) => or_none(self.sets.find_mut(x).map(|site| site.to_string())),
                Call::Same(x, y) => self.sets.in_same_set(x, y).to_string(),
                Call::Remove(x) => {
                    if let Some(root) = self.sets.find(x) {
                        self.blur(root);
                    }
                    let members = self.sets.remove_set_of(x);
                    let list: Vec<String> = members.iter().map(|y| y.to_string()).collect();
                    or_none((!members.is_empty()).then(|| list.join(" ")))
                }
                Call::Len => self.sets.len().to_string(),
                Call::Empty => self.sets.is_empty().to_string(),
            }
        }
    }

    pub fn run(script: &str) -> String {
        let mut sets = Sets::default();
        let mut out = String::new();
        for (n, line) in script.split_terminator('\n').enumerate() {
            match Call::read(line) {
                Some(call) => out += &(sets.answer(&call) + "\n"),
                None => return out + &format!("bad {}\n", n + 1),
            }
        }
        out
    }
}
