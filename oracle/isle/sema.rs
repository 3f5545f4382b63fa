//! Stand-in: identifiers, terms, rules and the visitor traits, as far as the four files ask for them.

use crate::lexer::Pos;

declare_id!(Sym, TypeId, VariantId, TermId, RuleId);

#[derive(Debug, Default)]
pub struct TypeEnv;

#[derive(Debug, Default)]
pub struct TermEnv {
    pub terms: Vec<Term>,
    pub rules: Vec<Rule>,
}

impl TermEnv {
    /// Only `Binding::term` asks for it, and the driver never calls that.
    pub fn get_variant_term(&self, _: &TypeEnv, _: TypeId, _: VariantId) -> TermId {
        unimplemented!("no sheet asks for a variant's term")
    }
}

#[derive(Debug)]
pub struct Term {
    pub decl_pos: Pos,
    pub kind: TermKind,
}

impl Term {
    pub fn is_partial(&self) -> bool {
        false
    }

    pub fn is_recursive(&self) -> bool {
        matches!(&self.kind, TermKind::Decl { flags } if flags.rec)
    }
}

#[derive(Debug)]
pub enum TermKind {
    Decl { flags: TermFlags },
    Struct,
}

#[derive(Debug, Default)]
pub struct TermFlags {
    pub multi: bool,
    pub rec: bool,
}

#[derive(Debug, Default)]
pub struct Rule {
    pub id: RuleId,
    pub root_term: TermId,
    pub pos: Pos,
    pub prio: i64,
    pub name: Option<Sym>,
}

impl Rule {
    /// The driver has handed the rule's items to the builder before `add_rule` is called, so a visit only names a
    /// result, which overlap and recursion never read.
    pub fn visit<V: RuleVisitor>(&self, visitor: &mut V, _: &TermEnv) -> V::Expr {
        let argument = visitor.add_arg(0, TypeId(0));
        let value = visitor.pattern_as_expr(argument);
        visitor.add_expr(|_| VisitedExpr { ty: TypeId(0), value })
    }
}

pub trait PatternVisitor {
    type PatternId: Copy;
    fn add_match_equal(&mut self, a: Self::PatternId, b: Self::PatternId, ty: TypeId);
    fn add_match_bool(&mut self, input: Self::PatternId, ty: TypeId, bool_val: bool);
    fn add_match_int(&mut self, input: Self::PatternId, ty: TypeId, int_val: i128);
    fn add_match_prim(&mut self, input: Self::PatternId, ty: TypeId, val: Sym);
    fn add_match_variant(
        &mut self,
        input: Self::PatternId,
        input_ty: TypeId,
        arg_tys: &[TypeId],
        variant: VariantId,
    ) -> Vec<Self::PatternId>;
    fn add_extract_struct(
        &mut self,
        input: Self::PatternId,
        input_ty: TypeId,
        arg_tys: &[TypeId],
    ) -> Vec<Self::PatternId>;
    fn add_extract(
        &mut self,
        input: Self::PatternId,
        input_ty: TypeId,
        output_tys: Vec<TypeId>,
        term: TermId,
        infallible: bool,
        multi: bool,
    ) -> Vec<Self::PatternId>;
}

pub trait ExprVisitor {
    type ExprId: Copy;
    fn add_const_bool(&mut self, ty: TypeId, val: bool) -> Self::ExprId;
    fn add_const_int(&mut self, ty: TypeId, val: i128) -> Self::ExprId;
    fn add_const_prim(&mut self, ty: TypeId, val: Sym) -> Self::ExprId;
    fn add_create_variant(
        &mut self,
        inputs: Vec<(Self::ExprId, TypeId)>,
        ty: TypeId,
        variant: VariantId,
    ) -> Self::ExprId;
    fn add_create_struct(&mut self, inputs: Vec<(Self::ExprId, TypeId)>, ty: TypeId) -> Self::ExprId;
    #[allow(clippy::too_many_arguments)]
    fn add_construct(
        &mut self,
        inputs: Vec<(Self::ExprId, TypeId)>,
        ty: TypeId,
        term: TermId,
        pure: bool,
        infallible: bool,
        multi: bool,
        rec: bool,
    ) -> Self::ExprId;
}

pub struct VisitedExpr<V: ExprVisitor> {
    pub ty: TypeId,
    pub value: V::ExprId,
}

pub trait RuleVisitor {
    type PatternVisitor: PatternVisitor;
    type ExprVisitor: ExprVisitor;
    type Expr;
    fn add_arg(&mut self, index: usize, ty: TypeId) -> <Self::PatternVisitor as PatternVisitor>::PatternId;
    fn add_pattern<F>(&mut self, visitor: F)
    where
        F: FnOnce(&mut Self::PatternVisitor);
    fn add_expr<F>(&mut self, visitor: F) -> Self::Expr
    where
        F: FnOnce(&mut Self::ExprVisitor) -> VisitedExpr<Self::ExprVisitor>;
    fn expr_as_pattern(&mut self, expr: Self::Expr) -> <Self::PatternVisitor as PatternVisitor>::PatternId;
    fn pattern_as_expr(
        &mut self,
        pattern: <Self::PatternVisitor as PatternVisitor>::PatternId,
    ) -> <Self::ExprVisitor as ExprVisitor>::ExprId;
}
