//! Stand-in: the errors that the four files make.

use crate::lexer::Pos;

#[derive(Debug)]
pub enum Error {
    UnreachableError { msg: String, span: Span },
    OverlapError { msg: String, rules: Vec<Span> },
    RecursionError { msg: String, span: Span },
    ShadowedError { shadowed: Vec<Span>, mask: Span },
}

#[derive(Clone, Copy, Debug)]
pub struct Span {
    pub from: Pos,
}

impl Span {
    pub fn new_single(pos: Pos) -> Span {
        Span { from: pos }
    }
}
