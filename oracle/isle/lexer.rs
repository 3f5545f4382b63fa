//! Stand-in: a rule's position. The driver puts a rule's place into `offset`.

#[derive(Clone, Copy, Debug, Default, PartialEq, Eq, Hash, PartialOrd, Ord)]
pub struct Pos {
    pub file: usize,
    pub offset: usize,
}
