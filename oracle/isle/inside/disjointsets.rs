//! The parent links, which the crate keeps to itself.

use super::*;

/// The parent of a joined item, as it stands.
pub fn parent<T: Copy + Eq + Hash>(sets: &DisjointSets<T>, x: T) -> Option<T> {
    sets.parent.get(&x).map(|&(parent, _)| parent)
}

/// Every joined item, in no order.
pub fn items<T: Copy>(sets: &DisjointSets<T>) -> Vec<T> {
    sets.parent.keys().copied().collect()
}
