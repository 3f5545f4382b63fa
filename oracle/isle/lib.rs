//! The four files of cranelift-isle 0.137.1 that are the oracle, with small stand-ins for the types they borrow.
//! `original/` holds the files byte for byte; `inside/` the child modules that reach their private items.

#![allow(dead_code)]

macro_rules! declare_id {
    ($($name:ident),*) => {$(
        #[derive(Clone, Copy, Debug, Default, PartialEq, Eq, PartialOrd, Ord, Hash)]
        pub struct $name(pub usize);
        impl $name {
            pub fn index(self) -> usize {
                self.0
            }
        }
    )*};
}

pub mod error;
pub mod lexer;
pub mod sema;

include!(concat!(env!("OUT_DIR"), "/original.rs"));
