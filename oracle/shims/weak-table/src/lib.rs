//! The one trait of crate `weak-table` that pointers.rs implements.

pub mod traits {
    pub trait WeakElement {
        type Strong;
        fn new(view: &Self::Strong) -> Self;
        fn view(&self) -> Option<Self::Strong>;
        fn clone(view: &Self::Strong) -> Self::Strong
        where
            Self: Sized;
    }
}
