//! The one macro of crate `nonzero` that dual_module.rs uses.

#[macro_export]
macro_rules! nonzero {
    ($number:literal) => {
        ::std::num::NonZeroUsize::new($number).unwrap()
    };
}
