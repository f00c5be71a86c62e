//! Stands in for the crate `uint`. The kept code declares its two wide types and never
//! reckons with them, so a struct of that many words is all that is needed.

#[macro_export]
macro_rules! construct_uint {
    ($visibility:vis struct $name:ident ($words:expr);) => {
        #[derive(Clone, Copy, Debug, PartialEq, Eq)]
        $visibility struct $name(pub [u64; $words]);
    };
}
