//! Stand-in for `static_assertions`. Assumes of it: `const_assert_eq` stops the build where the two constants differ.

#[macro_export]
macro_rules! const_assert_eq {
    ($left:expr, $right:expr $(,)?) => {
        const _: () = assert!($left == $right);
    };
}
