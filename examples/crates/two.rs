// Macros of a crate `two`, of edition 2024.
#[macro_export]
macro_rules! list {
    () => { $crate::List::new() };
    ($($item:tt),+) => { $crate::first!($($item),+).and($crate::rest![$($item),+]) };
}
macro_rules! first { ($item:tt $($more:tt)*) => { $crate::List::of($item) }; }
macro_rules! rest {
    ($item:tt) => { $crate::List::new() };
    ($item:tt, $($more:tt),+) => { $crate::list![$($more),+] };
}
