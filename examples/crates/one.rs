// Macros of a crate `one`, of edition 2021. The compiler has `format` and `stop` built in.
#[macro_export]
macro_rules! say {
    () => { $crate::print!("\n") };
    ($($arg:tt)*) => { { $crate::print!($($arg)*); } };
}
#[macro_export]
macro_rules! print {
    ($($arg:tt)*) => { $crate::io::print($crate::format!($($arg)*)) };
}
#[rustc_builtin_macro]
#[macro_export]
macro_rules! format { ($($arg:tt)*) => {}; }
#[rustc_builtin_macro]
#[macro_export]
macro_rules! stop { ($($arg:tt)*) => {}; }
