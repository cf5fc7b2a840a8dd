// What a module defines is found in it, and in the modules in it.
macro_rules! m { () => { 0 } }
mod inner {
    macro_rules! m { () => { 1 } }
    pub const ONE: i32 = m!();
    pub mod deeper {
        pub const ONE: i32 = m!();
    }
}
const ZERO: i32 = m!();
