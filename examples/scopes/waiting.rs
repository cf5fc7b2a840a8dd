// What is not found yet: what a module lets out, and what a call defines at the top level.
#[macro_use]
mod shared { macro_rules! two { () => { 2 } } }
const TWO: i32 = two!();
macro_rules! number { ($name:ident $value:tt) => { macro_rules! $name { () => { $value } } } }
number!{three 3}
const THREE: i32 = three!();
