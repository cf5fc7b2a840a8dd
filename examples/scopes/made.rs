// A call in a block can define a macro for what follows it there.
macro_rules! number { ($name:ident $value:tt) => { macro_rules! $name { () => { $value } } } }
fn numbers() -> [i32; 2] {
    number!{one 1}
    let two = { number!{two 2} two!() };
    [one!(), two]
}
