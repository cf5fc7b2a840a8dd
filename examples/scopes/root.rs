// A call in a template finds what is around the call of the template. Behind `$crate ::` it asks no list.
#[macro_export]
macro_rules! j { () => { 1 } }
macro_rules! k { () => { [j!(), $crate::j!()] } }
fn numbers() -> [i32; 2] {
    macro_rules! j { () => { 2 } }
    k!()
}
