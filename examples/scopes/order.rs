// A definition is found from its end on, up to the end of its list.
macro_rules! m { () => { 0 } }
fn numbers() -> [i32; 2] {
    let zero = m!();
    macro_rules! m { () => { 1 } }
    [zero, m!()]
}
fn zero() -> i32 { m!() }
