// The argument of a call that stays is a list too. A definition in it stays, which is a fault.
macro_rules! one { () => { 1 } }
fn text() -> String {
    format!("{}", { macro_rules! m { () => { one!() } } m!() })
}
