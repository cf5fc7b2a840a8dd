macro_rules! m { () => { 1 } }
fn f() { m!() ]
