// The semicolon behind an item's call goes with the call, and that of a statement stays.
macro_rules! m { ($i:ident) => { const $i: u8 = 1; } }
mod a { m!(A); fn f() { m!(B); } }
trait U { m!(C); }
impl U for u8 { m!(C); }
m!(D);
#[allow(dead_code)]
m![E];
