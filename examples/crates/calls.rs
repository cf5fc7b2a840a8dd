fn greet() { say!("a"); }
macro_rules! print { ($($arg:tt)*) => { mine } }
fn own() { say!(); print!(); }
fn made() -> List { list![1, 2] }
macro_rules! name { () => { list } }
name!{} ![1];
one::say!("a");
::two::list![1];
stop!("x");
