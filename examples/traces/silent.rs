macro_rules! pairs { ($($a:ident)*; $($b:ident)*) => { $([$a $b])* } }
macro_rules! unbound { ($a:ident) => { $a $b } }
macro_rules! last { ($($a:ident)* $b:ident) => { $b }; ($($t:tt)*) => { none } }

pairs!{ a b c; d e }
unbound!{ x }
last!{ x y }
