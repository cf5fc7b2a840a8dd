macro_rules! p { ($a:ident $b:tt) => { $b $a } }
p!{ x y }
