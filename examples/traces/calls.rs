macro_rules! list {
    ($($x:expr),* $(,)?) => { push!([] $($x)*) };
}

macro_rules! push {
    ([$($done:expr)*] $next:tt $($rest:tt)*) => { push!([$($done)* $next] $($rest)*) };
    ([$($done:expr)*]) => { [$($done),*] };
}

fn numbers() -> [u8; 2] { list![1, 2] }
fn other() { println!("{}", push!(x)); list![] }
