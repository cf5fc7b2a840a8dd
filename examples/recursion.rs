// A macro that consumes its argument token by token, and one that calls another.
macro_rules! reverse {
    ([] $($done:tt)*) => { [$($done)*] };
    ([$first:tt $($rest:tt)*] $($done:tt)*) => { reverse!([$($rest)*] $first $($done)*) };
}

let digits = reverse!([1 2 3]);

macro max($first:expr $(, $rest:expr)*) {
    fold!($first; $($rest),*)
}

macro_rules! fold {
    ($all:expr;) => { $all };
    ($all:expr; $next:expr $(, $rest:expr)*) => { fold!(larger($all, $next); $($rest),*) };
}

let top = max!(a, b + 1, c);
