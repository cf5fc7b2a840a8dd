# Writes a text full of calls, of at least `bytes` bytes, always the same. `kind` says of what macros: a
# muncher of trees, repetitions nested three deep, a table of 500 rules, `$crate`, or all in turn.
function put(line) { print line; done += length(line) + 1 }
function pick(n) { seed = (seed * 16807) % 2147483647; return seed % n }
function word() { return "word_" pick(1000) }
function words(n, between,   made) {
    made = word()
    for (n--; n > 0; n--) made = made between word()
    return made
}
# What the macros are.
function define(   n) {
    put("macro_rules! munch {")
    put("    () => {};")
    put("    (let $name:ident = $value:expr; $($rest:tt)*) => { let $name = value_of($value); munch! { $($rest)* } };")
    put("    (return $value:tt $($rest:tt)*) => { done($value); munch! { $($rest)* } };")
    put("    ($first:tt $($rest:tt)*) => { seen($first); munch! { $($rest)* } };")
    put("}")
    put("macro_rules! nested {")
    put("    ($($name:ident { $($field:ident: [$($kind:ident),*]),* $(,)? })*) => {")
    put("        $(struct $name { $($field: Pair<$($kind),*>),* })*")
    put("        $(impl $name { $(fn $field(&self) -> &Pair<$($kind),*> { &self.$field })* })*")
    put("    };")
    put("}")
    put("macro_rules! table {")
    for (n = 0; n < 500; n++) put("    (entry_" n " $value:expr) => { row(" n ", $value) };")
    put("}")
    put("macro_rules! one { ($value:expr) => { $crate::inner::one_of($value) } }")
    put("macro_rules! all { ($($value:expr),* $(,)?) => { [$($crate::one!($value)),*] } }")
}
function munched(   n, made) {
    made = ""
    for (n = 1 + pick(4); n > 0; n--) made = made (pick(2) ? "let " word() " = " word() " + " pick(100) "; " : "return " word() " ")
    return "fn " word() "() { munch! { " made words(pick(4) + 1, " ") " } }"
}
function nested(   n, m, k, made) {
    made = ""
    for (n = 1 + pick(3); n > 0; n--) {
        made = made "Type" pick(1000) " { "
        for (m = 1 + pick(4); m > 0; m--) made = made word() ": [" words(1 + pick(3), ", ") "], "
        made = made "} "
    }
    return "nested! { " made "}"
}
function table() { return "const " word() ": Row = table!(entry_" pick(500) " " word() " * " pick(100) ");" }
function crate() { return "static " word() ": &[Value] = &all![" words(1 + pick(6), ", ") "];" }
BEGIN {
    seed = 1
    define()
    for (turn = 0; done < bytes; turn++) {
        what = kind == "all" ? turn % 4 : kind == "munch" ? 0 : kind == "nested" ? 1 : kind == "table" ? 2 : 3
        put(what == 0 ? munched() : what == 1 ? nested() : what == 2 ? table() : crate())
    }
}
