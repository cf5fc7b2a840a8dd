// Repetitions, optional separators and metavariable expressions.
macro_rules! map {
    ($($key:expr => $value:expr),* $(,)?) => {{
        let mut entries = Map::with_capacity(${count($key)});
        $(entries.insert($key, $value);)*
        entries
    }};
}

let sizes = map! { "one" => 1, "two" => 1 + 1, };

macro_rules! getters {
    ($($field:ident: $ty:ty),*) => { $(fn ${concat(get_, $field)}(&self) -> &$ty { &self.$field })* };
}

getters! { name: Vec<u8>, len: usize }
